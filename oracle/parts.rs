//! What a job's bytes are made of.
use crate::bus::field;

/// The job's fields, head and tape alike; what is no field is one part.
pub fn parts(bytes: &[u8]) -> Vec<&[u8]> {
    let mut parts = Vec::new();
    let mut left = bytes;
    while !left.is_empty() {
        let length = field(left).map_or(left.len(), |(_, value)| 3 + value.len());
        parts.push(&left[..length]);
        left = &left[length..];
    }
    parts
}
