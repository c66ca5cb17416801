//! The least job that still shows something, by leaving out fields and lowering bytes.
use crate::parts::parts;

pub fn least(bytes: &[u8], shows: &dyn Fn(&[u8]) -> bool) -> Vec<u8> {
    let mut bytes = bytes.to_vec();
    while let Some(smaller) = without_fields(&bytes, shows).or_else(|| with_less(&bytes, shows)) {
        bytes = smaller;
    }
    bytes
}

/// A run of fields left out, the longest first; or a call and a run of the fields that answer it.
fn without_fields(bytes: &[u8], shows: &dyn Fn(&[u8]) -> bool) -> Option<Vec<u8>> {
    let parts = parts(bytes);
    for length in (1..=parts.len()).rev() {
        for from in 0..=parts.len() - length {
            let kept = [&parts[..from], &parts[from + length..]].concat().concat();
            if shows(&kept) {
                return Some(kept);
            }
        }
    }
    for call in 0..parts.len() {
        for length in 1..=9.min(parts.len() - call - 1) {
            for from in call + 1..=parts.len() - length {
                let kept = [&parts[..call], &parts[call + 1..from], &parts[from + length..]].concat().concat();
                if shows(&kept) {
                    return Some(kept);
                }
            }
        }
    }
    None
}

/// A byte made 0, halved or one less.
fn with_less(bytes: &[u8], shows: &dyn Fn(&[u8]) -> bool) -> Option<Vec<u8>> {
    for place in 0..bytes.len() {
        for less in [0, bytes[place] / 2, bytes[place].saturating_sub(1)] {
            let mut lower = bytes.to_vec();
            lower[place] = less;
            if less < bytes[place] && shows(&lower) {
                return Some(lower);
            }
        }
    }
    None
}
