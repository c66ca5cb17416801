//! Which sets of inputs may be balanced, and the registers of a set, written a second time: by the list of its inputs, where the port has masks.

/// The inputs of a set, from 1.
fn inputs(set: u16) -> Vec<usize> {
    (1..=16).filter(|input| set >> (input - 1) & 1 == 1).collect()
}

/// The bytes of a set for a device of X inputs, from register 01 on: 22, 23, 24.
pub fn registers(x: usize, set: u16, limit: u8) -> Result<Vec<u8>, u8> {
    let inputs = inputs(set);
    if inputs.iter().any(|input| *input > x) {
        return Err(22);
    }
    if inputs.windows(2).any(|pair| pair[0] + 1 == pair[1] && pair[0] % 5 != 0) {
        return Err(23);
    }
    if inputs.len() > limit as usize {
        return Err(24);
    }
    let mut bytes = vec![0; x / 5];
    for input in inputs {
        bytes[(input - 1) / 5] += 1 << ((input - 1) % 5);
    }
    Ok(bytes)
}

/// The set that these bytes show.
pub fn set(bytes: &[u8]) -> u16 {
    bytes.iter().rev().fold(0, |above, byte| above * 32 + (byte % 32) as u16)
}
