//! Packed bytes, the nibbles sent for them, and their sum.

/// The index of the first data byte above 15.
#[must_use]
pub fn first_wide(data: &[u8]) -> Option<usize> {
    // The usual data has none, and an or over the whole has no branches.
    if data.iter().fold(0, |all, &nibble| all | nibble) <= 15 {
        return None;
    }
    data.iter().position(|&nibble| nibble > 15)
}

/// Packs pairs of nibbles, the lower first, until data or room ends.
pub fn pack(data: &[u8], packed: &mut [u8]) {
    let (pairs, _) = data.as_chunks::<2>();
    for (byte, &pair) in packed.iter_mut().zip(pairs) {
        // One word for the pair brings the upper nibble down to the lower, and vectorises.
        let word = u16::from_le_bytes(pair);
        *byte = (word | word >> 4) as u8;
    }
}

/// Sends each byte as its remainder by 16, then its quotient by 16, until bytes or room end.
pub fn unpack(packed: &[u8], data: &mut [u8]) {
    let (pairs, _) = data.as_chunks_mut::<2>();
    for (pair, byte) in pairs.iter_mut().zip(packed) {
        *pair = [byte & 0x0F, byte >> 4];
    }
}

/// The sum of the packed bytes, modulo 128.
#[must_use]
pub fn sum(packed: &[u8]) -> u8 {
    packed
        .iter()
        .fold(0, |sum: u8, &byte| sum.wrapping_add(byte))
        & 0x7F
}
