//! Little-endian numbers in a record's body.

/// The word that begins at a place.
pub fn word(body: &[u8], at: usize) -> u32 {
    u32::from_le_bytes([body[at], body[at + 1], body[at + 2], body[at + 3]])
}

/// The float that begins at a place.
pub fn float(body: &[u8], at: usize) -> f32 {
    f32::from_bits(word(body, at))
}
