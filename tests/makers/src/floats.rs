//! Patterns of 32-bit floats: at edges, next to another, plain ones.

use crate::random::Random;

/// Positive patterns at edges: zero, subnormals, normals, whole numbers, the largest, infinity, NaNs.
const EDGES: [u32; 20] = [
    0x0000_0000,
    0x0000_0001,
    0x0000_0002,
    0x007f_ffff,
    0x0080_0000,
    0x0080_0001,
    0x3380_0000,
    0x3eff_ffff,
    0x3f00_0000,
    0x3f7f_ffff,
    0x3f80_0000,
    0x3f80_0001,
    0x4000_0000,
    0x4b7f_ffff,
    0x7f00_0000,
    0x7f7f_ffff,
    0x7f80_0000,
    0x7f80_0001,
    0x7fc0_0000,
    0x7fff_ffff,
];
/// What is no finite float.
const NOT_FINITE: [u32; 6] = [
    0x7f80_0000,
    0xff80_0000,
    0x7f80_0001,
    0x7fc0_0000,
    0xffc0_0000,
    0xffff_ffff,
];

/// Any pattern, an edge of either sign, or a plain small number.
pub fn pattern(random: &mut Random) -> u32 {
    let sign = random.half() & 0x8000_0000;
    match random.below(4) {
        0 => random.half(),
        1 => random.pick(&EDGES) | sign,
        2 => (random.below(64) as f32 / 16.0).to_bits() | sign,
        _ => (random.half() & 0x007f_ffff | 0x3f00_0000) ^ sign,
    }
}

/// Such a pattern of a finite float.
pub fn finite(random: &mut Random) -> u32 {
    let pattern = pattern(random);
    if is_finite(pattern) {
        pattern
    } else {
        // an exponent one less than that of infinities and NaNs
        pattern ^ 0x0080_0000
    }
}

/// An infinity or a NaN.
pub fn not_finite(random: &mut Random) -> u32 {
    random.pick(&NOT_FINITE)
}

pub fn is_finite(pattern: u32) -> bool {
    f32::from_bits(pattern).is_finite()
}

/// The pattern itself or one next to it, above or below.
pub fn beside(random: &mut Random, pattern: u32) -> u32 {
    match random.below(3) {
        0 => pattern,
        1 => pattern.wrapping_add(1),
        _ => pattern.wrapping_sub(1),
    }
}
