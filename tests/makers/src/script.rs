//! Scripts as lists of instructions, and where they stand in code RAM.

/// Bytes of code RAM of families 0 to 4, of which 0 is none.
const SIZES: [usize; 5] = [0, 64, 128, 256, 512];

/// Bytes of code RAM; a number that names no family gets the largest.
pub fn size_of(family: u8) -> usize {
    match SIZES.get(usize::from(family)) {
        Some(&size) if size > 0 => size,
        _ => 512,
    }
}

/// Whether a family has pokes and ewait.
pub fn has_pokes(family: u8) -> bool {
    family != 1
}

/// The bytes of each instruction, so that a shrinker can leave one out, and the place of the first.
#[derive(Clone, Debug, PartialEq)]
pub struct Script {
    pub at: usize,
    pub pieces: Vec<Vec<u8>>,
}

impl Script {
    pub fn bytes(&self) -> Vec<u8> {
        self.pieces.concat()
    }

    /// Clocks of its waits, so that a log can end just where one does.
    pub fn waits(&self) -> Vec<u64> {
        let firsts = self.pieces.iter().filter_map(|piece| piece.first());
        let waits = firsts.filter(|&&first| first < 0x40);
        waits
            .map(|&first| (u64::from(first & 3) << (2 * (first >> 2))) * 32)
            .collect()
    }
}
