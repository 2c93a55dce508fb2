//! Random numbers that a seed and a case's number fix, so that any case can be made again.

/// The generator splitmix64.
pub struct Random(u64);

/// Words next to which faults of one more or one less show.
const EDGES: [u32; 12] = [
    0,
    1,
    0x7fff,
    0x8000,
    0xffff,
    0x1_0000,
    0x10_0000,
    0x7fff_ffff,
    0x8000_0000,
    0xffff_0000,
    0xffff_fffe,
    0xffff_ffff,
];

impl Random {
    /// The numbers of one case; parts differ in their salt, so that they don't repeat each other.
    pub fn of_case(seed: u64, salt: u64, number: u64) -> Random {
        let mut mixed = Random(seed);
        for part in [salt, number] {
            mixed = Random(mixed.word() ^ part);
        }
        Random(mixed.word())
    }

    /// 64 random bits.
    pub fn word(&mut self) -> u64 {
        self.0 = self.0.wrapping_add(0x9e37_79b9_7f4a_7c15);
        let mut z = self.0;
        z = (z ^ (z >> 30)).wrapping_mul(0xbf58_476d_1ce4_e5b9);
        z = (z ^ (z >> 27)).wrapping_mul(0x94d0_49bb_1331_11eb);
        z ^ (z >> 31)
    }

    /// 32 random bits.
    pub fn half(&mut self) -> u32 {
        (self.word() >> 32) as u32
    }

    /// A random byte.
    pub fn byte(&mut self) -> u8 {
        (self.word() >> 56) as u8
    }

    /// A number below `end`; 0 if there is none.
    pub fn below(&mut self, end: usize) -> usize {
        if end == 0 {
            return 0;
        }
        (self.word() % end as u64) as usize
    }

    /// One of the numbers from the least to the most.
    pub fn between(&mut self, least: usize, most: usize) -> usize {
        least + self.below(most - least + 1)
    }

    /// True so many times in a hundred.
    pub fn chance(&mut self, percent: usize) -> bool {
        self.below(100) < percent
    }

    /// One of the items.
    pub fn pick<T: Copy>(&mut self, items: &[T]) -> T {
        items[self.below(items.len())]
    }

    /// An edge, a word near one, or any word.
    pub fn edgy(&mut self) -> u32 {
        match self.below(4) {
            0 => self.pick(&EDGES),
            1 => self.pick(&EDGES).wrapping_add(self.half() & 7),
            2 => self.half() & 0x001f_ffff,
            _ => self.half(),
        }
    }

    /// So many random bytes.
    pub fn bytes(&mut self, count: usize) -> Vec<u8> {
        (0..count).map(|_| self.byte()).collect()
    }

    /// Brings the items into any order.
    pub fn shuffle<T>(&mut self, items: &mut [T]) {
        for i in (1..items.len()).rev() {
            items.swap(i, self.below(i + 1));
        }
    }
}
