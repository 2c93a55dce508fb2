//! How a script gets into code RAM: by words, which the host writes.

use crate::random::Random;
use crate::registers::{CODE, NEW_CODE};
use crate::script::{size_of, Script};

/// What is uploaded around a script, and what is left out.
#[derive(Clone, Debug, PartialEq)]
pub struct Upload {
    /// Every other byte of the words.
    pub filler: u8,
    /// All of code RAM, or just the words with the script in them.
    pub whole: bool,
    /// Places whose words are left out.
    pub holes: Vec<usize>,
    /// NEW_CODE also for the words that CODE reaches, on family 4.
    pub new_window: bool,
}

/// The bytes of code RAM with a script in it; what has no room is left out.
pub fn image(script: &Script, size: usize, filler: u8) -> Vec<u8> {
    let mut code = vec![filler; size];
    let room = size.saturating_sub(script.at);
    for (at, byte) in script.bytes().into_iter().take(room).enumerate() {
        code[script.at + at] = byte;
    }
    code
}

/// The word that the first four bytes are.
pub fn word(bytes: &[u8]) -> u32 {
    u32::from_le_bytes([bytes[0], bytes[1], bytes[2], bytes[3]])
}

impl Upload {
    pub fn random(random: &mut Random, script: &Script) -> Upload {
        let length = script.bytes().len();
        let holes = if random.chance(8) {
            vec![script.at + random.below(length)]
        } else {
            vec![]
        };
        Upload {
            filler: random.pick(&[0x00, 0x7f, 0x7f, 0xff, 0x41]),
            whole: random.chance(25),
            holes,
            new_window: random.chance(50),
        }
    }

    /// The host writes, address and word of each.
    pub fn writes(&self, family: u8, script: &Script) -> Vec<(u32, u32)> {
        let size = size_of(family);
        let code = image(script, size, self.filler);
        let end = script.at + script.bytes().len();
        let mut writes = Vec::new();
        for (number, bytes) in code.chunks_exact(4).enumerate() {
            let place = 4 * number;
            let needed = self.whole || (place < end && script.at < place + 4);
            let hole = self.holes.iter().any(|&hole| hole / 4 == number);
            if needed && !hole {
                writes.push((self.window(family, place) + place as u32, word(bytes)));
            }
        }
        writes
    }

    fn window(&self, family: u8, place: usize) -> u32 {
        if family == 4 && (self.new_window || place >= 0x100) {
            NEW_CODE
        } else {
            CODE
        }
    }
}
