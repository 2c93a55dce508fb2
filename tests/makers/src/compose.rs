//! Random scripts: mostly sound ones that poke inside the ranges, then some spoiled by one fault.

use crate::random::Random;
use crate::ranges::{self, Range};
use crate::script::{has_pokes, size_of, Script};

const EXIT: u8 = 0x7f;
/// Unknown opcodes next to known ones; on family 1 the known long ones are unknown too.
const UNKNOWN: [u8; 10] = [0x41, 0x43, 0x5e, 0x60, 0x7e, 0xe1, 0xe3, 0xfe, 0xff, 0x50];
const LONG: [u8; 5] = [0x40, 0x42, 0x5f, 0xe0, 0xe2];

/// What a script is made of.
#[derive(Clone, Copy, PartialEq, Eq)]
enum Blend {
    Even,
    /// Nothing but pokes, in the first range.
    Dense,
    /// Waits, and pokes among them.
    Waiting,
}

/// A script under construction, with what an auditor would know of it.
struct Composer<'a> {
    random: &'a mut Random,
    family: u8,
    ranges: &'a [Range],
    addr: Option<u32>,
    data: bool,
    paused: bool,
    blend: Blend,
    pieces: Vec<Vec<u8>>,
}

/// A script for a family: sound two times in three, as far as the ranges let it be.
pub fn script(random: &mut Random, family: u8, ranges: &[Range]) -> Script {
    let dense = has_pokes(family) && random.chance(2);
    let blend = if dense { Blend::Dense } else { Blend::Even };
    composed(random, family, ranges, blend)
}

/// Such a script with many waits between its pokes.
pub fn waiting_script(random: &mut Random, family: u8, ranges: &[Range]) -> Script {
    composed(random, family, ranges, Blend::Waiting)
}

/// So many bytes of nothing but pokes in the first range, as many as there is room for, and exits behind them.
pub fn pokes(random: &mut Random, ranges: &[Range], size: usize) -> Vec<u8> {
    let mut composer = Composer::new(random, 4, ranges, Blend::Dense);
    for _ in 0..size / 3 {
        composer.instruction();
    }
    let mut code = composer.pieces.concat();
    code.truncate(size - 1);
    code.resize(size, EXIT);
    code
}

fn composed(random: &mut Random, family: u8, ranges: &[Range], blend: Blend) -> Script {
    let count = if blend == Blend::Dense {
        random.below(size_of(family) / 3)
    } else {
        length(random, family)
    };
    let mut composer = Composer::new(random, family, ranges, blend);
    for _ in 0..count {
        composer.instruction();
    }
    composer.finish();
    let mut pieces = composer.pieces;
    if random.chance(33) {
        spoil(random, family, ranges, &mut pieces);
    }
    let length = pieces.iter().map(Vec::len).sum();
    let at = place(random, family, length);
    Script { at, pieces }
}

/// How many instructions: few as a rule, at times as many as fit.
fn length(random: &mut Random, family: u8) -> usize {
    match random.below(20) {
        0 => 0,
        1 => random.below(size_of(family)),
        2 => random.below(size_of(family) / 3),
        3..=6 => random.below(30),
        _ => random.below(9),
    }
}

/// Where it stands: at 0, anywhere, or so that it ends with the code RAM or just past it.
fn place(random: &mut Random, family: u8, length: usize) -> usize {
    let size = size_of(family);
    let highest = if family == 4 { 511 } else { 255 };
    let at = match random.below(10) {
        0..=3 => 0,
        4 | 5 => size.saturating_sub(length),
        6 => (size + 1 + random.below(5)).saturating_sub(length),
        7 => random.below(highest + 1),
        _ => random.below(size.saturating_sub(length) + 1),
    };
    at.min(highest)
}

impl<'a> Composer<'a> {
    fn new(random: &'a mut Random, family: u8, ranges: &'a [Range], blend: Blend) -> Composer<'a> {
        let most = if blend == Blend::Dense {
            1
        } else {
            ranges.len()
        };
        Composer {
            random,
            family,
            ranges: &ranges[..ranges.len().min(most)],
            addr: None,
            data: false,
            paused: false,
            blend,
            pieces: Vec::new(),
        }
    }

    /// Adds one instruction that this family has.
    fn instruction(&mut self) {
        match self.blend {
            Blend::Even => self.any(),
            Blend::Dense => self.poke(),
            Blend::Waiting => self.waiting(),
        }
    }

    fn any(&mut self) {
        if !has_pokes(self.family) {
            return self.short();
        }
        match self.random.below(10) {
            0..=3 => self.short(),
            4 => self.ewait(),
            5 => self.data(),
            6 => self.datalo(),
            _ => self.poke(),
        }
    }

    /// A wait every other time, and pokes among them.
    fn waiting(&mut self) {
        match self.random.below(10) {
            0 | 1 => self.wait(),
            2..=4 if has_pokes(self.family) => self.ewait(),
            5..=7 if has_pokes(self.family) => self.poke(),
            _ => self.any(),
        }
    }

    /// A wait, or a flag opcode, often of the flag that pauses memory.
    fn short(&mut self) {
        if self.random.chance(50) {
            return self.wait();
        }
        let flag = match self.random.below(4) {
            0 => 16,
            _ => self.random.byte() & 31,
        };
        let opcode = self.random.pick(&[0x80, 0xa0, 0xc0]);
        if flag == 16 {
            self.paused = opcode == 0xa0;
        }
        self.pieces.push(vec![opcode | flag]);
    }

    fn wait(&mut self) {
        let wait = self.random.byte() & 0x3f;
        // Long waits end most logs at once, so that short ones are more frequent.
        let wait = if self.random.chance(70) {
            wait & 7
        } else {
            wait
        };
        self.pieces.push(vec![wait]);
    }

    /// An ewait that some row can release, for one of a few events as a rule.
    fn ewait(&mut self) {
        let events = if self.random.chance(80) { 4 } else { 32 };
        let event = self.random.below(events) as u8;
        let value = self.random.byte() & 1;
        self.pieces.push(vec![0x5f, event, value]);
    }

    fn data(&mut self) {
        let word = self.random.edgy();
        self.data = true;
        self.pieces.push(with_word(0xe2, word));
    }

    fn datalo(&mut self) {
        let [low, high, ..] = self.random.edgy().to_le_bytes();
        self.pieces.push(vec![0x42, low, high]);
    }

    /// A poke in a range; one needs DATA set, and a range.
    fn poke(&mut self) {
        if !self.data {
            return self.data();
        }
        let Some(address) = ranges::address(self.random, self.ranges) else {
            return self.short();
        };
        let same_high = self.addr.is_some_and(|addr| addr >> 16 == address >> 16);
        self.addr = Some(address);
        let [low, high, ..] = address.to_le_bytes();
        let dense = self.blend == Blend::Dense;
        self.pieces
            .push(if same_high && (dense || self.random.chance(80)) {
                vec![0x40, low, high]
            } else {
                with_word(0xe0, address)
            });
    }

    /// Lets memory go and exits.
    fn finish(&mut self) {
        if self.paused {
            let let_go = self.random.pick(&[0x90, 0xd0]);
            self.pieces.push(vec![let_go]);
        }
        self.pieces.push(vec![EXIT]);
    }
}

fn with_word(opcode: u8, word: u32) -> Vec<u8> {
    let mut bytes = vec![opcode];
    bytes.extend(word.to_le_bytes());
    bytes
}

/// Puts one fault in, or what is none on some families.
fn spoil(random: &mut Random, family: u8, ranges: &[Range], pieces: &mut Vec<Vec<u8>>) {
    let anywhere = random.below(pieces.len());
    let [low, high, ..] = random.edgy().to_le_bytes();
    match random.below(12) {
        0 | 1 => pieces.insert(anywhere, vec![unknown(random, family)]),
        2 => pieces.insert(anywhere, never_released(random)),
        3 => pieces.insert(0, vec![0x40, low, high]),
        4 => pieces.insert(0, with_word(0xe0, random.edgy())),
        // DATA with its low half alone set
        5 => pieces
            .splice(0..0, [vec![0x42, low, high], poke_at(random, ranges)])
            .for_each(drop),
        6 => {
            let stray = with_word(0xe0, ranges::outside(random, ranges));
            pieces
                .splice(anywhere..anywhere, [with_word(0xe2, 7), stray])
                .for_each(drop);
        }
        7 => pieces.insert(pieces.len() - 1, vec![0xb0]),
        8 => pieces.truncate(anywhere),
        9 => pieces.insert(anywhere, vec![random.pick(&LONG), EXIT, low]),
        10 => {
            let junk = random.below(8);
            pieces.insert(anywhere, random.bytes(junk));
        }
        _ => pieces.push(with_word(random.pick(&LONG), random.half())),
    }
}

fn unknown(random: &mut Random, family: u8) -> u8 {
    if !has_pokes(family) && random.chance(50) {
        return random.pick(&LONG);
    }
    random.pick(&UNKNOWN)
}

fn never_released(random: &mut Random) -> Vec<u8> {
    let event = random.pick(&[0, 31, 32, 33, 63, 64, 128, 255]);
    let value = random.pick(&[0, 1, 2, 3, 128, 255]);
    vec![0x5f, event, value]
}

fn poke_at(random: &mut Random, ranges: &[Range]) -> Vec<u8> {
    let address = ranges::address(random, ranges).unwrap_or(0);
    with_word(0xe0, address)
}
