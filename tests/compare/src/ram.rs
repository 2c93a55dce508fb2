//! Code RAM handed in as two slices, fit or not: the input of auditor and replay.

use crate::show;
use crate::shrink::{zeroed, Shrinker};
use makers::compose;
use makers::random::Random;
use makers::ranges::Range;
use makers::script::{size_of, Script};
use makers::upload::image;

/// How code and marks are made from a script, so that a shrinker can drop its instructions.
#[derive(Clone, Debug, PartialEq)]
pub struct Ram {
    pub family: u8,
    pub script: Script,
    pub entry: u32,
    /// Every byte of code that isn't the script's.
    pub filler: u8,
    /// Every byte marked, or the script's alone.
    pub all_marked: bool,
    /// Marks put by hand: a place, and what stands there.
    pub marks: Vec<(usize, u8)>,
    pub code_size: usize,
    pub marks_size: usize,
}

/// Sizes of families' code RAM, and one more or one less.
const SIZES: [usize; 12] = [0, 1, 63, 64, 65, 127, 128, 129, 255, 256, 512, 513];
/// Entries at the limits of the RAM, of the registers and of the type.
const ENTRIES: [u32; 13] = [
    0,
    63,
    64,
    127,
    128,
    255,
    256,
    511,
    512,
    513,
    0xffff,
    0x1_0000,
    u32::MAX,
];

impl Ram {
    /// A fit one three times in four.
    pub fn random(random: &mut Random, ranges: &[Range]) -> Ram {
        let family = 1 + random.below(4) as u8;
        let script = compose::script(random, family, ranges);
        let mut ram = Ram::fit(random, family, script);
        if random.chance(25) {
            ram.spoil(random);
        }
        ram
    }

    /// A fit one with a script in it, of which at times a byte was never uploaded.
    pub fn fit(random: &mut Random, family: u8, script: Script) -> Ram {
        let mut ram = Ram {
            family,
            entry: script.at as u32,
            script,
            filler: random.pick(&[0x00, 0x7f, 0xff, 0x41]),
            all_marked: random.chance(60),
            marks: vec![],
            code_size: size_of(family),
            marks_size: size_of(family),
        };
        if random.chance(10) {
            let hole = ram.script.at + random.below(ram.script.bytes().len());
            ram.marks.push((hole, 0));
        }
        ram
    }

    /// Makes it unfit as a rule.
    fn spoil(&mut self, random: &mut Random) {
        match random.below(6) {
            0 => self.family = random.pick(&[0, 5, 6, 128, 255]),
            1 => self.code_size = random.pick(&SIZES),
            2 => self.marks_size = random.pick(&SIZES),
            3 => {
                self.code_size = random.pick(&SIZES);
                self.marks_size = self.code_size;
            }
            4 => {
                let at = random.pick(&[0, self.marks_size / 2, self.marks_size - 1]);
                self.marks.push((at, random.pick(&[1, 2, 3, 128, 255])));
            }
            _ => self.entry = random.pick(&ENTRIES),
        }
    }

    /// Code and marks.
    pub fn slices(&self) -> (Vec<u8>, Vec<u8>) {
        let code = image(&self.script, self.code_size, self.filler);
        let mut marks = vec![u8::from(self.all_marked); self.marks_size];
        let script = self.script.at..self.script.at + self.script.bytes().len();
        for (at, mark) in marks.iter_mut().enumerate() {
            if script.contains(&at) {
                *mark = 1;
            }
        }
        for &(at, mark) in &self.marks {
            if let Some(place) = marks.get_mut(at) {
                *place = mark;
            }
        }
        (code, marks)
    }

    /// The slices as the proved calls take them.
    pub fn lent<'a>(&self, code: &'a [u8], marks: &'a [u8]) -> hwsq::Script<'a> {
        hwsq::Script {
            family: self.family,
            code,
            marks,
            entry: self.entry as usize,
        }
    }

    /// Makes a case smaller that holds one of these.
    pub fn shrink<C: Clone>(
        shrinker: &Shrinker,
        case: &mut C,
        ram: impl Fn(&mut C) -> &mut Ram + Copy,
        differs: impl Fn(&C) -> bool + Copy,
    ) {
        let mut lowered = case.clone();
        (ram(&mut lowered).entry, ram(&mut lowered).script.at) = (0, 0);
        if differs(&lowered) {
            *case = lowered;
        }
        shrinker.drop_items(case, |case| &mut ram(case).script.pieces, differs);
        shrinker.drop_items(case, |case| &mut ram(case).marks, differs);
        shrinker.settle(case, |case| &mut ram(case).all_marked, &[true], differs);
        shrinker.settle(case, |case| &mut ram(case).filler, &[0x00], differs);
        shrinker.simplify(
            case,
            |case| &mut ram(case).script.pieces,
            |piece| zeroed(piece),
            differs,
        );
    }

    /// Family and entry, and how to make both slices.
    pub fn told(&self) -> String {
        let script = show::bytes(&self.script.bytes());
        let mut text = format!(
            "{} entry {} at {} {script} (code: {} bytes, else {:02x}; marks: {}, ",
            self.family, self.entry, self.script.at, self.code_size, self.filler, self.marks_size
        );
        text += if self.all_marked {
            "each 1"
        } else {
            "the script's 1"
        };
        for (at, mark) in &self.marks {
            text += &format!(", at {at} {mark}");
        }
        text + ")"
    }
}
