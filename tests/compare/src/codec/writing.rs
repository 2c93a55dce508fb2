//! The writer: all instructions on all families with every number of lent bytes, and what they read back as.

use super::{unit_of, UNITS};
use crate::outcomes::Group;
use crate::part::{Part, Tally};
use crate::show;
use compare::mirror;
use hwsq::{Decoded, Encoded};
use makers::random::Random;
use second::isa::{Instruction, MmioAddress};

const SALT: u64 = 2;
/// Most bytes lent; the longest instruction has 5.
const MOST_LENT: usize = 6;
/// What the lent bytes hold before, with one byte that is never lent.
const LENT: [u8; MOST_LENT + 1] = [0xee, 0x11, 0xdd, 0x22, 0xcc, 0x33, 0xbb];
/// Random words tried for each of addr and data in a unit.
const RANDOM_WORDS: usize = 16;

/// Compares the writers.
pub struct Writing {
    pub seed: u64,
    /// One unit in so many.
    pub stride: u64,
}

/// An instruction to write on a family into so many lent bytes.
#[derive(Clone, Copy)]
pub struct Case {
    family: u8,
    instruction: Instruction,
    lent: usize,
}

/// The answer, all bytes after it, and what a written instruction reads back as.
#[derive(Debug, PartialEq)]
struct Answer {
    encoded: Encoded,
    bytes: [u8; MOST_LENT + 1],
    back: Option<Decoded>,
}

/// Kind and operands; those that the instruction lacks must not be looked at, so they aren't 0.
fn with_junk(instruction: Instruction) -> (u8, u32, u8) {
    let (kind, first, second) = mirror::instruction(instruction);
    match instruction {
        Instruction::Wait { .. } | Instruction::Ewait { .. } => (kind, first, second),
        Instruction::Exit => (kind, 0xa5a5_a5a5, 0xa5),
        _ => (kind, first, 0xa5),
    }
}

fn proved(case: &Case) -> Answer {
    let (kind, first, second) = with_junk(case.instruction);
    let mut bytes = LENT;
    let encoded = hwsq::encode(case.family, kind, first, second, &mut bytes[..case.lent]);
    let written = encoded.refusal == 0;
    Answer {
        encoded,
        bytes,
        back: written.then(|| hwsq::decode(case.family, &bytes)),
    }
}

fn second(case: &Case) -> Answer {
    let mut bytes = LENT;
    let answer = second::isa::encode(case.family, case.instruction, &mut bytes[..case.lent]);
    let written = answer.is_ok();
    Answer {
        encoded: mirror::encoded(answer),
        bytes,
        back: written.then(|| mirror::decoded(second::isa::decode(case.family, &bytes))),
    }
}

/// Whether a written instruction came back as itself, which both programs could miss alike.
fn comes_back(case: &Case, answer: &Answer) -> bool {
    answer.back.is_none_or(|back| {
        (back.kind, back.first, back.second) == mirror::instruction(case.instruction)
            && back.length == answer.encoded.length
    })
}

fn differs(case: &Case) -> bool {
    let proved = proved(case);
    proved != second(case) || !comes_back(case, &proved)
}

/// Compares an instruction with every number of lent bytes.
fn compare(family: u8, instruction: Instruction, tally: &mut Tally) -> Option<Case> {
    (0..=MOST_LENT).find_map(|lent| {
        let case = Case {
            family,
            instruction,
            lent,
        };
        tally.cases += 1;
        let answer = proved(&case);
        tally.count(Group::Writer, answer.encoded.refusal);
        (answer != second(&case) || !comes_back(&case, &answer)).then_some(case)
    })
}

/// The instructions whose operands are two bytes, limits ignored.
fn of_two_bytes(one: u8, other: u8) -> [Instruction; 4] {
    let low = u16::from_le_bytes([one, other]);
    [
        Instruction::Wait {
            length: other,
            shift: one,
        },
        Instruction::AddrLo(low),
        Instruction::DataLo(low),
        Instruction::Ewait {
            event: one,
            value: other,
        },
    ]
}

/// Exit, the flags of this number, and some of the instructions with a word.
fn others(byte: u8, random: &mut Random) -> Vec<Instruction> {
    let mut list = vec![
        Instruction::Exit,
        Instruction::Unset(byte),
        Instruction::Set1(byte),
        Instruction::Set0(byte),
    ];
    for _ in 0..RANDOM_WORDS {
        let word = random.edgy();
        list.extend([
            Instruction::Addr(MmioAddress(word)),
            Instruction::Data(word),
        ]);
    }
    list
}

impl Part for Writing {
    type Case = Case;

    fn name(&self) -> &'static str {
        "codec writer"
    }

    fn groups(&self) -> &'static [Group] {
        &[Group::Writer]
    }

    fn units(&self) -> u64 {
        UNITS / self.stride
    }

    fn compare(&self, unit: u64, tally: &mut Tally) -> Option<Case> {
        let (family, byte) = unit_of(unit * self.stride);
        let mut random = Random::of_case(self.seed, SALT, unit);
        let mut two_bytes = (0..=255).flat_map(|other| of_two_bytes(byte, other));
        let found = two_bytes.find_map(|instruction| compare(family, instruction, tally));
        found.or_else(|| {
            others(byte, &mut random)
                .into_iter()
                .find_map(|instruction| compare(family, instruction, tally))
        })
    }

    /// Fewer lent bytes; the operands are small already, as they are counted upward.
    fn shrunk(&self, case: Case) -> Case {
        let fewer = (0..case.lent).map(|lent| Case { lent, ..case });
        fewer.into_iter().find(differs).unwrap_or(case)
    }

    fn input(&self, case: &Case) -> String {
        let instruction = second::show::instruction(case.instruction);
        format!("encode {} room {} {instruction}", case.family, case.lent)
    }

    fn answers(&self, case: &Case) -> String {
        let [proved, second] = [proved(case), second(case)].map(|answer| {
            let (encoded, back) = (answer.encoded, answer.back);
            format!(
                "{encoded:?} bytes {} back {back:x?}",
                show::bytes(&answer.bytes)
            )
        });
        format!("  proved {proved}\n  second {second}")
    }
}
