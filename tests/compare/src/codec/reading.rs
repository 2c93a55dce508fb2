//! The reader: all first bytes on all families, cut to every length, and all operands of two bytes.

use super::{unit_of, UNITS};
use crate::outcomes::Group;
use crate::part::{Part, Tally};
use crate::show;
use crate::shrink::Shrinker;
use compare::mirror;
use makers::random::Random;

const SALT: u64 = 1;
/// Lengths 0 to 6; the longest instruction has 5 bytes.
const LONGEST: usize = 6;
/// Fillings of the bytes after the first: fixed ones, then random ones.
const FILLINGS: [u8; 6] = [0x00, 0xff, 0x7f, 0xaa, 0x01, 0x80];
const RANDOM_FILLINGS: usize = 26;

/// Compares the readers.
pub struct Reading {
    pub seed: u64,
}

/// Bytes to read on a family.
#[derive(Clone)]
pub struct Case {
    family: u8,
    bytes: Vec<u8>,
}

fn differs(family: u8, bytes: &[u8]) -> bool {
    hwsq::decode(family, bytes) != mirror::decoded(second::isa::decode(family, bytes))
}

/// Compares one case and counts what came out.
fn compare(family: u8, bytes: &[u8], tally: &mut Tally) -> Option<Case> {
    tally.cases += 1;
    let proved = hwsq::decode(family, bytes);
    tally.count(Group::Reader, proved.refusal);
    if proved.refusal == 0 {
        tally.count(Group::ReaderKind, proved.kind);
    }
    let same = proved == mirror::decoded(second::isa::decode(family, bytes));
    (!same).then(|| Case {
        family,
        bytes: bytes.to_vec(),
    })
}

/// Every length of the byte with one filling after it.
fn lengths(family: u8, bytes: &[u8; LONGEST], tally: &mut Tally) -> Option<Case> {
    (0..=LONGEST).find_map(|length| compare(family, &bytes[..length], tally))
}

/// The first byte with each filling.
fn fillings(family: u8, first: u8, random: &mut Random, tally: &mut Tally) -> Option<Case> {
    for filling in FILLINGS {
        let mut bytes = [filling; LONGEST];
        bytes[0] = first;
        if let Some(case) = lengths(family, &bytes, tally) {
            return Some(case);
        }
    }
    (0..RANDOM_FILLINGS).find_map(|_| {
        let mut bytes = [0; LONGEST];
        bytes.fill_with(|| random.byte());
        bytes[0] = first;
        lengths(family, &bytes, tally)
    })
}

/// The instructions of three bytes with this operand byte and each second one.
fn operands(family: u8, operand: u8, tally: &mut Tally) -> Option<Case> {
    (0..=255).find_map(|other| {
        [0x40, 0x42, 0x5f]
            .into_iter()
            .find_map(|first| compare(family, &[first, operand, other], tally))
    })
}

impl Part for Reading {
    type Case = Case;

    fn name(&self) -> &'static str {
        "codec reader"
    }

    fn groups(&self) -> &'static [Group] {
        &[Group::Reader, Group::ReaderKind]
    }

    fn units(&self) -> u64 {
        UNITS
    }

    fn compare(&self, unit: u64, tally: &mut Tally) -> Option<Case> {
        let (family, byte) = unit_of(unit);
        let mut random = Random::of_case(self.seed, SALT, unit);
        fillings(family, byte, &mut random, tally).or_else(|| operands(family, byte, tally))
    }

    fn shrunk(&self, mut case: Case) -> Case {
        let still = |case: &Case| differs(case.family, &case.bytes);
        let shrinker = Shrinker::start();
        shrinker.drop_items(&mut case, |case| &mut case.bytes, still);
        shrinker.simplify(&mut case, |case| &mut case.bytes, |_| vec![0], still);
        case
    }

    fn input(&self, case: &Case) -> String {
        format!("decode {} {}", case.family, show::bytes(&case.bytes))
    }

    fn answers(&self, case: &Case) -> String {
        let proved = hwsq::decode(case.family, &case.bytes);
        let second = mirror::decoded(second::isa::decode(case.family, &case.bytes));
        format!("  proved {proved:x?}\n  second {second:x?}")
    }
}
