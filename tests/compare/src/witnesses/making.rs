//! Random cases: scripts of the auditor's kind, often with ewaits first, and columns that mostly suffice.

use super::case::Case;
use super::start::Start;
use crate::audited::Audited;
use crate::ram::Ram;
use hwsq::SHOWN_ROWS;
use makers::random::Random;
use makers::script::{has_pokes, size_of};

const EWAIT: u8 = 0x5f;

/// A case with two starts.
pub fn case(random: &mut Random) -> Case {
    let mut audited = Audited::random(random);
    let family = audited.ram.family;
    match random.below(16) {
        _ if !has_pokes(family) => {}
        0 => fill_with_ewaits(random, &mut audited.ram),
        // Faults 4 and 5 mostly stand first, where the log would be one row.
        1..=8 => wait_first(random, &mut audited.ram),
        _ => {}
    }
    Case {
        audited,
        lent: lent(random),
        starts: (0..2).map(|_| Start::random(random, family)).collect(),
    }
}

/// Nothing but ewaits of which each needs a row of its own, about as many as code RAM holds.
fn fill_with_ewaits(random: &mut Random, ram: &mut Ram) {
    let most = size_of(ram.family) / 3;
    let count = random.pick(&[most / 2, most - 1, most, most + 1]);
    let event = random.byte() & 31;
    let ewait = |turn: usize| vec![EWAIT, event, (turn % 2) as u8];
    ram.script.pieces = (0..count).map(ewait).collect();
    ram.script.at = random.below(3);
    ram.entry = ram.script.at as u32;
}

/// Puts waits and ewaits before the script, which is moved only where there is no room.
fn wait_first(random: &mut Random, ram: &mut Ram) {
    let count = 1 + random.below(8);
    let waits: Vec<Vec<u8>> = (0..count).map(|_| wait(random)).collect();
    let length: usize = waits.iter().map(Vec::len).sum();
    let entered = ram.entry == ram.script.at as u32;
    ram.script.at = ram.script.at.saturating_sub(length);
    ram.script.pieces.splice(0..0, waits);
    if entered {
        ram.entry = ram.script.at as u32;
    }
}

/// Any wait, or an ewait for one of so few events that a row releases two at times.
fn wait(random: &mut Random) -> Vec<u8> {
    if random.chance(40) {
        return vec![random.byte() & 0x3f];
    }
    vec![EWAIT, random.byte() & 3, random.byte() & 1]
}

/// Enough entries as a rule, and at times too few in one column or more.
fn lent(random: &mut Random) -> [usize; 3] {
    let mut lent = [0; 3].map(|_| SHOWN_ROWS + random.below(30));
    if random.chance(10) {
        for _ in 0..1 + random.below(3) {
            let few = random.below(SHOWN_ROWS);
            lent[random.below(3)] = random.pick(&[0, 1, SHOWN_ROWS - 1, few]);
        }
    }
    lent
}
