//! Ways to damage a job, each aimed at a refusal or at the order of two.

// All damages of one list have one type.
#![allow(clippy::ptr_arg)]

mod probes;

use super::draft::Draft;
use super::probes::{Capture, Probe};
use super::records::{self, Record, MOST_RANGES, MOST_WRITES};
use crate::floats;
use crate::log;
use crate::random::Random;
use crate::ranges;
use crate::registers::{self, CODE, CONTROL, TRIGGER};

/// Most bytes of a job.
pub const LONGEST: usize = 32_768;
/// Kinds, opcodes and bounds.
const BOUNDS: [u8; 17] = [
    0, 1, 2, 3, 4, 5, 6, 0x1f, 0x20, 0x40, 0x42, 0x5f, 0x7f, 0x80, 0xb0, 0xe0, 0xff,
];

/// A way to damage something; a list of records is not empty.
pub type Damage<T> = fn(&mut Random, &mut T);

/// Damages to what the job says.
pub const DRAFTS: [Damage<Draft>; 20] = [
    bad_family,
    swapped_range,
    no_register,
    other_familys_register,
    write_after_start,
    not_started,
    bad_clocks,
    many_ranges,
    many_writes,
    many_rows,
    after_end,
    probes::ungated,
    probes::captured_above,
    probes::captured_twice,
    probes::trailing,
    probes::second_gate,
    probes::no_gate,
    probes::gate_above,
    probes::forbidden,
    probes::all_gated,
];

/// Damages to the order and number of records.
pub const RECORDS: [Damage<Vec<Record>>; 11] = [
    second_family,
    moved,
    dropped,
    unknown_kind,
    shuffled,
    misplaced,
    cut_inside,
    repeated,
    exchanged,
    replaced,
    probes::moved_gate,
];

/// Damages to the bytes.
pub const BYTES: [Damage<Vec<u8>>; 6] = [cut, flipped, too_long, inserted, removed, overwritten];

fn bad_family(random: &mut Random, draft: &mut Draft) {
    draft.family = random.pick(&[0, 5, 6, 16, 128, 254, 255]);
}

/// A range whose first is above its last, if only by one.
fn swapped_range(random: &mut Random, draft: &mut Draft) {
    let (first, last) = ranges::range(random);
    let bad = match random.below(3) {
        0 => (last.saturating_add(1), last),
        1 => (last, first),
        _ => (first.wrapping_sub(1), first.wrapping_sub(2)),
    };
    let at = random.below(draft.ranges.len() + 1);
    draft.ranges.insert(at, bad);
}

fn no_register(random: &mut Random, draft: &mut Draft) {
    let at = random.below(draft.writes.len() + 1);
    let address = registers::unwritable(random);
    draft.writes.insert(at, (address, random.edgy()));
}

fn other_familys_register(random: &mut Random, draft: &mut Draft) {
    let at = random.below(draft.writes.len());
    let address = registers::of_larger_family(random);
    draft.writes.insert(at, (address, random.half()));
}

/// A write behind the start: no abort as a rule, and at times no register either.
fn write_after_start(random: &mut Random, draft: &mut Draft) {
    let address = match random.below(4) {
        0 => CONTROL,
        1 => TRIGGER,
        2 => CODE,
        _ => registers::random(random),
    };
    draft.writes.push((address, random.half()));
}

/// No start, or an abort behind it.
fn not_started(random: &mut Random, draft: &mut Draft) {
    if random.chance(50) {
        draft.writes.retain(|&(address, _)| address != TRIGGER);
    } else {
        draft.writes.push((TRIGGER, 0));
        draft.writes.push((TRIGGER, 2));
    }
}

fn bad_clocks(random: &mut Random, draft: &mut Draft) {
    let at = random.below(draft.rows.len() + 1);
    draft.rows.insert(at, log::bad_row(random));
}

/// As many ranges as allowed, or one more, which may be bad too.
fn many_ranges(random: &mut Random, draft: &mut Draft) {
    draft
        .ranges
        .resize_with(MOST_RANGES, || ranges::range(random));
    if random.chance(60) {
        let bad = random.chance(30);
        draft.ranges.push(if bad { (5, 4) } else { (4, 5) });
    }
}

/// As many writes as allowed, or one more, which may be refused for itself too.
fn many_writes(random: &mut Random, draft: &mut Draft) {
    let filling = MOST_WRITES.saturating_sub(draft.writes.len());
    let fillers = (0..filling).map(|_| (CODE + 4 * random.below(16) as u32, 0x7f7f_7f7f));
    draft.writes.splice(0..0, fillers);
    if random.chance(60) {
        let address = random.pick(&[TRIGGER, CODE, 0x1308]);
        draft.writes.push((address, 0));
    }
}

/// As many rows as allowed, or one more, which may be bad too.
fn many_rows(random: &mut Random, draft: &mut Draft) {
    draft
        .rows
        .resize_with(log::MOST_ROWS, || log::row(random, &[]));
    if random.chance(60) {
        let bad = random.chance(30);
        draft.rows.push(if bad {
            log::bad_row(random)
        } else {
            log::row(random, &[])
        });
        probes::capture_before(random, draft, log::MOST_ROWS);
    }
}

/// Bytes behind the end, at times with nothing executing either.
fn after_end(random: &mut Random, draft: &mut Draft) {
    let count = 1 + random.below(20);
    draft.after = random.bytes(count);
    draft.after[0] &= random.pick(&[0, 7, 0xff]);
    if random.chance(30) {
        not_started(random, draft);
    }
}

/// A family record right after the first, or later.
fn second_family(random: &mut Random, list: &mut Vec<Record>) {
    let at = match random.below(3) {
        0 => random.below(list.len()),
        _ => 1,
    };
    list.insert(at, records::family(random.below(7) as u8));
}

fn moved(random: &mut Random, list: &mut Vec<Record>) {
    let record = list.remove(random.below(list.len()));
    list.insert(random.below(list.len() + 1), record);
}

fn dropped(random: &mut Random, list: &mut Vec<Record>) {
    let at = match random.below(4) {
        0 => 0,
        1 => list.len() - 1,
        _ => random.below(list.len()),
    };
    list.remove(at);
}

fn unknown_kind(random: &mut Random, list: &mut Vec<Record>) {
    let kind = random.pick(&[7, 8, 9, 0x10, 0x7f, 0x80, 0xff]);
    list.insert(random.below(list.len() + 1), vec![kind]);
}

fn shuffled(random: &mut Random, list: &mut Vec<Record>) {
    let from = random.below(2).min(list.len());
    random.shuffle(&mut list[from..]);
}

/// A record that is at fault by itself, wherever it stands.
fn bad_record(random: &mut Random) -> Record {
    match random.below(6) {
        0 => records::family(5),
        1 => records::range((5, 4)),
        2 => records::write((0x1308, 0)),
        3 => probes::bad_gate(random),
        4 => probes::bad_capture(random),
        _ => records::row(log::bad_row(random)),
    }
}

fn misplaced(random: &mut Random, list: &mut Vec<Record>) {
    let at = random.below(list.len() + 1);
    list.insert(at, bad_record(random));
}

/// The input ends inside a record, which may also be out of order or bad.
fn cut_inside(random: &mut Random, list: &mut Vec<Record>) {
    list.truncate(random.below(list.len() + 1));
    let mut last = bad_record(random);
    last.truncate(1 + random.below(last.len()));
    list.push(last);
}

/// A record once more, a few times more, or to about the most that there may be of its kind.
fn repeated(random: &mut Random, list: &mut Vec<Record>) {
    let at = random.below(list.len());
    let record = list[at].clone();
    let most = records::most_of(record[0]);
    let same = list.iter().filter(|other| other[0] == record[0]).count();
    let wanted = match random.below(3) {
        0 => same + 1,
        1 => same + 1 + random.below(8),
        _ => random.between(most - 1, most + 1),
    };
    let more = wanted.saturating_sub(same);
    list.splice(at..at, std::iter::repeat_n(record, more));
}

fn exchanged(random: &mut Random, list: &mut Vec<Record>) {
    let (one, other) = (random.below(list.len()), random.below(list.len()));
    list.swap(one, other);
}

/// Any record in the place of another.
fn replaced(random: &mut Random, list: &mut Vec<Record>) {
    let at = random.below(list.len());
    let event = random.below(4) as u8;
    list[at] = match random.below(7) {
        0 => records::family(random.below(6) as u8),
        1 => records::range((random.edgy(), random.edgy())),
        2 => records::write((registers::random(random), random.edgy())),
        3 => records::row(log::row(random, &[])),
        4 => records::gate(Probe::random(random, event).gate),
        5 => records::capture(Capture {
            event,
            raw: floats::pattern(random),
        }),
        _ => vec![random.pick(&BOUNDS)],
    };
}

fn cut(random: &mut Random, bytes: &mut Vec<u8>) {
    bytes.truncate(random.below(bytes.len() + 1));
}

fn flipped(random: &mut Random, bytes: &mut Vec<u8>) {
    for _ in 0..1 + random.below(4) {
        let at = random.below(bytes.len());
        if let Some(byte) = bytes.get_mut(at) {
            *byte ^= 1 << random.below(8);
        }
    }
}

/// As long as allowed, just too long, or far too long; all that follows the end is looked at or not.
fn too_long(random: &mut Random, bytes: &mut Vec<u8>) {
    let length = LONGEST + random.pick(&[0, 1, 1, 2, 100, LONGEST, 3 * LONGEST]);
    let filler = random.pick(&[0, 1, 2, 3, 0xff]);
    if random.chance(20) {
        bytes.clear();
    }
    bytes.resize(length, filler);
}

fn inserted(random: &mut Random, bytes: &mut Vec<u8>) {
    let at = random.below(bytes.len() + 1);
    bytes.insert(at, random.byte() & 7);
}

fn removed(random: &mut Random, bytes: &mut Vec<u8>) {
    if !bytes.is_empty() {
        bytes.remove(random.below(bytes.len()));
    }
}

/// A byte becomes a kind, an opcode or a bound.
fn overwritten(random: &mut Random, bytes: &mut Vec<u8>) {
    let at = random.below(bytes.len());
    if let Some(byte) = bytes.get_mut(at) {
        *byte = random.pick(&BOUNDS);
    }
}

/// No job at all: nothing, a few bytes, or small numbers that look like kinds.
pub fn noise(random: &mut Random) -> Vec<u8> {
    let length = random.below(40);
    let mut bytes = random.bytes(length);
    if random.chance(50) {
        bytes.iter_mut().for_each(|byte| *byte &= 7);
    }
    bytes
}
