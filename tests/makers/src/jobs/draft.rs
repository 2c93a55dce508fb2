//! A sound job before it is bytes.

use super::probes::{self, Capture, Probe};
use super::records::{self, Record, MOST_WRITES};
use crate::compose;
use crate::log::{Log, Row};
use crate::random::Random;
use crate::ranges::{self, Range};
use crate::registers::{
    CONTROL, ENTRY_POINT, ENTRY_POINT_HIGH, FLAGS_0, FLAGS_1, NEW_CODE, TRIGGER,
};
use crate::upload::{word, Upload};

/// How many times in a hundred a job has gates.
const GATED: usize = 35;

/// What a job says, record by record.
pub struct Draft {
    pub family: u8,
    pub ranges: Vec<Range>,
    pub writes: Vec<(u32, u32)>,
    pub probes: Vec<Probe>,
    /// Those before each row; what comes after the last row's stands before the end.
    pub captures: Vec<Vec<Capture>>,
    pub rows: Vec<Row>,
    /// Bytes behind the end.
    pub after: Vec<u8>,
}

impl Draft {
    /// A job that is read without a refusal.
    pub fn random(random: &mut Random) -> Draft {
        let family = 1 + random.below(4) as u8;
        let ranges = ranges::random(random);
        let script = compose::script(random, family, &ranges);
        let mut writes = Upload::random(random, &script).writes(family, &script);
        let number = random.below(4) as u32;
        registers(random, family, script.at as u32, number, &mut writes);
        random.shuffle(&mut writes);
        start(random, number, &mut writes);
        let rows = Log::fitting(random, &script.waits()).rows;
        let probes = if random.chance(GATED) {
            probes::random(random)
        } else {
            vec![]
        };
        Draft {
            family,
            ranges,
            writes,
            captures: probes::captures(random, &probes, rows.len()),
            probes,
            rows,
            after: vec![],
        }
    }

    /// A job of family 4 with as many host writes as there may be: the upload of this code again and again.
    pub fn full(code: &[u8], ranges: Vec<Range>, rows: Vec<Row>) -> Draft {
        let mut writes = vec![(CONTROL, 8)];
        let places = (0..code.len()).step_by(4).cycle();
        // Room is left for entry point and start.
        for place in places.take(MOST_WRITES - 3) {
            writes.push((NEW_CODE + place as u32, word(&code[place..])));
        }
        writes.extend([(ENTRY_POINT, 0), (TRIGGER, 3)]);
        Draft {
            family: 4,
            ranges,
            writes,
            probes: vec![],
            captures: vec![],
            rows,
            after: vec![],
        }
    }

    /// The records with the end.
    pub fn records(&self) -> Vec<Record> {
        let mut list = vec![records::family(self.family)];
        list.extend(self.ranges.iter().copied().map(records::range));
        list.extend(self.writes.iter().copied().map(records::write));
        list.extend(self.probes.iter().map(|probe| records::gate(probe.gate)));
        for at in 0..self.rows.len().max(self.captures.len()) {
            let captures = self.captures.get(at).into_iter().flatten();
            list.extend(captures.copied().map(records::capture));
            list.extend(self.rows.get(at).copied().map(records::row));
        }
        list.push(vec![records::END]);
        list.extend(self.after.iter().map(|&byte| vec![byte]));
        list
    }
}

/// The writes of the entry points, of HWSQ_ENABLE as a rule, and of the flags at times.
fn registers(
    random: &mut Random,
    family: u8,
    entry: u32,
    number: u32,
    writes: &mut Vec<(u32, u32)>,
) {
    let others = !(0xff << (8 * number));
    let low = (entry & 0xff) << (8 * number);
    let high = (entry >> 8) << (8 * number);
    writes.push((ENTRY_POINT, random.half() & others | low));
    if family == 4 && (high > 0 || random.chance(50)) {
        writes.push((ENTRY_POINT_HIGH, random.half() & others | high));
    }
    if random.chance(80) {
        writes.push((CONTROL, random.half() | 8));
    } else if random.chance(50) {
        writes.push((CONTROL, random.half() & !8));
    }
    if random.chance(20) {
        writes.push((FLAGS_0, random.edgy()));
        writes.push((FLAGS_1, random.edgy()));
    }
}

/// The start of a slot, at times after one that was aborted.
fn start(random: &mut Random, number: u32, writes: &mut Vec<(u32, u32)>) {
    let more = if random.chance(20) {
        random.half() & !15
    } else {
        0
    };
    if random.chance(10) {
        let slot = random.half() & 2;
        writes.push((TRIGGER, 1 | slot | random.half() & 12));
        // an abort of the other slot is taken and does nothing
        writes.push((TRIGGER, slot ^ 2));
        writes.push((TRIGGER, slot | more));
        writes.push((TRIGGER, more & !1));
    }
    // on family 4 the aborts above all meant slot A
    writes.push((TRIGGER, 1 | random.half() & 2 | number << 2 | more));
}
