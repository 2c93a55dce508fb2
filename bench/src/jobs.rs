//! The jobs that are reported on.

use crate::logs;
use crate::scripts::{low_pokes, FIRST_RANGE};
use calls::hex;
use makers::jobs::probes::{Capture, Gate, Probe, EVENTS};
use makers::jobs::Draft;
use makers::log::Row;
use makers::ranges;
use makers::registers::{CODE, ENTRY_POINT, TRIGGER};

/// As many rows as a job has room for with a capture of each event before them.
const CAPTURED_ROWS: usize = 153;
/// 0.5, 1.5 and 3.0: below, between and above the levels.
const RAWS: [u32; 3] = [0x3f00_0000, 0x3fc0_0000, 0x4040_0000];

/// The worked reclock.
pub fn typical() -> Vec<u8> {
    hex::job(include_str!("../../jobs/reclock.hex")).expect("a worked job is hex")
}

/// As many ranges, host writes and rows as a job may have, and a script with this last byte.
pub fn full(last: u8) -> Vec<u8> {
    let script = low_pokes(true).ended(last);
    let log = logs::walked_by(&script);
    let rows = (0..log.clocks.len()).map(|row| Row {
        clocks: log.clocks[row],
        known: log.known[row],
        values: log.values[row],
    });
    let draft = Draft::full(&script.code, ranges::most(FIRST_RANGE), rows.collect());
    draft.records().concat()
}

/// Each event has a gate and is captured before each row: 4,896 captures, nine tenths of the job.
pub fn captures() -> Vec<u8> {
    let row = Row {
        clocks: 1_000,
        known: 0,
        values: 0,
    };
    let draft = Draft {
        family: 2,
        ranges: vec![],
        // ewait 31 1, exit
        writes: vec![(CODE, 0x7f01_1f5f), (ENTRY_POINT, 0), (TRIGGER, 3)],
        probes: (0..EVENTS).map(probe).collect(),
        captures: (0..CAPTURED_ROWS).map(before).collect(),
        rows: vec![row; CAPTURED_ROWS],
        after: vec![],
    };
    draft.records().concat()
}

/// The captures before a row.
fn before(row: usize) -> Vec<Capture> {
    let capture = |event| Capture {
        event: event as u8,
        raw: RAWS[(row + event) % RAWS.len()],
    };
    (0..EVENTS).map(capture).collect()
}

/// A normal gate with levels of 0.8 and 2.0, gain 1 and offset 0.
fn probe(event: usize) -> Probe {
    let gate = Gate {
        event: event as u8,
        gate: 0,
        low: 0x3f4c_cccd,
        high: 0x4000_0000,
        gain: 0x3f80_0000,
        offset: 0,
    };
    Probe {
        gate,
        raws: RAWS.to_vec(),
    }
}
