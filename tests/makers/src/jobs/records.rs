//! Records of a job as bytes.

use super::probes::{Capture, Gate, EVENTS};
use crate::log::{Row, MOST_ROWS};

/// A kind with its body.
pub type Record = Vec<u8>;

pub const END: u8 = 0;
pub const ROW: u8 = 1;
pub const WRITE: u8 = 2;
pub const RANGE: u8 = 3;
pub const FAMILY: u8 = 4;
pub const CAPTURE: u8 = 5;
pub const GATE: u8 = 6;

pub const MOST_RANGES: usize = 64;
pub const MOST_WRITES: usize = 512;

/// Body lengths of kinds 0 to 6.
const BODIES: [usize; 7] = [0, 16, 8, 8, 1, 5, 18];
/// Most records of each kind; of captures, before one row.
const MOST: [usize; 7] = [1, MOST_ROWS, MOST_WRITES, MOST_RANGES, 1, EVENTS, EVENTS];

/// Most records of the kind that a byte is; one of no kind counts as one that comes once.
pub fn most_of(kind: u8) -> usize {
    MOST.get(usize::from(kind)).copied().unwrap_or(1)
}

pub fn family(family: u8) -> Record {
    vec![FAMILY, family]
}

pub fn range((first, last): (u32, u32)) -> Record {
    two_words(RANGE, first, last)
}

pub fn write((address, word): (u32, u32)) -> Record {
    two_words(WRITE, address, word)
}

pub fn row(row: Row) -> Record {
    let mut record = vec![ROW];
    record.extend(row.clocks.to_le_bytes());
    record.extend(row.known.to_le_bytes());
    record.extend(row.values.to_le_bytes());
    record
}

pub fn capture(capture: Capture) -> Record {
    let mut record = vec![CAPTURE, capture.event];
    record.extend(capture.raw.to_le_bytes());
    record
}

pub fn gate(gate: Gate) -> Record {
    let mut record = vec![GATE, gate.event, gate.gate];
    for pattern in [gate.low, gate.high, gate.gain, gate.offset] {
        record.extend(pattern.to_le_bytes());
    }
    record
}

fn two_words(kind: u8, one: u32, other: u32) -> Record {
    let mut record = vec![kind];
    record.extend(one.to_le_bytes());
    record.extend(other.to_le_bytes());
    record
}

/// Cuts a job into its records, as far as they can be told; the rest comes byte by byte.
pub fn split(job: &[u8]) -> Vec<Record> {
    let mut records = Vec::new();
    let mut rest = job;
    while let Some(&kind) = rest.first() {
        let body = BODIES.get(usize::from(kind)).copied().unwrap_or(0);
        let (record, next) = rest.split_at((1 + body).min(rest.len()));
        records.push(record.to_vec());
        rest = next;
    }
    records
}
