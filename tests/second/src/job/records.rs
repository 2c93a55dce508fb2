//! The record parser.

use super::body::word;
use super::captures::Captures;
use crate::audit::MOST_RANGES;
use crate::isa::MmioAddress;
use crate::log::{clocks_fit, Masks, MOST_ROWS};
use crate::machine::{host_write, State};
use crate::misreadings::{in_force, Misreading};
use crate::Refusal;

/// Most bytes a job has.
pub const LONGEST_JOB: usize = 32_768;

const END: u8 = 0;
const ROW: u8 = 1;
const WRITE: u8 = 2;
const RANGE: u8 = 3;
const FAMILY: u8 = 4;
const CAPTURE: u8 = 5;
const GATE: u8 = 6;

/// Number of kinds.
const KINDS: usize = 7;
/// Body length of each kind.
const BODY: [usize; KINDS] = [0, 16, 8, 8, 1, 5, 18];
/// Most records of each kind; captures and gates have no number, their events bound them.
const MOST: [usize; KINDS] = [1, MOST_ROWS, 512, MOST_RANGES, 1, usize::MAX, usize::MAX];
/// When each kind has its turn; captures and rows have theirs together.
const TURN: [u8; KINDS] = [5, 4, 2, 1, 0, 4, 3];

/// A job without fault: the machine after all host writes, the ranges and the log.
#[derive(Clone, Debug)]
pub struct Job {
    pub state: State,
    pub ranges: Vec<u32>,
    pub clocks: Vec<u64>,
    pub known: Vec<u32>,
    pub values: Vec<u32>,
    pub captures: Captures,
}

/// The first fault of a job and the offset of its record.
#[derive(Clone, Copy, Debug, PartialEq, Eq)]
pub struct JobRefusal {
    pub number: Refusal,
    pub offset: usize,
}

/// Whose turn it is, and how many records of each kind came.
#[derive(Default)]
struct Order {
    turn: Option<u8>,
    counts: [usize; KINDS],
}

impl Order {
    /// Admits a record's kind: the family first, never one whose turn is over, and not too many of one.
    fn admit(&mut self, kind: u8) -> Result<(), Refusal> {
        let index = usize::from(kind);
        let in_order = match self.turn {
            None => kind == FAMILY,
            Some(turn) => turn <= TURN[index],
        };
        if !in_order {
            return Err(Refusal::OutOfOrder);
        }
        if self.counts[index] >= MOST[index] {
            return Err(Refusal::TooMany);
        }
        self.turn = Some(TURN[index]);
        self.counts[index] += 1;
        Ok(())
    }

    /// The kind and body of the record at an offset, the end of input being one at fault.
    fn record<'a>(&mut self, input: &'a [u8], offset: usize) -> Result<(u8, &'a [u8]), Refusal> {
        let Some((&kind, rest)) = input[offset..].split_first() else {
            return Err(Refusal::UnknownKind);
        };
        let Some(&length) = BODY.get(usize::from(kind)) else {
            return Err(Refusal::UnknownKind);
        };
        let body = rest.get(..length).ok_or(Refusal::CutShort)?;
        self.admit(kind)?;
        Ok((kind, body))
    }
}

/// Reads a whole job, or gives its first fault.
pub fn parse(input: &[u8]) -> Result<Job, JobRefusal> {
    let refusal = |number, offset| JobRefusal { number, offset };
    if input.len() > LONGEST_JOB {
        return Err(refusal(Refusal::JobTooLong, 0));
    }
    let mut order = Order::default();
    let (_, family) = order
        .record(input, 0)
        .map_err(|number| refusal(number, 0))?;
    let mut job = Job::of_family(family[0]).map_err(|number| refusal(number, 0))?;
    let mut offset = 1 + family.len();
    loop {
        let at_fault = |number| refusal(number, offset);
        let (kind, body) = order.record(input, offset).map_err(at_fault)?;
        let next = offset + 1 + body.len();
        if kind == END {
            job.end(next == input.len()).map_err(at_fault)?;
            return Ok(job);
        }
        job.take(kind, body).map_err(at_fault)?;
        offset = next;
    }
}

impl Job {
    fn of_family(family: u8) -> Result<Job, Refusal> {
        let state = State::fresh(family).map_err(|_| Refusal::BadFamily)?;
        Ok(Job {
            state,
            ranges: vec![],
            clocks: vec![],
            known: vec![],
            values: vec![],
            captures: Captures::default(),
        })
    }

    /// Takes in one admitted record between family and end.
    fn take(&mut self, kind: u8, body: &[u8]) -> Result<(), Refusal> {
        match kind {
            RANGE => self.range(word(body, 0), word(body, 4)),
            WRITE => host_write(&mut self.state, MmioAddress(word(body, 0)), word(body, 4)),
            GATE => self.captures.gate(body),
            CAPTURE => self.captures.capture(body),
            ROW => self.row(body),
            _ => Err(Refusal::TooMany),
        }
    }

    fn range(&mut self, first: u32, last: u32) -> Result<(), Refusal> {
        if first > last {
            return Err(Refusal::FirstAboveLast);
        }
        self.ranges.extend([first, last]);
        Ok(())
    }

    fn row(&mut self, body: &[u8]) -> Result<(), Refusal> {
        let clocks = u64::from(word(body, 4)) << 32 | u64::from(word(body, 0));
        if !clocks_fit(clocks) {
            return Err(Refusal::ClocksOutOfRange);
        }
        let masks = self.captures.masks(Masks {
            known: word(body, 8),
            values: word(body, 12),
        });
        self.clocks.push(clocks);
        self.known.push(masks.known);
        self.values.push(masks.values);
        Ok(())
    }

    /// The end record: no captures before it, nothing after it, and something to run.
    fn end(&self, last_byte: bool) -> Result<(), Refusal> {
        if self.captures.row_due() {
            return Err(Refusal::UnfitProbe);
        }
        // The papers: 24 comes before 32.
        if in_force(Misreading::SwappedJobRefusals) && self.state.executing_slot()?.is_none() {
            return Err(Refusal::NoSlotExecuting);
        }
        if !last_byte {
            return Err(Refusal::AfterEnd);
        }
        match self.state.executing_slot()? {
            Some(_) => Ok(()),
            None => Err(Refusal::NoSlotExecuting),
        }
    }
}
