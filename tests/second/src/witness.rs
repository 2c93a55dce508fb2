//! The log that shows a verdict: a row for each event, in the order in which the script asks.

use crate::audit::{audit, place_of, Script, Verdict};
use crate::fetch::fetch;
use crate::isa::{wait_clocks, CodeAddress, Instruction, LARGEST_CODE};
use crate::misreadings::{in_force, Misreading};
use crate::Refusal;
use std::mem;

/// Bytes of an ewait.
const EWAIT_LENGTH: usize = 3;

/// Entries each column is lent: one row, and one for each ewait that the largest code RAM can hold.
pub const LOG_ENTRIES: usize = 1 + LARGEST_CODE / EWAIT_LENGTH;

/// Columns lent for a log, an entry a row; each may have another length.
#[derive(Debug)]
pub struct Lent<'a> {
    pub clocks: &'a mut [u64],
    pub known: &'a mut [u32],
    pub values: &'a mut [u32],
}

/// A verdict, and how far the log in the first `rows` lent entries brings every start.
#[derive(Clone, Copy, Debug, PartialEq, Eq)]
pub struct Witness {
    pub verdict: Verdict,
    pub rows: usize,
    /// Instructions done before the verdict's place.
    pub steps: u32,
    /// Register writes among them.
    pub writes: u32,
}

/// Audits a script and writes the log that shows the verdict; a refusal leaves the columns alone.
pub fn witness(script: Script, ranges: &[u32], lent: Lent) -> Result<Witness, Refusal> {
    let verdict = audit(script, ranges);
    if verdict.is_err_and(|fault| fault.number == Refusal::UnfitInput) {
        return Err(Refusal::UnfitInput);
    }
    if !lent.suffices() {
        return Err(Refusal::TooFewEntries);
    }
    let way = Way::of(script, place_of(verdict))?;
    let (steps, writes) = (way.steps, way.writes);
    let log = way.log();
    lent.take_in(&log);
    Ok(Witness {
        verdict,
        rows: log.len(),
        steps,
        writes,
    })
}

impl Lent<'_> {
    /// Whether every column has room for the longest log.
    fn suffices(&self) -> bool {
        let lengths = [self.clocks.len(), self.known.len(), self.values.len()];
        lengths.iter().all(|&length| length >= LOG_ENTRIES)
    }

    /// Writes the log to the first entries.
    fn take_in(self, log: &[Row]) {
        for (i, row) in log.iter().enumerate() {
            self.clocks[i] = row.clocks;
            self.known[i] = row.known;
            self.values[i] = row.values;
        }
    }
}

/// A row of the log.
struct Row {
    clocks: u64,
    known: u32,
    values: u32,
}

impl Row {
    /// One clock in which no event has a reading.
    fn unread() -> Row {
        Row {
            clocks: 1,
            known: 0,
            values: 0,
        }
    }

    /// One clock in which just this event has a reading, this value.
    fn of(event: u8, value: u8) -> Row {
        // The papers: the reading is the awaited value.
        let value = if in_force(Misreading::WitnessReadsZero) {
            0
        } else {
            value
        };
        Row {
            clocks: 1,
            known: 1 << event,
            values: u32::from(value) << event,
        }
    }

    /// Whether this row has a reading of the event and it is the value.
    fn releases(&self, event: u8, value: u8) -> bool {
        self.known >> event & 1 == 1 && self.values >> event & 1 == u32::from(value)
    }
}

/// What a script has done on its way to a place, and the log made meanwhile.
struct Way {
    done: Vec<Row>,
    making: Row,
    steps: u32,
    writes: u32,
}

impl Way {
    /// From the entry up to the place, whose own instruction is not done any more.
    fn of(script: Script, place: CodeAddress) -> Result<Way, Refusal> {
        let mut way = Way {
            done: Vec::new(),
            making: Row::unread(),
            steps: 0,
            writes: 0,
        };
        let mut at = script.entry;
        while at != place {
            // The audit has read on from here, so this refuses nothing.
            let (instruction, length) = fetch(script.family, script.code, script.marks, at)?;
            way.go_on(instruction);
            at.0 += length as u32;
        }
        Ok(way)
    }

    /// Does one instruction; an ewait's event and value are in bounds, else the place is its own.
    fn go_on(&mut self, instruction: Instruction) {
        self.steps += 1;
        match instruction {
            Instruction::Wait { length, shift } => self.making.clocks += wait_clocks(length, shift),
            Instruction::Ewait { event, value } => self.ewait(event, value),
            Instruction::Addr(_) | Instruction::AddrLo(_) => self.writes += 1,
            _ => {}
        }
    }

    /// Begins the next row, unless the one that is being made releases the ewait.
    fn ewait(&mut self, event: u8, value: u8) {
        if !self.making.releases(event, value) {
            let next = Row::of(event, value);
            self.done.push(mem::replace(&mut self.making, next));
        }
    }

    /// The rows done and the one that was being made.
    fn log(mut self) -> Vec<Row> {
        self.done.push(self.making);
        self.done
    }
}
