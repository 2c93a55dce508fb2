//! Whether a log shows a verdict: steps of the machine from one start.

use crate::audit::{listed, place_of, Fault, Pass};
use crate::isa::{CodeAddress, MmioAddress};
use crate::log::{Columns, Place};
use crate::machine::{step, Activity, Did, Slot, SlotState, State, Stop};
use crate::witness::Witness;
use crate::Refusal;

/// A register write.
#[derive(Clone, Copy, Debug, PartialEq, Eq)]
pub struct Write {
    pub address: MmioAddress,
    pub data: u32,
}

/// What the step at the place did, and what it left.
#[derive(Clone, Copy, Debug, PartialEq, Eq)]
pub struct After {
    pub did: Did,
    pub slot: SlotState,
    pub memory_paused: bool,
    pub log_used_up: bool,
}

/// What a run to the exit has in common with a pass.
#[derive(Clone, Copy, Debug, Default, PartialEq, Eq)]
pub struct Counts {
    pub instructions: u32,
    pub writes: u32,
    pub wait_clocks: u64,
}

/// What did not hold; a step is told by its number, from 0.
#[derive(Clone, Copy, Debug, PartialEq, Eq)]
pub enum Doubt {
    /// A column has fewer entries than the log has rows.
    RowsMissing,
    /// The machine refused a step.
    Refused(u32, Refusal),
    /// A step before the place did no instruction.
    NoInstruction(u32, Did),
    /// A write before the place is in no range.
    Unlisted(u32, Write),
    /// After the steps the slot doesn't run, or IP is elsewhere.
    NotAtPlace(SlotState),
    /// Before the place so many writes were made.
    OtherWrites(u32),
    /// The next step did or left something else.
    NotShown(After),
    /// The run exits as a pass should, but with these counts.
    OtherCounts(Counts),
}

/// Checks a claim on the first `rows` entries by a run from a start; gives the write that ends it.
pub fn shows(
    start: &State,
    slot: Slot,
    columns: Columns,
    ranges: &[u32],
    claim: Witness,
) -> Result<Option<Write>, Doubt> {
    let log = columns.first(claim.rows).ok_or(Doubt::RowsMissing)?;
    let mut run = Run::new(start, slot, log);
    for _ in 0..claim.steps {
        run.instruction(ranges)?;
    }
    run.stands_at(place_of(claim.verdict))?;
    if run.counts.writes != claim.writes {
        return Err(Doubt::OtherWrites(run.counts.writes));
    }
    let after = run.step_there()?;
    let shown = match claim.verdict {
        Ok(pass) => after.exited(pass.place) && !after.memory_paused,
        Err(fault) => after.shows(fault, start.slot(slot), ranges),
    };
    if !shown {
        return Err(Doubt::NotShown(after));
    }
    // Of a fault the verdict has no counts.
    let counts = claim.verdict.map_or(run.counts, counts_of);
    if run.counts != counts {
        return Err(Doubt::OtherCounts(run.counts));
    }
    Ok(write_of(after.did))
}

/// A run so far.
struct Run<'a> {
    state: State,
    slot: Slot,
    log: Columns<'a>,
    place: Place,
    counts: Counts,
}

impl Run<'_> {
    /// No step is done yet.
    fn new<'a>(start: &State, slot: Slot, log: Columns<'a>) -> Run<'a> {
        Run {
            state: start.clone(),
            slot,
            log,
            place: Place::default(),
            counts: Counts::default(),
        }
    }

    /// One step, counted as an instruction whatever it does.
    fn step(&mut self) -> Result<Did, Doubt> {
        let number = self.counts.instructions;
        let answer = step(&mut self.state, self.slot, self.log, self.place);
        let told = answer.map_err(|refusal| Doubt::Refused(number, refusal))?;
        self.place = told.place;
        self.counts.instructions += 1;
        self.counts.wait_clocks += told.wait_clocks;
        Ok(told.did)
    }

    /// A step before the place.
    fn instruction(&mut self, ranges: &[u32]) -> Result<(), Doubt> {
        let number = self.counts.instructions;
        let did = self.step()?;
        match write_of(did) {
            Some(write) if listed(ranges, write.address) => self.counts.writes += 1,
            Some(write) => return Err(Doubt::Unlisted(number, write)),
            None if did == Did::Done => {}
            // A stop or a nop would leave the slot running, so that only this tells it.
            None => return Err(Doubt::NoInstruction(number, did)),
        }
        Ok(())
    }

    /// Tests that the slot's next step fetches at the place.
    fn stands_at(&self, place: CodeAddress) -> Result<(), Doubt> {
        let slot = *self.state.slot(self.slot);
        if slot.activity != Activity::Fetching || slot.ip != place {
            return Err(Doubt::NotAtPlace(slot));
        }
        Ok(())
    }

    /// The step at the place.
    fn step_there(&mut self) -> Result<After, Doubt> {
        let did = self.step()?;
        let end = Place {
            row: self.log.clocks.len(),
            used: 0,
        };
        Ok(After {
            did,
            slot: *self.state.slot(self.slot),
            memory_paused: self.state.memory_paused() == Ok(true),
            log_used_up: self.place == end,
        })
    }
}

impl After {
    /// Whether this is what a fault looks like from a start with these ADDR and DATA.
    fn shows(&self, fault: Fault, start: &SlotState, ranges: &[u32]) -> bool {
        match (fault.number, write_of(self.did)) {
            (Refusal::PastCode, _) => self.did == Did::Stopped(Stop::PastCode),
            (Refusal::NeverUploaded, _) => self.did == Did::Stopped(Stop::NeverUploaded),
            (Refusal::UnknownOpcode, _) => self.did == Did::UnknownOpcode,
            (Refusal::AddrNotSet, Some(write)) => same_high_half(write.address.0, start.addr.0),
            (Refusal::DataNotSet, Some(write)) => same_high_half(write.data, start.data),
            (Refusal::NotListed, Some(write)) => !listed(ranges, write.address),
            (Refusal::NeverReleased, _) => {
                self.slot.activity == Activity::Waiting && self.log_used_up
            }
            (Refusal::PausedAtExit, _) => self.exited(fault.place) && self.memory_paused,
            // A fault of a write shows in nothing else, and no run shows any other number.
            _ => false,
        }
    }

    /// Whether the slot is idle, IP at the place.
    fn exited(&self, place: CodeAddress) -> bool {
        self.slot.activity == Activity::Idle && self.slot.ip == place
    }
}

/// The counts of a pass.
fn counts_of(pass: Pass) -> Counts {
    Counts {
        instructions: pass.instructions,
        writes: pass.writes,
        wait_clocks: pass.wait_clocks,
    }
}

/// The write a step made, if any.
fn write_of(did: Did) -> Option<Write> {
    match did {
        Did::Wrote { address, data } => Some(Write { address, data }),
        _ => None,
    }
}

fn same_high_half(one: u32, other: u32) -> bool {
    one >> 16 == other >> 16
}
