//! Running a script against a log until it can go no further.

use super::input::Script;
use super::start::{start, Registers};
use crate::isa::{CodeAddress, MmioAddress};
use crate::log::{Columns, Log, Place};
use crate::machine::{Activity, Did, Slot, State, Steps};
use crate::Refusal;

/// Entries a replay is lent for its writes, two for each.
pub const WRITE_ENTRIES: usize = 340;

/// How a run ended.
#[derive(Clone, Copy, Debug, PartialEq, Eq)]
pub enum Ending {
    Exit,
    Log,
    Poke,
    Hang,
    Stop,
}

impl Ending {
    /// The word a report prints.
    pub fn word(self) -> &'static str {
        match self {
            Ending::Exit => "exit",
            Ending::Log => "log",
            Ending::Poke => "poke",
            Ending::Hang => "hang",
            Ending::Stop => "stop",
        }
    }
}

/// A run apart from the state it left.
#[derive(Clone, Copy, Debug, PartialEq, Eq)]
pub struct Run {
    pub ending: Ending,
    pub place: Place,
    pub steps: u32,
    pub writes: u32,
    pub wait_clocks: u64,
    pub ewait_clocks: u64,
    pub left_clocks: u64,
}

/// A run and the state it left.
#[derive(Clone, Copy, Debug, PartialEq, Eq)]
pub struct Replayed {
    pub run: Run,
    pub ip: CodeAddress,
    pub addr: MmioAddress,
    pub data: u32,
    pub flags_0: u32,
    pub flags_1: u32,
}

/// Replays a script in slot A from given registers; `writes` is filled with address and data in turn.
pub fn replay(
    script: Script,
    registers: Registers,
    columns: Columns,
    writes: &mut [u32],
) -> Result<Replayed, Refusal> {
    let mut state = start(script, registers)?;
    if writes.len() < WRITE_ENTRIES {
        return Err(Refusal::TooFewEntries);
    }
    let log = Log::new(columns)?;
    let run = run(&mut state, Slot::A, &log, writes);
    Ok(answer(run, &state))
}

fn answer(run: Run, state: &State) -> Replayed {
    let slot = state.slot(Slot::A);
    Replayed {
        run,
        ip: slot.ip,
        addr: slot.addr,
        data: slot.data,
        flags_0: state.flags(false),
        flags_1: state.flags(true),
    }
}

/// Steps an executing slot from the log's start until it stops fetching.
pub fn run(state: &mut State, slot: Slot, log: &Log, writes: &mut [u32]) -> Run {
    let mut run = Run {
        ending: Ending::Stop,
        place: Place::default(),
        steps: 0,
        writes: 0,
        wait_clocks: 0,
        ewait_clocks: 0,
        left_clocks: 0,
    };
    let mut free = writes.chunks_exact_mut(2);
    for told in Steps::new(state, slot, log) {
        let step = told.step;
        if let Did::Wrote { address, data } = step.did {
            run.writes += 1;
            if let Some(entry) = free.next() {
                entry.copy_from_slice(&[address.0, data]);
            }
        }
        run.steps += 1;
        run.place = step.place;
        run.wait_clocks += step.wait_clocks;
        run.ewait_clocks += step.ewait_clocks;
    }
    run.ending = ending(state.slot(slot).activity);
    run.left_clocks = log.left(run.place);
    run
}

/// A slot that would still fetch but can't has stopped.
fn ending(activity: Activity) -> Ending {
    match activity {
        Activity::Idle => Ending::Exit,
        Activity::Waiting => Ending::Log,
        Activity::Blocked => Ending::Poke,
        Activity::Hung => Ending::Hang,
        Activity::Fetching => Ending::Stop,
    }
}
