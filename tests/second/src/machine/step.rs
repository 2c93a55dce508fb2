//! One step of one slot.

use super::state::{Activity, Slot, State};
use crate::fetch::fetch;
use crate::isa::{self, wait_clocks, with_low_half, CodeAddress, Instruction, MmioAddress};
use crate::log::{Columns, Log, Passed, Place};
use crate::misreadings::{in_force, Misreading};
use crate::Refusal;

/// Why a fetch stopped the slot.
#[derive(Clone, Copy, Debug, PartialEq, Eq)]
pub enum Stop {
    PastCode,
    NeverUploaded,
}

/// What a step did.
#[derive(Clone, Copy, Debug, PartialEq, Eq)]
pub enum Did {
    /// The slot was idle, hung, blocked or in an unfinished wait.
    Nothing,
    Stopped(Stop),
    UnknownOpcode,
    /// A known instruction that wrote no register, a blocked poke included.
    Done,
    Wrote {
        address: MmioAddress,
        data: u32,
    },
}

/// What a step did, the place after it and the clocks it spent.
#[derive(Clone, Copy, Debug, PartialEq, Eq)]
pub struct Step {
    pub did: Did,
    pub place: Place,
    pub wait_clocks: u64,
    pub ewait_clocks: u64,
}

/// A step and how far it got with its wait or ewait, if it fetched one.
pub(crate) struct Told {
    pub step: Step,
    pub passed: Option<Passed>,
}

/// One step, after the tests of family, log and place.
pub fn step(
    state: &mut State,
    slot: Slot,
    columns: Columns,
    place: Place,
) -> Result<Step, Refusal> {
    isa::code_size(state.family)?;
    let log = Log::new(columns)?;
    if !log.holds(place) {
        return Err(Refusal::UnfitLog);
    }
    Ok(step_untested(state, slot, &log, place))
}

/// One step without those tests; on an unknown family it does nothing.
pub fn step_untested(state: &mut State, slot: Slot, log: &Log, place: Place) -> Step {
    step_told(state, slot, log, place).step
}

/// The same step, told with its wait.
pub(super) fn step_told(state: &mut State, slot: Slot, log: &Log, place: Place) -> Told {
    let step = Step {
        did: Did::Nothing,
        place,
        wait_clocks: 0,
        ewait_clocks: 0,
    };
    let mut told = Told { step, passed: None };
    let (Ok(size), Ok(true)) = (isa::code_size(state.family), state.executing(slot)) else {
        return told;
    };
    if state.slot(slot).activity != Activity::Fetching {
        return told;
    }
    let ip = state.slot(slot).ip;
    match fetch(state.family, &state.code[..size], &state.marks[..size], ip) {
        Ok((instruction, length)) => {
            // The papers: IP stays on exit.
            if instruction != Instruction::Exit || in_force(Misreading::IpPastExit) {
                state.slot_mut(slot).ip = CodeAddress(ip.0 + length as u32);
            }
            execute(state, slot, instruction, log, &mut told);
        }
        Err(Refusal::UnknownOpcode) => {
            meet_unknown(state, slot);
            told.step.did = Did::UnknownOpcode;
        }
        Err(Refusal::NeverUploaded) => told.step.did = Did::Stopped(Stop::NeverUploaded),
        Err(_) => told.step.did = Did::Stopped(Stop::PastCode),
    }
    told
}

/// IP moves past the one byte, and two families hang.
fn meet_unknown(state: &mut State, slot: Slot) {
    let hangs = isa::unknown_hangs(state.family) == Ok(true);
    let slot = state.slot_mut(slot);
    slot.ip.0 += 1;
    if hangs {
        slot.activity = Activity::Hung;
    }
}

/// The effect of an instruction, IP apart.
fn execute(state: &mut State, slot: Slot, instruction: Instruction, log: &Log, told: &mut Told) {
    let step = &mut told.step;
    step.did = Did::Done;
    match instruction {
        Instruction::Wait { length, shift } => {
            let passed = log.wait(step.place, wait_clocks(length, shift));
            step.wait_clocks = passed.clocks;
            settle(state, slot, passed, told);
        }
        Instruction::Ewait { event, value } => {
            let passed = log.ewait(step.place, event, value);
            step.ewait_clocks = passed.clocks;
            settle(state, slot, passed, told);
        }
        Instruction::Exit => state.slot_mut(slot).activity = Activity::Idle,
        Instruction::Unset(flag) => state.flag_enables &= !(1 << flag),
        Instruction::Set1(flag) => {
            state.flag_enables |= 1 << flag;
            state.flag_values |= 1 << flag;
        }
        Instruction::Set0(flag) => {
            state.flag_enables |= 1 << flag;
            state.flag_values &= !(1 << flag);
        }
        Instruction::Data(data) => state.slot_mut(slot).data = data,
        Instruction::DataLo(low) => {
            let data = &mut state.slot_mut(slot).data;
            *data = with_low_half(*data, low);
        }
        Instruction::Addr(address) => step.did = poke(state, slot, address),
        Instruction::AddrLo(low) => {
            let before = state.slot(slot).addr.0;
            step.did = poke(state, slot, MmioAddress(with_low_half(before, low)));
        }
    }
}

/// Moves the place; a wait the log cut off keeps the slot waiting.
fn settle(state: &mut State, slot: Slot, passed: Passed, told: &mut Told) {
    told.step.place = passed.place;
    told.passed = Some(passed);
    if !passed.done {
        state.slot_mut(slot).activity = Activity::Waiting;
    }
}

/// Sets ADDR, then writes DATA there or blocks.
fn poke(state: &mut State, slot: Slot, address: MmioAddress) -> Did {
    let enabled = state.hwsq_enable;
    let slot = state.slot_mut(slot);
    slot.addr = address;
    if enabled {
        return Did::Wrote {
            address,
            data: slot.data,
        };
    }
    slot.activity = Activity::Blocked;
    Did::Done
}
