//! The registers a replay starts with, and the machine at its start.

use super::input::{check_script, Script};
use crate::isa::MmioAddress;
use crate::machine::{Activity, Slot, State};
use crate::Refusal;

/// What a replay starts with: ADDR and DATA of its slot, both FLAGS registers, HWSQ_ENABLE.
#[derive(Clone, Copy, Debug, Default)]
pub struct Registers {
    pub addr: MmioAddress,
    pub data: u32,
    pub flags_0: u32,
    pub flags_1: u32,
    pub hwsq_enable: bool,
}

/// The machine about to run the script in slot A from given registers, or a refusal of the script.
pub(crate) fn start(script: Script, registers: Registers) -> Result<State, Refusal> {
    check_script(script)?;
    let mut state = State::fresh(script.family)?;
    state.code[..script.code.len()].copy_from_slice(script.code);
    state.marks[..script.marks.len()].copy_from_slice(script.marks);
    state.set_flags(false, registers.flags_0);
    state.set_flags(true, registers.flags_1);
    state.hwsq_enable = registers.hwsq_enable;
    let slot = state.slot_mut(Slot::A);
    slot.ip = script.entry;
    slot.addr = registers.addr;
    slot.data = registers.data;
    slot.activity = Activity::Fetching;
    Ok(state)
}
