//! All that the sequencer remembers.

use crate::isa::{self, CodeAddress, MmioAddress, LARGEST_CODE};
use crate::Refusal;

/// The name of a slot.
#[derive(Clone, Copy, Debug, PartialEq, Eq)]
pub enum Slot {
    A,
    B,
}

/// What a slot is doing; all but idle count as executing.
#[derive(Clone, Copy, Debug, Default, PartialEq, Eq)]
pub enum Activity {
    #[default]
    Idle,
    Fetching,
    Waiting,
    Blocked,
    Hung,
}

/// One execution slot.
#[derive(Clone, Copy, Debug, Default, PartialEq, Eq)]
pub struct SlotState {
    pub ip: CodeAddress,
    pub addr: MmioAddress,
    pub data: u32,
    pub activity: Activity,
}

/// The whole sequencer; arrays have the largest family's size and only the family's part counts.
#[derive(Clone, Debug, PartialEq, Eq)]
pub struct State {
    pub family: u8,
    pub code: [u8; LARGEST_CODE],
    /// 1 for a byte that was uploaded.
    pub marks: [u8; LARGEST_CODE],
    pub slots: [SlotState; 2],
    pub flag_values: u32,
    pub flag_enables: u32,
    pub hwsq_enable: bool,
    pub override_mode: bool,
    pub entry_point: u32,
    pub entry_point_high: u32,
}

impl State {
    /// All zero, nothing uploaded, both slots idle.
    pub fn fresh(family: u8) -> Result<State, Refusal> {
        isa::code_size(family)?;
        Ok(State {
            family,
            code: [0; LARGEST_CODE],
            marks: [0; LARGEST_CODE],
            slots: [SlotState::default(); 2],
            flag_values: 0,
            flag_enables: 0,
            hwsq_enable: false,
            override_mode: false,
            entry_point: 0,
            entry_point_high: 0,
        })
    }

    /// One slot's part of the state.
    pub fn slot(&self, slot: Slot) -> &SlotState {
        &self.slots[slot as usize]
    }

    /// One slot's part of the state, to change.
    pub fn slot_mut(&mut self, slot: Slot) -> &mut SlotState {
        &mut self.slots[slot as usize]
    }

    /// Whether a slot executes; one the family lacks never does.
    pub fn executing(&self, slot: Slot) -> Result<bool, Refusal> {
        let exists = (slot as usize) < isa::slot_count(self.family)?;
        Ok(exists && self.slot(slot).activity != Activity::Idle)
    }

    /// The slot that executes, A before B.
    pub fn executing_slot(&self) -> Result<Option<Slot>, Refusal> {
        for slot in [Slot::A, Slot::B] {
            if self.executing(slot)? {
                return Ok(Some(slot));
            }
        }
        Ok(None)
    }

    /// Whether flag 16 holds memory accesses back; HWSQ_ENABLE has no say in it.
    pub fn memory_paused(&self) -> Result<bool, Refusal> {
        let overridden_to_1 = self.flag_enables & self.flag_values & 1 << 16 != 0;
        Ok(isa::pauses_memory(self.family)? && overridden_to_1)
    }

    /// One FLAGS register: values low, enables high.
    pub fn flags(&self, high_flags: bool) -> u32 {
        let shift = if high_flags { 16 } else { 0 };
        (self.flag_values >> shift & 0xffff) | (self.flag_enables >> shift & 0xffff) << 16
    }

    /// Sets one FLAGS register.
    pub fn set_flags(&mut self, high_flags: bool, register: u32) {
        let shift = if high_flags { 16 } else { 0 };
        let others = !(0xffff << shift);
        self.flag_values = self.flag_values & others | (register & 0xffff) << shift;
        self.flag_enables = self.flag_enables & others | (register >> 16) << shift;
    }
}
