//! Starts of a script: what a start must be is put over a state in which all is random.

use makers::random::Random;
use second::audit::Script;
use second::isa::{self, CodeAddress, MmioAddress, LARGEST_CODE};
use second::machine::{Activity, Slot, SlotState, State};
use std::array;

/// The bit of the flag that pauses memory.
const PAUSE: u32 = 1 << 16;

/// The slot that runs, and a state that gives all that a start leaves open.
#[derive(Clone, PartialEq)]
pub struct Start {
    pub slot: Slot,
    pub open: State,
}

impl Start {
    /// One in a slot that the family has.
    pub fn random(random: &mut Random, family: u8) -> Start {
        let slots = isa::slot_count(family).unwrap_or(1);
        Start {
            slot: [Slot::A, Slot::B][random.below(slots)],
            open: anything(random),
        }
    }

    /// The state with the script uploaded as marked, other bytes being anything, and this slot about to run it.
    pub fn of(&self, script: Script) -> State {
        let mut state = self.open.clone();
        state.family = script.family;
        for (at, (&byte, &mark)) in script.code.iter().zip(script.marks).enumerate() {
            state.marks[at] = mark;
            if mark == 1 {
                state.code[at] = byte;
            }
        }
        state.hwsq_enable = true;
        let slot = state.slot_mut(self.slot);
        slot.ip = script.entry;
        slot.activity = Activity::Fetching;
        if state.memory_paused() == Ok(true) {
            state.flag_enables &= !PAUSE;
        }
        state
    }

    /// Starts that leave less to chance.
    pub fn simpler(&self) -> Vec<Start> {
        let changes: [fn(&mut Start); 7] = [
            |start| start.open = blank(),
            |start| start.slot = Slot::A,
            |start| start.open.code = [0; LARGEST_CODE],
            |start| start.open.marks = [0; LARGEST_CODE],
            |start| start.open.slots = [SlotState::default(); 2],
            |start| (start.open.flag_values, start.open.flag_enables) = (0, 0),
            |start| (start.open.entry_point, start.open.entry_point_high) = (0, 0),
        ];
        let simpler = changes.map(|change| {
            let mut start = self.clone();
            change(&mut start);
            start
        });
        let mut simpler = Vec::from(simpler);
        simpler.retain(|start| start != self);
        simpler
    }
}

/// A state in which nothing is known but that no slot executes.
fn anything(random: &mut Random) -> State {
    State {
        code: array::from_fn(|_| random.byte()),
        marks: array::from_fn(|_| random.byte() & 1),
        slots: array::from_fn(|_| idle(random)),
        flag_values: random.half(),
        flag_enables: random.half(),
        override_mode: random.chance(50),
        entry_point: random.half(),
        entry_point_high: random.half(),
        ..blank()
    }
}

fn idle(random: &mut Random) -> SlotState {
    SlotState {
        ip: CodeAddress(random.half() & 0x1ff),
        addr: MmioAddress(random.edgy()),
        data: random.edgy(),
        activity: Activity::Idle,
    }
}

/// A fresh state, of which the family doesn't count.
fn blank() -> State {
    State::fresh(1).expect("family 1 has a fresh state")
}
