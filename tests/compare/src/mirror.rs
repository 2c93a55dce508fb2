//! The second program's answers in the shape of the proved ones, so that they compare member by member.

use hwsq::{
    Access, Decoded, Encoded, Facts, Reading, Replayed, Shown, Slot, State, Stepped, Verdict,
};
use second::audit::{self, Ending, Fault, Pass};
use second::isa::{self, Instruction};
use second::log::Place;
use second::machine::{self, Activity, Did, SlotState, Step, Stop};
use second::witness::Witness;
use second::Refusal;

/// Kind and operands of an instruction, as include/hwsq.h numbers them.
pub fn instruction(instruction: Instruction) -> (u8, u32, u8) {
    match instruction {
        Instruction::Wait { length, shift } => (1, length.into(), shift),
        Instruction::AddrLo(low) => (2, low.into(), 0),
        Instruction::DataLo(low) => (3, low.into(), 0),
        Instruction::Ewait { event, value } => (4, event.into(), value),
        Instruction::Exit => (5, 0, 0),
        Instruction::Unset(flag) => (6, flag.into(), 0),
        Instruction::Set1(flag) => (7, flag.into(), 0),
        Instruction::Set0(flag) => (8, flag.into(), 0),
        Instruction::Addr(address) => (9, address.0, 0),
        Instruction::Data(data) => (10, data, 0),
    }
}

fn number<T>(answer: &Result<T, Refusal>) -> u8 {
    answer.as_ref().err().map_or(0, |refusal| refusal.number())
}

/// The facts of a family; of a number that names none all are 0.
pub fn facts(family: u8) -> Facts {
    let known = || {
        Ok(Facts {
            refusal: 0,
            hangs: isa::unknown_hangs(family)?,
            pauses: isa::pauses_memory(family)?,
            size: isa::code_size(family)?,
            slots: isa::slot_count(family)?,
            entry: isa::highest_entry(family)? as usize,
        })
    };
    known().unwrap_or_else(|refusal: Refusal| Facts {
        refusal: refusal.number(),
        hangs: false,
        pauses: false,
        size: 0,
        slots: 0,
        entry: 0,
    })
}

pub fn decoded(answer: Result<(Instruction, usize), Refusal>) -> Decoded {
    let refusal = number(&answer);
    let ((kind, first, second), length) = match answer {
        Ok((found, length)) => (instruction(found), length),
        Err(_) => ((0, 0, 0), 0),
    };
    Decoded {
        refusal,
        kind,
        first,
        second,
        length,
    }
}

pub fn encoded(answer: Result<usize, Refusal>) -> Encoded {
    Encoded {
        refusal: number(&answer),
        length: answer.unwrap_or(0),
    }
}

pub fn verdict(answer: Result<Pass, Fault>) -> Verdict {
    match answer {
        Ok(pass) => Verdict {
            verdict: 0,
            place: pass.place.0 as usize,
            count: pass.instructions as usize,
            writes: pass.writes as usize,
            clocks: pass.wait_clocks,
        },
        Err(fault) => Verdict {
            verdict: fault.number.number(),
            place: fault.place.0 as usize,
            count: 0,
            writes: 0,
            clocks: 0,
        },
    }
}

const UNSHOWN: Shown = Shown {
    refusal: 0,
    verdict: 0,
    addr: 0,
    data: 0,
    place: 0,
    count: 0,
    clocks: 0,
    rows: 0,
    steps: 0,
    writes: 0,
};

/// A witness; the second program leaves it to the verdict what ADDR and DATA the second start has.
pub fn shown(answer: Result<Witness, Refusal>) -> Shown {
    let refusal = number(&answer);
    let Ok(told) = answer else {
        // There is no verdict, and 0 would be a pass.
        return Shown {
            refusal,
            verdict: refusal,
            ..UNSHOWN
        };
    };
    let Verdict {
        verdict,
        place,
        count,
        clocks,
        ..
    } = verdict(told.verdict);
    let half = |wanted| if verdict == wanted { 0x1_0000 } else { 0 };
    Shown {
        refusal,
        verdict,
        addr: half(4),
        data: half(5),
        place,
        count,
        clocks,
        rows: told.rows,
        steps: told.steps as usize,
        writes: told.writes as usize,
    }
}

/// The number of an ending, which a report gives by its word.
pub fn ending(ending: Ending) -> u8 {
    match ending {
        Ending::Exit => 1,
        Ending::Log => 2,
        Ending::Poke => 3,
        Ending::Hang => 4,
        Ending::Stop => 5,
    }
}

const UNREPLAYED: Replayed = Replayed {
    refusal: 0,
    ending: 0,
    addr: 0,
    data: 0,
    flags_0: 0,
    flags_1: 0,
    ip: 0,
    row: 0,
    used: 0,
    steps: 0,
    writes: 0,
    waited: 0,
    searched: 0,
    left: 0,
};

pub fn replayed(answer: Result<audit::Replayed, Refusal>) -> Replayed {
    let refusal = number(&answer);
    let Ok(told) = answer else {
        return Replayed {
            refusal,
            ..UNREPLAYED
        };
    };
    Replayed {
        refusal,
        ending: ending(told.run.ending),
        addr: told.addr.0,
        data: told.data,
        flags_0: told.flags_0,
        flags_1: told.flags_1,
        ip: told.ip.0 as usize,
        row: told.run.place.row,
        used: told.run.place.used,
        steps: told.run.steps as usize,
        writes: told.run.writes as usize,
        waited: told.run.wait_clocks,
        searched: told.run.ewait_clocks,
        left: told.run.left_clocks,
    }
}

fn slot(slot: &SlotState) -> Slot {
    Slot {
        mode: match slot.activity {
            Activity::Idle => 0,
            Activity::Fetching => 1,
            Activity::Waiting => 2,
            Activity::Blocked => 3,
            Activity::Hung => 4,
        },
        addr: slot.addr.0,
        data: slot.data,
        ip: slot.ip.0 as usize,
    }
}

pub fn state(state: &machine::State) -> State {
    State {
        family: state.family,
        enable: state.hwsq_enable,
        override_mode: state.override_mode,
        values: state.flag_values,
        enables: state.flag_enables,
        entries: state.entry_point,
        entries_high: state.entry_point_high,
        a: slot(&state.slots[0]),
        b: slot(&state.slots[1]),
        code: state.code,
        marks: state.marks,
    }
}

pub fn access(answer: Result<(), Refusal>, after: &machine::State) -> Access {
    Access {
        refusal: number(&answer),
        state: state(after),
    }
}

pub fn reading(answer: Result<u32, Refusal>) -> Reading {
    Reading {
        refusal: number(&answer),
        word: answer.unwrap_or(0),
    }
}

/// A step's answer; a refused step leaves the place as it was handed in.
pub fn stepped(answer: Result<Step, Refusal>, from: Place, after: &machine::State) -> Stepped {
    let refusal = number(&answer);
    let step = answer.unwrap_or(Step {
        did: Did::Nothing,
        place: from,
        wait_clocks: 0,
        ewait_clocks: 0,
    });
    let (effect, why, address, word) = match step.did {
        Did::Nothing => (0, 0, 0, 0),
        Did::Stopped(Stop::PastCode) => (1, 1, 0, 0),
        Did::Stopped(Stop::NeverUploaded) => (1, 2, 0, 0),
        Did::UnknownOpcode => (2, 0, 0, 0),
        Did::Done => (3, 0, 0, 0),
        Did::Wrote { address, data } => (4, 0, address.0, data),
    };
    Stepped {
        refusal,
        effect,
        why,
        address,
        word,
        row: step.place.row,
        used: step.place.used,
        waited: step.wait_clocks,
        searched: step.ewait_clocks,
        state: state(after),
    }
}
