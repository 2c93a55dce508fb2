//! What a comparison from outside takes apart: each field is named, so that a private one won't build.

use crate::captures::{exit, PLAIN};
use crate::common::{Rows, Script};
use second::audit::{Fault, Replayed, Run};
use second::isa::{CodeAddress, MmioAddress, LARGEST_CODE};
use second::job::{parse, GatedEvent, Job, Probe, Volts};
use second::log::{Columns, Place};
use second::machine::{step, Activity, Did, Slot, SlotState, State, Step};
use second::probe::{read, Calibration, Gate};
use second::shows::{shows, After, Doubt};
use second::witness::{witness, Lent, Witness};
use second::Refusal;

/// A state as anyone outside may put it together.
fn stepped(code: [u8; LARGEST_CODE], activity: Activity) -> State {
    let slot = SlotState {
        ip: CodeAddress(1),
        addr: MmioAddress(0),
        data: 0,
        activity,
    };
    let mut marks = [0; LARGEST_CODE];
    marks[..64].fill(1);
    State {
        family: 1,
        code,
        marks,
        slots: [slot, SlotState::default()],
        flag_values: 0,
        flag_enables: 0,
        hwsq_enable: true,
        override_mode: false,
        entry_point: 0,
        entry_point_high: 0,
    }
}

#[test]
fn whole_states_and_steps_compare() {
    let mut state = Script::new(1, "01 7f").start(Slot::A);
    let columns = Columns {
        clocks: &[9],
        known: &[0],
        values: &[0],
    };
    let answer = step(&mut state, Slot::A, columns, Place::default());
    let expected = Step {
        did: Did::Done,
        place: Place { row: 1, used: 0 },
        wait_clocks: 9,
        ewait_clocks: 0,
    };
    assert_eq!(answer, Ok(expected));
    assert_eq!(state, stepped(state.code, Activity::Waiting));
    assert_ne!(state, stepped(state.code, Activity::Fetching));
}

#[test]
fn whole_replays_and_jobs_compare() {
    let (replayed, _) = Script::new(2, "7f").replay(&Rows::default());
    let Replayed {
        run,
        ip: CodeAddress(ip),
        addr: MmioAddress(addr),
        data,
        flags_0,
        flags_1,
    } = replayed;
    assert_eq!((ip, addr, data, flags_0, flags_1), (0, 0, 0, 0, 0));
    let Run {
        ending,
        place,
        steps,
        writes,
        wait_clocks,
        ewait_clocks,
        left_clocks,
    } = run;
    assert_eq!((ending.word(), place), ("exit", Place { row: 0, used: 0 }));
    assert_eq!((steps, writes), (1, 0));
    assert_eq!((wait_clocks, ewait_clocks, left_clocks), (0, 0, 0));
    let Job {
        state,
        ranges,
        clocks,
        known,
        values,
        captures,
    } = parse(b"\x04\x02\x02\x0c\x13\0\0\x03\0\0\0\0").unwrap();
    assert_eq!(state.slots[0].activity, Activity::Fetching);
    assert!(ranges.is_empty() && clocks.is_empty() && known.is_empty() && values.is_empty());
    assert_eq!(captures.probes().count(), 0);
}

#[test]
fn whole_probes_compare() {
    let [low, high, gain, offset] = PLAIN;
    let job = exit().gate(3, 0, PLAIN).capture(3, 1.5).row(1, 0, 0).end();
    let expected = Probe {
        gated: GatedEvent {
            event: 3,
            gate: Gate::Normal { low, high },
            calibration: Calibration { gain, offset },
        },
        volts: Volts {
            least: Some(1.5),
            greatest: Some(1.5),
            between: 1,
        },
    };
    let job = parse(&job).unwrap();
    assert_eq!(job.captures.probes().collect::<Vec<_>>(), [&expected]);
}

/// What a witness claims of set1 16 and exit, if that is this fault at the exit.
fn claimed(number: Refusal) -> Witness {
    let place = CodeAddress(1);
    Witness {
        verdict: Err(Fault { number, place }),
        rows: 1,
        steps: 1,
        writes: 0,
    }
}

#[test]
fn whole_witnesses_and_doubts_compare() {
    let script = Script::new(2, "b0 7f");
    let (clocks, known, values) = (&mut [0; 171], &mut [0; 172], &mut [0; 173]);
    let lent = Lent {
        clocks,
        known,
        values,
    };
    let claim = claimed(Refusal::PausedAtExit);
    assert_eq!(witness(script.slices(), &[], lent), Ok(claim));
    let columns = Columns {
        clocks,
        known,
        values,
    };
    let answer = |claim| shows(&script.start(Slot::A), Slot::A, columns, &[], claim);
    assert_eq!(answer(claim), Ok(None));
    let slot = SlotState {
        ip: CodeAddress(1),
        ..SlotState::default()
    };
    let after = After {
        did: Did::Done,
        slot,
        memory_paused: true,
        log_used_up: false,
    };
    let doubt = Doubt::NotShown(after);
    assert_eq!(answer(claimed(Refusal::NotListed)), Err(doubt));
}

#[test]
fn volts_and_readings_compare_by_pattern() {
    let calibration = Calibration {
        gain: -1.0,
        offset: 0.0,
    };
    assert_eq!(calibration.volts(f32::from_bits(1)).to_bits(), 0x8000_0001);
    let gate = Gate::Inverted {
        low: -0.0,
        high: f32::from_bits(1),
    };
    assert_eq!(read(gate, calibration, 1), Ok(Some(1)));
}
