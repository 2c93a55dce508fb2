//! Single steps.

use crate::common::{Rows, Script};
use second::isa::{CodeAddress, MmioAddress};
use second::log::{Columns, Log, Place};
use second::machine::*;
use second::Refusal;

const START: Place = Place { row: 0, used: 0 };

fn one(state: &mut State, slot: Slot, rows: &Rows, place: Place) -> Step {
    step(state, slot, rows.columns(), place).unwrap()
}

/// One step in slot A against an empty log.
fn bare(state: &mut State) -> Did {
    let answer = one(state, Slot::A, &Rows::default(), START);
    assert_eq!(
        (answer.place, answer.wait_clocks, answer.ewait_clocks),
        (START, 0, 0)
    );
    answer.did
}

fn ip(state: &State) -> u32 {
    state.slot(Slot::A).ip.0
}

#[test]
fn exit_idles_the_slot_and_keeps_ip() {
    for family in 1..=4 {
        let mut state = Script::at(family, 5, "7f").start(Slot::A);
        let mut expected = state.clone();
        expected.slot_mut(Slot::A).activity = Activity::Idle;
        assert_eq!(bare(&mut state), Did::Done);
        assert_eq!(state, expected);
        assert_eq!(bare(&mut state), Did::Nothing);
        assert_eq!(state, expected);
    }
}

#[test]
fn inactive_slots_do_nothing() {
    for activity in [
        Activity::Idle,
        Activity::Waiting,
        Activity::Blocked,
        Activity::Hung,
    ] {
        let mut state = Script::new(2, "a0").start(Slot::A);
        state.slot_mut(Slot::A).activity = activity;
        let before = state.clone();
        let rows = Rows::generous();
        let place = Place { row: 3, used: 4 };
        let answer = one(&mut state, Slot::A, &rows, place);
        assert_eq!(
            answer,
            Step {
                did: Did::Nothing,
                place,
                wait_clocks: 0,
                ewait_clocks: 0
            }
        );
        assert_eq!(state, before);
    }
}

#[test]
fn slot_b_has_its_own_registers() {
    let mut state = Script::new(2, "e278563412 e000161000").start(Slot::B);
    state.slot_mut(Slot::A).ip = CodeAddress(9);
    let a = *state.slot(Slot::A);
    let rows = Rows::default();
    assert_eq!(one(&mut state, Slot::A, &rows, START).did, Did::Nothing);
    assert_eq!(one(&mut state, Slot::B, &rows, START).did, Did::Done);
    let wrote = Did::Wrote {
        address: MmioAddress(0x10_1600),
        data: 0x1234_5678,
    };
    assert_eq!(one(&mut state, Slot::B, &rows, START).did, wrote);
    assert_eq!(*state.slot(Slot::A), a);
    assert_eq!(state.slot(Slot::B).ip, CodeAddress(10));
    let mut state = Script::new(4, "a0").start(Slot::B);
    let before = state.clone();
    assert_eq!(one(&mut state, Slot::B, &rows, START).did, Did::Nothing);
    assert_eq!(state, before);
}

#[test]
fn short_forms_keep_the_high_half() {
    let mut state = Script::new(3, "42cdab 403412").start(Slot::A);
    state.slot_mut(Slot::A).addr = MmioAddress(0x1111_2222);
    state.slot_mut(Slot::A).data = 0x3333_4444;
    assert_eq!(bare(&mut state), Did::Done);
    assert_eq!(state.slot(Slot::A).data, 0x3333_abcd);
    let wrote = Did::Wrote {
        address: MmioAddress(0x1111_1234),
        data: 0x3333_abcd,
    };
    assert_eq!(bare(&mut state), wrote);
    assert_eq!(state.slot(Slot::A).addr, MmioAddress(0x1111_1234));
    assert_eq!(ip(&state), 6);
}

#[test]
fn a_poke_without_hwsq_enable_blocks() {
    for (text, addr, end) in [("e000161000", 0x10_1600, 5), ("400016", 0x1600, 3)] {
        let mut state = Script::new(2, text).start(Slot::A);
        state.hwsq_enable = false;
        assert_eq!(bare(&mut state), Did::Done);
        assert_eq!(state.slot(Slot::A).addr, MmioAddress(addr));
        assert_eq!(state.slot(Slot::A).activity, Activity::Blocked);
        assert_eq!(ip(&state), end);
        assert_eq!(host_read(&state, MmioAddress(0x1308)), Ok(0x100 | end));
        assert_eq!(bare(&mut state), Did::Nothing);
    }
}

#[test]
fn pokes_change_no_register() {
    let mut state = Script::new(2, "e200000000 e098100000").start(Slot::A);
    bare(&mut state);
    let mut expected = state.clone();
    let wrote = Did::Wrote {
        address: MmioAddress(0x1098),
        data: 0,
    };
    assert_eq!(bare(&mut state), wrote);
    expected.slot_mut(Slot::A).addr = MmioAddress(0x1098);
    expected.slot_mut(Slot::A).ip = CodeAddress(10);
    assert_eq!(state, expected);
}

#[test]
fn flag_opcodes_on_every_flag() {
    for family in 1..=4 {
        for flag in 0..32u8 {
            for (values, enables) in [(0, 0), (u32::MAX, 0), (0, u32::MAX), (u32::MAX, u32::MAX)] {
                for (base, value, enable) in
                    [(0x80u8, None, 0), (0xa0, Some(1), 1), (0xc0, Some(0), 1)]
                {
                    let mut state = Script::new(family, "").start(Slot::A);
                    state.code[0] = base | flag;
                    state.flag_values = values;
                    state.flag_enables = enables;
                    assert_eq!(bare(&mut state), Did::Done);
                    let bit = 1u32 << flag;
                    let value = value.unwrap_or(values >> flag & 1);
                    assert_eq!(state.flag_values, values & !bit | value << flag);
                    assert_eq!(state.flag_enables, enables & !bit | enable << flag);
                }
            }
        }
    }
}

#[test]
fn unknown_opcodes_hang_or_pass() {
    for (family, hangs) in [(1, false), (2, true), (3, true), (4, false)] {
        let mut state = Script::new(family, "ffa0").start(Slot::A);
        assert_eq!(bare(&mut state), Did::UnknownOpcode);
        assert_eq!(ip(&state), 1);
        assert_eq!(state.slot(Slot::A).activity == Activity::Hung, hangs);
        let status = if hangs { 0x301 } else { 0x101 };
        assert_eq!(host_read(&state, MmioAddress(0x1308)), Ok(status));
        let next = if hangs { Did::Nothing } else { Did::Done };
        assert_eq!(bare(&mut state), next);
        assert_eq!(state.flag_enables, u32::from(!hangs));
    }
    let mut state = Script::new(1, "5fa1a2").start(Slot::A);
    assert_eq!(bare(&mut state), Did::UnknownOpcode);
    assert_eq!(bare(&mut state), Did::Done);
    assert_eq!((ip(&state), state.flag_values), (2, 2));
}

#[test]
fn fetches_past_the_code_ram_stop() {
    for (family, size) in [(1u8, 64u32), (2, 128), (3, 256), (4, 512)] {
        for past in [size, size + 1, u32::MAX] {
            let mut state = Script::new(family, "").start(Slot::A);
            state.slot_mut(Slot::A).ip = CodeAddress(past);
            let before = state.clone();
            for _ in 0..2 {
                assert_eq!(bare(&mut state), Did::Stopped(Stop::PastCode));
                assert_eq!(state, before);
            }
        }
        let mut state = Script::at(family, size - 1, "a0").start(Slot::A);
        assert_eq!(bare(&mut state), Did::Done);
        assert_eq!(ip(&state), size);
        assert_eq!(bare(&mut state), Did::Stopped(Stop::PastCode));
        assert_eq!(ip(&state), size);
    }
    let mut state = Script::at(2, 124, "e2").start(Slot::A);
    let before = state.clone();
    assert_eq!(bare(&mut state), Did::Stopped(Stop::PastCode));
    assert_eq!(state, before);
}

#[test]
fn fetches_of_bytes_never_uploaded_stop() {
    for missing in 0..5 {
        let mut state = Script::new(2, "e2ffffffff").without(missing).start(Slot::A);
        let before = state.clone();
        assert_eq!(bare(&mut state), Did::Stopped(Stop::NeverUploaded));
        assert_eq!(state, before);
    }
    let mut state = Script::new(2, "e2ffffffff").without(5).start(Slot::A);
    assert_eq!(bare(&mut state), Did::Done);
    let mut state = Script::at(2, 126, "e2").without(127).start(Slot::A);
    assert_eq!(bare(&mut state), Did::Stopped(Stop::PastCode));
    let mut state = Script::new(2, "ff").without(0).start(Slot::A);
    assert_eq!(bare(&mut state), Did::Stopped(Stop::NeverUploaded));
}

#[test]
fn waits_move_the_place_and_may_stay_unfinished() {
    let rows = Rows::new(&[(40, 0, 0), (24, 0, 0), (31, 0, 0)]);
    let mut state = Script::new(1, "01010100").start(Slot::A);
    let place = Place { row: 0, used: 32 };
    let expected = Step {
        did: Did::Done,
        place,
        wait_clocks: 32,
        ewait_clocks: 0,
    };
    assert_eq!(one(&mut state, Slot::A, &rows, START), expected);
    let expected = Step {
        place: Place { row: 2, used: 0 },
        ..expected
    };
    assert_eq!(one(&mut state, Slot::A, &rows, place), expected);
    let expected = Step {
        place: Place { row: 3, used: 0 },
        wait_clocks: 31,
        ..expected
    };
    assert_eq!(
        one(&mut state, Slot::A, &rows, Place { row: 2, used: 0 }),
        expected
    );
    assert_eq!(state.slot(Slot::A).activity, Activity::Waiting);
    assert_eq!(ip(&state), 3);
    let expected = Step {
        did: Did::Nothing,
        wait_clocks: 0,
        ..expected
    };
    assert_eq!(
        one(&mut state, Slot::A, &rows, Place { row: 3, used: 0 }),
        expected
    );
}

#[test]
fn ewaits_search_from_the_present_row() {
    let rows = Rows::new(&[(10, 0, u32::MAX), (20, 4, 0), (30, 4, 4)]);
    let at = |row, used| Place { row, used };
    for (value, from, to, clocks) in [
        ("00", at(0, 3), at(1, 0), 7),
        ("01", at(0, 3), at(2, 0), 27),
        ("00", at(1, 5), at(1, 5), 0),
        ("01", at(2, 29), at(2, 29), 0),
    ] {
        let mut state = Script::new(2, &format!("5f02{value}")).start(Slot::A);
        let answer = one(&mut state, Slot::A, &rows, from);
        let expected = Step {
            did: Did::Done,
            place: to,
            wait_clocks: 0,
            ewait_clocks: clocks,
        };
        assert_eq!(answer, expected);
        assert_eq!(state.slot(Slot::A).activity, Activity::Fetching);
    }
    for text in ["5f0200", "5f2000", "5f0202", "5fff01", "5f02ff"] {
        let mut state = Script::new(2, text).start(Slot::A);
        let answer = one(&mut state, Slot::A, &rows, at(2, 10));
        assert_eq!((answer.place, answer.ewait_clocks), (at(3, 0), 20));
        assert_eq!(state.slot(Slot::A).activity, Activity::Waiting);
        assert_eq!(ip(&state), 3);
    }
}

#[test]
fn a_wait_of_0_needs_no_row() {
    for text in ["00", "04", "3c"] {
        let mut state = Script::new(1, text).start(Slot::A);
        assert_eq!(bare(&mut state), Did::Done);
        assert_eq!(state.slot(Slot::A).activity, Activity::Fetching);
    }
}

#[test]
fn step_refuses_family_then_log_and_place() {
    let mut state = Script::new(2, "a0").start(Slot::A);
    let before = state.clone();
    let outside = Place { row: 1, used: 1 };
    for (clocks, known, place) in [
        (&[0u64][..], &[0u32][..], START),
        (&[1], &[], START),
        (&[1], &[0], outside),
        (&[1], &[0], Place { row: 0, used: 1 }),
        (&[1], &[0], Place { row: 2, used: 0 }),
    ] {
        let columns = Columns {
            clocks,
            known,
            values: &[0],
        };
        let answer = step(&mut state, Slot::A, columns, place);
        assert_eq!(answer, Err(Refusal::UnfitLog));
        assert_eq!(state, before);
    }
    state.family = 0;
    let unfit = Rows::new(&[(0, 0, 0)]);
    let answer = step(&mut state, Slot::A, unfit.columns(), outside);
    assert_eq!(answer, Err(Refusal::UnfitInput));
    let empty = Rows::default();
    let log = Log::new(empty.columns()).unwrap();
    assert_eq!(
        step_untested(&mut state, Slot::A, &log, START).did,
        Did::Nothing
    );
}

#[test]
fn idle_slots_are_refused_too() {
    let mut state = State::fresh(2).unwrap();
    let unfit = Rows::new(&[(0, 0, 0)]);
    let answer = step(&mut state, Slot::A, unfit.columns(), START);
    assert_eq!(answer, Err(Refusal::UnfitLog));
}
