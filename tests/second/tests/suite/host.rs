//! Host registers of each family.

use crate::common::Script;
use second::isa::{code_size, CodeAddress, MmioAddress};
use second::machine::*;
use second::Refusal;

fn write(state: &mut State, address: u32, value: u32) -> Result<(), Refusal> {
    let before = state.clone();
    let answer = host_write(state, MmioAddress(address), value);
    if answer.is_err() {
        assert_eq!(*state, before);
    }
    answer
}

fn read(state: &State, address: u32) -> Result<u32, Refusal> {
    host_read(state, MmioAddress(address))
}

fn fresh(family: u8) -> State {
    State::fresh(family).unwrap()
}

/// Whether the tables give a register at the address, by kind.
fn plain(address: u32) -> bool {
    matches!(address, 0x1098 | 0x1304 | 0x1310 | 0x1314)
}

fn in_code(family: u8, address: u32) -> bool {
    let size = code_size(family).unwrap().min(256) as u32;
    let old = (0x1400..0x1400 + size).contains(&address);
    let new = family == 4 && (0x8_0000..0x8_0200).contains(&address);
    (old || new) && address.is_multiple_of(4)
}

#[test]
fn the_map_of_every_family() {
    for family in 1..=4 {
        let state = fresh(family);
        for address in (0..0x2000)
            .chain(0x7_ff00..0x8_0400)
            .chain(0xffff_fff0..=u32::MAX)
        {
            let both =
                plain(address) || in_code(family, address) || family == 4 && address == 0x1318;
            let readable = both || address == 0x1308;
            let writable = both || address == 0x130c;
            let expected = if readable {
                Ok(0)
            } else {
                Err(Refusal::NoRegister)
            };
            assert_eq!(read(&state, address), expected, "{family} {address:x}");
            let expected = if writable {
                Ok(())
            } else {
                Err(Refusal::NoRegister)
            };
            assert_eq!(
                write(&mut state.clone(), address, 0),
                expected,
                "{family} {address:x}"
            );
        }
    }
}

#[test]
fn events_is_neither_written_nor_read() {
    for family in 1..=4 {
        assert_eq!(
            write(&mut fresh(family), 0x1578, 0),
            Err(Refusal::NoRegister)
        );
        assert_eq!(read(&fresh(family), 0x1578), Err(Refusal::NoRegister));
    }
}

#[test]
fn only_bits_with_meaning_read_back() {
    for family in 1..=4 {
        let mut state = fresh(family);
        for (address, kept) in [
            (0x1098, 0x18),
            (0x1304, u32::MAX),
            (0x1310, u32::MAX),
            (0x1314, u32::MAX),
            (0x1318, 0x0101_0101),
        ] {
            if address == 0x1318 && family != 4 {
                assert_eq!(
                    write(&mut state, address, u32::MAX),
                    Err(Refusal::NoRegister)
                );
                continue;
            }
            write(&mut state, address, u32::MAX).unwrap();
            assert_eq!(read(&state, address), Ok(kept));
            write(&mut state, address, 0).unwrap();
            assert_eq!(read(&state, address), Ok(0));
        }
        write(&mut state, 0x1098, 8).unwrap();
        assert!(state.hwsq_enable && !state.override_mode);
        write(&mut state, 0x1098, 0x10).unwrap();
        assert!(!state.hwsq_enable && state.override_mode);
    }
}

#[test]
fn flags_hold_values_low_and_enables_high() {
    let mut state = fresh(1);
    write(&mut state, 0x1310, 0x8001_4002).unwrap();
    write(&mut state, 0x1314, 0x1234_5678).unwrap();
    assert_eq!(
        (state.flag_values, state.flag_enables),
        (0x5678_4002, 0x1234_8001)
    );
    assert_eq!(read(&state, 0x1310), Ok(0x8001_4002));
    assert_eq!(read(&state, 0x1314), Ok(0x1234_5678));
    write(&mut state, 0x1310, 0).unwrap();
    assert_eq!(
        (state.flag_values, state.flag_enables),
        (0x5678_0000, 0x1234_0000)
    );
}

#[test]
fn code_words_upload_four_bytes() {
    for family in 1..=4 {
        let mut state = fresh(family);
        write(&mut state, 0x1404, 0x7856_3412).unwrap();
        assert_eq!(state.code[3..9], [0, 0x12, 0x34, 0x56, 0x78, 0]);
        assert_eq!(state.marks[3..9], [0, 1, 1, 1, 1, 0]);
        assert_eq!(read(&state, 0x1404), Ok(0x7856_3412));
        let last = code_size(family).unwrap().min(256) - 4;
        write(&mut state, 0x1400 + last as u32, 1).unwrap();
        assert_eq!(state.marks[last..last + 4], [1; 4]);
        let past = 0x1400 + last as u32 + 4;
        assert_eq!(write(&mut state, past, 1), Err(Refusal::NoRegister));
        assert_eq!(write(&mut state, 0x1401, 1), Err(Refusal::NoRegister));
    }
}

#[test]
fn both_windows_of_family_4_show_one_ram() {
    let mut state = fresh(4);
    write(&mut state, 0x8_0000, 0x0403_0201).unwrap();
    write(&mut state, 0x14fc, 0xaabb_ccdd).unwrap();
    write(&mut state, 0x8_01fc, 7).unwrap();
    assert_eq!(read(&state, 0x1400), Ok(0x0403_0201));
    assert_eq!(read(&state, 0x8_00fc), Ok(0xaabb_ccdd));
    assert_eq!(state.code[508], 7);
    assert_eq!(write(&mut state, 0x8_0200, 0), Err(Refusal::NoRegister));
    assert_eq!(write(&mut state, 0x8_0002, 0), Err(Refusal::NoRegister));
}

#[test]
fn bytes_never_uploaded_read_0() {
    let mut state = fresh(2);
    state.code[..4].copy_from_slice(&[1, 2, 3, 4]);
    state.marks[..4].copy_from_slice(&[0, 1, 0, 1]);
    assert_eq!(read(&state, 0x1400), Ok(0x0400_0200));
}

#[test]
fn start_picks_slot_and_entry() {
    for family in 1..=3 {
        for entry in 0..4 {
            let mut state = fresh(family);
            write(&mut state, 0x1304, 0xf37f_2010).unwrap();
            write(&mut state, 0x130c, 0xffff_fff0 | entry << 2 | 1).unwrap();
            let ip = 0xf37f_2010u32 >> (8 * entry) & 0xff;
            assert_eq!(read(&state, 0x1308), Ok((0x100 | ip) << 16));
            write(&mut state, 0x130c, 0).unwrap();
            assert_eq!(read(&state, 0x1308), Ok(ip << 16));
            write(&mut state, 0x130c, entry << 2 | 3).unwrap();
            assert_eq!(read(&state, 0x1308), Ok(ip << 16 | 0x100 | ip));
        }
    }
}

#[test]
fn family_4_starts_slot_a_whatever_the_slot_bit() {
    for bit in [0, 2] {
        for entry in 0..4 {
            let mut state = fresh(4);
            write(&mut state, 0x1304, 0x4030_2010).unwrap();
            write(&mut state, 0x1318, 0xfeff_feff).unwrap();
            write(&mut state, 0x130c, entry << 2 | bit | 1).unwrap();
            let high = [1, 0, 1, 0][entry as usize];
            let ip = 0x10 * (entry + 1) + (high << 8);
            assert_eq!(state.slot(Slot::A).ip, CodeAddress(ip));
            assert_eq!(read(&state, 0x1308), Ok(0x100 | ip & 0xff | high << 10));
            assert_eq!(write(&mut state, 0x1304, 0), Err(Refusal::SlotExecuting));
            write(&mut state, 0x130c, 2 - bit).unwrap();
            assert_eq!(read(&state, 0x1308), Ok(ip & 0xff | high << 10));
        }
    }
}

#[test]
fn while_a_slot_executes_only_an_abort_is_taken() {
    for family in 1..=3 {
        for slot_bit in [0, 2] {
            let mut state = fresh(family);
            write(&mut state, 0x130c, 1 | slot_bit).unwrap();
            for address in [0x1098, 0x1304, 0x1310, 0x1314, 0x1400] {
                assert_eq!(write(&mut state, address, 0), Err(Refusal::SlotExecuting));
            }
            assert_eq!(write(&mut state, 0x130c, 1), Err(Refusal::SlotExecuting));
            assert_eq!(write(&mut state, 0x130c, 3), Err(Refusal::SlotExecuting));
            assert_eq!(write(&mut state, 0x1308, 0), Err(Refusal::NoRegister));
            let before = state.clone();
            write(&mut state, 0x130c, 2 - slot_bit).unwrap();
            assert_eq!(state, before);
            write(&mut state, 0x130c, slot_bit).unwrap();
            assert_eq!(state, fresh(family));
            write(&mut state, 0x130c, slot_bit).unwrap();
            assert_eq!(state, fresh(family));
        }
    }
}

#[test]
fn abort_clears_every_activity_and_keeps_the_rest() {
    for activity in [
        Activity::Fetching,
        Activity::Waiting,
        Activity::Blocked,
        Activity::Hung,
    ] {
        let mut state = Script::new(2, "ff").start(Slot::A);
        state.slot_mut(Slot::A).ip = CodeAddress(77);
        state.slot_mut(Slot::A).addr = MmioAddress(5);
        state.slot_mut(Slot::A).data = 6;
        state.slot_mut(Slot::A).activity = activity;
        let mut expected = state.clone();
        expected.slot_mut(Slot::A).activity = Activity::Idle;
        write(&mut state, 0x130c, 2).unwrap();
        assert_eq!(state, expected);
        assert_eq!(read(&state, 0x1308), Ok(77));
    }
}

#[test]
fn status_bits_of_each_family() {
    let halves = [(1, 0x134), (2, 0x334), (3, 0x334), (4, 0x534)];
    for (family, half) in halves {
        let mut state = fresh(family);
        let hung = SlotState {
            ip: CodeAddress(0x134),
            activity: Activity::Hung,
            ..SlotState::default()
        };
        state.slots = [hung, hung];
        let expected = if family == 4 { half } else { half << 16 | half };
        assert_eq!(read(&state, 0x1308), Ok(expected));
    }
    let mut state = fresh(4);
    state.slot_mut(Slot::A).ip = CodeAddress(512);
    assert_eq!(read(&state, 0x1308), Ok(0));
}

#[test]
fn slot_b_of_family_4_counts_for_nothing() {
    let mut state = fresh(4);
    state.slot_mut(Slot::B).activity = Activity::Fetching;
    assert_eq!(state.executing_slot(), Ok(None));
    assert_eq!(write(&mut state, 0x1304, 1), Ok(()));
}

#[test]
fn an_unknown_family_is_refused_first() {
    assert_eq!(State::fresh(0), Err(Refusal::UnfitInput));
    assert_eq!(State::fresh(5), Err(Refusal::UnfitInput));
    let mut state = fresh(1);
    state.family = 9;
    assert_eq!(write(&mut state, 0x1304, 0), Err(Refusal::UnfitInput));
    assert_eq!(write(&mut state, 3, 0), Err(Refusal::UnfitInput));
    assert_eq!(read(&state, 3), Err(Refusal::UnfitInput));
    assert_eq!(read(&state, 0x1308), Err(Refusal::UnfitInput));
    assert_eq!(state.memory_paused(), Err(Refusal::UnfitInput));
    assert_eq!(state.executing(Slot::A), Err(Refusal::UnfitInput));
    assert_eq!(state.executing_slot(), Err(Refusal::UnfitInput));
}

#[test]
fn memory_pause_needs_value_and_enable_of_flag_16() {
    for family in 1..=4 {
        for (flags_1, paused) in [(0, false), (1, false), (1 << 16, false), (0x1_0001, true)] {
            for control in [0, 8, 0x18] {
                let mut state = fresh(family);
                write(&mut state, 0x1314, flags_1).unwrap();
                write(&mut state, 0x1310, 0x1_0001).unwrap();
                write(&mut state, 0x1098, control).unwrap();
                assert_eq!(state.memory_paused(), Ok(paused && family > 1));
            }
        }
    }
}
