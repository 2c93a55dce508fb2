//! Verdicts.

use crate::common::{Script, ALL};
use second::audit::{self, audit, listed, Pass};
use second::isa::{code_size, CodeAddress, MmioAddress};

fn pass(family: u8, text: &str) -> (u32, u32, u32, u64) {
    let pass = Script::new(family, text).audit(ALL).unwrap();
    (
        pass.place.0,
        pass.instructions,
        pass.writes,
        pass.wait_clocks,
    )
}

fn verdict(family: u8, text: &str) -> (u8, u32) {
    Script::new(family, text).verdict(ALL)
}

#[test]
fn listed_scripts_that_pass() {
    assert_eq!(pass(1, "7f"), (0, 1, 0, 0));
    assert_eq!(pass(2, "007f"), (1, 2, 0, 0));
    assert_eq!(pass(2, "057f"), (1, 2, 0, 128));
    assert_eq!(pass(2, "3f7f"), (1, 2, 0, 103_079_215_104));
    assert_eq!(pass(2, "5f1f017f"), (3, 2, 0, 0));
    assert_eq!(pass(1, "b07f"), (1, 2, 0, 0));
    assert_eq!(pass(2, "b0d07f"), (2, 3, 0, 0));
    assert_eq!(pass(2, "5f01007f"), (3, 2, 0, 0));
}

#[test]
fn listed_scripts_that_fail() {
    assert_eq!(verdict(1, "407f"), (3, 0));
    assert_eq!(verdict(2, "4000167f"), (4, 0));
    assert_eq!(verdict(2, "e0001610007f"), (5, 0));
    assert_eq!(verdict(2, "423412e0001610007f"), (5, 3));
    assert_eq!(verdict(2, "5f20017f"), (7, 0));
    assert_eq!(verdict(2, "b07f"), (8, 1));
    assert_eq!(Script::at(2, 127, "00").verdict(ALL), (1, 128));
    assert_eq!(Script::at(2, 127, "e2").verdict(ALL), (1, 127));
    let mut past = Script::new(2, "");
    past.entry = CodeAddress(128);
    assert_eq!(past.verdict(ALL), (1, 128));
}

#[test]
fn a_full_pass() {
    let script = Script::at(
        3,
        4,
        "e278563412 05 e000161000 420000 400416 5f0001 b0 90 7f",
    );
    let ranges = [0x10_1600, 0x10_1603, 0x10_1604, 0x10_1604];
    let expected = Pass {
        place: CodeAddress(4 + 22),
        instructions: 9,
        writes: 2,
        wait_clocks: 128,
    };
    assert_eq!(script.audit(&ranges), Ok(expected));
    assert_eq!(script.verdict(&ranges[..2]), (6, 4 + 14));
    assert_eq!(script.verdict(&ranges[2..]), (6, 4 + 6));
    assert_eq!(script.verdict(&[]), (6, 4 + 6));
}

#[test]
fn fault_1_past_the_code_ram() {
    for (family, size) in [(1, 64), (2, 128), (3, 256), (4, 512)] {
        assert_eq!(Script::new(family, "").verdict(ALL), (1, size));
    }
    for (text, length) in [("40", 3), ("42", 3), ("5f", 3), ("e0", 5), ("e2", 5)] {
        for behind in 1..=length {
            let entry = 128 - behind;
            let expected = if behind < length {
                1
            } else {
                verdict_whole(text)
            };
            let place = if expected == 1 && behind == length {
                128
            } else {
                entry
            };
            assert_eq!(Script::at(2, entry, text).verdict(ALL), (expected, place));
        }
    }
    for entry in [64, 255] {
        let mut script = Script::new(1, "7f");
        script.entry = CodeAddress(entry);
        assert_eq!(script.verdict(ALL), (1, entry));
    }
}

/// The verdict when all operands are there: the next place, or the poke's own fault.
fn verdict_whole(text: &str) -> u8 {
    match text {
        "40" => 4,
        "e0" => 5,
        _ => 1,
    }
}

#[test]
fn fault_2_never_uploaded() {
    assert_eq!(Script::new(2, "7f").without(0).verdict(ALL), (2, 0));
    assert_eq!(Script::new(2, "007f").without(1).verdict(ALL), (2, 1));
    for missing in 1..=5 {
        let script = Script::new(2, "00e2000000007f").without(missing);
        assert_eq!(script.verdict(ALL), (2, 1));
    }
    assert_eq!(Script::new(2, "7f").without(1).verdict(ALL), (0, 0));
    assert_eq!(Script::at(2, 126, "e2").without(127).verdict(ALL), (1, 126));
    assert_eq!(Script::at(2, 126, "e2").without(126).verdict(ALL), (2, 126));
}

#[test]
fn fault_3_on_every_family() {
    for family in 1..=4 {
        for first in [0x41, 0x43, 0x5e, 0x60, 0x7e, 0xe1, 0xe3, 0xff] {
            let text = format!("00{first:02x}7f");
            assert_eq!(verdict(family, &text), (3, 1));
            assert_eq!(Script::new(family, &text).without(1).verdict(ALL), (2, 1));
            assert_eq!(Script::new(family, &text).without(2).verdict(ALL), (3, 1));
        }
        let last = code_size(family).unwrap() as u32 - 1;
        assert_eq!(Script::at(family, last, "ff").verdict(ALL), (3, last));
    }
    assert_eq!(verdict(1, "5f01007f"), (3, 0));
}

#[test]
fn faults_4_5_6_in_order() {
    assert_eq!(verdict(2, "e200000000 400016 7f"), (4, 5));
    assert_eq!(Script::new(2, "400016").verdict(&[]), (4, 0));
    assert_eq!(Script::new(2, "e000000000").verdict(&[]), (5, 0));
    assert_eq!(Script::new(2, "e200000000 e000000000").verdict(&[]), (6, 5));
    assert_eq!(Script::new(2, "400016").without(2).verdict(&[]), (2, 0));
    assert_eq!(verdict(2, "e200000000 420000 e000000000 7f"), (0, 13));
    assert_eq!(verdict(2, "420000 e200000000 e000000000 7f"), (0, 13));
}

#[test]
fn addrlo_keeps_the_high_half_across_pokes() {
    let text = "e200000000 e000161000 400020 400030 7f";
    let ranges = [0x10_1600, 0x10_3000];
    let pass = Script::new(2, text).audit(&ranges).unwrap();
    assert_eq!((pass.writes, pass.instructions), (3, 5));
    assert_eq!(
        Script::new(2, text).verdict(&[0x10_1600, 0x10_2fff]),
        (6, 13)
    );
}

#[test]
fn fault_7_bounds() {
    for (operands, number) in [
        ("1f01", 0),
        ("0000", 0),
        ("2000", 7),
        ("0002", 7),
        ("ffff", 7),
    ] {
        let place = if number == 0 { 3 } else { 0 };
        assert_eq!(verdict(4, &format!("5f{operands}7f")), (number, place));
    }
}

#[test]
fn fault_8_looks_at_the_last_touch() {
    for family in 2..=4 {
        assert_eq!(verdict(family, "b07f"), (8, 1));
        assert_eq!(verdict(family, "d0b07f"), (8, 2));
        assert_eq!(verdict(family, "b0b17f"), (8, 2));
        assert_eq!(verdict(family, "b0907f"), (0, 2));
        assert_eq!(verdict(family, "b0d07f"), (0, 2));
        assert_eq!(verdict(family, "907f"), (0, 1));
        assert_eq!(verdict(family, "b17f"), (0, 1));
    }
    assert_eq!(verdict(1, "b07f"), (0, 1));
}

/// The verdict on plain slices.
fn raw(family: u8, code: usize, marks: &[u8], entry: u32, ranges: &[u32]) -> (u8, u32) {
    let script = audit::Script {
        family,
        code: &vec![0x7f; code],
        marks,
        entry: CodeAddress(entry),
    };
    match audit(script, ranges) {
        Ok(pass) => (0, pass.place.0),
        Err(fault) => (fault.number.number(), fault.place.0),
    }
}

#[test]
fn fault_9_and_its_bounds() {
    let marks = vec![1; 512];
    for family in [0, 5, 255] {
        assert_eq!(raw(family, 64, &marks[..64], 0, &[]), (9, 0));
    }
    for (family, size, top) in [(1, 64, 255), (2, 128, 255), (3, 256, 255), (4, 512, 511)] {
        assert_eq!(raw(family, size, &marks[..size], 7, &[]), (0, 7));
        assert_eq!(raw(family, size - 1, &marks[..size], 7, &[]), (9, 0));
        assert_eq!(raw(family, size + 1, &marks[..size], 7, &[]), (9, 0));
        assert_eq!(raw(family, size, &marks[..size - 1], 7, &[]), (9, 0));
        assert_eq!(raw(family, size, &[], 7, &[]), (9, 0));
        let expected = if size > top as usize {
            (0, top)
        } else {
            (1, top)
        };
        assert_eq!(raw(family, size, &marks[..size], top, &[]), expected);
        assert_eq!(raw(family, size, &marks[..size], top + 1, &[]), (9, 0));
        assert_eq!(raw(family, size, &marks[..size], u32::MAX, &[]), (9, 0));
        let mut odd = marks[..size].to_vec();
        odd[size - 1] = 2;
        assert_eq!(raw(family, size, &odd, 7, &[]), (9, 0));
    }
}

#[test]
fn fault_9_of_ranges() {
    let marks = [1; 64];
    let many = |entries: usize| raw(1, 64, &marks, 3, &vec![5; entries]);
    assert_eq!(many(0), (0, 3));
    assert_eq!(many(128), (0, 3));
    assert_eq!(many(1), (9, 0));
    assert_eq!(many(127), (9, 0));
    assert_eq!(many(129), (9, 0));
    assert_eq!(many(130), (9, 0));
    assert_eq!(raw(1, 64, &marks, 3, &[5, 4]), (9, 0));
    assert_eq!(raw(1, 64, &marks, 3, &[0, 0, 5, 4]), (9, 0));
}

#[test]
fn ranges_include_both_ends() {
    let ranges = [4, 8, 20, 20, 6, 12, u32::MAX, u32::MAX];
    let inside = |a| listed(&ranges, MmioAddress(a));
    let expected: Vec<u32> = (4..=12).chain([20]).collect();
    let found: Vec<u32> = (0..100).filter(|&a| inside(a)).collect();
    assert_eq!(found, expected);
    assert!(inside(u32::MAX) && !inside(u32::MAX - 1));
    assert!(!listed(&[], MmioAddress(0)));
    assert!(!listed(&[0], MmioAddress(0)));
    assert!(!listed(&[9, 1], MmioAddress(5)));
}
