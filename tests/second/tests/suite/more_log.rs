//! Pairs of runs, the second under more log.

use crate::common::{Rows, Script, ALL, ENABLED};
use second::audit::{Registers, WRITE_ENTRIES};
use second::isa::CodeAddress;
use second::more_log::WaitEnd::{At, Never};
use second::more_log::{filled_in, keeps_writes, never_later, wait_ends, Masks, WaitEnd};
use second::Refusal;

/// data 12345678, addr 00101600, a wait for event 1 to be 1, addrlo 2004, exit.
const HELD: &str = "e278563412 e000161000 5f0101 400420 7f";
const FIRST: [u32; 2] = [0x10_1600, 0x1234_5678];
const BOTH: [u32; 4] = [0x10_1600, 0x1234_5678, 0x10_2004, 0x1234_5678];

/// What a run shows: its writes and the ends of its waits.
#[derive(Debug, PartialEq, Eq)]
pub struct Shown {
    pub writes: Vec<u32>,
    pub ends: Vec<WaitEnd>,
}

impl Shown {
    fn new(writes: &[u32], ends: &[WaitEnd]) -> Shown {
        Shown {
            writes: writes.to_vec(),
            ends: ends.to_vec(),
        }
    }
}

pub fn shown_from(script: &Script, start: Registers, rows: &Rows) -> Shown {
    let mut writes = vec![0; WRITE_ENTRIES];
    let replayed = script.replay_from(start, rows, &mut writes).unwrap();
    writes.truncate(2 * replayed.run.writes as usize);
    let ends = wait_ends(script.slices(), start, rows.columns()).unwrap();
    Shown { writes, ends }
}

/// A run with HWSQ_ENABLE 1 and all other registers 0.
fn shown(script: &Script, rows: &[(u64, u32, u32)]) -> Shown {
    shown_from(script, ENABLED, &Rows::new(rows))
}

fn ends(family: u8, text: &str, rows: &[(u64, u32, u32)]) -> Vec<WaitEnd> {
    shown(&Script::new(family, text), rows).ends
}

/// What is claimed of every pair.
pub fn holds(before: &Shown, now: &Shown) -> bool {
    keeps_writes(&before.writes, &now.writes) && never_later(&before.ends, &now.ends)
}

#[test]
fn added_rows_only_add_writes_after() {
    let script = Script::new(2, HELD);
    assert_eq!(script.verdict(ALL), (0, 16));
    let before = shown(&script, &[(10, 0, 0)]);
    assert_eq!(before, Shown::new(&FIRST, &[Never]));
    let stuck = shown(&script, &[(10, 0, 0), (7, 0, 2), (9, 2, 0)]);
    assert_eq!(stuck, before);
    let now = shown(&script, &[(10, 0, 0), (7, 0, 2), (5, 2, 2)]);
    assert_eq!(now, Shown::new(&BOTH, &[At(17)]));
    assert!(holds(&before, &stuck) && holds(&before, &now));
    assert!(!keeps_writes(&now.writes, &before.writes));
    assert!(!never_later(&now.ends, &before.ends));
}

#[test]
fn the_last_clock_completes_a_wait() {
    let exact = [At(32), At(96)];
    assert_eq!(ends(1, "01027f", &[(40, 0, 0), (56, 0, 0)]), exact);
    let added = [(40, 0, 0), (56, 0, 0), (1, 0, 0)];
    assert_eq!(ends(1, "01027f", &added), exact);
    for short in [&[(40, 0, 0), (55, 0, 0)][..], &[(32, 0, 0)]] {
        assert_eq!(ends(1, "01027f", short), [At(32), Never]);
    }
    // The end of the old log is the start of the first added row.
    let script = "01 5f0101 7f";
    assert_eq!(ends(3, script, &[(32, 2, 2)]), [At(32), Never]);
    assert_eq!(ends(3, script, &[(32, 2, 2), (4, 2, 2)]), [At(32), At(32)]);
    assert_eq!(ends(3, script, &[(33, 2, 2), (4, 2, 2)]), [At(32), At(32)]);
}

#[test]
fn waits_cut_off_never_end() {
    assert_eq!(ends(1, "02017f", &[(63, 0, 0)]), [Never]);
    assert_eq!(ends(1, "02017f", &[(63, 0, 0), (1, 0, 0)]), [At(64), Never]);
    let long = [(63, 0, 0), (1 << 48, 0, 0)];
    assert_eq!(ends(1, "02017f", &long), [At(64), At(96)]);
    assert_eq!(ends(1, "00043c7f", &[]), [At(0); 3]);
    assert_eq!(ends(1, "000100", &[]), [At(0), Never]);
    // A wait for what no row can show is as unfinished under any log.
    for text in ["5f2001", "5f0102", "5fff00"] {
        assert_eq!(ends(2, text, &[(9, u32::MAX, u32::MAX)]), [Never]);
    }
    let most = vec![(1 << 48, 1, 1); 1024];
    assert_eq!(ends(2, "5f0000", &most), [Never]);
    let mut last = most;
    last[1023] = (1 << 48, 1, 0);
    assert_eq!(ends(2, "5f0000 7f", &last), [At(1023 << 48)]);
}

#[test]
fn only_waits_that_were_executed_are_told() {
    let rows = [(500, 2, 2)];
    let no_wait = "a0 e200000000 420000 e000000000 400000 8a c3 7f";
    assert_eq!(ends(2, no_wait, &rows), []);
    // On family 1 5f is a nop of one byte, and its would-be operands are waits.
    assert_eq!(ends(1, "5f01017f", &rows), [At(32), At(64)]);
    assert_eq!(ends(4, "5f01017f", &rows), [At(0)]);
    // Nothing is executed after a hang, a stop, a blocked poke or exit.
    assert_eq!(ends(2, "01 ff 01 7f", &rows), [At(32)]);
    assert_eq!(ends(4, "01 ff 01 7f", &rows), [At(32), At(64)]);
    assert_eq!(ends(2, "01 7f 01 7f", &rows), [At(32)]);
    let hole = Script::new(2, "01 01 7f").without(1);
    assert_eq!(shown(&hole, &rows).ends, [At(32)]);
    let poke = Script::new(2, "01 400000 01 7f");
    assert_eq!(shown(&poke, &rows).ends, [At(32), At(64)]);
    let blocked = shown_from(&poke, Registers::default(), &Rows::new(&rows));
    assert_eq!(blocked, Shown::new(&[], &[At(32)]));
    // A code RAM of zeros has a wait in each place.
    assert_eq!(ends(4, "", &[]), [At(0); 512]);
    assert_eq!(shown(&Script::at(3, 255, "01"), &rows).ends, [At(32)]);
}

/// A row's masks.
pub fn masks(known: u32, values: u32) -> Masks {
    Masks { known, values }
}

#[test]
fn filling_in_keeps_what_was_known() {
    // All sixteen cases of a bit, one in each place of the low half.
    let filled = filled_in(masks(0xff00, 0xf0f0), masks(0xcccc, 0xaaaa));
    assert_eq!(filled, masks(0xffcc, 0xf0aa));
    let row = masks(0x8000_0001, 0x7fff_ffff);
    assert_eq!(filled_in(row, masks(0, 0)), masks(0x8000_0001, 1));
    assert_eq!(filled_in(row, row), row);
    let all = masks(u32::MAX, 0x8000_0000);
    assert_eq!(filled_in(row, all), masks(u32::MAX, 1));
    assert_eq!(filled_in(all, row), all);
}

/// The rows with one of them filled in.
fn filled(rows: &[(u64, u32, u32)], row: usize, from: Masks) -> Vec<(u64, u32, u32)> {
    let mut rows = rows.to_vec();
    let (clocks, known, values) = rows[row];
    let Masks { known, values } = filled_in(masks(known, values), from);
    rows[row] = (clocks, known, values);
    rows
}

#[test]
fn a_filled_in_reading_releases_an_ewait_earlier() {
    let script = Script::new(2, HELD);
    let rows = [(10, 1, 0), (20, 4, 0), (30, 2, 2)];
    let before = shown(&script, &rows);
    assert_eq!(before, Shown::new(&BOTH, &[At(30)]));
    for (row, values, end) in [(0, 2, 0), (1, 2, 10), (0, 0, 30), (1, 0, 30), (2, 0, 30)] {
        let now = shown(&script, &filled(&rows, row, masks(2, values)));
        assert_eq!(now, Shown::new(&BOTH, &[At(end)]));
        assert!(holds(&before, &now));
        assert_eq!(holds(&now, &before), end == 30);
    }
    // The same where the ewait was stuck.
    let stuck = shown(&script, &rows[..2]);
    assert_eq!(stuck, Shown::new(&FIRST, &[Never]));
    let now = shown(&script, &filled(&rows[..2], 1, masks(2, 2)));
    assert_eq!(now, Shown::new(&BOTH, &[At(10)]));
    assert!(holds(&stuck, &now) && !holds(&now, &stuck));
}

#[test]
fn a_wait_may_take_longer_and_yet_end_no_later() {
    // For event 0 and for event 1 to be 1: 10 and 0 clocks, then 0 and 10.
    let rows = [(10, 0, 0), (20, 3, 3)];
    let script = Script::new(2, "5f0001 5f0101 7f");
    let before = shown(&script, &rows);
    assert_eq!(before.ends, [At(10), At(10)]);
    let now = shown(&script, &filled(&rows, 0, masks(1, 1)));
    assert_eq!(now.ends, [At(0), At(10)]);
    assert!(holds(&before, &now) && !holds(&now, &before));
    // A wait between the two takes as long as ever, from the earlier point.
    let script = Script::new(2, "5f0001 01 5f0101 01 7f");
    let rows = [(10, 0, 0), (20, 1, 1), (100, 2, 2)];
    let before = shown(&script, &rows);
    assert_eq!(before.ends, [At(10), At(42), At(42), At(74)]);
    let now = shown(&script, &filled(&rows, 0, masks(1, 1)));
    assert_eq!(now.ends, [At(0), At(32), At(32), At(64)]);
    assert!(holds(&before, &now));
}

#[test]
fn a_known_reading_changed_is_no_filling_in() {
    let script = Script::new(2, HELD);
    let before = shown(&script, &[(10, 2, 2)]);
    assert_eq!(before, Shown::new(&BOTH, &[At(0)]));
    // Changed, taken away, or put off by a row before it.
    for (rows, ends) in [
        (&[(10, 2, 0)][..], [Never]),
        (&[(10, 0, 2)], [Never]),
        (&[(1, 0, 0), (10, 2, 2)], [At(1)]),
    ] {
        let now = shown(&script, rows);
        assert_eq!(now.ends, ends);
        assert_eq!(keeps_writes(&before.writes, &now.writes), ends != [Never]);
        assert!(!never_later(&before.ends, &now.ends));
    }
    let kept = filled(&[(10, 2, 2)], 0, masks(2, 0));
    assert_eq!(shown(&script, &kept), before);
}

#[test]
fn value_bits_without_a_reading_mean_nothing() {
    let script = Script::new(2, HELD);
    let rows = [(10, 5, 4), (20, 2, 2)];
    let before = shown(&script, &rows);
    assert_eq!(before, Shown::new(&BOTH, &[At(10)]));
    for values in [0, 2, !5, u32::MAX] {
        let now = filled(&rows, 0, masks(0, values));
        assert_eq!(now[0], (10, 5, 4 | values & !5));
        assert_eq!(shown(&script, &now), before);
    }
}

#[test]
fn ends_and_writes_compared() {
    assert!(At(0) < At(1) && At(u64::MAX) < Never);
    assert!(never_later(&[], &[]) && never_later(&[], &[Never]));
    assert!(never_later(&[Never], &[Never]) && never_later(&[Never], &[At(u64::MAX)]));
    assert!(never_later(&[At(3), At(4)], &[At(3), At(3), Never]));
    assert!(!never_later(&[At(3), At(4)], &[At(0), At(5)]));
    assert!(!never_later(&[At(3), At(4)], &[At(4), At(4)]));
    assert!(!never_later(&[At(3), Never], &[At(3)]) && !never_later(&[Never], &[]));
    assert!(!never_later(&[At(u64::MAX)], &[Never]));
    assert!(keeps_writes(&[], &[]) && keeps_writes(&[], &FIRST));
    assert!(keeps_writes(&FIRST, &FIRST) && keeps_writes(&FIRST, &BOTH));
    assert!(!keeps_writes(&FIRST, &[]) && !keeps_writes(&BOTH, &FIRST));
    assert!(!keeps_writes(&[1, 2], &[1, 3, 1, 2]) && !keeps_writes(&[1, 2], &[3, 2]));
    assert!(!keeps_writes(&[1, 2, 3, 4], &[3, 4, 1, 2]));
}

/// The refusal of family 2 with one thing wrong.
fn refused(change: impl Fn(&mut Script, &mut Rows)) -> u8 {
    let mut script = Script::new(2, "01 7f");
    let mut rows = Rows::new(&[(1, 0, 0)]);
    change(&mut script, &mut rows);
    let answer = wait_ends(script.slices(), ENABLED, rows.columns());
    answer.map_or_else(Refusal::number, |_| 0)
}

#[test]
fn refusals_are_those_of_replay_but_for_entries() {
    assert_eq!(refused(|_, _| {}), 0);
    assert_eq!(refused(|script, _| script.family = 5), 9);
    assert_eq!(refused(|script, _| script.family = 3), 9);
    assert_eq!(refused(|script, _| script.code.push(0)), 9);
    assert_eq!(refused(|script, _| script.marks[127] = 2), 9);
    assert_eq!(refused(|script, _| script.marks.truncate(127)), 9);
    assert_eq!(refused(|script, _| script.entry = CodeAddress(255)), 0);
    assert_eq!(refused(|script, _| script.entry = CodeAddress(256)), 9);
    assert_eq!(refused(|_, rows| rows.clocks[0] = 0), 15);
    assert_eq!(refused(|_, rows| rows.clocks[0] = (1 << 48) + 1), 15);
    assert_eq!(refused(|_, rows| rows.known.push(0)), 15);
    assert_eq!(refused(|_, rows| rows.values.clear()), 15);
    assert_eq!(refused(|_, rows| *rows = Rows::new(&[(1, 0, 0); 1024])), 0);
    assert_eq!(refused(|_, rows| *rows = Rows::new(&[(1, 0, 0); 1025])), 15);
    let both = |script: &mut Script, rows: &mut Rows| {
        script.marks.clear();
        rows.values.clear();
    };
    assert_eq!(refused(both), 9);
}
