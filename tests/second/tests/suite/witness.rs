//! Logs that show verdicts.

use crate::common::{number_and_place, Rows, Script, ALL};
use second::audit::Pass;
use second::isa::CodeAddress;
use second::log::Log;
use second::witness::{witness, LOG_ENTRIES};
use second::Refusal;

/// Where the pokes of the cases are allowed.
pub const POKES: &[u32] = &[0x10_1600, 0x10_16ff];

/// A wait for event 1, data 00000001, addrlo 1600, exit.
pub const WORKED: &str = "5f0101 e201000000 400016 7f";

/// A script, its verdict and what shows it.
pub struct Case {
    pub script: fn() -> Script,
    pub verdict: (u8, u32),
    rows: &'static [(u64, u32, u32)],
    steps: u32,
    writes: u32,
}

/// Each verdict once, in order.
pub const CASES: [Case; 9] = [
    Case {
        script: || Script::new(3, "e278563412 e000161000 05 5f1f01 420100 400416 7f"),
        verdict: (0, 20),
        rows: &[(129, 0, 0), (1, 1 << 31, 1 << 31)],
        steps: 6,
        writes: 2,
    },
    Case {
        script: || Script::at(2, 122, "5f0001 01 01 e2"),
        verdict: (1, 127),
        rows: &[(1, 0, 0), (65, 1, 1)],
        steps: 3,
        writes: 0,
    },
    Case {
        script: || Script::new(4, "5f0200 02 e200000000 7f").without(7),
        verdict: (2, 4),
        rows: &[(1, 0, 0), (65, 4, 0)],
        steps: 2,
        writes: 0,
    },
    Case {
        script: || Script::new(1, "01 a3 5f 7f"),
        verdict: (3, 2),
        rows: &[(33, 0, 0)],
        steps: 2,
        writes: 0,
    },
    Case {
        script: || Script::new(2, WORKED),
        verdict: (4, 8),
        rows: &[(1, 0, 0), (1, 2, 2)],
        steps: 2,
        writes: 0,
    },
    Case {
        script: || Script::new(3, "5f0101 420500 e000161000 7f"),
        verdict: (5, 6),
        rows: &[(1, 0, 0), (1, 2, 2)],
        steps: 2,
        writes: 0,
    },
    Case {
        script: || Script::new(4, "e201000000 e000161000 5f0500 400017 7f"),
        verdict: (6, 13),
        rows: &[(1, 0, 0), (1, 32, 0)],
        steps: 3,
        writes: 1,
    },
    Case {
        script: || Script::new(2, "5f0101 01 5f2000 7f"),
        verdict: (7, 4),
        rows: &[(1, 0, 0), (33, 2, 2)],
        steps: 2,
        writes: 0,
    },
    Case {
        script: || Script::new(3, "b0 5f0700 7f"),
        verdict: (8, 4),
        rows: &[(1, 0, 0), (1, 128, 0)],
        steps: 2,
        writes: 0,
    },
];

#[test]
fn each_verdict_has_its_log() {
    for (number, case) in CASES.iter().enumerate() {
        assert_eq!(usize::from(case.verdict.0), number);
        let script = (case.script)();
        let (witness, log) = script.witness(POKES);
        assert_eq!(witness.verdict, script.audit(POKES));
        assert_eq!(number_and_place(witness.verdict), case.verdict);
        assert_eq!(log, Rows::new(case.rows), "verdict {number}");
        assert_eq!(witness.rows, case.rows.len());
        assert_eq!((witness.steps, witness.writes), (case.steps, case.writes));
    }
}

/// The log of a script of family 4 that passes with all addresses allowed.
fn log_of_pass(text: &str) -> Rows {
    let (witness, log) = Script::new(4, text).witness(ALL);
    let Pass {
        instructions,
        writes,
        ..
    } = witness.verdict.unwrap();
    assert_eq!(instructions, witness.steps + 1);
    assert_eq!(writes, witness.writes);
    log
}

#[test]
fn without_ewait_there_is_one_row() {
    let pokes = "e200000000 e000000000 420000 400000 b0 d0 90 8a 7f";
    for text in ["7f", "007f", "043c7f", pokes] {
        assert_eq!(log_of_pass(text), Rows::new(&[(1, 0, 0)]));
    }
    for family in 1..=4 {
        let (witness, log) = Script::new(family, "7f").witness(&[]);
        assert_eq!((witness.rows, witness.steps, witness.writes), (1, 0, 0));
        assert_eq!(log, Rows::new(&[(1, 0, 0)]));
    }
}

#[test]
fn waits_make_the_present_row_longer() {
    assert_eq!(log_of_pass("05 01 7f"), Rows::new(&[(161, 0, 0)]));
    let text = "05 5f0101 01 3f 00 5f0101 02 5f0100 5f0100 01 7f";
    let long = 1 + 32 + 103_079_215_104 + 64;
    let rows = Rows::new(&[(129, 0, 0), (long, 2, 2), (33, 2, 0)]);
    assert_eq!(log_of_pass(text), rows);
    // Even the longest waits that fit make a row that a log may have.
    let script = Script::at(4, 0, &("3f".repeat(511) + "7f"));
    let (_, log) = script.witness(&[]);
    assert_eq!(log.clocks, [1 + 511 * 103_079_215_104]);
    assert!(Log::new(log.columns()).is_ok());
}

#[test]
fn an_ewait_that_the_present_row_releases_adds_no_row() {
    let twice = Rows::new(&[(1, 0, 0), (1, 8, 8)]);
    assert_eq!(log_of_pass("5f0301 5f0301 7f"), twice);
    assert_eq!(log_of_pass("5f0301 a5 e200000000 5f0301 7f"), twice);
    let back = Rows::new(&[(1, 0, 0), (1, 8, 8), (1, 8, 0), (1, 8, 8)]);
    assert_eq!(log_of_pass("5f0301 5f0300 5f0301 7f"), back);
    let equal = "5f0301 5f0301 5f0300 5f0300 5f0300 5f0301 7f";
    assert_eq!(log_of_pass(equal), back);
}

#[test]
fn a_row_has_a_reading_of_its_own_event_alone() {
    // The first row has none at all, so that not even 0 is shown there.
    let zero = Rows::new(&[(1, 0, 0), (1, 1 << 31, 0)]);
    assert_eq!(log_of_pass("5f1f00 7f"), zero);
    let others = Rows::new(&[(1, 0, 0), (1, 8, 8), (1, 16, 0), (1, 8, 8), (1, 1, 0)]);
    assert_eq!(log_of_pass("5f0301 5f0400 5f0301 5f0000 7f"), others);
}

#[test]
fn the_longest_log_has_171_rows() {
    let mut script = Script::new(4, "");
    for (i, ewait) in script.code.chunks_exact_mut(3).enumerate() {
        let awaited = u8::from(i % 2 == 0);
        ewait.copy_from_slice(&[0x5f, 9, awaited]);
    }
    script.code[510] = 0x7f;
    let (witness, log) = script.witness(&[]);
    assert_eq!(number_and_place(witness.verdict), (0, 510));
    assert_eq!((witness.rows, witness.steps), (LOG_ENTRIES, 170));
    assert_eq!(LOG_ENTRIES, 171);
    assert_eq!(log.clocks, [1; 171]);
    assert_eq!((log.known[0], log.values[0]), (0, 0));
    assert!(log.known[1..].iter().all(|&known| known == 512));
    let values = |row: usize| if row % 2 == 1 { 512 } else { 0 };
    assert!((1..171).all(|row| log.values[row] == values(row)));
    // The same with entries for no more than the log.
    let mut lent = Rows::junk(LOG_ENTRIES);
    let answer = witness_of(&script, &mut lent);
    assert_eq!((answer, lent), (0, log));
}

/// The refusal of a witness with no ranges, 0 for none.
fn witness_of(script: &Script, lent: &mut Rows) -> u8 {
    let answer = witness(script.slices(), &[], lent.lend());
    answer.map_or_else(Refusal::number, |_| 0)
}

#[test]
fn the_instruction_at_the_place_is_not_done() {
    // An ewait that nothing releases adds no row, whatever its operands.
    for operands in ["2001", "0102", "ffff"] {
        let (witness, log) = Script::new(2, &format!("01 5f{operands} 7f")).witness(&[]);
        assert_eq!(number_and_place(witness.verdict), (7, 1));
        assert_eq!((log, witness.steps), (Rows::new(&[(33, 0, 0)]), 1));
        let (witness, log) = Script::new(2, &format!("5f{operands} 7f")).witness(&[]);
        assert_eq!((log, witness.steps), (Rows::new(&[(1, 0, 0)]), 0));
    }
    // Neither does one with an operand that was never uploaded.
    let hole = Script::new(2, "5f0101 5f0201 7f").without(5);
    let (witness, log) = hole.witness(&[]);
    assert_eq!(number_and_place(witness.verdict), (2, 3));
    assert_eq!(log, Rows::new(&[(1, 0, 0), (1, 2, 2)]));
    // A poke at fault is no write, and what comes after the place adds nothing.
    let text = "e200000000 e000161000 e000171000 01 5f0101 7f";
    let (witness, log) = Script::new(2, text).witness(POKES);
    assert_eq!(number_and_place(witness.verdict), (6, 10));
    assert_eq!((witness.steps, witness.writes), (2, 1));
    assert_eq!(log, Rows::new(&[(1, 0, 0)]));
}

#[test]
fn only_what_lies_from_the_entry_on_counts() {
    let mut script = Script::new(2, "5f0101 01 5f0201 02 7f");
    script.entry = CodeAddress(4);
    let (witness, log) = script.witness(&[]);
    assert_eq!(
        (witness.steps, number_and_place(witness.verdict)),
        (2, (0, 8))
    );
    assert_eq!(log, Rows::new(&[(1, 0, 0), (65, 4, 4)]));
    // A place may be the entry itself, past the code RAM.
    script.entry = CodeAddress(255);
    let (witness, log) = script.witness(&[]);
    assert_eq!(
        (witness.steps, number_and_place(witness.verdict)),
        (0, (1, 255))
    );
    assert_eq!(log, Rows::new(&[(1, 0, 0)]));
}

/// The refusal of family 2 with one thing wrong; looks that a refused call writes nothing.
fn refused(change: impl Fn(&mut Script, &mut Vec<u32>, &mut Rows)) -> u8 {
    let mut script = Script::new(2, "5f0101 7f");
    let mut ranges = POKES.to_vec();
    let mut lent = Rows::junk(LOG_ENTRIES);
    change(&mut script, &mut ranges, &mut lent);
    let before = lent.clone();
    let answer = witness(script.slices(), &ranges, lent.lend());
    let number = answer.map_or_else(Refusal::number, |_| 0);
    assert_eq!(number != 0, lent == before);
    number
}

#[test]
fn refusals_of_input() {
    assert_eq!(refused(|_, _, _| {}), 0);
    assert_eq!(refused(|script, _, _| script.family = 0), 9);
    assert_eq!(refused(|script, _, _| script.family = 3), 9);
    assert_eq!(refused(|script, _, _| script.code.push(0)), 9);
    assert_eq!(refused(|script, _, _| script.marks[127] = 2), 9);
    assert_eq!(refused(|script, _, _| script.marks.truncate(127)), 9);
    assert_eq!(refused(|script, _, _| script.entry = CodeAddress(255)), 0);
    assert_eq!(refused(|script, _, _| script.entry = CodeAddress(256)), 9);
    assert_eq!(refused(|_, ranges, _| ranges.push(0)), 9);
    assert_eq!(refused(|_, ranges, _| ranges.swap(0, 1)), 9);
    assert_eq!(refused(|_, ranges, _| *ranges = vec![0; 128]), 0);
    assert_eq!(refused(|_, ranges, _| *ranges = vec![0; 130]), 9);
}

#[test]
fn refusals_of_entries_come_after() {
    assert_eq!(refused(|_, _, lent| lent.clocks.truncate(170)), 14);
    assert_eq!(refused(|_, _, lent| lent.known.truncate(170)), 14);
    assert_eq!(refused(|_, _, lent| lent.values.truncate(170)), 14);
    assert_eq!(refused(|_, _, lent| lent.values.clear()), 14);
    assert_eq!(refused(|_, _, lent| lent.known.push(7)), 0);
    // Neither a fault nor a log that would fit makes up for them.
    assert_eq!(
        refused(|script, _, lent| {
            script.code[0] = 0xff;
            lent.clocks.truncate(1);
        }),
        14
    );
    assert_eq!(
        refused(|script, _, lent| {
            script.family = 7;
            *lent = Rows::default();
            lent.known.push(7);
        }),
        9
    );
    assert_eq!(
        refused(|_, ranges, lent| {
            ranges.pop();
            lent.values.truncate(170);
        }),
        9
    );
}
