//! Replays.

use crate::common::{Rows, Script, ENABLED};
use second::audit::{Ending, Registers, WRITE_ENTRIES};
use second::isa::{CodeAddress, MmioAddress};
use second::log::Place;
use second::Refusal;

fn ending(script: &Script, rows: &Rows) -> (Ending, u32, Place, u32) {
    let (replayed, _) = script.replay(rows);
    (
        replayed.run.ending,
        replayed.ip.0,
        replayed.run.place,
        replayed.run.steps,
    )
}

const fn at(row: usize, used: u64) -> Place {
    Place { row, used }
}

#[test]
fn the_listed_log_scripts() {
    let script = Script::new(2, "5f01007f");
    let unknown = Rows::new(&[(10, 0, 0)]);
    assert_eq!(ending(&script, &unknown), (Ending::Log, 3, at(1, 0), 1));
    let known = Rows::new(&[(10, 2, 0)]);
    assert_eq!(ending(&script, &known), (Ending::Exit, 3, at(0, 0), 2));
    let high = Rows::new(&[(10, 2, 2)]);
    assert_eq!(ending(&script, &high), (Ending::Log, 3, at(1, 0), 1));
}

#[test]
fn ending_exit() {
    let rows = Rows::new(&[(50, 0, 0), (50, 0, 0)]);
    let script = Script::new(1, "0101a3b07f");
    let (replayed, writes) = script.replay(&rows);
    assert_eq!(replayed.run.ending, Ending::Exit);
    assert_eq!((replayed.ip, replayed.run.steps), (CodeAddress(4), 5));
    assert_eq!(replayed.run.place, at(1, 14));
    assert_eq!((replayed.flags_0, replayed.flags_1), (0x8_0008, 0x1_0001));
    let sums = (
        replayed.run.wait_clocks,
        replayed.run.ewait_clocks,
        replayed.run.left_clocks,
    );
    assert_eq!(sums, (64, 0, 36));
    assert!(writes.iter().all(|&w| w == 0xdead_beef));
}

#[test]
fn ending_log_in_a_wait() {
    let rows = Rows::new(&[(40, 0, 0)]);
    let (replayed, _) = Script::new(1, "01017f").replay(&rows);
    assert_eq!(
        (replayed.run.ending, replayed.ip),
        (Ending::Log, CodeAddress(2))
    );
    assert_eq!((replayed.run.place, replayed.run.steps), (at(1, 0), 2));
    assert_eq!(
        (replayed.run.wait_clocks, replayed.run.left_clocks),
        (40, 0)
    );
    let rows = Rows::new(&[(64, 0, 0)]);
    assert_eq!(
        ending(&Script::new(1, "01017f"), &rows),
        (Ending::Exit, 2, at(1, 0), 3)
    );
    let none = Rows::default();
    assert_eq!(
        ending(&Script::new(1, "007f"), &none),
        (Ending::Exit, 1, at(0, 0), 2)
    );
    assert_eq!(
        ending(&Script::new(1, "017f"), &none),
        (Ending::Log, 1, at(0, 0), 1)
    );
}

#[test]
fn ending_poke() {
    let mut writes = [7; WRITE_ENTRIES];
    let start = Registers {
        addr: MmioAddress(0xaaaa_bbbb),
        data: 5,
        ..Registers::default()
    };
    let script = Script::new(3, "a0 403412 7f");
    let replayed = script
        .replay_from(start, &Rows::default(), &mut writes)
        .unwrap();
    assert_eq!(
        (replayed.run.ending, replayed.ip),
        (Ending::Poke, CodeAddress(4))
    );
    assert_eq!(
        (replayed.addr, replayed.data),
        (MmioAddress(0xaaaa_1234), 5)
    );
    assert_eq!((replayed.run.steps, replayed.run.writes), (2, 0));
    assert_eq!(writes, [7; WRITE_ENTRIES]);
}

#[test]
fn ending_hang_or_nop() {
    for (family, expected) in [
        (1, (Ending::Exit, 2, at(0, 0), 3)),
        (2, (Ending::Hang, 2, at(0, 0), 2)),
        (3, (Ending::Hang, 2, at(0, 0), 2)),
        (4, (Ending::Exit, 2, at(0, 0), 3)),
    ] {
        assert_eq!(
            ending(&Script::new(family, "00ff7f"), &Rows::default()),
            expected
        );
    }
}

#[test]
fn ending_stop() {
    let rows = Rows::new(&[(9, 0, 0)]);
    let missing = Script::new(2, "00a07f").without(2);
    assert_eq!(ending(&missing, &rows), (Ending::Stop, 2, at(0, 0), 2));
    let past = Script::at(2, 126, "00e2");
    assert_eq!(ending(&past, &rows), (Ending::Stop, 127, at(0, 0), 1));
    for (family, size) in [(1, 64), (2, 128), (3, 256), (4, 512)] {
        let zeros = Script::new(family, "");
        assert_eq!(ending(&zeros, &rows), (Ending::Stop, size, at(0, 0), size));
    }
    let mut far = Script::new(1, "7f");
    far.entry = CodeAddress(255);
    assert_eq!(ending(&far, &rows), (Ending::Stop, 255, at(0, 0), 0));
}

#[test]
fn writes_are_listed_in_order_and_the_rest_stays() {
    let text = "e278563412 e000161000 42cdab 400420 7f";
    let (replayed, writes) = Script::new(4, text).replay(&Rows::default());
    assert_eq!(replayed.run.writes, 2);
    assert_eq!(
        writes[..4],
        [0x10_1600, 0x1234_5678, 0x10_2004, 0x1234_abcd]
    );
    assert!(writes[4..].iter().all(|&w| w == 0xdead_beef));
    assert_eq!((replayed.addr.0, replayed.data), (0x10_2004, 0x1234_abcd));
}

#[test]
fn most_writes_fill_the_entries_lent() {
    let mut script = Script::new(4, "");
    for poke in script.code.chunks_mut(3) {
        poke[0] = 0x40;
    }
    let (replayed, writes) = script.replay(&Rows::default());
    assert_eq!(replayed.run.writes, 170);
    assert_eq!((replayed.run.ending, replayed.ip.0), (Ending::Stop, 510));
    assert!(writes[..340].iter().all(|&w| w == 0));
    assert_eq!(writes[340..], [0xdead_beef; 3]);
}

#[test]
fn flags_come_in_and_go_out() {
    let start = Registers {
        flags_0: 0x1234_5678,
        flags_1: 0x9abc_def0,
        ..Registers::default()
    };
    let mut writes = [0; WRITE_ENTRIES];
    let replayed = Script::new(1, "7f")
        .replay_from(start, &Rows::default(), &mut writes)
        .unwrap();
    assert_eq!(
        (replayed.flags_0, replayed.flags_1),
        (0x1234_5678, 0x9abc_def0)
    );
    let replayed = Script::new(1, "8c d07f");
    let replayed = replayed
        .replay_from(start, &Rows::default(), &mut writes)
        .unwrap();
    assert_eq!(
        (replayed.flags_0, replayed.flags_1),
        (0x0234_5678, 0x9abd_def0)
    );
}

/// Replays family 2 with one thing wrong, and looks that nothing was written.
fn refused(change: impl Fn(&mut Script, &mut Rows), lent: usize) -> u8 {
    let mut script = Script::new(2, "e000000000 7f");
    let mut rows = Rows::new(&[(1, 0, 0)]);
    change(&mut script, &mut rows);
    let mut writes = vec![3; lent];
    let answer = script.replay_from(ENABLED, &rows, &mut writes);
    let number = answer.map_or_else(Refusal::number, |_| 0);
    assert_eq!(number == 0, writes.iter().any(|&w| w != 3));
    number
}

#[test]
fn refusals_in_order() {
    assert_eq!(refused(|_, _| {}, 340), 0);
    assert_eq!(refused(|script, _| script.family = 0, 340), 9);
    assert_eq!(refused(|script, _| script.family = 3, 340), 9);
    assert_eq!(refused(|script, _| script.marks[127] = 2, 340), 9);
    assert_eq!(refused(|script, _| script.marks.truncate(127), 340), 9);
    assert_eq!(refused(|script, _| script.entry = CodeAddress(256), 340), 9);
    assert_eq!(refused(|_, _| {}, 339), 14);
    assert_eq!(refused(|_, rows| rows.clocks[0] = 0, 340), 15);
    assert_eq!(refused(|_, rows| rows.clocks[0] = (1 << 48) + 1, 340), 15);
    assert_eq!(refused(|_, rows| rows.known.push(0), 340), 15);
    assert_eq!(refused(|_, rows| rows.values.clear(), 340), 15);
    let long = |rows: &mut Rows| *rows = Rows::new(&[(1, 0, 0); 1025]);
    assert_eq!(refused(|_, rows| long(rows), 340), 15);
    assert_eq!(refused(|_, rows| long(rows), 339), 14);
    let both = |script: &mut Script, rows: &mut Rows| {
        script.family = 7;
        long(rows);
    };
    assert_eq!(refused(both, 0), 9);
}
