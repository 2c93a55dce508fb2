//! Each misreading changes the answers that show it and no others, and only while it is in force.

use second::audit::{audit, listed, replay, Registers, Replayed, Script, WRITE_ENTRIES};
use second::isa::{code_size, decode, encode, CodeAddress, Instruction, MmioAddress};
use second::job::report;
use second::log::Columns;
use second::machine::{host_read, host_write, Activity, Slot, State};
use second::misreadings::{misread, Misreading, ALL};
use second::more_log::{filled_in, keeps_writes, never_later, wait_ends, Masks, WaitEnd};
use second::probe::{read, Calibration, Gate};
use second::show;
use second::shows::shows;
use second::witness::{witness, Lent, Witness};
use std::thread;

/// A small input with its answer by the papers and by the misreading it shows.
struct Case {
    shows: Misreading,
    answer: fn() -> String,
    right: &'static str,
    wrong: &'static str,
}

const CASES: &[Case] = &[
    Case {
        shows: Misreading::UnrecordedEventIsZero,
        answer: || wait_for_0(0),
        right: "log",
        wrong: "exit",
    },
    // The value bit of an event without a reading has no effect on the misreading either.
    Case {
        shows: Misreading::UnrecordedEventIsZero,
        answer: || wait_for_0(2),
        right: "log",
        wrong: "exit",
    },
    Case {
        shows: Misreading::IpPastExit,
        answer: || replayed(1, b"\x7f", &[]).0.ip.0.to_string(),
        right: "0",
        wrong: "1",
    },
    Case {
        shows: Misreading::ZeroFilledHalves,
        answer: second_write,
        right: "00102004 1234abcd",
        wrong: "00002004 0000abcd",
    },
    Case {
        shows: Misreading::ZeroFilledHalves,
        answer: || verdict(2, SHORT_FORMS, &[0x10_0000, 0x10_ffff]),
        right: "verdict 0 place 16",
        wrong: "verdict 6 place 13",
    },
    Case {
        shows: Misreading::OperandsOf5fOnFamily1,
        answer: read_5f,
        right: "refused 3",
        wrong: "ewait 31 1",
    },
    Case {
        shows: Misreading::OperandsOf5fOnFamily1,
        answer: || {
            replayed(1, b"\x5f\xa3\xa4\x7f", &[])
                .0
                .run
                .steps
                .to_string()
        },
        right: "4",
        wrong: "1",
    },
    Case {
        shows: Misreading::SwappedRefusalOrder,
        answer: write_nowhere,
        right: "refused 12",
        wrong: "refused 13",
    },
    Case {
        shows: Misreading::SwappedJobRefusals,
        answer: || String::from_utf8(report(b"\x04\x01\x00\x00")).unwrap(),
        right: "refused 24 at 2\n",
        wrong: "refused 32 at 2\n",
    },
    Case {
        shows: Misreading::UnfinishedWaitCountedWhole,
        answer: || waited(&[(40, 0, 0)]),
        right: "waited 40 left 0",
        wrong: "waited 64 left 0",
    },
    Case {
        shows: Misreading::HighLevelExcluded,
        answer: just_high,
        right: "Ok(Some(1))",
        wrong: "Ok(None)",
    },
    Case {
        shows: Misreading::HighLevelExcluded,
        answer: || captured(2.0),
        right: "row 0 known 1 first 0, end exit row 0 used 0",
        wrong: "row 0 known 0 first 0, end log row 1 used 0",
    },
    Case {
        shows: Misreading::PokeOutsideRangeAtLast,
        answer: || verdict(2, ONE_POKE, &[0x10_1500, 0x10_1600]),
        right: "verdict 0 place 10",
        wrong: "verdict 6 place 5",
    },
    Case {
        shows: Misreading::AbortHangs,
        answer: status_after_abort,
        right: "00000000",
        wrong: "00000300",
    },
    Case {
        shows: Misreading::WaitMeasuredByLength,
        answer: || format!("{:?}", ends(b"\x01\x02\x01\x7f", &[(100, 0, 0)])),
        right: "[At(32), At(96), Never]",
        wrong: "[At(32), At(64), Never]",
    },
    Case {
        shows: Misreading::WaitMeasuredByLength,
        answer: released_earlier,
        right: "never later: true",
        wrong: "never later: false",
    },
    Case {
        shows: Misreading::KnownReadingChanged,
        answer: fill_in,
        right: "known 0000ffcc values 0000f0aa",
        wrong: "known 0000ffcc values 0000aaaa",
    },
    Case {
        shows: Misreading::KnownReadingChanged,
        answer: filled_in_again,
        right: "writes kept: true",
        wrong: "writes kept: false",
    },
    Case {
        shows: Misreading::WitnessReadsZero,
        answer: || log_of(b"\x01\x5f\x01\x01\x5f\x02\x00\xff"),
        right: "33 00000000 00000000, 1 00000002 00000002, 1 00000004 00000000",
        wrong: "33 00000000 00000000, 1 00000002 00000000, 1 00000004 00000000",
    },
    // A row that reads 0 releases no ewait for 1, and so it doesn't stand for the next one either.
    Case {
        shows: Misreading::WitnessReadsZero,
        answer: || log_of(b"\x5f\x01\x01\x5f\x01\x01\x7f"),
        right: "1 00000000 00000000, 1 00000002 00000002",
        wrong: "1 00000000 00000000, 1 00000002 00000000, 1 00000002 00000000",
    },
    Case {
        shows: Misreading::WitnessReadsZero,
        answer: || shown(b"\x5f\x01\x01\xff"),
        right: "Ok(None)",
        wrong: "Err(NotAtPlace(SlotState { ip: CodeAddress(3), addr: MmioAddress(0), data: 0, \
                activity: Waiting }))",
    },
    // The row's own masks know every event, but only the one that was captured is kept.
    Case {
        shows: Misreading::OwnMasksUnderNoReading,
        answer: || captured(1.5),
        right: "row 0 known 0 first 0, end log row 1 used 0",
        wrong: "row 0 known 1 first 0, end exit row 0 used 0",
    },
    Case {
        shows: Misreading::OwnMasksUnderNoReading,
        answer: || captured(f32::NAN),
        right: "row 0 known 0 first 0, end log row 1 used 0",
        wrong: "row 0 known 1 first 0, end exit row 0 used 0",
    },
    // In falling order: the middle range is below the address, and all after it are too.
    Case {
        shows: Misreading::AnyListByHalves,
        answer: || poked_and_listed(&[0x10_1500, 0x10_16ff, 0x10_1000, 0x10_10ff, 0, 0xff]),
        right: "verdict 0 place 10, listed true",
        wrong: "verdict 6 place 5, listed true",
    },
    // Only the last two are exchanged.
    Case {
        shows: Misreading::AnyListByHalves,
        answer: || poked_and_listed(&[0, 0xff, 0x10_2000, 0x10_20ff, 0x10_1500, 0x10_16ff]),
        right: "verdict 0 place 10, listed true",
        wrong: "verdict 6 place 5, listed true",
    },
    // The first holds the other two, with the address between them.
    Case {
        shows: Misreading::AnyListByHalves,
        answer: || poked_and_listed(&[0, 0x1f_ffff, 0x10_0000, 0x10_00ff, 0x10_2000, 0x10_20ff]),
        right: "verdict 0 place 10, listed true",
        wrong: "verdict 6 place 5, listed true",
    },
];

/// data 12345678, addr 00101600, exit.
const ONE_POKE: &[u8] = b"\xe2\x78\x56\x34\x12\xe0\x00\x16\x10\x00\x7f";
/// The same with datalo abcd and addrlo 2004 before the exit.
const SHORT_FORMS: &[u8] = b"\xe2\x78\x56\x34\x12\xe0\x00\x16\x10\x00\x42\xcd\xab\x40\x04\x20\x7f";

/// HWSQ_ENABLE 1 and all other registers 0.
const ENABLED: Registers = Registers {
    addr: MmioAddress(0),
    data: 0,
    flags_0: 0,
    flags_1: 0,
    hwsq_enable: true,
};

/// The answer of a call on a script from entry 0, the rest of the code RAM 00 and all uploaded.
fn on_script<T>(family: u8, bytes: &[u8], call: impl FnOnce(Script) -> T) -> T {
    let mut code = vec![0; code_size(family).unwrap()];
    code[..bytes.len()].copy_from_slice(bytes);
    call(Script {
        family,
        code: &code,
        marks: &vec![1; code.len()],
        entry: CodeAddress(0),
    })
}

/// The answer of a call on such a script and a log of these rows.
fn on_log<T>(
    family: u8,
    bytes: &[u8],
    rows: &[(u64, u32, u32)],
    call: impl FnOnce(Script, Columns) -> T,
) -> T {
    let clocks: Vec<u64> = rows.iter().map(|row| row.0).collect();
    let known: Vec<u32> = rows.iter().map(|row| row.1).collect();
    let values: Vec<u32> = rows.iter().map(|row| row.2).collect();
    let columns = Columns {
        clocks: &clocks,
        known: &known,
        values: &values,
    };
    on_script(family, bytes, |script| call(script, columns))
}

fn replayed(family: u8, bytes: &[u8], rows: &[(u64, u32, u32)]) -> (Replayed, Vec<u32>) {
    let mut writes = vec![0; WRITE_ENTRIES];
    let replayed = on_log(family, bytes, rows, |script, columns| {
        replay(script, ENABLED, columns, &mut writes)
    });
    (replayed.unwrap(), writes)
}

fn verdict(family: u8, bytes: &[u8], ranges: &[u32]) -> String {
    let (number, place) = match on_script(family, bytes, |script| audit(script, ranges)) {
        Ok(pass) => (0, pass.place),
        Err(fault) => (fault.number.number(), fault.place),
    };
    format!("verdict {number} place {}", place.0)
}

/// The verdict on one poke, and what is told of its address without an audit.
fn poked_and_listed(ranges: &[u32]) -> String {
    let listed = listed(ranges, MmioAddress(0x10_1600));
    format!("{}, listed {listed}", verdict(2, ONE_POKE, ranges))
}

/// How a wait for event 1 to be 0 ends on one row without a reading.
fn wait_for_0(values: u32) -> String {
    let (replayed, _) = replayed(2, b"\x5f\x01\x00\x7f", &[(10, 0, values)]);
    replayed.run.ending.word().to_string()
}

fn second_write() -> String {
    let (_, writes) = replayed(2, SHORT_FORMS, &[]);
    format!("{:08x} {:08x}", writes[2], writes[3])
}

fn read_5f() -> String {
    let read = decode(1, b"\x5f\x1f\x01").map(|(read, _)| show::instruction(read));
    show::answer(read)
}

fn write_nowhere() -> String {
    let too_long = Instruction::Wait {
        length: 4,
        shift: 0,
    };
    show::answer(encode(1, too_long, &mut []).map(|length| length.to_string()))
}

/// The sums of two waits of 32 clocks.
fn waited(rows: &[(u64, u32, u32)]) -> String {
    let run = replayed(1, b"\x01\x01\x7f", rows).0.run;
    format!("waited {} left {}", run.wait_clocks, run.left_clocks)
}

fn just_high() -> String {
    let gate = Gate::Normal {
        low: 1.0,
        high: 2.0,
    };
    let plain = Calibration {
        gain: 1.0,
        offset: 0.0,
    };
    format!("{:?}", read(gate, plain, 2.0f32.to_bits()))
}

fn status_after_abort() -> String {
    let mut state = State::fresh(2).unwrap();
    for trigger in [3, 2] {
        host_write(&mut state, MmioAddress(0x130c), trigger).unwrap();
    }
    let status = host_read(&state, MmioAddress(0x1308)).unwrap();
    format!("{status:08x}")
}

/// When the waits of a script of family 2 ended.
fn ends(bytes: &[u8], rows: &[(u64, u32, u32)]) -> Vec<WaitEnd> {
    let ends = on_log(2, bytes, rows, |script, columns| {
        wait_ends(script, ENABLED, columns)
    });
    ends.unwrap()
}

/// Waits for event 0 and for event 1; the second takes the clocks that the first no longer takes.
fn released_earlier() -> String {
    let script = b"\x5f\x00\x01\x5f\x01\x01\x7f";
    let before = ends(script, &[(10, 0, 0), (20, 3, 3)]);
    let now = ends(script, &[(10, 1, 1), (20, 3, 3)]);
    format!("never later: {}", never_later(&before, &now))
}

fn fill_in() -> String {
    let row = Masks {
        known: 0xff00,
        values: 0xf0f0,
    };
    let from = Masks {
        known: 0xcccc,
        values: 0xaaaa,
    };
    let filled = filled_in(row, from);
    format!("known {:08x} values {:08x}", filled.known, filled.values)
}

/// A poke behind a wait for event 1 to be 1, which the row shows and the other masks deny.
fn filled_in_again() -> String {
    let script = b"\x5f\x01\x01\xe0\x00\x16\x10\x00\x7f";
    let row = Masks {
        known: 2,
        values: 2,
    };
    let filled = filled_in(row, Masks { values: 0, ..row });
    let writes = |row: Masks| {
        let (replayed, writes) = replayed(2, script, &[(10, row.known, row.values)]);
        writes[..2 * replayed.run.writes as usize].to_vec()
    };
    format!(
        "writes kept: {}",
        keeps_writes(&writes(row), &writes(filled))
    )
}

/// The witness of a script of family 2 without ranges, and its log.
fn witnessed(bytes: &[u8]) -> (Witness, Vec<(u64, u32, u32)>) {
    let (mut clocks, mut known, mut values) = ([0; 171], [0; 171], [0; 171]);
    let lent = Lent {
        clocks: &mut clocks,
        known: &mut known,
        values: &mut values,
    };
    let claim = on_script(2, bytes, |script| witness(script, &[], lent)).unwrap();
    let rows = (0..claim.rows).map(|row| (clocks[row], known[row], values[row]));
    (claim, rows.collect())
}

fn log_of(bytes: &[u8]) -> String {
    let (_, rows) = witnessed(bytes);
    let rows = rows.iter().map(|(c, k, v)| format!("{c} {k:08x} {v:08x}"));
    rows.collect::<Vec<_>>().join(", ")
}

/// Whether the log of such a script shows its verdict in slot A.
fn shown(bytes: &[u8]) -> String {
    let (claim, rows) = witnessed(bytes);
    let mut start = State::fresh(2).unwrap();
    start.code[..bytes.len()].copy_from_slice(bytes);
    start.marks[..128].fill(1);
    start.slot_mut(Slot::A).activity = Activity::Fetching;
    let answer = on_log(2, bytes, &rows, |_, columns| {
        shows(&start, Slot::A, columns, &[], claim)
    });
    format!("{answer:?}")
}

/// Rows and end of a wait for event 1 to be 1 on a row that says so itself, with this raw value captured.
fn captured(raw: f32) -> String {
    let mut job = b"\x04\x02\x02\x00\x14\0\0\x5f\x01\x01\x7f\x02\x0c\x13\0\0\x03\0\0\0".to_vec();
    // Levels 1 and 2, gain 1, offset 0.
    job.extend(b"\x06\x01\x00\0\0\x80\x3f\0\0\0\x40\0\0\x80\x3f\0\0\0\0");
    job.extend(b"\x05\x01");
    job.extend(raw.to_le_bytes());
    job.extend(b"\x01\x0a\0\0\0\0\0\0\0\xff\xff\xff\xff\xff\xff\xff\xff\x00");
    let report = String::from_utf8(report(&job)).unwrap();
    let told = report
        .lines()
        .filter(|line| line.starts_with("row") || line.starts_with("end"));
    told.collect::<Vec<_>>().join(", ")
}

/// One test for all, since they share what is in force.
#[test]
fn each_misreading_shows_in_its_own_answers_alone() {
    for case in CASES {
        assert_eq!((case.answer)(), case.right, "before {:?}", case.shows);
        for &which in ALL {
            let own = which == case.shows;
            let expected = if own { case.wrong } else { case.right };
            misread(Some(which));
            assert_eq!((case.answer)(), expected, "{which:?}, {:?}", case.shows);
            let elsewhere = thread::spawn(case.answer).join().unwrap();
            assert_eq!(elsewhere, expected, "{which:?} in another thread");
            misread(None);
            assert_eq!((case.answer)(), case.right, "after {which:?}");
        }
    }
    for (i, which) in ALL.iter().enumerate() {
        assert!(CASES.iter().any(|case| case.shows == *which), "{which:?}");
        let others = &ALL[i + 1..];
        assert!(others.iter().all(|other| other.name() != which.name()));
    }
}
