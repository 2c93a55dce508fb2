//! Counts of each outcome, and which outcomes must occur.

use crate::show::grouped;

/// What is counted together on one line.
#[derive(Clone, Copy, Debug, PartialEq, Eq)]
pub enum Group {
    Reader,
    ReaderKind,
    Writer,
    Fresh,
    HostWrite,
    HostRead,
    Step,
    Effect,
    Stop,
    Mode,
    JobRefusal,
    JobVerdict,
    Verdict1,
    Verdict2,
    Verdict3,
    Verdict4,
    BadProbe,
    EventVolts,
    EventBetween,
    JobEnding,
    JobSlot,
    Audit,
    Replay,
    Ending,
    MoreLog,
    Change,
    Witness,
    Shown,
    LogRows,
    NormalGate,
    InvertedGate,
    DeadGate,
}

impl Group {
    /// Verdicts in reports on a family's jobs.
    pub fn verdicts_of(family: u8) -> Group {
        match family {
            1 => Group::Verdict1,
            2 => Group::Verdict2,
            3 => Group::Verdict3,
            _ => Group::Verdict4,
        }
    }
}

/// The outcomes a group must have, with the word for each, and how often the full run must see each.
struct Expected {
    group: Group,
    name: &'static str,
    items: &'static [(u8, &'static str)],
    least: u64,
}

const fn once(group: Group, name: &'static str, items: &'static [(u8, &'static str)]) -> Expected {
    Expected {
        group,
        name,
        items,
        least: 1,
    }
}

const fn often(group: Group, name: &'static str, items: &'static [(u8, &'static str)]) -> Expected {
    Expected {
        group,
        name,
        items,
        least: 200,
    }
}

const VERDICTS: &[(u8, &str)] = &[
    (0, "0"),
    (1, "1"),
    (2, "2"),
    (3, "3"),
    (4, "4"),
    (5, "5"),
    (6, "6"),
    (7, "7"),
    (8, "8"),
    (9, "9"),
];
/// Families 2 to 4 have all of these; the causes of 9 are refused by a job's parser, and by a witness.
const SCRIPT_VERDICTS: &[(u8, &str)] = VERDICTS.split_at(9).0;
const JOB_REFUSALS: &[(u8, &str)] = &[
    (16, "16"),
    (20, "20"),
    (21, "21"),
    (22, "22"),
    (23, "23"),
    (24, "24"),
    (25, "25"),
    (26, "26"),
    (27, "27"),
    (28, "28"),
    (30, "30"),
    (31, "31"),
    (32, "32"),
    (33, "33"),
];
const KINDS: &[(u8, &str)] = &[
    (1, "wait"),
    (2, "addrlo"),
    (3, "datalo"),
    (4, "ewait"),
    (5, "exit"),
    (6, "unset"),
    (7, "set1"),
    (8, "set0"),
    (9, "addr"),
    (10, "data"),
];
const READINGS: &[(u8, &str)] = &[(0, "0"), (1, "1"), (2, "none"), (16, "refused 16")];

const EXPECTED: &[Expected] = &[
    once(
        Group::Reader,
        "reader",
        &[(0, "read"), (1, "1"), (3, "3"), (9, "9")],
    ),
    once(Group::ReaderKind, "read", KINDS),
    once(
        Group::Writer,
        "writer",
        &[(0, "written"), (9, "9"), (11, "11"), (12, "12"), (13, "13")],
    ),
    once(Group::Fresh, "fresh", &[(0, "done"), (9, "9")]),
    once(
        Group::HostWrite,
        "host write",
        &[(0, "done"), (9, "9"), (27, "27"), (28, "28")],
    ),
    once(
        Group::HostRead,
        "host read",
        &[(0, "done"), (9, "9"), (27, "27")],
    ),
    once(Group::Step, "step", &[(0, "done"), (9, "9"), (15, "15")]),
    once(
        Group::Effect,
        "effect",
        &[
            (0, "nothing"),
            (1, "stopped"),
            (2, "unknown"),
            (3, "fetched"),
            (4, "wrote"),
        ],
    ),
    once(
        Group::Stop,
        "stop",
        &[(1, "past the RAM"), (2, "never uploaded")],
    ),
    once(
        Group::Mode,
        "mode after",
        &[
            (0, "idle"),
            (1, "running"),
            (2, "waiting"),
            (3, "blocked"),
            (4, "hung"),
        ],
    ),
    often(Group::JobRefusal, "refused", JOB_REFUSALS),
    often(Group::JobVerdict, "verdict", SCRIPT_VERDICTS),
    once(
        Group::Verdict1,
        "on family 1",
        &[(0, "0"), (1, "1"), (2, "2"), (3, "3")],
    ),
    once(Group::Verdict2, "on family 2", SCRIPT_VERDICTS),
    once(Group::Verdict3, "on family 3", SCRIPT_VERDICTS),
    once(Group::Verdict4, "on family 4", SCRIPT_VERDICTS),
    often(
        Group::BadProbe,
        "33 at",
        &[(6, "a gate"), (5, "a capture"), (0, "the end")],
    ),
    often(
        Group::EventVolts,
        "event",
        &[(0, "none"), (1, "all alike"), (2, "least below greatest")],
    ),
    often(
        Group::EventBetween,
        "between",
        &[(0, "0"), (1, "1"), (2, "more")],
    ),
    often(
        Group::JobEnding,
        "end",
        &[(1, "exit"), (2, "log"), (3, "poke")],
    ),
    once(Group::JobSlot, "slot", &[(0, "A"), (1, "B")]),
    once(Group::Audit, "verdict", VERDICTS),
    once(
        Group::Replay,
        "replay",
        &[(0, "done"), (9, "9"), (14, "14"), (15, "15")],
    ),
    once(
        Group::Ending,
        "ending",
        &[
            (1, "exit"),
            (2, "log"),
            (3, "poke"),
            (4, "hang"),
            (5, "stop"),
        ],
    ),
    often(
        Group::MoreLog,
        "more log",
        &[
            (0, "none"),
            (1, "rows added"),
            (2, "readings filled in"),
            (3, "both"),
        ],
    ),
    often(
        Group::Change,
        "change",
        &[
            (0, "the same writes"),
            (1, "more writes"),
            (2, "a wait earlier"),
            (3, "a wait finished now"),
            (4, "a wait longer but no later"),
            (5, "searched less"),
            (6, "the very same run"),
        ],
    ),
    often(
        Group::Witness,
        "witness",
        &[(0, "done"), (9, "9"), (14, "14")],
    ),
    often(Group::Shown, "shown", SCRIPT_VERDICTS),
    often(
        Group::LogRows,
        "rows",
        &[(0, "1"), (1, "2 to 170"), (2, "171")],
    ),
    once(Group::NormalGate, "normal", READINGS),
    once(Group::InvertedGate, "inverted", READINGS),
    once(Group::DeadGate, "dead", &[(2, "none"), (16, "refused 16")]),
];

/// Outcomes have numbers below this one; the last counts all that have none.
const NUMBERS: usize = 64;

/// How often each outcome of each group occurred.
#[derive(Clone)]
pub struct Outcomes(Vec<[u64; NUMBERS]>);

impl Outcomes {
    pub fn new() -> Outcomes {
        Outcomes(vec![[0; NUMBERS]; EXPECTED.len()])
    }

    /// Counts one outcome.
    pub fn count(&mut self, group: Group, number: u8) {
        self.0[group as usize][usize::from(number).min(NUMBERS - 1)] += 1;
    }

    /// Adds another thread's counts.
    pub fn add(&mut self, other: &Outcomes) {
        for (mine, theirs) in self.0.iter_mut().zip(&other.0) {
            for (mine, theirs) in mine.iter_mut().zip(theirs) {
                *mine += theirs;
            }
        }
    }

    /// Prints the groups that have counts, one line each.
    pub fn print(&self) {
        for expected in EXPECTED {
            let counts = &self.0[expected.group as usize];
            if counts.iter().all(|&count| count == 0) {
                continue;
            }
            let items = expected
                .items
                .iter()
                .map(|&(number, word)| format!("{word}: {}", grouped(counts[usize::from(number)])));
            let items = items.collect::<Vec<_>>().join("   ");
            println!("  {:<12} {items}", expected.name);
        }
    }

    /// What is missing of these groups, or stands there though the papers have no such outcome.
    pub fn faults(&self, groups: &[Group], full: bool) -> Vec<String> {
        let mut faults = Vec::new();
        for expected in EXPECTED.iter().filter(|e| groups.contains(&e.group)) {
            let mut counts = self.0[expected.group as usize];
            let least = if full { expected.least } else { 1 };
            for &(number, word) in expected.items {
                let count = std::mem::take(&mut counts[usize::from(number)]);
                if count < least {
                    let name = expected.name;
                    faults.push(format!("{name}: {word} {count} times, not {least}"));
                }
            }
            for number in (0..NUMBERS).filter(|&number| counts[number] > 0) {
                faults.push(format!("{}: {number} is no outcome", expected.name));
            }
        }
        faults
    }
}
