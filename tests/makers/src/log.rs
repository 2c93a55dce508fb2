//! Random event logs, good ones and bad.

use crate::random::Random;

/// Most clocks a row has.
pub const MOST_CLOCKS: u64 = 1 << 48;
/// Most rows a log has.
pub const MOST_ROWS: usize = 1024;
/// Clocks that no row has.
const NO_CLOCKS: [u64; 5] = [0, MOST_CLOCKS + 1, 1 << 49, 1 << 63, u64::MAX];

/// Rows that end most waits, so that scripts come further than their first one.
const GENEROUS: [Row; 4] = [
    generous(0),
    generous(u32::MAX),
    generous(0),
    generous(u32::MAX),
];

const fn generous(values: u32) -> Row {
    Row {
        clocks: 1 << 46,
        known: u32::MAX,
        values,
    }
}

/// One row: clocks, known mask, value mask.
#[derive(Clone, Copy, Debug, PartialEq, Eq)]
pub struct Row {
    pub clocks: u64,
    pub known: u32,
    pub values: u32,
}

/// A column with an entry more than the others.
#[derive(Clone, Copy, Debug, PartialEq, Eq)]
pub enum Longer {
    None,
    Clocks,
    Known,
    Values,
}

/// Rows, and whether their columns are of one length.
#[derive(Clone, Debug, PartialEq)]
pub struct Log {
    pub rows: Vec<Row>,
    pub longer: Longer,
}

/// The three columns as the calls take them.
#[derive(Clone, Debug, PartialEq)]
pub struct Columns {
    pub clocks: Vec<u64>,
    pub known: Vec<u32>,
    pub values: Vec<u32>,
}

/// One row with clocks in range, which are often just those of a wait.
pub fn row(random: &mut Random, waits: &[u64]) -> Row {
    Row {
        clocks: clocks(random, waits),
        known: mask(random),
        values: mask(random),
    }
}

/// A row whose clocks are out of range.
pub fn bad_row(random: &mut Random) -> Row {
    Row {
        clocks: random.pick(&NO_CLOCKS),
        ..row(random, &[])
    }
}

fn clocks(random: &mut Random, waits: &[u64]) -> u64 {
    let wait = if waits.is_empty() {
        32
    } else {
        random.pick(waits)
    };
    let wanted = match random.below(8) {
        0 => waits.iter().sum(),
        1 => wait,
        2 => wait + 1,
        3 => wait.saturating_sub(1),
        4 => random.pick(&[1, 31, 32, 33, 64, 96, 128, MOST_CLOCKS - 1, MOST_CLOCKS]),
        5 => 1 + random.word() % MOST_CLOCKS,
        _ => 1 + random.word() % 400,
    };
    wanted.clamp(1, MOST_CLOCKS)
}

/// A mask of none, few, many or all events.
pub fn mask(random: &mut Random) -> u32 {
    match random.below(6) {
        0 => 0,
        1 => u32::MAX,
        2 => random.half() & 15,
        3 => 1 << random.below(32),
        4 => u32::MAX << random.below(32),
        _ => random.half(),
    }
}

impl Log {
    /// A log for a script with these waits: a few rows as a rule.
    pub fn fitting(random: &mut Random, waits: &[u64]) -> Log {
        let count = match random.below(400) {
            0 => MOST_ROWS,
            1 | 2 => random.below(MOST_ROWS),
            3..=30 => 0,
            31..=100 => 1,
            _ => random.below(8),
        };
        let mut rows: Vec<Row> = (0..count).map(|_| row(random, waits)).collect();
        if random.chance(50) {
            rows.truncate(MOST_ROWS - GENEROUS.len());
            rows.extend(GENEROUS);
        }
        Log {
            rows,
            longer: Longer::None,
        }
    }

    /// Makes it none: a row too many, a column of another length, or clocks out of range.
    pub fn spoil(&mut self, random: &mut Random) {
        match random.below(5) {
            0 => self.rows.resize_with(MOST_ROWS + 1, || row(random, &[])),
            1 => self.longer = Longer::Clocks,
            2 => self.longer = Longer::Known,
            3 => self.longer = Longer::Values,
            _ => {
                let at = random.below(self.rows.len() + 1);
                self.rows.insert(at, bad_row(random));
            }
        }
    }

    pub fn columns(&self) -> Columns {
        let mut columns = Columns::of(&self.rows);
        match self.longer {
            Longer::None => {}
            Longer::Clocks => columns.clocks.push(1),
            Longer::Known => columns.known.push(0),
            Longer::Values => columns.values.push(0),
        }
        columns
    }
}

impl Row {
    /// Rows with fewer clocks or masks of 0.
    pub fn simpler(&self) -> Vec<Row> {
        let mut simpler = vec![
            Row { clocks: 1, ..*self },
            Row { known: 0, ..*self },
            Row { values: 0, ..*self },
        ];
        simpler.retain(|row| row != self);
        simpler
    }
}

impl Columns {
    /// Columns of one length.
    pub fn of(rows: &[Row]) -> Columns {
        Columns {
            clocks: rows.iter().map(|row| row.clocks).collect(),
            known: rows.iter().map(|row| row.known).collect(),
            values: rows.iter().map(|row| row.values).collect(),
        }
    }

    /// The first so many entries of each, or all.
    pub fn first(&self, count: usize) -> Columns {
        let mut first = self.clone();
        first.clocks.truncate(count);
        first.known.truncate(count);
        first.values.truncate(count);
        first
    }
}
