//! Random pairs: a script with many waits, a log that lacks readings, and more of it.

use super::case::{Case, Filling};
use crate::launch::Launch;
use crate::ram::Ram;
use makers::compose;
use makers::log::{self, Log, Row, MOST_ROWS};
use makers::random::Random;
use makers::ranges;
use second::more_log::Masks;

/// A case with rows added, readings filled in, both or, at times, neither.
pub fn case(random: &mut Random) -> Case {
    let family = 1 + random.below(4) as u8;
    let ranges = ranges::random(random);
    let script = compose::waiting_script(random, family, &ranges);
    let waits = script.waits();
    let share = random.pick(&[0, 20, 60, 100]);
    let rows: Vec<Filling> = first_rows(random, &waits)
        .into_iter()
        .map(|row| filling(random, row, share))
        .collect();
    let mut added = Vec::new();
    if share == 0 || random.chance(50) {
        added = Log::fitting(random, &waits).rows;
        added.truncate(MOST_ROWS - rows.len());
    }
    let ram = Ram::fit(random, family, script);
    Case {
        launch: Launch::random(random, ram),
        rows,
        added,
    }
}

/// Rows that lack most readings, then at times ones that release what the first ones could have.
fn first_rows(random: &mut Random, waits: &[u64]) -> Vec<Row> {
    let mut rows = Log::fitting(random, waits).rows;
    for row in &mut rows {
        row.known &= random.half() & random.half();
    }
    if random.chance(60) {
        rows.extend(Log::fitting(random, waits).rows);
        rows.truncate(MOST_ROWS);
    }
    rows
}

/// A row that is filled in so many times in a hundred, with all readings as often as not.
fn filling(random: &mut Random, row: Row, share: usize) -> Filling {
    let (all, some) = (u32::MAX, log::mask(random));
    let from = random.chance(share).then(|| Masks {
        known: random.pick(&[all, some]),
        values: log::mask(random),
    });
    Filling { row, from }
}
