//! Calls on the witness.

use crate::audit::{fault, lent, pass, script};
use crate::show;
use calls::script::Ram;
use calls::words::{Answer, Words};
use hwsq::{Columns, Shown};

/// Most entries a call lends in a column.
const MOST_LENT: usize = 200;
/// What lent entries hold before a call, so that those left alone can be told from those written.
const LENT_CLOCKS: u64 = 10;
const LENT_MASK: u32 = 0xaaaa_aaaa;
/// Lent entries shown past those written, so that a stray write would be seen.
const SHOWN_PAST: usize = 1;

/// The answer of a witness and the first entries of each column lent to it.
pub fn witness(ram: Ram, words: &mut Words) -> Answer {
    let script = script(ram, words)?;
    let ranges = words.ranges()?;
    words.fixed("lent")?;
    let mut clocks = vec![LENT_CLOCKS; words.at_most(MOST_LENT)?];
    let mut known = vec![LENT_MASK; words.at_most(MOST_LENT)?];
    let mut values = vec![LENT_MASK; words.at_most(MOST_LENT)?];
    let columns = Columns {
        clocks: &mut clocks,
        known: &mut known,
        values: &mut values,
    };
    let shown = hwsq::witness(lent(&script), &ranges, columns);
    let count = shown.rows + SHOWN_PAST;
    let answer = show::answer(shown.refusal, || told(&shown));
    let clocks = show::entries(clocks.iter().take(count).map(u64::to_string));
    let known = show::entries(known.iter().take(count).map(show::mask));
    let values = show::entries(values.iter().take(count).map(show::mask));
    Ok(Some(format!(
        "{answer} clocks{clocks} known{known} values{values}"
    )))
}

/// A witness that was not refused.
fn told(shown: &Shown) -> String {
    let verdict = if shown.verdict == 0 {
        pass(shown.place, shown.count, shown.writes, shown.clocks)
    } else {
        fault(shown.verdict, shown.place)
    };
    let Shown {
        rows,
        steps,
        writes,
        ..
    } = shown;
    format!("{verdict} rows {rows} steps {steps} writes {writes}")
}
