//! Calls on the witness.

use crate::audit;
use calls::script::Ram;
use calls::words::{Answer, Words};
use second::show;
use second::witness::{self as library, Lent, Witness};

/// Most entries a call lends in a column.
const MOST_LENT: usize = 200;
/// What lent entries hold before a call, so that those left alone can be told from those written.
const LENT_CLOCKS: u64 = 10;
const LENT_MASK: u32 = 0xaaaa_aaaa;
/// Lent entries shown past those written, so that a stray write would be seen.
const SHOWN_PAST: usize = 1;

/// The answer of a witness and the first entries of each column lent to it.
pub fn witness(ram: Ram, words: &mut Words) -> Answer {
    let script = audit::script(ram, words)?;
    let ranges = words.ranges()?;
    words.fixed("lent")?;
    let mut clocks = vec![LENT_CLOCKS; words.at_most(MOST_LENT)?];
    let mut known = vec![LENT_MASK; words.at_most(MOST_LENT)?];
    let mut values = vec![LENT_MASK; words.at_most(MOST_LENT)?];
    let lent = Lent {
        clocks: &mut clocks,
        known: &mut known,
        values: &mut values,
    };
    let answer = library::witness(audit::slices(&script), &ranges, lent);
    let shown = answer.map_or(0, |witness| witness.rows) + SHOWN_PAST;
    let mut line = show::answer(answer.map(told));
    line += &column("clocks", clocks.iter().take(shown).map(u64::to_string));
    line += &column("known", known.iter().take(shown).map(mask));
    line += &column("values", values.iter().take(shown).map(mask));
    Ok(Some(line))
}

/// A witness that was not refused.
fn told(witness: Witness) -> String {
    format!(
        "{} rows {} steps {} writes {}",
        audit::verdict(witness.verdict),
        witness.rows,
        witness.steps,
        witness.writes
    )
}

/// A column's name and entries, each with the space before it.
fn column(name: &str, entries: impl Iterator<Item = String>) -> String {
    let mut column = format!(" {name}");
    for entry in entries {
        column += &format!(" {entry}");
    }
    column
}

fn mask(mask: &u32) -> String {
    format!("{mask:08x}")
}
