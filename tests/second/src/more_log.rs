//! Pairs of runs, the second under more log: added rows, filled in readings.

use crate::audit::{start, Registers, Script};
use crate::log::{Columns, Log, Passed};
use crate::machine::{Slot, Steps};
use crate::misreadings::{in_force, Misreading};
use crate::Refusal;

pub use crate::log::Masks;

/// When a wait or an ewait ended; the one that ended later is the greater one.
#[derive(Clone, Copy, Debug, PartialEq, Eq, PartialOrd, Ord)]
pub enum WaitEnd {
    /// Clocks of the log gone by since its start.
    At(u64),
    /// The log ended first.
    Never,
}

/// A row with the readings it lacks taken from other masks; value bits without one are theirs too.
pub fn filled_in(row: Masks, from: Masks) -> Masks {
    // The papers: known readings stay unchanged.
    let kept = if in_force(Misreading::KnownReadingChanged) {
        0
    } else {
        row.known
    };
    Masks {
        known: row.known | from.known,
        values: row.values & kept | from.values & !kept,
    }
}

/// Runs a script as replay does and tells when each wait and ewait it executed ended, in order.
pub fn wait_ends(
    script: Script,
    registers: Registers,
    columns: Columns,
) -> Result<Vec<WaitEnd>, Refusal> {
    let mut state = start(script, registers)?;
    let log = Log::new(columns)?;
    let waits = Steps::new(&mut state, Slot::A, &log).filter_map(|told| told.passed);
    Ok(waits.map(|passed| wait_end(&log, passed)).collect())
}

fn wait_end(log: &Log, passed: Passed) -> WaitEnd {
    if !passed.done {
        return WaitEnd::Never;
    }
    // The papers: when a wait ends counts, not how long it takes.
    if in_force(Misreading::WaitMeasuredByLength) {
        return WaitEnd::At(passed.clocks);
    }
    WaitEnd::At(log.total() - log.left(passed.place))
}

/// Whether each wait of the first run was executed in the second and ended no later there.
pub fn never_later(before: &[WaitEnd], now: &[WaitEnd]) -> bool {
    before.len() <= now.len() && now.iter().zip(before).all(|(now, before)| now <= before)
}

/// Whether the writes made before, address and data in turn, are the beginning of those made now.
pub fn keeps_writes(before: &[u32], now: &[u32]) -> bool {
    now.starts_with(before)
}
