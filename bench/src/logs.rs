//! A log of 1,024 rows that a script's waits walk from its start to about its end, and columns for a witness.

use crate::scripts::Script;
use hwsq::SHOWN_ROWS;
use makers::log::{Columns, MOST_ROWS};

/// A wait of 128 clocks passes eight rows.
const ROW_CLOCKS: u64 = 16;

/// Every event has a reading in every row; event 0 changes as often as the script waits for it.
pub fn walked_by(script: &Script) -> Columns {
    let stride = (MOST_ROWS - 1) / script.ewaits.max(1);
    let values = (0..MOST_ROWS).map(|row| (row / stride % 2) as u32);
    Columns {
        clocks: vec![ROW_CLOCKS; MOST_ROWS],
        known: vec![u32::MAX; MOST_ROWS],
        values: values.collect(),
    }
}

/// As many entries as a witness asks for, with what no log of one holds.
pub fn unwritten() -> Columns {
    Columns {
        clocks: vec![7; SHOWN_ROWS],
        known: vec![7; SHOWN_ROWS],
        values: vec![7; SHOWN_ROWS],
    }
}
