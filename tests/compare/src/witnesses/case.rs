//! A script, columns to be lent for the log that shows its verdict, and starts to try that log from.

use super::start::Start;
use crate::audited::Audited;
use makers::log::Columns;

/// What lent entries hold before a call, as docs/VECTORS.md has it; neither is in the log of a witness.
pub const LENT_CLOCKS: u64 = 10;
pub const LENT_MASK: u32 = 0xaaaa_aaaa;

/// A script with the entries lent in each column, of clocks, known masks and values.
#[derive(Clone, PartialEq)]
pub struct Case {
    pub audited: Audited,
    pub lent: [usize; 3],
    pub starts: Vec<Start>,
}

impl Case {
    /// The columns before a call.
    pub fn columns(&self) -> Columns {
        let [clocks, known, values] = self.lent;
        Columns {
            clocks: vec![LENT_CLOCKS; clocks],
            known: vec![LENT_MASK; known],
            values: vec![LENT_MASK; values],
        }
    }
}
