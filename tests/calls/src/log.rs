//! Calls that set the log.

use crate::words::{Answer, Words};

/// Most rows that `rows` makes.
const MOST_ROWS: usize = 1100;

/// The columns of a log, owned.
#[derive(Default)]
pub struct Rows {
    pub clocks: Vec<u64>,
    pub known: Vec<u32>,
    pub values: Vec<u32>,
}

impl Rows {
    /// Each column as the call has it.
    pub fn set(&mut self, words: &mut Words) -> Answer {
        self.clocks = words.list(Words::number)?;
        words.fixed("known")?;
        self.known = words.list(Words::word)?;
        words.fixed("values")?;
        self.values = words.list(Words::word)?;
        Ok(None)
    }

    /// Many rows that are all the same but for the last one's values.
    pub fn repeat(&mut self, words: &mut Words) -> Answer {
        let rows = words.at_most(MOST_ROWS)?;
        self.clocks = vec![words.number()?; rows];
        self.known = vec![words.word()?; rows];
        self.values = vec![words.word()?; rows];
        let last = words.word()?;
        if let Some(values) = self.values.last_mut() {
            *values = last;
        }
        Ok(None)
    }
}
