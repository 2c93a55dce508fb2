//! A script and two logs for it, kept as the way the second log is made from the first.

use crate::launch::Launch;
use makers::log::{Columns, Row};
use second::more_log::{filled_in, Masks};

/// A row of the first log, and what the second log's row is filled in from.
#[derive(Clone, Copy)]
pub struct Filling {
    pub row: Row,
    pub from: Option<Masks>,
}

/// A script with its registers, the first log's rows, and those that are added for the second.
#[derive(Clone)]
pub struct Case {
    pub launch: Launch,
    pub rows: Vec<Filling>,
    pub added: Vec<Row>,
}

impl Filling {
    /// The row of the second log.
    fn filled(&self) -> Row {
        let Row { known, values, .. } = self.row;
        let masks = Masks { known, values };
        let Masks { known, values } = self.from.map_or(masks, |from| filled_in(masks, from));
        Row {
            known,
            values,
            ..self.row
        }
    }

    /// The same with nothing filled in, or with fewer readings and plainer values.
    pub fn emptier(&self) -> Vec<Filling> {
        let Some(from) = self.from else {
            return vec![];
        };
        let new = from.known & !self.row.known;
        let one = new & new.wrapping_neg();
        let mut emptier = vec![None];
        for known in [0, one, new, from.known] {
            let masks = [0, u32::MAX, from.values].map(|values| Masks { known, values });
            emptier.extend(masks.map(Some));
        }
        emptier.retain(|&other| other != self.from);
        let fillings = emptier.into_iter().map(|from| Filling { from, ..*self });
        fillings.collect()
    }

    /// The same with a simpler row.
    pub fn simpler(&self) -> Vec<Filling> {
        let rows = self.row.simpler().into_iter();
        rows.map(|row| Filling { row, ..*self }).collect()
    }
}

impl Case {
    pub fn first_log(&self) -> Columns {
        let rows: Vec<Row> = self.rows.iter().map(|filling| filling.row).collect();
        Columns::of(&rows)
    }

    pub fn second_log(&self) -> Columns {
        let filled = self.rows.iter().map(Filling::filled);
        let rows: Vec<Row> = filled.chain(self.added.iter().copied()).collect();
        Columns::of(&rows)
    }

    /// Whether the second log has a reading that its row lacked; values without one don't count.
    pub fn fills_in(&self) -> bool {
        let mut rows = self.rows.iter();
        rows.any(|filling| filling.filled().known != filling.row.known)
    }

    /// Clocks of the added rows.
    pub fn added_clocks(&self) -> u64 {
        self.added.iter().map(|row| row.clocks).sum()
    }
}
