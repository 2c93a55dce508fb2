//! What holds of a proved witness beside the proved audit of the same script.

use super::case::{LENT_CLOCKS, LENT_MASK};
use super::findings::Answer;
use hwsq::{Verdict, SHOWN_ROWS};

/// Whether a law holds of the audit's verdict and the witness.
type Law = fn(&Verdict, &Answer) -> bool;

const LAWS: [(&str, Law); 3] = [
    ("the verdict is the audit's", audited),
    ("the log has 1 to 171 rows", of_a_length),
    ("entries past the log stay as lent", rest_stays),
];

/// The first law that is broken.
pub fn broken(verdict: &Verdict, answer: &Answer) -> Option<&'static str> {
    let mut laws = LAWS.iter();
    let law = laws.find(|(_, holds)| !holds(verdict, answer));
    law.map(|&(words, _)| words)
}

fn audited(verdict: &Verdict, answer: &Answer) -> bool {
    let shown = &answer.shown;
    let unfit = verdict.verdict == 9;
    // Of a fault the audit counts no writes.
    let writes = if shown.verdict > 0 { 0 } else { shown.writes };
    let told = Verdict {
        verdict: shown.verdict,
        place: shown.place,
        count: shown.count,
        writes,
        clocks: shown.clocks,
    };
    match shown.refusal {
        0 => told == *verdict && !unfit,
        9 => unfit,
        _ => !unfit,
    }
}

fn of_a_length(_: &Verdict, answer: &Answer) -> bool {
    let rows = answer.shown.rows;
    if answer.shown.refusal > 0 {
        rows == 0
    } else {
        (1..=SHOWN_ROWS).contains(&rows)
    }
}

/// A refused call has no log, so that all entries stay.
fn rest_stays(_: &Verdict, answer: &Answer) -> bool {
    let (rows, columns) = (answer.shown.rows, &answer.columns);
    let mut clocks = columns.clocks.iter().skip(rows);
    let mut masks = [&columns.known, &columns.values].into_iter();
    clocks.all(|&entry| entry == LENT_CLOCKS)
        && masks.all(|column| column.iter().skip(rows).all(|&entry| entry == LENT_MASK))
}
