//! What a run must have left, whatever its input was.

use crate::process::Outcome;

/// What is wrong with a run.
#[derive(Clone, Copy, Debug, PartialEq, Eq)]
pub enum Wrong {
    Hang,
    Crash,
    Stderr,
    Shape,
    Difference,
}

/// The faults of a run; what the second program says of the same input is the report that it should have.
pub fn faults(input: &[u8], outcome: &Outcome) -> Vec<Wrong> {
    let mut faults = Vec::new();
    if outcome.hung {
        faults.push(Wrong::Hang);
    } else if outcome.status.code() != Some(0) {
        faults.push(Wrong::Crash);
    }
    if !outcome.stderr.is_empty() {
        faults.push(Wrong::Stderr);
    }
    if !well_shaped(input.len(), &outcome.stdout) {
        faults.push(Wrong::Shape);
    }
    if outcome.stdout != second::job::report(input) {
        faults.push(Wrong::Difference);
    }
    faults
}

/// A refused job has nothing but its line; any other report starts with the family.
fn well_shaped(length: usize, output: &[u8]) -> bool {
    let Ok(text) = std::str::from_utf8(output) else {
        return false;
    };
    if text.starts_with("refused") {
        return refusal(text).is_some_and(|(number, offset)| {
            matches!(number, 16 | 20..=28 | 30..=33)
                && offset <= length
                && text == format!("refused {number} at {offset}\n")
        });
    }
    text.starts_with("family ") && text.ends_with('\n')
}

/// Number and offset of a refusal's line.
pub fn refusal(text: &str) -> Option<(u8, usize)> {
    let rest = text.strip_prefix("refused ")?.strip_suffix('\n')?;
    let (number, offset) = rest.split_once(" at ")?;
    Some((number.parse().ok()?, offset.parse().ok()?))
}
