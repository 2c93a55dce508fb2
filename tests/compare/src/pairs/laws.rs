//! What holds of two runs of which the second has more log.

use super::case::Case;
use super::runs::Run;
use hwsq::Replayed;
use second::more_log::{keeps_writes, never_later};

/// Whether a law holds of the run before and the run now.
type Law = fn(&Case, &Run, &Run) -> bool;

const LAWS: [(&str, Law); 7] = [
    ("both logs are taken", both_taken),
    ("replay answers what the steps do", both_agree),
    ("the writes made before begin those made now", writes_kept),
    ("no wait ends later", no_wait_later),
    ("equally many steps do the same", steps_kept),
    (
        "a finished run stays but for its place, and searches no more",
        finished_stays,
    ),
    (
        "a finished run stays the very same under added rows",
        finished_stays_the_same,
    ),
];

/// The first law that is broken.
pub fn broken(case: &Case, before: &Run, now: &Run) -> Option<&'static str> {
    let mut laws = LAWS.iter();
    let law = laws.find(|(_, holds)| !holds(case, before, now));
    law.map(|&(words, _)| words)
}

fn both_taken(_: &Case, before: &Run, now: &Run) -> bool {
    before.answer.refusal == 0 && now.answer.refusal == 0
}

fn both_agree(_: &Case, before: &Run, now: &Run) -> bool {
    before.agrees() && now.agrees()
}

fn writes_kept(_: &Case, before: &Run, now: &Run) -> bool {
    keeps_writes(before.writes(), now.writes())
}

fn no_wait_later(_: &Case, before: &Run, now: &Run) -> bool {
    never_later(&before.ends, &now.ends)
}

fn steps_kept(_: &Case, before: &Run, now: &Run) -> bool {
    now.steps.starts_with(&before.steps)
}

fn finished_stays(case: &Case, before: &Run, now: &Run) -> bool {
    let (old, new) = (before.answer, now.answer);
    // Clocks that ewaits no longer pass by are left.
    let saved = old.searched.saturating_sub(new.searched);
    let expected = Replayed {
        row: new.row,
        used: new.used,
        searched: new.searched.min(old.searched),
        left: old.left + saved + case.added_clocks(),
        ..old
    };
    before.is_cut_off() || new == expected
}

fn finished_stays_the_same(case: &Case, before: &Run, now: &Run) -> bool {
    let left = before.answer.left + case.added_clocks();
    let expected = Replayed {
        left,
        ..before.answer
    };
    let same = now.answer == expected && now.entries == before.entries && now.ends == before.ends;
    before.is_cut_off() || case.fills_in() || same
}
