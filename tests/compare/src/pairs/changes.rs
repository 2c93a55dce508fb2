//! What more log there is, and what it changed.

use super::case::Case;
use super::runs::Run;
use crate::outcomes::Group;
use crate::part::Tally;
use second::more_log::WaitEnd;

/// Counts a pair's outcomes.
pub fn count(case: &Case, before: &Run, now: &Run, tally: &mut Tally) {
    let (adds, fills) = (!case.added.is_empty(), case.fills_in());
    tally.count(Group::MoreLog, u8::from(adds) + 2 * u8::from(fills));
    let (written, writes) = (before.answer.writes, now.answer.writes);
    let waits: Vec<(Wait, Wait)> = waits(&before.ends).zip(waits(&now.ends)).collect();
    let outcomes = [
        writes == written,
        writes > written,
        waits.iter().any(|(before, now)| now.end < before.end),
        is_finished_now(&before.ends, &now.ends),
        waits.iter().any(|(before, now)| now.outlasts(before)),
        now.answer.searched < before.answer.searched && !before.is_cut_off(),
        adds && !fills && !before.is_cut_off(),
    ];
    for (number, _) in (0..).zip(outcomes).filter(|&(_, occurred)| occurred) {
        tally.count(Group::Change, number);
    }
}

/// A finished wait, by points in the log.
struct Wait {
    start: u64,
    end: u64,
}

impl Wait {
    /// Whether it takes longer than the other and yet ends no later.
    fn outlasts(&self, other: &Wait) -> bool {
        self.end - self.start > other.end - other.start && self.end <= other.end
    }
}

/// The finished waits; as only waits spend clocks, each starts where the one before ended.
fn waits(ends: &[WaitEnd]) -> impl Iterator<Item = Wait> + '_ {
    let mut start = 0;
    ends.iter().map_while(move |&end| match end {
        WaitEnd::At(end) => Some(Wait {
            start: std::mem::replace(&mut start, end),
            end,
        }),
        WaitEnd::Never => None,
    })
}

fn is_finished_now(before: &[WaitEnd], now: &[WaitEnd]) -> bool {
    let mut both = before.iter().zip(now);
    both.any(|(&before, &now)| before == WaitEnd::Never && now != WaitEnd::Never)
}
