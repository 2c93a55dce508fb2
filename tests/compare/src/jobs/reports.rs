//! Both reports on a job, and what they say came out.

use crate::outcomes::Group;
use crate::part::Tally;
use std::cell::RefCell;

/// What the buffer for the proved report holds before.
const LENT: u8 = 0xa5;
/// Such a buffer, as slices compare faster than bytes.
static UNTOUCHED: [u8; hwsq::REPORT_SIZE] = [LENT; hwsq::REPORT_SIZE];
/// The refusal of gates and captures, which three kinds of record have.
const BAD_PROBE: u8 = 33;
/// No outcome has this number.
const STRANGE: u8 = 63;

thread_local! {
    // A thread uses one buffer for all its reports, as filling it anew takes longer than most reports.
    static BUFFER: RefCell<Box<[u8; hwsq::REPORT_SIZE]>> =
        RefCell::new(Box::new([LENT; hwsq::REPORT_SIZE]));
}

/// The reports, and whether the proved one left the rest of its buffer alone.
pub struct Reports {
    proved: Vec<u8>,
    second: Vec<u8>,
    rest_kept: bool,
}

/// The proved report, and whether the bytes past it are as lent.
fn proved(job: &[u8]) -> (Vec<u8>, bool) {
    BUFFER.with_borrow_mut(|buffer| {
        let length = hwsq::report(job, buffer);
        let (report, rest) = buffer.split_at_mut(length);
        let kept = *rest == UNTOUCHED[..rest.len()];
        if !kept {
            rest.fill(LENT);
        }
        let text = report.to_vec();
        report.fill(LENT);
        (text, kept)
    })
}

impl Reports {
    pub fn of(job: &[u8]) -> Reports {
        let (proved, rest_kept) = proved(job);
        Reports {
            proved,
            second: second::job::report(job),
            rest_kept,
        }
    }

    pub fn differ(&self) -> bool {
        self.proved != self.second || !self.rest_kept
    }

    pub fn proved(&self) -> &[u8] {
        &self.proved
    }

    /// Counts the outcomes that the proved report on this job names.
    pub fn count(&self, job: &[u8], tally: &mut Tally) {
        let text = String::from_utf8_lossy(&self.proved);
        let mut family = 0;
        for line in text.lines() {
            let words: Vec<&str> = line.split(' ').collect();
            let number = words.get(1).and_then(|word| word.parse().ok());
            match words[0] {
                "refused" => count_refusal(&words, job, tally),
                "family" => family = number.unwrap_or(0),
                "verdict" => {
                    tally.count(Group::JobVerdict, number.unwrap_or(STRANGE));
                    tally.count(Group::verdicts_of(family), number.unwrap_or(STRANGE));
                }
                "event" => count_event(&words, tally),
                "end" => tally.count(Group::JobEnding, ending(words[1])),
                "status" => count_slot(words[1], tally),
                "write" | "row" => {}
                _ => tally.count(Group::JobRefusal, STRANGE),
            }
        }
    }

    pub fn told(&self) -> String {
        let text = |report: &[u8]| String::from_utf8_lossy(report).replace('\n', "\n    ");
        let rest = if self.rest_kept {
            ""
        } else {
            "  proved report wrote past its end\n"
        };
        format!(
            "  proved:\n    {}\n  second:\n    {}\n{rest}",
            text(&self.proved).trim_end(),
            text(&self.second).trim_end()
        )
    }
}

/// The refusal, and of 33 the kind of the record that its offset names.
fn count_refusal(words: &[&str], job: &[u8], tally: &mut Tally) {
    let &["refused", number, "at", offset] = words else {
        return tally.count(Group::JobRefusal, STRANGE);
    };
    let number = number.parse().unwrap_or(STRANGE);
    tally.count(Group::JobRefusal, number);
    if number == BAD_PROBE {
        let kind = offset.parse().ok().and_then(|at: usize| job.get(at));
        tally.count(Group::BadProbe, kind.copied().unwrap_or(STRANGE));
    }
}

/// What volts an event had, and how many of them were no reading for lying between the levels.
fn count_event(words: &[&str], tally: &mut Tally) {
    let &["event", _, "least", least, "greatest", greatest, "between", between] = words else {
        return tally.count(Group::EventVolts, STRANGE);
    };
    let volts = match (least, greatest) {
        ("none", "none") => 0,
        ("none", _) | (_, "none") => STRANGE,
        _ if least == greatest => 1,
        _ => 2,
    };
    tally.count(Group::EventVolts, volts);
    let between = between
        .parse()
        .map_or(STRANGE, |count: u64| count.min(2) as u8);
    tally.count(Group::EventBetween, between);
}

fn ending(word: &str) -> u8 {
    match word {
        "exit" => 1,
        "log" => 2,
        "poke" => 3,
        _ => STRANGE,
    }
}

/// The slot that ran, which STATUS shows by the half that isn't 0.
fn count_slot(status: &str, tally: &mut Tally) {
    let status = u32::from_str_radix(status, 16).unwrap_or(0);
    if status >> 16 != 0 {
        tally.count(Group::JobSlot, 1);
    } else if status != 0 {
        tally.count(Group::JobSlot, 0);
    }
}
