//! Jobs: sound, damaged, cut, reordered and over every limit; the reports must be equal to the byte.

mod reports;
mod shorten;

use crate::outcomes::Group;
use crate::part::{Part, Tally};
use crate::show;
use crate::shrink::{zeroed, Shrinker};
use makers::jobs::{job, records};
use makers::random::Random;

pub use reports::Reports;

const SALT: u64 = 4;

/// Compares the reports.
pub struct Jobs {
    pub seed: u64,
    pub jobs: u64,
}

/// The job of a number.
pub fn numbered(seed: u64, number: u64) -> Vec<u8> {
    job(&mut Random::of_case(seed, SALT, number))
}

fn differs(job: &[u8]) -> bool {
    Reports::of(job).differ()
}

/// A smaller job of which this is still true: whole records go, then code, then bytes become 0.
pub fn shrunk(job: &[u8], differs: impl Fn(&[u8]) -> bool) -> Vec<u8> {
    let shrinker = Shrinker::start();
    let still = |list: &Vec<Vec<u8>>| differs(&list.concat());
    let mut list = records::split(job);
    shrinker.until_stable(&mut list, |list| {
        shrinker.drop_items(list, |list| list, still);
        shorten::shorten(list, still);
        shrinker.simplify(list, |list| list, |record| zeroed(record), still);
    });
    let still = |bytes: &Vec<u8>| differs(bytes);
    let mut bytes = list.concat();
    shrinker.drop_items(&mut bytes, |bytes| bytes, still);
    shrinker.simplify(&mut bytes, |bytes| bytes, |_| vec![0], still);
    bytes
}

impl Part for Jobs {
    type Case = Vec<u8>;

    fn name(&self) -> &'static str {
        "jobs"
    }

    fn groups(&self) -> &'static [Group] {
        &[
            Group::JobRefusal,
            Group::JobVerdict,
            Group::Verdict1,
            Group::Verdict2,
            Group::Verdict3,
            Group::Verdict4,
            Group::BadProbe,
            Group::EventVolts,
            Group::EventBetween,
            Group::JobEnding,
            Group::JobSlot,
        ]
    }

    fn units(&self) -> u64 {
        self.jobs
    }

    fn compare(&self, unit: u64, tally: &mut Tally) -> Option<Vec<u8>> {
        let job = numbered(self.seed, unit);
        tally.cases += 1;
        let reports = Reports::of(&job);
        reports.count(&job, tally);
        reports.differ().then_some(job)
    }

    fn shrunk(&self, case: Vec<u8>) -> Vec<u8> {
        shrunk(&case, differs)
    }

    fn input(&self, case: &Vec<u8>) -> String {
        show::bytes(case)
    }

    fn answers(&self, case: &Vec<u8>) -> String {
        Reports::of(case).told()
    }
}
