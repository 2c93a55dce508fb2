//! Witnesses: verdicts with logs that show them, each proved log run by the second program's machine.

mod case;
mod claim;
mod findings;
mod laws;
mod making;
mod start;

use crate::audited::Audited;
use crate::outcomes::Group;
use crate::part::{Part, Tally};
use crate::shrink::Shrinker;
use case::Case;
use findings::Findings;
use hwsq::{Shown, SHOWN_ROWS};
use makers::random::Random;
use start::Start;

const SALT: u64 = 9;

/// Compares the witnesses, and tries the proved ones.
pub struct Witnesses {
    pub seed: u64,
    pub witnesses: u64,
}

fn differs(case: &Case) -> bool {
    Findings::of(case).are_amiss()
}

/// Counts a proved answer: refused or not, and the verdict and how long its log is.
fn count(shown: &Shown, tally: &mut Tally) {
    tally.count(Group::Witness, shown.refusal);
    if shown.refusal > 0 {
        return;
    }
    tally.count(Group::Shown, shown.verdict);
    let length = match shown.rows {
        1 => 0,
        SHOWN_ROWS => 2,
        2..SHOWN_ROWS => 1,
        _ => u8::MAX,
    };
    tally.count(Group::LogRows, length);
}

impl Part for Witnesses {
    type Case = Case;

    fn name(&self) -> &'static str {
        "witnesses"
    }

    fn groups(&self) -> &'static [Group] {
        &[Group::Witness, Group::Shown, Group::LogRows]
    }

    fn units(&self) -> u64 {
        self.witnesses
    }

    fn compare(&self, unit: u64, tally: &mut Tally) -> Option<Case> {
        let case = making::case(&mut Random::of_case(self.seed, SALT, unit));
        let findings = Findings::of(&case);
        tally.cases += 1;
        count(&findings.proved.shown, tally);
        findings.are_amiss().then_some(case)
    }

    fn shrunk(&self, mut case: Case) -> Case {
        let shrinker = Shrinker::start();
        shrinker.drop_items(&mut case, starts_of, differs);
        let enough = [[SHOWN_ROWS; 3]];
        shrinker.settle(&mut case, |case| &mut case.lent, &enough, differs);
        Audited::shrink(&shrinker, &mut case, |case| &mut case.audited, differs);
        shrinker.until_stable(&mut case, |case| {
            shrinker.simplify(case, starts_of, Start::simpler, differs);
        });
        case
    }

    fn input(&self, case: &Case) -> String {
        let [clocks, known, values] = case.lent;
        let audited = case.audited.told();
        format!("witness {audited} lent {clocks} {known} {values}")
    }

    fn answers(&self, case: &Case) -> String {
        Findings::of(case).told(case)
    }
}

fn starts_of(case: &mut Case) -> &mut Vec<Start> {
    &mut case.starts
}
