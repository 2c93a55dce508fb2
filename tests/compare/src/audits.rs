//! The auditor, called with slices that fit and with ones that don't.

use crate::audited::Audited;
use crate::outcomes::Group;
use crate::part::{Part, Tally};
use crate::shrink::Shrinker;
use compare::{inputs, mirror};
use hwsq::Verdict;
use makers::random::Random;

const SALT: u64 = 5;

/// Compares the auditors.
pub struct Audits {
    pub seed: u64,
    pub audits: u64,
}

/// Both verdicts, the proved one first.
fn verdicts(case: &Audited) -> (Verdict, Verdict) {
    let (code, marks) = case.ram.slices();
    let script = case.ram.lent(&code, &marks);
    let proved = hwsq::audit(script, &case.ranges);
    let second = second::audit::audit(inputs::script(script), &case.ranges);
    (proved, mirror::verdict(second))
}

fn differs(case: &Audited) -> bool {
    let (proved, second) = verdicts(case);
    proved != second
}

impl Part for Audits {
    type Case = Audited;

    fn name(&self) -> &'static str {
        "audits"
    }

    fn groups(&self) -> &'static [Group] {
        &[Group::Audit]
    }

    fn units(&self) -> u64 {
        self.audits
    }

    fn compare(&self, unit: u64, tally: &mut Tally) -> Option<Audited> {
        let case = Audited::random(&mut Random::of_case(self.seed, SALT, unit));
        let (proved, second) = verdicts(&case);
        tally.cases += 1;
        tally.count(Group::Audit, proved.verdict);
        (proved != second).then_some(case)
    }

    fn shrunk(&self, mut case: Audited) -> Audited {
        let shrinker = Shrinker::start();
        Audited::shrink(&shrinker, &mut case, |case| case, differs);
        case
    }

    fn input(&self, case: &Audited) -> String {
        format!("audit {}", case.told())
    }

    fn answers(&self, case: &Audited) -> String {
        let (proved, second) = verdicts(case);
        format!("  proved {proved:?}\n  second {second:?}")
    }
}
