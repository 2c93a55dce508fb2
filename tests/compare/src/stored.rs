//! Stored jobs, each with its whole report as somebody wrote it down beforehand: both must say just that.

mod text;

use crate::jobs::Reports;
use crate::outcomes::Group;
use crate::part::{Part, Tally};
use crate::show;

const CAPTURES: &str = include_str!("../stored/captures.txt");

/// A job and the report on it.
#[derive(Clone, Debug)]
pub struct Case {
    name: String,
    pub job: Vec<u8>,
    report: Vec<u8>,
}

/// Compares both reports with the stored ones.
pub struct Stored(Vec<Case>);

/// All that is stored.
pub fn cases() -> Vec<Case> {
    text::cases(CAPTURES)
}

impl Case {
    fn named(name: &str) -> Case {
        Case {
            name: name.to_string(),
            job: vec![],
            report: vec![],
        }
    }

    fn differs(&self) -> bool {
        let reports = Reports::of(&self.job);
        reports.differ() || reports.proved() != self.report
    }
}

impl Stored {
    pub fn all() -> Stored {
        Stored(cases())
    }
}

impl Part for Stored {
    type Case = Case;

    fn name(&self) -> &'static str {
        "stored"
    }

    fn groups(&self) -> &'static [Group] {
        &[]
    }

    fn units(&self) -> u64 {
        self.0.len() as u64
    }

    fn compare(&self, unit: u64, tally: &mut Tally) -> Option<Case> {
        let case = &self.0[unit as usize];
        tally.cases += 1;
        case.differs().then(|| case.clone())
    }

    /// A stored case is small, and its report is that of no other job.
    fn shrunk(&self, case: Case) -> Case {
        case
    }

    fn input(&self, case: &Case) -> String {
        format!("case {}: {}", case.name, show::bytes(&case.job))
    }

    fn answers(&self, case: &Case) -> String {
        let stored = String::from_utf8_lossy(&case.report).replace('\n', "\n    ");
        let told = Reports::of(&case.job).told();
        format!("  stored:\n    {}\n{told}", stored.trim_end())
    }
}
