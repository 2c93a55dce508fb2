//! The comparison itself: every part, its counts, and any difference.

use crate::options::Amounts;
use crate::part::{self, Part};
use crate::parts::{self, Visitor};
use crate::programs::Programs;
use crate::show::grouped;
use crate::stored;
use std::time::Instant;

/// What came of the parts so far.
struct Summary {
    amounts: Amounts,
    threads: usize,
    counts: bool,
    cases: u64,
    differences: Vec<&'static str>,
    faults: usize,
}

impl Visitor for Summary {
    fn visit<P: Part>(&mut self, part: &P) {
        let start = Instant::now();
        let run = part::run(part, self.threads);
        let seconds = start.elapsed().as_secs_f64();
        let cases = grouped(run.tally.cases);
        println!("{:<13} {cases:>10} cases {seconds:6.1} s", part.name());
        if self.counts {
            run.tally.outcomes.print();
        }
        self.cases += run.tally.cases;
        if let Some((unit, case)) = run.different {
            self.differences.push(part.name());
            let case = part.shrunk(case);
            println!(
                "DIFFERENCE in {}, unit {unit} of seed {}; shrunk:\n{}\n{}",
                part.name(),
                self.amounts.seed,
                part.input(&case),
                part.answers(&case)
            );
            return;
        }
        let full = self.amounts.are_full();
        for fault in run.tally.outcomes.faults(part.groups(), full) {
            self.faults += 1;
            println!("OUTCOME in {}: {fault}", part.name());
        }
    }
}

/// Runs all parts and prints their counts or not; true if nothing differs and every outcome occurred.
pub fn run(amounts: &Amounts, threads: usize, counts: bool) -> bool {
    let mut summary = Summary {
        amounts: *amounts,
        threads,
        counts,
        cases: 0,
        differences: Vec::new(),
        faults: 0,
    };
    parts::each(amounts, &mut summary);
    if amounts.programs > 0 {
        summary.visit(&Programs {
            stored: stored::cases(),
            seed: amounts.seed,
            jobs: amounts.programs,
            of: amounts.jobs,
        });
    }
    let cases = grouped(summary.cases);
    let (differences, faults) = (summary.differences, summary.faults);
    if !differences.is_empty() {
        let parts = differences.join(", ");
        println!("compare: {cases} cases, a difference in {parts}");
    } else if faults > 0 {
        println!("compare: {cases} cases, no difference, but {faults} outcomes amiss");
    } else {
        println!("compare: {cases} cases, no difference");
    }
    differences.is_empty() && faults == 0
}
