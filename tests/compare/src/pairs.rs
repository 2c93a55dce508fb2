//! Pairs of runs: under more log a script loses no write, and none of its waits ends later.

mod case;
mod changes;
mod laws;
mod making;
mod runs;

use crate::launch::Launch;
use crate::outcomes::Group;
use crate::part::{Part, Tally};
use crate::show;
use crate::shrink::Shrinker;
use case::{Case, Filling};
use makers::log::Row;
use makers::random::Random;
use runs::{second_ends, Run};
use second::more_log::WaitEnd;
use second::Refusal;

const SALT: u64 = 8;

/// Compares the ends of waits in pairs of runs, and tries the laws on the proved runs.
pub struct Pairs {
    pub seed: u64,
    pub pairs: u64,
}

/// The proved runs under both logs, and when the second program's waits ended.
struct Pair {
    proved: [Run; 2],
    second: [Result<Vec<WaitEnd>, Refusal>; 2],
    broken: Option<&'static str>,
}

impl Pair {
    fn of(case: &Case) -> Pair {
        let logs = [case.first_log(), case.second_log()];
        let [before, now] = logs.each_ref().map(|log| Run::of(&case.launch, log));
        Pair {
            broken: laws::broken(case, &before, &now),
            proved: [before, now],
            second: logs.each_ref().map(|log| second_ends(&case.launch, log)),
        }
    }

    /// Whether the ends of the waits differ, or a law is broken.
    fn is_amiss(&self) -> bool {
        let mut sides = self.proved.iter().zip(&self.second);
        self.broken.is_some() || sides.any(|(run, ends)| ends.as_ref() != Ok(&run.ends))
    }
}

fn differs(case: &Case) -> bool {
    Pair::of(case).is_amiss()
}

/// Points in the log, and `never` for a wait that the log's end cut off.
fn told_ends(ends: &[WaitEnd]) -> String {
    let words = ends.iter().map(|end| match end {
        WaitEnd::At(clocks) => clocks.to_string(),
        WaitEnd::Never => "never".to_string(),
    });
    show::list(words)
}

impl Part for Pairs {
    type Case = Case;

    fn name(&self) -> &'static str {
        "pairs"
    }

    fn groups(&self) -> &'static [Group] {
        &[Group::MoreLog, Group::Change]
    }

    fn units(&self) -> u64 {
        self.pairs
    }

    fn compare(&self, unit: u64, tally: &mut Tally) -> Option<Case> {
        let case = making::case(&mut Random::of_case(self.seed, SALT, unit));
        let pair = Pair::of(&case);
        tally.cases += 1;
        let [before, now] = &pair.proved;
        changes::count(&case, before, now, tally);
        pair.is_amiss().then_some(case)
    }

    fn shrunk(&self, mut case: Case) -> Case {
        let shrinker = Shrinker::start();
        shrinker.drop_items(&mut case, |case| &mut case.added, differs);
        shrinker.drop_items(&mut case, rows_of, differs);
        Launch::shrink(&shrinker, &mut case, |case| &mut case.launch, differs);
        // A filler of 00 is a wait at each place behind the script.
        shrinker.settle(&mut case, filler_of, &[0x7f], differs);
        shrinker.drop_items(&mut case, |case| &mut case.added, differs);
        shrinker.drop_items(&mut case, rows_of, differs);
        shrinker.simplify(&mut case, rows_of, Filling::emptier, differs);
        shrinker.simplify(&mut case, rows_of, Filling::simpler, differs);
        shrinker.simplify(&mut case, |case| &mut case.added, Row::simpler, differs);
        case
    }

    fn input(&self, case: &Case) -> String {
        let replay = case.launch.told(hwsq::ENTRIES);
        let logs = [case.first_log(), case.second_log()];
        let calls = logs.map(|log| format!("{}\n{replay}", show::log(&log)));
        calls.join("\n")
    }

    fn answers(&self, case: &Case) -> String {
        let pair = Pair::of(case);
        let mut text = String::new();
        let sides = pair.proved.iter().zip(&pair.second);
        for (when, (run, ends)) in ["before", "now"].into_iter().zip(sides) {
            let (answer, writes) = (run.answer, show::words(run.writes()));
            let second = match ends {
                Ok(ends) => told_ends(ends),
                Err(refusal) => format!("refused {}", refusal.number()),
            };
            text += &format!("  {when} {answer:x?} writes {writes}\n");
            text += &format!("    waits end, proved: {}\n", told_ends(&run.ends));
            text += &format!("    waits end, second: {second}\n");
        }
        text + "  law broken: " + pair.broken.unwrap_or("none")
    }
}

fn filler_of(case: &mut Case) -> &mut u8 {
    &mut case.launch.ram.filler
}

fn rows_of(case: &mut Case) -> &mut Vec<Filling> {
    &mut case.rows
}
