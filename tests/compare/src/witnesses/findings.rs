//! What both programs say to a case, and what speaks against the proved answer.

use super::case::Case;
use super::claim::{Claim, Objection};
use super::laws;
use crate::audited::Audited;
use crate::show;
use compare::{inputs, mirror};
use hwsq::{Script, Shown};
use makers::log::Columns;
use second::witness::{witness, Witness};

/// An answer and the lent columns after it.
#[derive(PartialEq)]
pub struct Answer {
    pub shown: Shown,
    pub columns: Columns,
}

/// Both answers, a law that the proved one breaks, and what its log shows from each start.
pub struct Findings {
    pub proved: Answer,
    second: Answer,
    broken: Option<&'static str>,
    tried: Vec<Result<(), Objection>>,
}

impl Findings {
    pub fn of(case: &Case) -> Findings {
        let Audited { ram, ranges } = &case.audited;
        let (code, marks) = ram.slices();
        let script = ram.lent(&code, &marks);
        let [mut ours, mut theirs] = [case.columns(), case.columns()];
        let shown = hwsq::witness(script, ranges, inputs::lend(&mut ours));
        let told = witness(
            inputs::script(script),
            ranges,
            inputs::lent(inputs::lend(&mut theirs)),
        );
        let proved = Answer {
            shown,
            columns: ours,
        };
        let second = Answer {
            shown: mirror::shown(told),
            columns: theirs,
        };
        let alike = verdict_of(&proved.shown) == verdict_of(&second.shown);
        let claim = told.ok().filter(|_| alike);
        let tried = claim.map(|told| proved.tried(case, script, told));
        Findings {
            broken: laws::broken(&hwsq::audit(script, ranges), &proved),
            tried: tried.unwrap_or_default(),
            proved,
            second,
        }
    }

    /// Whether the answers differ, a law is broken, or a run objects.
    pub fn are_amiss(&self) -> bool {
        let objected = self.tried.iter().any(Result::is_err);
        self.proved != self.second || self.broken.is_some() || objected
    }

    /// Both answers, the broken law, and what the runs from each start have against the proved answer.
    pub fn told(&self, case: &Case) -> String {
        let [proved, second] = [&self.proved, &self.second].map(Answer::told);
        let broken = self.broken.unwrap_or("none");
        let mut text = format!("  proved {proved}\n  second {second}\n  law broken: {broken}");
        let (code, marks) = case.audited.ram.slices();
        let script = inputs::script(case.audited.ram.lent(&code, &marks));
        for (start, tried) in case.starts.iter().zip(&self.tried) {
            let state = show::state(&mirror::state(&start.of(script)));
            let doubt = tried.as_ref().err().map(Objection::told);
            let doubt = doubt.unwrap_or("none".to_string());
            text += &format!(
                "\n  doubt from slot {:?}: {doubt}\n    of {state}",
                start.slot
            );
        }
        text
    }
}

impl Answer {
    /// Runs this log from the case's starts; of the second program's witness only the verdict is used, which is the same.
    fn tried(&self, case: &Case, script: Script, told: Witness) -> Vec<Result<(), Objection>> {
        let Shown {
            verdict,
            addr,
            data,
            rows,
            steps,
            writes,
            ..
        } = self.shown;
        // Numbers past 32 bits are cut here, but are none of the second program's.
        let claim = Claim {
            script: inputs::script(script),
            ranges: &case.audited.ranges,
            columns: inputs::columns(inputs::log(&self.columns)),
            witness: Witness {
                verdict: told.verdict,
                rows,
                steps: steps as u32,
                writes: writes as u32,
            },
            second_start: matches!(verdict, 4 | 5).then_some((addr, data)),
        };
        let starts = case.starts.iter();
        starts.map(|start| claim.tried_from(start)).collect()
    }

    /// The answer, and the log with an entry more.
    fn told(&self) -> String {
        let columns = self.columns.first(self.shown.rows.saturating_add(1));
        format!("{:?} {}", self.shown, show::log(&columns))
    }
}

/// Refusal, verdict, place and sums.
fn verdict_of(shown: &Shown) -> (u8, u8, usize, usize, u64) {
    let Shown {
        refusal,
        verdict,
        place,
        count,
        clocks,
        ..
    } = *shown;
    (refusal, verdict, place, count, clocks)
}
