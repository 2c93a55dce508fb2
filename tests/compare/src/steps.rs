//! Scripts step by step: both machines get the same host writes, reads and steps, and are compared after each.

mod bench;
mod making;
mod session;

use crate::outcomes::Group;
use crate::part::{Part, Tally};
use crate::shrink::{zeroed, Shrinker};
use bench::Bench;
use makers::log::Row;
use makers::random::Random;
use session::{Action, Session};

const SALT: u64 = 3;

/// Compares the machines.
pub struct Steps {
    pub seed: u64,
    pub scripts: u64,
}

/// Runs a session and tells both answers to the first action that they differ on.
fn difference(session: &Session, tally: &mut Tally) -> Option<String> {
    let columns = session.log.columns();
    let mut bench = match Bench::fresh(session.family, tally) {
        Ok(bench) => bench,
        Err(told) => return Some(told),
    };
    let mut calls = session.actions.iter();
    calls.find_map(|action| bench.act(session, &columns, action, tally))
}

fn differs(session: &Session) -> bool {
    difference(session, &mut Tally::new()).is_some()
}

impl Part for Steps {
    type Case = Session;

    fn name(&self) -> &'static str {
        "steps"
    }

    fn groups(&self) -> &'static [Group] {
        &[
            Group::Fresh,
            Group::HostWrite,
            Group::HostRead,
            Group::Step,
            Group::Effect,
            Group::Stop,
            Group::Mode,
        ]
    }

    fn units(&self) -> u64 {
        self.scripts
    }

    fn compare(&self, unit: u64, tally: &mut Tally) -> Option<Session> {
        let mut random = Random::of_case(self.seed, SALT, unit);
        let session = making::session(&mut random);
        tally.cases += 1;
        difference(&session, tally).map(|_| session)
    }

    fn shrunk(&self, mut case: Session) -> Session {
        let shrinker = Shrinker::start();
        case.spell_out_reads();
        let lowered = case.lowered();
        if differs(&lowered) {
            case = lowered;
        }
        shrinker.settle(&mut case, |case| &mut case.upload.whole, &[false], differs);
        shrinker.settle(&mut case, |case| &mut case.upload.filler, &[0], differs);
        shrinker.until_stable(&mut case, |case| {
            shrinker.drop_items(case, actions_of, differs);
            shrinker.drop_items(case, pieces_of, differs);
            shrinker.drop_items(case, |case| &mut case.log.rows, differs);
            shrinker.simplify(case, pieces_of, |piece| zeroed(piece), differs);
        });
        case.spell_out_uploads();
        shrinker.drop_items(&mut case, actions_of, differs);
        shrinker.simplify(&mut case, |case| &mut case.log.rows, Row::simpler, differs);
        shrinker.simplify(&mut case, actions_of, Action::simpler, differs);
        case
    }

    fn input(&self, case: &Session) -> String {
        case.told()
    }

    fn answers(&self, case: &Session) -> String {
        difference(case, &mut Tally::new()).unwrap_or_default()
    }
}

fn actions_of(case: &mut Session) -> &mut Vec<Action> {
    &mut case.actions
}

fn pieces_of(case: &mut Session) -> &mut Vec<Vec<u8>> {
    &mut case.script.pieces
}
