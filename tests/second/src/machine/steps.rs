//! The steps of a run.

use super::state::{Slot, State};
use super::step::{step_told, Did, Told};
use crate::log::{Log, Place};

/// Steps of one slot from the log's start on, until one fetches nothing.
pub(crate) struct Steps<'a> {
    state: &'a mut State,
    slot: Slot,
    log: &'a Log<'a>,
    place: Place,
}

impl<'a> Steps<'a> {
    /// No step is done yet.
    pub fn new(state: &'a mut State, slot: Slot, log: &'a Log<'a>) -> Steps<'a> {
        let place = Place::default();
        Steps {
            state,
            slot,
            log,
            place,
        }
    }
}

impl Iterator for Steps<'_> {
    type Item = Told;

    fn next(&mut self) -> Option<Told> {
        let told = step_told(self.state, self.slot, self.log, self.place);
        self.place = told.step.place;
        match told.step.did {
            Did::Nothing | Did::Stopped(_) => None,
            Did::UnknownOpcode | Did::Done | Did::Wrote { .. } => Some(told),
        }
    }
}
