//! A proved answer as a claim, which the second program's machine bears out or not.

use super::start::Start;
use second::audit::Script;
use second::isa::MmioAddress;
use second::log::Columns;
use second::machine::{Slot, State};
use second::shows::{shows, Doubt, Write};
use second::witness::Witness;

/// A script, and what is said of it.
pub struct Claim<'a> {
    pub script: Script<'a>,
    pub ranges: &'a [u32],
    pub columns: Columns<'a>,
    pub witness: Witness,
    /// ADDR and DATA of the second start that a verdict of 4 or 5 takes; the first has 0 in both.
    pub second_start: Option<(u32, u32)>,
}

/// What runs have against a claim.
pub enum Objection {
    /// The run from the start itself.
    Doubted(Doubt),
    /// The run with this ADDR and DATA, which the claim names.
    NamedDoubted(u32, u32, Doubt),
    /// Both named starts write this.
    WriteAlike(Option<Write>),
}

impl Objection {
    pub fn told(&self) -> String {
        match self {
            Objection::Doubted(doubt) => format!("{doubt:?}"),
            Objection::NamedDoubted(addr, data, doubt) => {
                format!("with addr {addr:08x} data {data:08x}: {doubt:?}")
            }
            Objection::WriteAlike(write) => format!("both named starts end with {write:?}"),
        }
    }
}

impl Claim<'_> {
    /// Runs the log from a start, and for 4 and 5 from the two that differ from it in ADDR and DATA as named.
    pub fn tried_from(&self, start: &Start) -> Result<(), Objection> {
        let state = start.of(self.script);
        self.run(&state, start.slot).map_err(Objection::Doubted)?;
        let Some(named) = self.second_start else {
            return Ok(());
        };
        let [first, second] = [(0, 0), named].map(|(addr, data)| {
            let mut state = state.clone();
            state.slot_mut(start.slot).addr = MmioAddress(addr);
            state.slot_mut(start.slot).data = data;
            let answer = self.run(&state, start.slot);
            answer.map_err(|doubt| Objection::NamedDoubted(addr, data, doubt))
        });
        let (first, second) = (first?, second?);
        if first == second {
            return Err(Objection::WriteAlike(first));
        }
        Ok(())
    }

    fn run(&self, start: &State, slot: Slot) -> Result<Option<Write>, Doubt> {
        shows(start, slot, self.columns, self.ranges, self.witness)
    }
}
