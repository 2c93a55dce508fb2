//! Both machines side by side.

use super::session::{Action, Session};
use crate::outcomes::Group;
use crate::part::Tally;
use crate::show;
use compare::{inputs, mirror};
use hwsq::{Access, State, Stepped};
use makers::log::Columns;
use makers::registers;
use second::isa::{CodeAddress, MmioAddress};
use second::log::Place;
use second::machine::{self, Activity, Slot};

/// The two states, which are equal, and the place in the log.
pub struct Bench {
    proved: State,
    second: machine::State,
    place: Place,
}

impl Bench {
    /// Fresh machines; of a number that names no family, such a state with that number.
    pub fn fresh(family: u8, tally: &mut Tally) -> Result<Bench, String> {
        let proved = hwsq::fresh(family);
        tally.count(Group::Fresh, proved.refusal);
        let answer = machine::State::fresh(family);
        let outcome = answer.as_ref().map(|_| ()).map_err(|refusal| *refusal);
        let second = answer
            .or_else(|_| machine::State::fresh(1).map(|state| machine::State { family, ..state }));
        let second = second.expect("family 1 has a fresh state");
        let access = mirror::access(outcome, &second);
        if proved != access {
            return Err(told_accesses(&proved, &access));
        }
        let (ours, theirs) = (hwsq::family(family), mirror::facts(family));
        if ours != theirs {
            return Err(format!("  proved {ours:?}\n  second {theirs:?}"));
        }
        Ok(Bench {
            proved: proved.state,
            second,
            place: Place::default(),
        })
    }

    /// Does one action to both, and tells both answers if they differ.
    pub fn act(
        &mut self,
        session: &Session,
        columns: &Columns,
        action: &Action,
        tally: &mut Tally,
    ) -> Option<String> {
        match *action {
            Action::Upload => {
                let mut writes = session.upload_writes().into_iter();
                writes.find_map(|(address, word)| self.write(address, word, tally))
            }
            Action::Write { address, word } => self.write(address, word, tally),
            Action::Read(address) => self.read(address, tally),
            Action::ReadAll => {
                let mut addresses = registers::all().into_iter();
                addresses.find_map(|address| self.read(address, tally))
            }
            Action::Step(slot) => self.step(slot, columns, tally),
            Action::Place { row, used } => {
                self.place = Place { row, used };
                None
            }
            Action::Force { slot, mode, ip } => {
                self.force(slot, mode, ip);
                None
            }
            Action::Raw { at, byte, mark } => {
                (self.proved.code[at], self.proved.marks[at]) = (byte, mark);
                (self.second.code[at], self.second.marks[at]) = (byte, mark);
                None
            }
            Action::High(word) => {
                self.proved.entries_high = word;
                self.second.entry_point_high = word;
                None
            }
        }
    }

    fn write(&mut self, address: u32, word: u32, tally: &mut Tally) -> Option<String> {
        let proved = hwsq::write(&self.proved, address, word);
        tally.count(Group::HostWrite, proved.refusal);
        let answer = machine::host_write(&mut self.second, MmioAddress(address), word);
        let second = mirror::access(answer, &self.second);
        self.proved = proved.state;
        (proved != second).then(|| told_accesses(&proved, &second))
    }

    fn read(&mut self, address: u32, tally: &mut Tally) -> Option<String> {
        let proved = hwsq::read(&self.proved, address);
        tally.count(Group::HostRead, proved.refusal);
        let second = mirror::reading(machine::host_read(&self.second, MmioAddress(address)));
        (proved != second).then(|| format!("  proved {proved:x?}\n  second {second:x?}"))
    }

    fn step(&mut self, slot: u8, columns: &Columns, tally: &mut Tally) -> Option<String> {
        let from = self.place;
        let log = inputs::log(columns);
        let proved = hwsq::step(&self.proved, slot, log, from.row, from.used);
        count_step(&proved, slot, tally);
        let name = if slot == 0 { Slot::A } else { Slot::B };
        let answer = machine::step(&mut self.second, name, inputs::columns(log), from);
        let second = mirror::stepped(answer, from, &self.second);
        self.proved = proved.state;
        self.place = Place {
            row: proved.row,
            used: proved.used,
        };
        let paused = hwsq::paused(&self.proved);
        // The second program refuses the question of a number that names no family.
        let same = proved == second && paused == (self.second.memory_paused() == Ok(true));
        (!same).then(|| told_steps(&proved, &second) + &format!("\n  proved paused {paused}"))
    }

    fn force(&mut self, slot: usize, mode: u8, ip: u32) {
        let proved = if slot == 0 {
            &mut self.proved.a
        } else {
            &mut self.proved.b
        };
        (proved.mode, proved.ip) = (mode, ip as usize);
        let second = &mut self.second.slots[slot];
        second.ip = CodeAddress(ip);
        second.activity = match mode {
            0 => Activity::Idle,
            1 => Activity::Fetching,
            2 => Activity::Waiting,
            3 => Activity::Blocked,
            _ => Activity::Hung,
        };
    }
}

fn count_step(step: &Stepped, slot: u8, tally: &mut Tally) {
    tally.count(Group::Step, step.refusal);
    if step.refusal > 0 {
        return;
    }
    tally.count(Group::Effect, step.effect);
    if step.effect == 1 {
        tally.count(Group::Stop, step.why);
    }
    let stepped = if slot == 0 {
        step.state.a
    } else {
        step.state.b
    };
    tally.count(Group::Mode, stepped.mode);
}

fn told_accesses(proved: &Access, second: &Access) -> String {
    let told =
        |access: &Access| format!("refusal {} {}", access.refusal, show::state(&access.state));
    format!("  proved {}\n  second {}", told(proved), told(second))
}

fn told_steps(proved: &Stepped, second: &Stepped) -> String {
    let told = |step: &Stepped| {
        format!(
            "refusal {} effect {} why {} address {:08x} word {:08x} row {} used {} waited {} searched {} {}",
            step.refusal,
            step.effect,
            step.why,
            step.address,
            step.word,
            step.row,
            step.used,
            step.waited,
            step.searched,
            show::state(&step.state)
        )
    };
    format!("  proved {}\n  second {}", told(proved), told(second))
}
