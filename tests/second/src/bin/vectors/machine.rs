//! Calls on the host's registers and the step machine.

use calls::words::{wrong, Answer, Read, Words};
use second::isa::{CodeAddress, MmioAddress};
use second::log::{Columns, Place};
use second::machine::{self as library, Activity, Did, Slot, SlotState, State, Stop};
use second::{show, Refusal};

const MODES: [Activity; 5] = [
    Activity::Idle,
    Activity::Fetching,
    Activity::Waiting,
    Activity::Blocked,
    Activity::Hung,
];

/// A machine and the place in the log where its next step starts.
pub struct Bench {
    state: State,
    place: Place,
}

impl Bench {
    /// A bench for any number, and whether the library would make a state for it.
    pub fn fresh(family: u8) -> (Bench, String) {
        let (state, answer) = match State::fresh(family) {
            Ok(state) => (state, Ok(())),
            Err(refusal) => (of_no_family(family), Err(refusal)),
        };
        let place = Place::default();
        (Bench { state, place }, outcome(answer))
    }

    pub fn write(&mut self, words: &mut Words) -> Answer {
        let (address, word) = (MmioAddress(words.word()?), words.word()?);
        let answer = library::host_write(&mut self.state, address, word);
        Ok(Some(outcome(answer)))
    }

    pub fn read(&self, words: &mut Words) -> Answer {
        let answer = library::host_read(&self.state, MmioAddress(words.word()?));
        let answer = answer.map(|word| format!("{word:08x}"));
        Ok(Some(show::answer(answer)))
    }

    pub fn force(&mut self, words: &mut Words) -> Answer {
        let forced = self.state.slot_mut(slot(words)?);
        forced.activity = words.one_of("a mode", &MODES, mode)?;
        forced.ip = CodeAddress(words.number()?);
        Ok(None)
    }

    pub fn raw(&mut self, words: &mut Words) -> Answer {
        let at = words.at_most(self.state.code.len() - 1)?;
        self.state.code[at] = words.number()?;
        self.state.marks[at] = words.number()?;
        Ok(None)
    }

    pub fn high(&mut self, words: &mut Words) -> Answer {
        self.state.entry_point_high = words.word()?;
        Ok(None)
    }

    pub fn slots(&self) -> Answer {
        let a = fields(self.state.slot(Slot::A));
        let b = fields(self.state.slot(Slot::B));
        Ok(Some(format!("A {a} B {b}")))
    }

    pub fn place(&mut self, words: &mut Words) -> Answer {
        self.place = Place {
            row: words.number()?,
            used: words.number()?,
        };
        Ok(None)
    }

    /// One step; a refused one spent no clocks and leaves the place.
    pub fn step(&mut self, words: &mut Words, log: Columns) -> Answer {
        let slot = slot(words)?;
        let answer = library::step(&mut self.state, slot, log, self.place);
        let (mut waited, mut searched) = (0, 0);
        if let Ok(step) = answer {
            (waited, searched) = (step.wait_clocks, step.ewait_clocks);
            self.place = step.place;
        }
        Ok(Some(format!(
            "{} waited {waited} searched {searched} row {} used {} {} flags {:08x} {:08x} {}",
            show::answer(answer.map(|step| effect(step.did))),
            self.place.row,
            self.place.used,
            fields(self.state.slot(slot)),
            self.state.flags(false),
            self.state.flags(true),
            pause(&self.state)
        )))
    }
}

/// A state that no call makes, so that the calls can be tried on it.
fn of_no_family(family: u8) -> State {
    let known = State::fresh(1).expect("a known family");
    State { family, ..known }
}

/// The answer of a call that only changes the state.
fn outcome(answer: Result<(), Refusal>) -> String {
    show::answer(answer.map(|()| "done".to_string()))
}

fn effect(did: Did) -> String {
    match did {
        Did::Nothing => "nothing".to_string(),
        Did::Stopped(Stop::PastCode) => "stopped 1".to_string(),
        Did::Stopped(Stop::NeverUploaded) => "stopped 2".to_string(),
        Did::UnknownOpcode => "unknown".to_string(),
        Did::Wrote { address, data } => format!("wrote {:08x} {data:08x}", address.0),
        Did::Done => "done".to_string(),
    }
}

fn fields(slot: &SlotState) -> String {
    format!(
        "{} ip {} addr {:08x} data {:08x}",
        mode(slot.activity),
        slot.ip.0,
        slot.addr.0,
        slot.data
    )
}

/// The line has no word for a refusal, and a number that names no family pauses nothing.
fn pause(state: &State) -> &'static str {
    if state.memory_paused() == Ok(true) {
        "paused"
    } else {
        "free"
    }
}

fn slot(words: &mut Words) -> Read<Slot> {
    let wanted = "a slot";
    match words.text(wanted)? {
        "A" => Ok(Slot::A),
        "B" => Ok(Slot::B),
        other => Err(wrong(other, wanted)),
    }
}

fn mode(activity: Activity) -> &'static str {
    match activity {
        Activity::Idle => "idle",
        Activity::Fetching => "running",
        Activity::Waiting => "waiting",
        Activity::Blocked => "blocked",
        Activity::Hung => "hung",
    }
}
