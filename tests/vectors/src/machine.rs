//! Calls on the host's registers and the step machine.

use crate::show;
use calls::words::{wrong, Answer, Read, Words};
use hwsq::{Log, Slot, State, Stepped};

const FLAGS: [u32; 2] = [0x1310, 0x1314];
/// Modes, as include/hwsq.h numbers them.
const MODES: [u8; 5] = [0, 1, 2, 3, 4];
const A: u8 = 0;
const B: u8 = 1;

/// A machine and the place in the log where its next step starts.
pub struct Bench {
    state: State,
    row: usize,
    used: u64,
}

impl Bench {
    /// A bench for any number, and whether it names a family.
    pub fn fresh(family: u8) -> (Bench, String) {
        let access = hwsq::fresh(family);
        let bench = Bench {
            state: access.state,
            row: 0,
            used: 0,
        };
        (bench, outcome(access.refusal))
    }

    pub fn write(&mut self, words: &mut Words) -> Answer {
        let access = hwsq::write(&self.state, words.word()?, words.word()?);
        self.state = access.state;
        Ok(Some(outcome(access.refusal)))
    }

    pub fn read(&self, words: &mut Words) -> Answer {
        let reading = hwsq::read(&self.state, words.word()?);
        Ok(Some(show::answer(reading.refusal, || {
            format!("{:08x}", reading.word)
        })))
    }

    pub fn force(&mut self, words: &mut Words) -> Answer {
        let slot = slot(words)?;
        let mode = words.one_of("a mode", &MODES, mode)?;
        let ip: u32 = words.number()?;
        let forced = match slot {
            A => &mut self.state.a,
            _ => &mut self.state.b,
        };
        (forced.mode, forced.ip) = (mode, ip as usize);
        Ok(None)
    }

    pub fn raw(&mut self, words: &mut Words) -> Answer {
        let at = words.at_most(self.state.code.len() - 1)?;
        self.state.code[at] = words.number()?;
        self.state.marks[at] = words.number()?;
        Ok(None)
    }

    pub fn high(&mut self, words: &mut Words) -> Answer {
        self.state.entries_high = words.word()?;
        Ok(None)
    }

    pub fn slots(&self) -> Answer {
        let (a, b) = (fields(&self.state.a), fields(&self.state.b));
        Ok(Some(format!("A {a} B {b}")))
    }

    pub fn place(&mut self, words: &mut Words) -> Answer {
        (self.row, self.used) = (words.number()?, words.number()?);
        Ok(None)
    }

    pub fn step(&mut self, words: &mut Words, log: Log) -> Answer {
        let slot = slot(words)?;
        let step = hwsq::step(&self.state, slot, log, self.row, self.used);
        (self.state, self.row, self.used) = (step.state, step.row, step.used);
        let stepped = match slot {
            A => &self.state.a,
            _ => &self.state.b,
        };
        // The words of a number that names no family are 0.
        let [flags_0, flags_1] = FLAGS.map(|address| hwsq::read(&self.state, address).word);
        let paused = hwsq::paused(&self.state);
        Ok(Some(format!(
            "{} waited {} searched {} row {} used {} {} flags {flags_0:08x} {flags_1:08x} {}",
            show::answer(step.refusal, || effect(&step)),
            step.waited,
            step.searched,
            step.row,
            step.used,
            fields(stepped),
            if paused { "paused" } else { "free" }
        )))
    }
}

/// The answer of a call that only changes the state.
fn outcome(refusal: u8) -> String {
    show::answer(refusal, || "done".to_string())
}

/// What a step did, by the number of its effect.
fn effect(step: &Stepped) -> String {
    match step.effect {
        0 => "nothing".to_string(),
        1 => format!("stopped {}", step.why),
        2 => "unknown".to_string(),
        3 => "done".to_string(),
        _ => format!("wrote {:08x} {:08x}", step.address, step.word),
    }
}

fn fields(slot: &Slot) -> String {
    let (mode, ip) = (mode(slot.mode), slot.ip);
    format!(
        "{mode} ip {ip} addr {:08x} data {:08x}",
        slot.addr, slot.data
    )
}

fn slot(words: &mut Words) -> Read<u8> {
    let wanted = "a slot";
    match words.text(wanted)? {
        "A" => Ok(A),
        "B" => Ok(B),
        other => Err(wrong(other, wanted)),
    }
}

fn mode(number: u8) -> &'static str {
    ["idle", "running", "waiting", "blocked", "hung"][usize::from(number)]
}
