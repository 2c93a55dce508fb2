//! A session with a machine: a script, a log, and what the host and the clock do.

use crate::show;
use makers::log::Log;
use makers::registers::{self, ENTRY_POINT, ENTRY_POINT_HIGH};
use makers::script::Script;
use makers::upload::Upload;

/// One thing done to both machines.
#[derive(Clone, Debug, PartialEq)]
pub enum Action {
    /// The script's words, written by the host.
    Upload,
    Write {
        address: u32,
        word: u32,
    },
    Read(u32),
    /// Every register of every family, and what is none.
    ReadAll,
    /// One step of slot A (0) or B.
    Step(u8),
    /// The place in the log is put by hand.
    Place {
        row: usize,
        used: u64,
    },
    /// Mode and IP of a slot are put past the host.
    Force {
        slot: usize,
        mode: u8,
        ip: u32,
    },
    /// A code byte and its mark are put past the host.
    Raw {
        at: usize,
        byte: u8,
        mark: u8,
    },
    /// The word behind ENTRY_POINT_HIGH is put past the host.
    High(u32),
}

/// A machine's family, what can be uploaded, the log, and what is done in turn.
#[derive(Clone, Debug, PartialEq)]
pub struct Session {
    pub family: u8,
    pub script: Script,
    pub upload: Upload,
    pub log: Log,
    pub actions: Vec<Action>,
}

const MODES: [&str; 5] = ["idle", "running", "waiting", "blocked", "hung"];

fn slot_word(slot: usize) -> &'static str {
    if slot == 0 {
        "A"
    } else {
        "B"
    }
}

impl Action {
    /// The same with a number of 0.
    pub fn simpler(&self) -> Vec<Action> {
        match *self {
            Action::Write { address, word } if word > 1 => {
                let words = [0, 1, word & 0xff, word & 0xffff];
                words.map(|word| Action::Write { address, word }).to_vec()
            }
            Action::Force { slot, mode, ip } if ip > 0 => {
                vec![Action::Force { slot, mode, ip: 0 }]
            }
            _ => vec![],
        }
    }

    /// The action as a line of docs/VECTORS.md; those with several are spelled out before.
    fn told(&self) -> String {
        match *self {
            Action::Upload => "upload".to_string(),
            Action::ReadAll => "read all".to_string(),
            Action::Write { address, word } => format!("write {address:08x} {word:08x}"),
            Action::Read(address) => format!("read {address:08x}"),
            Action::Step(slot) => format!("step {}", slot_word(slot.into())),
            Action::Place { row, used } => format!("place {row} {used}"),
            Action::Force { slot, mode, ip } => {
                format!(
                    "force {} {} {ip}",
                    slot_word(slot),
                    MODES[usize::from(mode)]
                )
            }
            Action::Raw { at, byte, mark } => format!("raw {at} {byte} {mark}"),
            Action::High(word) => format!("high {word:08x}"),
        }
    }
}

impl Session {
    /// The host writes of an upload.
    pub fn upload_writes(&self) -> Vec<(u32, u32)> {
        self.upload.writes(self.family, &self.script)
    }

    /// Reads one by one, so that a shrinker can drop all but one.
    pub fn spell_out_reads(&mut self) {
        self.spell_out(|action| match action {
            Action::ReadAll => registers::all().into_iter().map(Action::Read).collect(),
            other => vec![other],
        });
    }

    /// An upload as its host writes, so that a shrinker can drop words.
    pub fn spell_out_uploads(&mut self) {
        let words = self.upload_writes().into_iter();
        let writes: Vec<Action> = words
            .map(|(address, word)| Action::Write { address, word })
            .collect();
        self.spell_out(|action| match action {
            Action::Upload => writes.clone(),
            other => vec![other],
        });
    }

    fn spell_out(&mut self, by: impl Fn(Action) -> Vec<Action>) {
        let actions = std::mem::take(&mut self.actions);
        self.actions = actions.into_iter().flat_map(by).collect();
    }

    /// The same with the script at 0, and the entry points there too.
    pub fn lowered(&self) -> Session {
        let mut lowered = self.clone();
        lowered.script.at = 0;
        lowered.actions.retain(|action| {
            let Action::Write { address, .. } = action else {
                return true;
            };
            ![ENTRY_POINT, ENTRY_POINT_HIGH].contains(address)
        });
        lowered
    }

    /// The session as lines of docs/VECTORS.md.
    pub fn told(&self) -> String {
        let mut lines = vec![
            format!("fresh {}", self.family),
            show::log(&self.log.columns()),
        ];
        lines.extend(self.actions.iter().map(Action::told));
        lines.join("\n")
    }
}
