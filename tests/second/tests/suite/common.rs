//! Helpers of the tests.

use second::audit::{self, audit, replay, Registers, Replayed, Verdict, WRITE_ENTRIES};
use second::isa::{code_size, encode, CodeAddress, Instruction, MmioAddress};
use second::log::Columns;
use second::machine::{Activity, Slot, State};
use second::witness::{witness, Lent, Witness, LOG_ENTRIES};
use second::Refusal;

pub const ALL: &[u32] = &[0, u32::MAX];

/// HWSQ_ENABLE 1 and all other registers 0.
pub const ENABLED: Registers = Registers {
    addr: MmioAddress(0),
    data: 0,
    flags_0: 0,
    flags_1: 0,
    hwsq_enable: true,
};

/// Bytes of a hex text, blanks ignored.
pub fn hex(text: &str) -> Vec<u8> {
    match text {
        "" => vec![],
        _ => calls::hex::job(text).expect("hex"),
    }
}

/// A script with the rest of the code RAM 00 and all of it uploaded.
#[derive(Clone, Debug)]
pub struct Script {
    pub family: u8,
    pub code: Vec<u8>,
    pub marks: Vec<u8>,
    pub entry: CodeAddress,
}

impl Script {
    pub fn new(family: u8, text: &str) -> Script {
        Script::at(family, 0, text)
    }

    pub fn at(family: u8, entry: u32, text: &str) -> Script {
        let size = code_size(family).unwrap();
        let mut code = vec![0; size];
        for (i, byte) in hex(text).into_iter().enumerate() {
            code[entry as usize + i] = byte;
        }
        Script {
            family,
            code,
            marks: vec![1; size],
            entry: CodeAddress(entry),
        }
    }

    pub fn without(mut self, place: usize) -> Script {
        self.marks[place] = 0;
        self
    }

    /// The script as the library takes it.
    pub fn slices(&self) -> audit::Script<'_> {
        audit::Script {
            family: self.family,
            code: &self.code,
            marks: &self.marks,
            entry: self.entry,
        }
    }

    pub fn audit(&self, ranges: &[u32]) -> Verdict {
        audit(self.slices(), ranges)
    }

    /// The verdict as a number and a place.
    pub fn verdict(&self, ranges: &[u32]) -> (u8, u32) {
        number_and_place(self.audit(ranges))
    }

    /// The witness and its log; looks that the other lent entries stay.
    pub fn witness(&self, ranges: &[u32]) -> (Witness, Rows) {
        let mut lent = Rows::junk(LOG_ENTRIES + 2);
        let witness = witness(self.slices(), ranges, lent.lend()).unwrap();
        let rest = lent.split_off(witness.rows);
        assert_eq!(rest, Rows::junk(LOG_ENTRIES + 2 - witness.rows));
        (witness, lent)
    }

    /// A machine about to run the script in a slot.
    pub fn start(&self, slot: Slot) -> State {
        let mut state = State::fresh(self.family).unwrap();
        state.code[..self.code.len()].copy_from_slice(&self.code);
        state.marks[..self.marks.len()].copy_from_slice(&self.marks);
        state.hwsq_enable = true;
        state.slot_mut(slot).ip = self.entry;
        state.slot_mut(slot).activity = Activity::Fetching;
        state
    }

    /// Replays with HWSQ_ENABLE 1 and all other registers 0.
    pub fn replay(&self, log: &Rows) -> (Replayed, Vec<u32>) {
        let mut writes = vec![0xdead_beef; WRITE_ENTRIES + 3];
        let replayed = self.replay_from(ENABLED, log, &mut writes).unwrap();
        (replayed, writes)
    }

    pub fn replay_from(
        &self,
        start: Registers,
        log: &Rows,
        writes: &mut [u32],
    ) -> Result<Replayed, Refusal> {
        replay(self.slices(), start, log.columns(), writes)
    }
}

pub fn number_and_place(verdict: Verdict) -> (u8, u32) {
    match verdict {
        Ok(pass) => (0, pass.place.0),
        Err(fault) => (fault.number.number(), fault.place.0),
    }
}

/// Log columns that own their rows.
#[derive(Clone, Debug, Default, PartialEq, Eq)]
pub struct Rows {
    pub clocks: Vec<u64>,
    pub known: Vec<u32>,
    pub values: Vec<u32>,
}

impl Rows {
    pub fn new(rows: &[(u64, u32, u32)]) -> Rows {
        Rows {
            clocks: rows.iter().map(|r| r.0).collect(),
            known: rows.iter().map(|r| r.1).collect(),
            values: rows.iter().map(|r| r.2).collect(),
        }
    }

    /// The columns as the library takes them.
    pub fn columns(&self) -> Columns<'_> {
        Columns {
            clocks: &self.clocks,
            known: &self.known,
            values: &self.values,
        }
    }

    /// Entries to lend, such as no log has.
    pub fn junk(entries: usize) -> Rows {
        Rows::new(&vec![(0, 0xdead_beef, 0xbeef_dead); entries])
    }

    /// The columns as they are lent for a log.
    pub fn lend(&mut self) -> Lent<'_> {
        Lent {
            clocks: &mut self.clocks,
            known: &mut self.known,
            values: &mut self.values,
        }
    }

    /// Keeps the first rows and gives the others.
    pub fn split_off(&mut self, rows: usize) -> Rows {
        Rows {
            clocks: self.clocks.split_off(rows),
            known: self.known.split_off(rows),
            values: self.values.split_off(rows),
        }
    }

    /// A log long enough for every script that shows every event at 0 and 1 in turn.
    pub fn generous() -> Rows {
        let rows: Vec<_> = (0..1024)
            .map(|i| (1 << 48, u32::MAX, if i % 2 == 0 { 0 } else { u32::MAX }))
            .collect();
        Rows::new(&rows)
    }
}

/// Random numbers, and what tests make of them.
pub struct Random(makers::random::Random);

impl Random {
    pub fn of(seed: u64) -> Random {
        Random(makers::random::Random::of_case(seed, 0, 0))
    }

    pub fn next(&mut self) -> u64 {
        self.0.word()
    }

    pub fn below(&mut self, limit: u64) -> u64 {
        self.next() % limit
    }

    pub fn word(&mut self) -> u32 {
        self.0.half()
    }

    pub fn chance(&mut self, percent: u64) -> bool {
        self.below(100) < percent
    }

    /// An instruction, mostly one a pass may hold.
    pub fn instruction(&mut self) -> Instruction {
        let flag = if self.chance(40) {
            16
        } else {
            self.below(32) as u8
        };
        match self.below(11) {
            0 => Instruction::Wait {
                length: self.below(4) as u8,
                shift: self.below(3) as u8,
            },
            1 => Instruction::Wait {
                length: self.below(4) as u8,
                shift: self.below(16) as u8,
            },
            2 => Instruction::Set1(flag),
            3 => Instruction::Set0(flag),
            4 => Instruction::Unset(flag),
            5 => Instruction::Data(self.word()),
            6 => Instruction::DataLo(self.word() as u16),
            7 => Instruction::Addr(MmioAddress(self.word())),
            8 => Instruction::AddrLo(self.word() as u16),
            9 => self.ewait(),
            _ => Instruction::Exit,
        }
    }

    fn ewait(&mut self) -> Instruction {
        let most_events = if self.chance(5) { 256 } else { 32 };
        let most_values = if self.chance(5) { 256 } else { 2 };
        let event = self.below(most_events) as u8;
        let value = self.below(most_values) as u8;
        Instruction::Ewait { event, value }
    }

    /// A script of a family with few unknown opcodes and few bytes missing.
    pub fn script(&mut self, family: u8) -> Script {
        let size = code_size(family).unwrap();
        let mut code = vec![0; size];
        let junk = self.below(4);
        let mut at = 0;
        while at < size {
            let rare_exit = self.chance(70);
            let instruction = match self.instruction() {
                Instruction::Exit if rare_exit => Instruction::Wait {
                    length: 1,
                    shift: 0,
                },
                other => other,
            };
            match encode(family, instruction, &mut code[at..]) {
                Ok(length) if !self.chance(junk) => at += length,
                _ => {
                    code[at] = self.word() as u8;
                    at += 1;
                }
            }
        }
        let mut marks = vec![1; size];
        for _ in 0..self.below(3) {
            marks[self.below(size as u64) as usize] = 0;
        }
        let most_entries = if self.chance(80) { 8 } else { size as u64 };
        let entry = CodeAddress(self.below(most_entries) as u32);
        Script {
            family,
            code,
            marks,
            entry,
        }
    }

    pub fn rows(&mut self) -> Rows {
        let count = self.below(12);
        let rows: Vec<_> = (0..count)
            .map(|_| {
                let most_clocks = if self.chance(30) { 1 << 48 } else { 300 };
                let clocks = 1 + self.below(most_clocks);
                (clocks, self.word() | self.word(), self.word())
            })
            .collect();
        Rows::new(&rows)
    }
}
