//! Reading a script from its entry to its exit without running it.

use super::input::{check_script, Script};
use super::ranges::Ranges;
use crate::fetch::fetch;
use crate::isa::{self, wait_clocks, with_low_half, CodeAddress, Instruction, MmioAddress};
use crate::Refusal;

/// A script without fault.
#[derive(Clone, Copy, Debug, PartialEq, Eq)]
pub struct Pass {
    pub place: CodeAddress,
    pub instructions: u32,
    pub writes: u32,
    pub wait_clocks: u64,
}

/// The first fault and the opcode it is at.
#[derive(Clone, Copy, Debug, PartialEq, Eq)]
pub struct Fault {
    pub number: Refusal,
    pub place: CodeAddress,
}

/// What an audit says.
pub type Verdict = Result<Pass, Fault>;

/// The place of a verdict: the exit's or the fault's.
pub(crate) fn place_of(verdict: Verdict) -> CodeAddress {
    verdict.map_or_else(|fault| fault.place, |pass| pass.place)
}

/// What the script has done so far.
#[derive(Default)]
struct Seen {
    addr: Option<MmioAddress>,
    data_low: bool,
    data_high: bool,
    pauses: bool,
    instructions: u32,
    writes: u32,
    wait_clocks: u64,
}

/// Audits a script.
pub fn audit(script: Script, ranges: &[u32]) -> Verdict {
    let unfit = |number| Fault {
        number,
        place: CodeAddress(0),
    };
    check_script(script).map_err(unfit)?;
    let ranges = Ranges::new(ranges).map_err(unfit)?;
    let pausing = isa::pauses_memory(script.family).map_err(unfit)?;
    let mut seen = Seen::default();
    let mut place = script.entry;
    loop {
        let fault = |number| Fault { number, place };
        let fetched = fetch(script.family, script.code, script.marks, place);
        let (instruction, length) = fetched.map_err(fault)?;
        seen.instructions += 1;
        if instruction == Instruction::Exit {
            return seen.exit(pausing, place).map_err(fault);
        }
        seen.take(instruction, &ranges).map_err(fault)?;
        place.0 += length as u32;
    }
}

impl Seen {
    /// Takes note of one instruction that is no exit.
    fn take(&mut self, instruction: Instruction, ranges: &Ranges) -> Result<(), Refusal> {
        match instruction {
            Instruction::Wait { length, shift } => self.wait_clocks += wait_clocks(length, shift),
            Instruction::Ewait { event, value } if event > 31 || value > 1 => {
                return Err(Refusal::NeverReleased);
            }
            Instruction::Set1(16) => self.pauses = true,
            Instruction::Set0(16) | Instruction::Unset(16) => self.pauses = false,
            Instruction::Data(_) => {
                self.data_low = true;
                self.data_high = true;
            }
            Instruction::DataLo(_) => self.data_low = true,
            Instruction::Addr(address) => return self.poke(address, ranges),
            Instruction::AddrLo(low) => {
                let before = self.addr.ok_or(Refusal::AddrNotSet)?;
                let address = MmioAddress(with_low_half(before.0, low));
                return self.poke(address, ranges);
            }
            _ => {}
        }
        Ok(())
    }

    fn poke(&mut self, address: MmioAddress, ranges: &Ranges) -> Result<(), Refusal> {
        if !(self.data_low && self.data_high) {
            return Err(Refusal::DataNotSet);
        }
        if !ranges.hold(address) {
            return Err(Refusal::NotListed);
        }
        self.addr = Some(address);
        self.writes += 1;
        Ok(())
    }

    /// The verdict at exit, where memory must not stay paused.
    fn exit(&self, pausing: bool, place: CodeAddress) -> Result<Pass, Refusal> {
        if pausing && self.pauses {
            return Err(Refusal::PausedAtExit);
        }
        Ok(Pass {
            place,
            instructions: self.instructions,
            writes: self.writes,
            wait_clocks: self.wait_clocks,
        })
    }
}
