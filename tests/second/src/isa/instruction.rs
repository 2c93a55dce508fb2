//! Instructions with their operands.

use super::MmioAddress;
use crate::misreadings::{in_force, Misreading};

/// One instruction; wait keeps both operands, so that every spelling survives a round trip.
#[derive(Clone, Copy, Debug, PartialEq, Eq)]
pub enum Instruction {
    Wait { length: u8, shift: u8 },
    AddrLo(u16),
    DataLo(u16),
    Ewait { event: u8, value: u8 },
    Exit,
    Unset(u8),
    Set1(u8),
    Set0(u8),
    Addr(MmioAddress),
    Data(u32),
}

impl Instruction {
    /// Whether only families 2 to 4 have it.
    pub fn needs_pokes(self) -> bool {
        use Instruction::*;
        matches!(
            self,
            AddrLo(_) | DataLo(_) | Ewait { .. } | Addr(_) | Data(_)
        )
    }

    /// Whether every operand fits the bits its opcode has for it.
    pub fn operands_fit(self) -> bool {
        match self {
            Instruction::Wait { length, shift } => length <= 3 && shift <= 15,
            Instruction::Unset(flag) | Instruction::Set1(flag) | Instruction::Set0(flag) => {
                flag <= 31
            }
            _ => true,
        }
    }
}

/// Clocks of a wait; of operands too large for an opcode only the bits it has room for count.
pub fn wait_clocks(length: u8, shift: u8) -> u64 {
    (u64::from(length & 3) << (2 * u32::from(shift & 15))) * 32
}

/// What addrlo makes of ADDR and datalo of DATA.
pub(crate) fn with_low_half(before: u32, low: u16) -> u32 {
    // The papers: the high half is kept.
    if in_force(Misreading::ZeroFilledHalves) {
        return u32::from(low);
    }
    before & 0xffff_0000 | u32::from(low)
}
