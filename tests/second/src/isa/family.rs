//! What differs from one card family to another.

use crate::Refusal;

/// Code RAM of the largest family, in bytes.
pub const LARGEST_CODE: usize = 512;

/// Bytes of code RAM.
pub fn code_size(family: u8) -> Result<usize, Refusal> {
    match family {
        1 => Ok(64),
        2 => Ok(128),
        3 => Ok(256),
        4 => Ok(LARGEST_CODE),
        _ => Err(Refusal::UnfitInput),
    }
}

/// Number of execution slots: A and B, or A alone.
pub fn slot_count(family: u8) -> Result<usize, Refusal> {
    match family {
        1..=3 => Ok(2),
        4 => Ok(1),
        _ => Err(Refusal::UnfitInput),
    }
}

/// Whether an unknown opcode hangs the slot; else it is a nop of one byte.
pub fn unknown_hangs(family: u8) -> Result<bool, Refusal> {
    match family {
        2 | 3 => Ok(true),
        1 | 4 => Ok(false),
        _ => Err(Refusal::UnfitInput),
    }
}

/// Whether flag 16 pauses memory.
pub fn pauses_memory(family: u8) -> Result<bool, Refusal> {
    match family {
        2..=4 => Ok(true),
        1 => Ok(false),
        _ => Err(Refusal::UnfitInput),
    }
}

/// Whether pokes, their data and ewait exist.
pub fn has_pokes(family: u8) -> Result<bool, Refusal> {
    match family {
        2..=4 => Ok(true),
        1 => Ok(false),
        _ => Err(Refusal::UnfitInput),
    }
}

/// Highest entry point the registers can hold.
pub fn highest_entry(family: u8) -> Result<u32, Refusal> {
    match family {
        1..=3 => Ok(255),
        4 => Ok(511),
        _ => Err(Refusal::UnfitInput),
    }
}
