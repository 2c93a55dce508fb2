//! The instruction writer.

use super::{has_pokes, Instruction};
use crate::misreadings::{in_force, Misreading};
use crate::Refusal;

/// Writes the instruction to the front of `out` and gives its length; a refusal leaves `out` alone.
pub fn encode(family: u8, instruction: Instruction, out: &mut [u8]) -> Result<usize, Refusal> {
    if !has_pokes(family)? && instruction.needs_pokes() {
        return Err(Refusal::NotOnFamily);
    }
    // The papers: 12 comes before 13.
    if in_force(Misreading::SwappedRefusalOrder) && out.len() < spell(instruction).1 {
        return Err(Refusal::TooFewBytes);
    }
    if !instruction.operands_fit() {
        return Err(Refusal::OperandTooLarge);
    }
    let (bytes, length) = spell(instruction);
    let Some(lent) = out.get_mut(..length) else {
        return Err(Refusal::TooFewBytes);
    };
    lent.copy_from_slice(&bytes[..length]);
    Ok(length)
}

/// The bytes of an instruction whose operands fit, and how many of them count.
fn spell(instruction: Instruction) -> ([u8; 5], usize) {
    match instruction {
        Instruction::Wait { length, shift } => one(shift << 2 | length),
        Instruction::Exit => one(0x7f),
        Instruction::Unset(flag) => one(0x80 | flag),
        Instruction::Set1(flag) => one(0xa0 | flag),
        Instruction::Set0(flag) => one(0xc0 | flag),
        Instruction::AddrLo(low) => three(0x40, low.to_le_bytes()),
        Instruction::DataLo(low) => three(0x42, low.to_le_bytes()),
        Instruction::Ewait { event, value } => three(0x5f, [event, value]),
        Instruction::Addr(address) => five(0xe0, address.0.to_le_bytes()),
        Instruction::Data(data) => five(0xe2, data.to_le_bytes()),
    }
}

fn one(first: u8) -> ([u8; 5], usize) {
    ([first, 0, 0, 0, 0], 1)
}

fn three(first: u8, [b1, b2]: [u8; 2]) -> ([u8; 5], usize) {
    ([first, b1, b2, 0, 0], 3)
}

fn five(first: u8, [b1, b2, b3, b4]: [u8; 4]) -> ([u8; 5], usize) {
    ([first, b1, b2, b3, b4], 5)
}
