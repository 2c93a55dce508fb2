//! The instruction reader.

use super::{has_pokes, Instruction, MmioAddress};
use crate::misreadings::{in_force, Misreading};
use crate::Refusal;

/// The first instruction of `bytes` and its length.
pub fn decode(family: u8, bytes: &[u8]) -> Result<(Instruction, usize), Refusal> {
    let pokes = has_pokes(family)?;
    let Some((&first, operands)) = bytes.split_first() else {
        return Err(Refusal::PastCode);
    };
    let instruction = match first {
        0x00..=0x3f => Instruction::Wait {
            length: first & 3,
            shift: first >> 2,
        },
        0x7f => Instruction::Exit,
        0x80..=0x9f => Instruction::Unset(first & 31),
        0xa0..=0xbf => Instruction::Set1(first & 31),
        0xc0..=0xdf => Instruction::Set0(first & 31),
        _ if pokes => return decode_long(first, operands),
        // The papers: 5f on family 1 is an unknown opcode of one byte.
        0x5f if in_force(Misreading::OperandsOf5fOnFamily1) => return decode_long(first, operands),
        _ => return Err(Refusal::UnknownOpcode),
    };
    Ok((instruction, 1))
}

/// The instructions with operand bytes.
fn decode_long(first: u8, operands: &[u8]) -> Result<(Instruction, usize), Refusal> {
    match first {
        0x40 => Ok((Instruction::AddrLo(half(operands)?), 3)),
        0x42 => Ok((Instruction::DataLo(half(operands)?), 3)),
        0x5f => {
            let [event, value] = half(operands)?.to_le_bytes();
            Ok((Instruction::Ewait { event, value }, 3))
        }
        0xe0 => Ok((Instruction::Addr(MmioAddress(word(operands)?)), 5)),
        0xe2 => Ok((Instruction::Data(word(operands)?), 5)),
        _ => Err(Refusal::UnknownOpcode),
    }
}

fn half(operands: &[u8]) -> Result<u16, Refusal> {
    let bytes = operands.first_chunk().ok_or(Refusal::PastCode)?;
    Ok(u16::from_le_bytes(*bytes))
}

fn word(operands: &[u8]) -> Result<u32, Refusal> {
    let bytes = operands.first_chunk().ok_or(Refusal::PastCode)?;
    Ok(u32::from_le_bytes(*bytes))
}
