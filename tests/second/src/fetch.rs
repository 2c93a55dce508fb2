//! Fetching from code RAM, the same for auditor and machine.

use crate::isa::{decode, CodeAddress, Instruction};
use crate::Refusal;

/// The instruction at `at`: first byte past the RAM, not uploaded, unknown; then its operands.
pub(crate) fn fetch(
    family: u8,
    code: &[u8],
    marks: &[u8],
    at: CodeAddress,
) -> Result<(Instruction, usize), Refusal> {
    let at = at.0 as usize;
    let (Some(code), Some(marks)) = (code.get(at..), marks.get(at..)) else {
        return Err(Refusal::PastCode);
    };
    let Some((&first_mark, operand_marks)) = marks.split_first() else {
        return Err(Refusal::PastCode);
    };
    if first_mark != 1 {
        return Err(Refusal::NeverUploaded);
    }
    let (instruction, length) = decode(family, code)?;
    if operand_marks[..length - 1].iter().any(|&mark| mark != 1) {
        return Err(Refusal::NeverUploaded);
    }
    Ok((instruction, length))
}
