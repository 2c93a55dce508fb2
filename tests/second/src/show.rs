//! How the program `vectors` prints values; the formats are those of docs/VECTORS.md.

use crate::isa::Instruction;
use crate::Refusal;

/// Bytes as hex; `-` for none, so that no field of a line is empty.
pub fn bytes(bytes: &[u8]) -> String {
    if bytes.is_empty() {
        return "-".to_string();
    }
    bytes.iter().map(|byte| format!("{byte:02x}")).collect()
}

/// `yes` or `no`.
pub fn yes_or_no(truth: bool) -> &'static str {
    if truth {
        "yes"
    } else {
        "no"
    }
}

/// The answer's text, or the refusal by its number.
pub fn answer(answer: Result<String, Refusal>) -> String {
    answer.unwrap_or_else(|refusal| format!("refused {}", refusal.number()))
}

/// The mnemonic and its operands; immediates in hex of their full width.
pub fn instruction(instruction: Instruction) -> String {
    match instruction {
        Instruction::Wait { length, shift } => format!("wait {length} {shift}"),
        Instruction::AddrLo(low) => format!("addrlo {low:04x}"),
        Instruction::DataLo(low) => format!("datalo {low:04x}"),
        Instruction::Ewait { event, value } => format!("ewait {event} {value}"),
        Instruction::Exit => "exit".to_string(),
        Instruction::Unset(flag) => format!("unset {flag}"),
        Instruction::Set1(flag) => format!("set1 {flag}"),
        Instruction::Set0(flag) => format!("set0 {flag}"),
        Instruction::Addr(address) => format!("addr {:08x}", address.0),
        Instruction::Data(data) => format!("data {data:08x}"),
    }
}
