//! The instruction set: families, addresses, reader and writer.

mod address;
mod family;
mod instruction;
mod reader;
mod writer;

pub use address::{CodeAddress, MmioAddress};
pub use family::LARGEST_CODE;
pub use family::{code_size, has_pokes, highest_entry, pauses_memory, slot_count, unknown_hangs};
pub(crate) use instruction::with_low_half;
pub use instruction::{wait_clocks, Instruction};
pub use reader::decode;
pub use writer::encode;
