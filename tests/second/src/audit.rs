//! The auditor and the replay.

mod auditor;
mod input;
mod ranges;
mod replay;
mod start;

pub(crate) use auditor::place_of;
pub use auditor::{audit, Fault, Pass, Verdict};
pub use input::Script;
pub use ranges::{listed, look, Ranges, MOST_RANGES};
pub use replay::{replay, run, Ending, Replayed, Run, WRITE_ENTRIES};
pub(crate) use start::start;
pub use start::Registers;
