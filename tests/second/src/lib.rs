//! An independent reading of the sequencer papers: auditor, machine, replay, witness, gates, jobs.

pub mod audit;
mod fetch;
pub mod isa;
pub mod job;
pub mod log;
pub mod machine;
#[cfg(not(feature = "misreadings"))]
mod misreadings;
#[cfg(feature = "misreadings")]
pub mod misreadings;
pub mod more_log;
pub mod probe;
pub mod refusal;
pub mod show;
pub mod shows;
pub mod witness;

pub use refusal::Refusal;
