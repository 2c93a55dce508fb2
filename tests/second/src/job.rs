//! Jobs: the records of the input and the report on them.

mod body;
mod captures;
mod records;
mod report;

pub use captures::{Captures, GatedEvent, Probe, Volts};
pub use records::{parse, Job, JobRefusal, LONGEST_JOB};
pub use report::report;
