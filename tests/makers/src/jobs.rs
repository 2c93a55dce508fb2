//! Jobs: sound, damaged, cut, reordered and over every limit.

pub mod damage;
mod draft;
mod making;
pub mod probes;
pub mod records;

pub use draft::Draft;
pub use making::job;
