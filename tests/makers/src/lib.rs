//! Makers of random scripts, logs and jobs, sound and damaged, for whatever tests the two programs on them.

pub mod compose;
pub mod floats;
pub mod jobs;
pub mod log;
pub mod random;
pub mod ranges;
pub mod registers;
pub mod script;
pub mod upload;
