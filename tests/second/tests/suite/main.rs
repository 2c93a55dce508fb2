//! One test crate, so that helpers are shared without dead code.

mod audit;
mod capture_laws;
mod capture_refusals;
mod captures;
mod common;
mod fields;
mod host;
mod isa;
mod job;
mod job_refusals;
mod laws;
mod log;
mod more_log;
mod more_log_laws;
mod probe;
mod range_laws;
mod ranges;
mod replay;
mod show;
mod shows;
mod step;
mod vectors;
mod witness;
mod witness_laws;
