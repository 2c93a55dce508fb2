//! What goes into both programs and what comes out, in one shape each, for whatever compares the two.

pub mod inputs;
pub mod mirror;
