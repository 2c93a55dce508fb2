//! Calls as lines of text (docs/VECTORS.md): how they are read and printed with their answers, whichever program gives them.

pub mod hex;
pub mod lines;
pub mod log;
pub mod registers;
pub mod script;
pub mod words;
