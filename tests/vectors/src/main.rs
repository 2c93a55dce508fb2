//! Reads calls as lines of text and prints each with the proved answer, by the C names, as docs/VECTORS.md says.

mod answers;
mod audit;
mod isa;
mod machine;
mod probe;
mod replay;
mod show;
mod witness;

use answers::Answers;
use std::io;
use std::process::ExitCode;

fn main() -> io::Result<ExitCode> {
    calls::lines::run(Answers::default())
}
