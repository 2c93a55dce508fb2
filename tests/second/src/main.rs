//! Reads one job on standard input and writes its report on standard output.

use std::io::{self, Read, Write};

fn main() -> io::Result<()> {
    let mut job = Vec::new();
    io::stdin().lock().read_to_end(&mut job)?;
    let mut out = io::stdout().lock();
    out.write_all(&second::job::report(&job))?;
    out.flush()
}
