//! Feeds made and damaged jobs to the built program, each to a process of its own, and counts what comes back.

mod arguments;
mod check;
mod input;
mod process;
mod seeds;
mod tally;
mod worker;

use std::process::ExitCode;
use std::sync::atomic::AtomicU64;
use std::sync::Mutex;

fn main() -> ExitCode {
    let arguments = match arguments::read() {
        Ok(arguments) => arguments,
        Err(text) => {
            eprintln!("{text}");
            return ExitCode::from(2);
        }
    };
    let seeds = seeds::read(&arguments.jobs);
    let next = AtomicU64::new(arguments.from);
    let tally = Mutex::new(tally::Tally::default());
    std::thread::scope(|scope| {
        for _ in 0..arguments.threads {
            scope.spawn(|| worker::work(&arguments, &seeds, &next, &tally));
        }
    });
    let tally = tally.into_inner().expect("a worker has panicked");
    print!("{tally}");
    ExitCode::from(u8::from(tally.failures() > 0))
}
