//! Compares the proved library with the second program, in process and as programs.

mod audited;
mod audits;
mod codec;
mod comparison;
mod gates;
mod jobs;
mod launch;
mod options;
mod outcomes;
mod pairs;
mod part;
mod parts;
mod programs;
mod ram;
mod replays;
mod show;
mod shrink;
mod steps;
mod stored;
#[cfg(feature = "misreadings")]
mod trial;
mod witnesses;

use options::Amounts;
use std::process::ExitCode;
use std::{env, thread};

#[cfg(not(feature = "misreadings"))]
fn usual() -> Amounts {
    options::FULL
}

#[cfg(not(feature = "misreadings"))]
fn passes(amounts: &Amounts, threads: usize) -> bool {
    comparison::run(amounts, threads, true)
}

#[cfg(feature = "misreadings")]
fn usual() -> Amounts {
    trial::FEW
}

#[cfg(feature = "misreadings")]
fn passes(amounts: &Amounts, threads: usize) -> bool {
    trial::run(amounts, threads)
}

fn main() -> ExitCode {
    let Some(amounts) = options::parse(env::args().skip(1), usual()) else {
        eprintln!("{}", options::USAGE);
        return ExitCode::from(2);
    };
    let threads = thread::available_parallelism().map_or(1, usize::from);
    if passes(&amounts, threads) {
        ExitCode::SUCCESS
    } else {
        ExitCode::FAILURE
    }
}
