//! One thread's work: inputs in turn, each run and looked at, under a guard.

use crate::arguments::Arguments;
use crate::check::{faults, Wrong};
use crate::input::input;
use crate::process::Running;
use crate::tally::Tally;
use std::fs;
use std::sync::atomic::{AtomicBool, AtomicU64, Ordering};
use std::sync::Mutex;
use std::time::Duration;

const GUARD_LOOKS: Duration = Duration::from_millis(200);
const SAY_AFTER: u64 = 50_000;

pub fn work(arguments: &Arguments, seeds: &[Vec<u8>], next: &AtomicU64, tally: &Mutex<Tally>) {
    let running = Running::default();
    let done = AtomicBool::new(false);
    std::thread::scope(|scope| {
        scope.spawn(|| {
            while !done.load(Ordering::Relaxed) {
                running.guard(arguments.limit);
                std::thread::sleep(GUARD_LOOKS);
            }
        });
        loop {
            let index = next.fetch_add(1, Ordering::Relaxed);
            if index - arguments.from >= arguments.count {
                break;
            }
            one(arguments, seeds, index, &running, tally);
        }
        done.store(true, Ordering::Relaxed);
    });
}

fn one(
    arguments: &Arguments,
    seeds: &[Vec<u8>],
    index: u64,
    running: &Running,
    tally: &Mutex<Tally>,
) {
    let job = input(seeds, arguments.seed, index);
    // Every other input comes in two pieces, as from a slow writer.
    let cut = if index.is_multiple_of(2) {
        job.len()
    } else {
        job.len() / 2
    };
    let outcome = running
        .run(&arguments.program, &job, cut)
        .expect("the program cannot be run");
    let wrong = faults(&job, &outcome);
    if !wrong.is_empty() {
        keep(arguments, index, &job, &wrong);
    }
    let mut tally = tally.lock().expect("a worker has panicked");
    tally.count(&job, &outcome.stdout, &wrong);
    if tally.inputs().is_multiple_of(SAY_AFTER) {
        eprintln!("{} inputs, {} failures", tally.inputs(), tally.failures());
    }
}

fn keep(arguments: &Arguments, index: u64, job: &[u8], wrong: &[Wrong]) {
    let file = arguments
        .keep
        .join(format!("{}-{index}.job", arguments.seed));
    fs::create_dir_all(&arguments.keep)
        .and_then(|()| fs::write(&file, job))
        .expect("an input cannot be kept");
    eprintln!("input {index}: {wrong:?}, kept as {}", file.display());
}
