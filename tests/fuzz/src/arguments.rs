//! What the command line asks for.

use std::path::PathBuf;
use std::time::Duration;

const USAGE: &str = "usage: fuzz [--program FILE] [--jobs FOLDER] [--keep FOLDER] [--seed N] [--from N] [--count N] \
                     [--threads N] [--limit SECONDS]";

pub struct Arguments {
    /// The program under test.
    pub program: PathBuf,
    /// The folder of the worked jobs, from which damaged ones are made.
    pub jobs: PathBuf,
    /// Where an input is kept that something was wrong with.
    pub keep: PathBuf,
    /// Seed and number of an input say what it is, so that a run can be resumed and an input made again.
    pub seed: u64,
    pub from: u64,
    pub count: u64,
    pub threads: u64,
    /// A process that takes longer hangs.
    pub limit: Duration,
}

pub fn read() -> Result<Arguments, String> {
    let mut arguments = Arguments {
        program: "crates/hwsq/out/hwsq".into(),
        jobs: "jobs".into(),
        keep: "target/fuzz".into(),
        seed: 1,
        from: 0,
        count: 1_000_000,
        threads: 1,
        limit: Duration::from_secs(5),
    };
    let mut words = std::env::args().skip(1);
    while let Some(name) = words.next() {
        let value = words.next().ok_or(USAGE)?;
        let number = value.parse::<u64>().map_err(|_| USAGE.to_string());
        match name.as_str() {
            "--program" => arguments.program = value.into(),
            "--jobs" => arguments.jobs = value.into(),
            "--keep" => arguments.keep = value.into(),
            "--seed" => arguments.seed = number?,
            "--from" => arguments.from = number?,
            "--count" => arguments.count = number?,
            "--threads" => arguments.threads = number?,
            "--limit" => arguments.limit = Duration::from_secs(number?),
            _ => return Err(USAGE.to_string()),
        }
    }
    Ok(arguments)
}
