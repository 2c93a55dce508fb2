//! The stored jobs and a sample of the others through the two programs, each job on standard input.

use crate::jobs::{self, Reports};
use crate::outcomes::Group;
use crate::part::{Part, Tally};
use crate::show;
use crate::stored::Case;
use std::io::{self, Write};
use std::process::{Command, Stdio};

/// The programs, from the project's root.
const PROVED: &str = "crates/hwsq/out/hwsq";
const SECOND: &str = "target-rust/release/second";

/// Compares the programs with each other and with the library.
pub struct Programs {
    pub stored: Vec<Case>,
    pub seed: u64,
    pub jobs: u64,
    /// How many jobs there are in all; the sample is spread over them.
    pub of: u64,
}

/// What a program printed, and its status.
#[derive(Debug, PartialEq, Eq)]
struct Told {
    output: Vec<u8>,
    status: Option<i32>,
}

/// Runs a program on a job; one that ends before it has read all of it is no fault here.
fn run(program: &str, job: &[u8]) -> io::Result<Told> {
    let mut child = Command::new(program)
        .stdin(Stdio::piped())
        .stdout(Stdio::piped())
        .stderr(Stdio::null())
        .spawn()?;
    if let Some(mut input) = child.stdin.take() {
        match input.write_all(job) {
            Err(error) if error.kind() != io::ErrorKind::BrokenPipe => return Err(error),
            _ => {}
        }
    }
    let finished = child.wait_with_output()?;
    Ok(Told {
        output: finished.stdout,
        status: finished.status.code(),
    })
}

/// Both programs' answers; a program that can't be run is no comparison at all.
fn answers(job: &[u8]) -> [Told; 2] {
    [PROVED, SECOND].map(|program| match run(program, job) {
        Ok(told) => told,
        Err(error) => panic!("{program}: {error}"),
    })
}

fn differs(job: &[u8]) -> bool {
    let expected = Told {
        output: Reports::of(job).proved().to_vec(),
        status: Some(0),
    };
    answers(job).iter().any(|told| *told != expected)
}

impl Programs {
    /// The stored jobs first, then the sample.
    fn job(&self, unit: u64) -> Vec<u8> {
        if let Some(case) = self.stored.get(unit as usize) {
            return case.job.clone();
        }
        let number = unit - self.stored.len() as u64;
        jobs::numbered(self.seed, number * (self.of / self.jobs).max(1))
    }
}

impl Part for Programs {
    type Case = Vec<u8>;

    fn name(&self) -> &'static str {
        "programs"
    }

    fn groups(&self) -> &'static [Group] {
        &[]
    }

    fn units(&self) -> u64 {
        self.stored.len() as u64 + self.jobs
    }

    fn compare(&self, unit: u64, tally: &mut Tally) -> Option<Vec<u8>> {
        let job = self.job(unit);
        tally.cases += 1;
        differs(&job).then_some(job)
    }

    fn shrunk(&self, case: Vec<u8>) -> Vec<u8> {
        jobs::shrunk(&case, differs)
    }

    fn input(&self, case: &Vec<u8>) -> String {
        show::bytes(case)
    }

    fn answers(&self, case: &Vec<u8>) -> String {
        let [proved, second] = answers(case).map(|told| {
            let text = String::from_utf8_lossy(&told.output).replace('\n', "\n    ");
            format!("status {:?}\n    {}", told.status, text.trim_end())
        });
        format!("  {PROVED}: {proved}\n  {SECOND}: {second}")
    }
}
