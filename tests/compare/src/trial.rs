//! The test of this test: each misreading of the second program must be noticed by some part.

use crate::comparison;
use crate::options::{Amounts, FULL};
use crate::part::{self, Part};
use crate::parts::{self, Visitor};
use second::misreadings::{misread, ALL};

/// Far fewer cases than the comparison has: a misreading that takes more to be seen is seen too rarely.
pub const FEW: Amounts = Amounts {
    jobs: 8_000,
    scripts: 3_000,
    audits: 8_000,
    replays: 8_000,
    pairs: 4_000,
    witnesses: 8_000,
    readings: 20_000,
    programs: 0,
    writer_stride: 8,
    ..FULL
};

/// The parts that noticed, each with its shrunk input.
struct Notices {
    threads: usize,
    notices: Vec<(&'static str, String)>,
}

impl Visitor for Notices {
    fn visit<P: Part>(&mut self, part: &P) {
        if let Some((_, case)) = part::run(part, self.threads).different {
            let case = part.shrunk(case);
            self.notices.push((part.name(), part.input(&case)));
        }
    }
}

fn notices(amounts: &Amounts, threads: usize) -> Vec<(&'static str, String)> {
    let mut notices = Notices {
        threads,
        notices: Vec::new(),
    };
    parts::each(amounts, &mut notices);
    notices.notices
}

fn print(notices: &[(&'static str, String)]) {
    for (part, input) in notices {
        println!("  {part:<13} {}", input.replace('\n', "; "));
    }
}

/// Tries all misreadings, and none; true if just the former are noticed.
pub fn run(amounts: &Amounts, threads: usize) -> bool {
    misread(None);
    println!("with no misreading in force:");
    let same = comparison::run(amounts, threads, false);
    let mut missed = 0;
    for &misreading in ALL {
        misread(Some(misreading));
        let found = notices(amounts, threads);
        let parts: Vec<&str> = found.iter().map(|&(part, _)| part).collect();
        let by = if parts.is_empty() {
            missed += 1;
            "NOBODY".to_string()
        } else {
            parts.join(", ")
        };
        println!("{}: noticed by {by}", misreading.name());
        print(&found);
    }
    misread(None);
    let noticed = ALL.len() - missed;
    println!("compare: {noticed} of {} misreadings noticed", ALL.len());
    same && missed == 0
}
