//! A part of the comparison, and its run over all cores.

use crate::outcomes::{Group, Outcomes};
use std::sync::atomic::{AtomicU64, Ordering};
use std::sync::Mutex;
use std::thread;

/// How many cases were compared, and what came out.
pub struct Tally {
    pub cases: u64,
    pub outcomes: Outcomes,
}

impl Tally {
    pub fn new() -> Tally {
        Tally {
            cases: 0,
            outcomes: Outcomes::new(),
        }
    }

    /// Counts one outcome.
    pub fn count(&mut self, group: Group, number: u8) {
        self.outcomes.count(group, number);
    }

    /// Adds another tally's counts.
    pub fn add(&mut self, other: &Tally) {
        self.cases += other.cases;
        self.outcomes.add(&other.outcomes);
    }
}

/// Units of work, each made anew from its number and compared on its own.
pub trait Part: Sync {
    type Case: Send;

    /// One word for messages.
    fn name(&self) -> &'static str;
    /// The outcomes that this part must see.
    fn groups(&self) -> &'static [Group];
    /// How many units there are.
    fn units(&self) -> u64;
    /// Compares a unit's cases and gives the first that differs.
    fn compare(&self, unit: u64, tally: &mut Tally) -> Option<Self::Case>;
    /// A smaller case that still differs.
    fn shrunk(&self, case: Self::Case) -> Self::Case;
    /// The case as it could be typed in again, bytes and words in hex.
    fn input(&self, case: &Self::Case) -> String;
    /// What both say to it.
    fn answers(&self, case: &Self::Case) -> String;
}

/// A part's run: all counts, or up to the first unit that differs.
pub struct Run<C> {
    pub tally: Tally,
    pub different: Option<(u64, C)>,
}

/// Units that a thread takes at a time.
const BATCH: u64 = 16;

/// What the threads share: the next unit, and the first one known to differ.
struct Shared<C> {
    next: AtomicU64,
    end: AtomicU64,
    different: Mutex<Option<(u64, C)>>,
}

/// Runs a part over so many threads; of several differences the one with the lowest number counts.
pub fn run<P: Part>(part: &P, threads: usize) -> Run<P::Case> {
    let shared = Shared {
        next: AtomicU64::new(0),
        end: AtomicU64::new(part.units()),
        different: Mutex::new(None),
    };
    let mut tally = Tally::new();
    thread::scope(|scope| {
        let workers: Vec<_> = (0..threads.max(1))
            .map(|_| scope.spawn(|| work(part, &shared)))
            .collect();
        for worker in workers {
            tally.add(&worker.join().expect("a thread of the comparison panicked"));
        }
    });
    let different = shared.different.into_inner().expect("no thread panicked");
    Run { tally, different }
}

/// One thread's share. Units below a difference are still compared, so that the lowest one is found.
fn work<P: Part>(part: &P, shared: &Shared<P::Case>) -> Tally {
    let mut tally = Tally::new();
    loop {
        let first = shared.next.fetch_add(BATCH, Ordering::SeqCst);
        for unit in first..first + BATCH {
            if unit >= shared.end.load(Ordering::SeqCst) {
                return tally;
            }
            let naming = Naming(part.name(), unit);
            let found = part.compare(unit, &mut tally);
            drop(naming);
            if let Some(case) = found {
                shared.end.fetch_min(unit, Ordering::SeqCst);
                let mut lowest = shared.different.lock().expect("no thread panicked");
                if lowest.as_ref().is_none_or(|(other, _)| unit < *other) {
                    *lowest = Some((unit, case));
                }
            }
        }
    }
}

/// Names the unit at hand if an implementation panics on it.
struct Naming(&'static str, u64);

impl Drop for Naming {
    fn drop(&mut self) {
        if thread::panicking() {
            eprintln!("compare: {} panicked in unit {}", self.0, self.1);
        }
    }
}
