//! Making a case that differs smaller, greedily: a change stays if the case still differs.

use std::time::{Duration, Instant};

/// After this time a case is small enough; only jobs over the length limit take as long.
const PATIENCE: Duration = Duration::from_secs(5);
/// Most passes over a case; two or three are the rule.
const PASSES: usize = 20;

/// A shrinker at work on one case.
pub struct Shrinker {
    end: Instant,
}

impl Shrinker {
    pub fn start() -> Shrinker {
        Shrinker {
            end: Instant::now() + PATIENCE,
        }
    }

    fn is_over(&self) -> bool {
        Instant::now() > self.end
    }

    /// Goes over a case until that changes nothing, as each pass may let the next do more.
    pub fn until_stable<C: Clone + PartialEq>(&self, case: &mut C, pass: impl Fn(&mut C)) {
        for _ in 0..PASSES {
            let before = case.clone();
            pass(case);
            if *case == before {
                return;
            }
        }
    }

    /// Drops runs of a list's items, long runs first.
    pub fn drop_items<C: Clone, T: Clone>(
        &self,
        case: &mut C,
        list: impl Fn(&mut C) -> &mut Vec<T>,
        differs: impl Fn(&C) -> bool,
    ) {
        let mut run = list(case).len();
        while run > 0 {
            let mut at = 0;
            let mut dropped = false;
            while at < list(case).len() && !self.is_over() {
                let mut smaller = case.clone();
                let items = list(&mut smaller);
                let end = items.len().min(at + run);
                items.drain(at..end);
                if differs(&smaller) {
                    *case = smaller;
                    dropped = true;
                } else {
                    at += run;
                }
            }
            // Single items are tried until none goes, as one may hold another in place.
            run = if run == 1 && dropped { 1 } else { run / 2 };
        }
    }

    /// Replaces a list's items by the first simpler one that will do.
    pub fn simplify<C: Clone, T: Clone>(
        &self,
        case: &mut C,
        list: impl Fn(&mut C) -> &mut Vec<T>,
        simpler: impl Fn(&T) -> Vec<T>,
        differs: impl Fn(&C) -> bool,
    ) {
        for at in 0..list(case).len() {
            if self.is_over() {
                return;
            }
            let candidates = simpler(&list(case)[at]);
            self.settle(case, |case| &mut list(case)[at], &candidates, &differs);
        }
    }

    /// Replaces one value by the first of the candidates that will do.
    pub fn settle<C: Clone, T: Clone>(
        &self,
        case: &mut C,
        value: impl Fn(&mut C) -> &mut T,
        candidates: &[T],
        differs: impl Fn(&C) -> bool,
    ) {
        for candidate in candidates {
            let mut smaller = case.clone();
            *value(&mut smaller) = candidate.clone();
            if differs(&smaller) {
                *case = smaller;
                return;
            }
        }
    }
}

/// Simpler bytes than these: all but the first byte 0, or but one more, or one of them.
pub fn zeroed(bytes: &[u8]) -> Vec<Vec<u8>> {
    let kept = |keep: &dyn Fn(usize) -> bool| {
        let all = bytes.iter().enumerate();
        all.map(|(at, &byte)| if at == 0 || keep(at) { byte } else { 0 })
            .collect::<Vec<u8>>()
    };
    let mut simpler = vec![kept(&|_| false)];
    simpler.extend((1..bytes.len()).map(|one| kept(&|at| at == one)));
    simpler.extend((1..bytes.len()).map(|one| kept(&|at| at != one)));
    simpler.retain(|candidate| candidate != bytes);
    simpler
}
