//! Times calls beside each other: in rounds that alternate, of which each call's best counts.

use std::hint::black_box;
use std::time::{Duration, Instant};

/// A round is shorter than a scheduler's slice, so that on a busy machine some rounds run undisturbed.
const ROUND: Duration = Duration::from_micros(100);
pub const ROUNDS: usize = 5_000;

/// The best time of each call, in nanoseconds.
pub fn best<const N: usize>(mut calls: [&mut dyn FnMut(); N]) -> [f64; N] {
    let slowest = calls
        .iter_mut()
        .map(|call| timed(call, 10))
        .fold(0.0, f64::max);
    let repeats = (ROUND.as_nanos() as f64 / slowest).max(1.0) as u32;
    let mut best = [f64::MAX; N];
    for _ in 0..ROUNDS {
        for (call, best) in calls.iter_mut().zip(&mut best) {
            *best = best.min(timed(call, repeats));
        }
    }
    best
}

/// The time of one call, from some in a row.
fn timed(call: &mut dyn FnMut(), repeats: u32) -> f64 {
    let start = Instant::now();
    for _ in 0..repeats {
        call();
    }
    start.elapsed().as_nanos() as f64 / f64::from(repeats)
}

/// Takes an answer, so that the call that gave it cannot be left out.
pub fn spend<T>(answer: T) {
    black_box(answer);
}
