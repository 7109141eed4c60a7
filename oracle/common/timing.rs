//! Two sides timed in one process.

use std::hint::black_box;
use std::time::Instant;

/// The times of one side's rounds, the fastest first.
pub struct Times(Vec<f64>);

impl Times {
    fn of(mut rounds: Vec<f64>) -> Times {
        rounds.sort_by(f64::total_cmp);
        Times(rounds)
    }

    /// Everything else on the machine only slows a round down.
    pub fn fastest(&self) -> f64 {
        self.0[0]
    }

    pub fn median(&self) -> f64 {
        self.0[self.0.len() / 2]
    }
}

/// The two sides take turns, so that what slows the machine slows both.
pub fn in_turns(rounds: usize, mut one: impl FnMut() -> f64, mut other: impl FnMut() -> f64) -> (Times, Times) {
    let (of_one, of_other) = (0..rounds).map(|_| (one(), other())).unzip();
    (Times::of(of_one), Times::of(of_other))
}

/// Nanoseconds.
pub fn once<R>(work: impl FnOnce() -> R) -> f64 {
    let start = Instant::now();
    black_box(work());
    start.elapsed().as_secs_f64() * 1e9
}

/// Nanoseconds for each of the items.
pub fn each<T: Copy, R>(items: &[T], mut work: impl FnMut(T) -> R) -> f64 {
    let all = once(|| {
        for item in items {
            black_box(work(black_box(*item)));
        }
    });
    all / items.len() as f64
}
