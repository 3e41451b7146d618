//! Timing: batches of calls, the fastest batch counts.

use std::hint::black_box;
use std::time::{Duration, Instant};

/// How long a batch should take: long against the clock's reading, short against what disturbs.
const BATCH: Duration = Duration::from_micros(20);

/// What is measured, and the least nanoseconds of one call so far.
pub struct Timer {
    calls: u32,
    pub least: f64,
}

impl Timer {
    /// Finds how many calls make a batch.
    pub fn new<T>(mut call: impl FnMut() -> T) -> Timer {
        let mut timer = Timer {
            calls: 1,
            least: f64::INFINITY,
        };
        while timer.batch(&mut call) < BATCH && timer.calls < 1 << 20 {
            timer.calls *= 2;
        }
        timer.least = f64::INFINITY;
        timer
    }

    /// A timer with batches of as many calls as another's.
    pub fn same(other: &Timer) -> Timer {
        Timer {
            calls: other.calls,
            least: f64::INFINITY,
        }
    }

    /// Runs one batch.
    pub fn batch<T>(&mut self, mut call: impl FnMut() -> T) -> Duration {
        let begin = Instant::now();
        for _ in 0..self.calls {
            black_box(call());
        }
        let took = begin.elapsed();
        self.least = self
            .least
            .min(took.as_secs_f64() * 1e9 / f64::from(self.calls));
        took
    }
}

/// Runs rounds until the time is over, but not fewer than a hundred.
pub fn rounds<T>(time: Duration, mut round: impl FnMut() -> T) {
    let begin = Instant::now();
    let mut done = 0;
    while done < 100 || begin.elapsed() < time {
        round();
        done += 1;
    }
}
