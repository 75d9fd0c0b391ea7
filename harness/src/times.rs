//! How times are taken: several runs of so many calls, the fastest and the slowest told.

use std::time::Instant;

pub const RUNS: usize = 11;

/// About as long as one run may take, in seconds.
pub const A_RUN: f64 = 0.01;

/// Seconds a call, of the fastest and of the slowest run.
#[derive(Clone, Copy)]
pub struct Times {
    pub fast: f64,
    pub slow: f64,
}

impl Times {
    pub const ZERO: Times = Times {
        fast: 0.0,
        slow: 0.0,
    };

    /// Before the first run.
    pub const NONE: Times = Times {
        fast: f64::INFINITY,
        slow: 0.0,
    };

    pub fn of(mut once: impl FnMut()) -> Times {
        let rounds = rounds(&mut once);
        let runs = (0..RUNS).map(|_| seconds(rounds, &mut once));
        runs.fold(Times::NONE, Times::with)
    }

    /// Two things timed in turns, so that whatever else goes on slows both alike.
    pub fn side_by_side(mut first: impl FnMut(), mut second: impl FnMut()) -> (Times, Times) {
        let (one, other) = (rounds(&mut first), rounds(&mut second));
        let none = (Times::NONE, Times::NONE);
        (0..RUNS).fold(none, |(a, b), _| {
            let a = a.with(seconds(one, &mut first));
            (a, b.with(seconds(other, &mut second)))
        })
    }

    pub fn with(self, run: f64) -> Times {
        Times {
            fast: self.fast.min(run),
            slow: self.slow.max(run),
        }
    }

    /// In microseconds, for what a call makes or reads.
    pub fn told(self, what: &str) -> String {
        let (fast, slow) = (self.fast * 1e6, self.slow * 1e6);
        format!("fastest {fast:.2}, slowest {slow:.2} µs {what} ({RUNS} runs)")
    }
}

/// How many calls fill a run.
fn rounds(once: &mut impl FnMut()) -> usize {
    let one = seconds(1, once);
    (A_RUN / one).clamp(1.0, 10_000.0) as usize
}

/// Seconds a call, over so many calls.
fn seconds(rounds: usize, once: &mut impl FnMut()) -> f64 {
    let start = Instant::now();
    for _ in 0..rounds {
        once();
    }
    start.elapsed().as_secs_f64() / rounds as f64
}
