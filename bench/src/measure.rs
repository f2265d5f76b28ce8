//! Figures from repeated runs, and a watch that clocks single calls.

use std::time::{Duration, Instant};

use crate::drive::{Watch, CALLS};

/// Of all repetitions, in nanoseconds.
#[derive(Clone, Copy, Debug)]
pub struct Figure {
    pub median: f64,
    pub best: f64,
}

impl Figure {
    pub fn of(samples: &[f64]) -> Figure {
        let mut sorted = samples.to_vec();
        sorted.sort_by(f64::total_cmp);
        Figure {
            median: sorted[sorted.len() / 2],
            best: sorted[0],
        }
    }
}

/// Repeats a run for that long, at least three times; one sample for each.
pub fn samples(time: Duration, mut run: impl FnMut() -> f64) -> Vec<f64> {
    let begin = Instant::now();
    let mut samples = Vec::new();
    while samples.len() < 3 || begin.elapsed() < time {
        samples.push(run());
    }
    samples
}

pub fn nanoseconds(run: impl FnOnce()) -> f64 {
    let begin = Instant::now();
    run();
    begin.elapsed().as_nanos() as f64
}

/// Clocks every call by itself, and beside each call one that does nothing: what
/// the clock shows for that is its own cost, at the machine's pace of the moment.
pub struct Clock {
    spent: [Duration; CALLS],
    calls: [u32; CALLS],
    spent_on_nothing: Duration,
}

impl Clock {
    pub fn new() -> Clock {
        Clock {
            spent: [Duration::ZERO; CALLS],
            calls: [0; CALLS],
            spent_on_nothing: Duration::ZERO,
        }
    }

    /// The mean time of a call, the clock's own cost taken off; none if there
    /// was no such call.
    pub fn mean(&self, which: usize) -> Option<f64> {
        let mean = |spent: Duration, calls: u32| spent.as_nanos() as f64 / f64::from(calls);
        match self.calls[which] {
            0 => None,
            calls => Some((mean(self.spent[which], calls) - self.cost()).max(0.0)),
        }
    }

    pub fn calls(&self, which: usize) -> u32 {
        self.calls[which]
    }

    pub fn cost(&self) -> f64 {
        let calls: u32 = self.calls.iter().sum();
        self.spent_on_nothing.as_nanos() as f64 / f64::from(calls)
    }
}

impl Watch for Clock {
    fn call<T>(&mut self, which: usize, call: impl FnOnce() -> T) -> T {
        let begin = Instant::now();
        let answer = call();
        self.spent[which] += begin.elapsed();
        self.calls[which] += 1;
        let begin = Instant::now();
        self.spent_on_nothing += begin.elapsed();
        answer
    }
}
