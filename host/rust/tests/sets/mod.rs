//! What may be met of the jobs that a guess looked past, and of the open ones among them.

use crate::met::{add, print};

/// What such a set may be like. Each has to come up of both.
const SETS: [&str; 13] = [
    "no jobs",
    "one job",
    "two jobs",
    "three jobs or more",
    "40 jobs or more",
    "the lowest is job 0",
    "the lowest is job 1 to 62",
    "the lowest is job 63",
    "the lowest is job 64",
    "the lowest is above 64",
    "in both words",
    "in the high word only",
    "jobs 63 and 64",
];

/// The jobs in their order.
fn set_met(jobs: &[usize]) -> [bool; SETS.len()] {
    let (size, lowest) = (jobs.len(), jobs.first().copied());
    let high = jobs.last() >= Some(&64);
    [
        size == 0,
        size == 1,
        size == 2,
        size >= 3,
        size >= 40,
        lowest == Some(0),
        lowest > Some(0) && lowest < Some(63),
        lowest == Some(63),
        lowest == Some(64),
        lowest > Some(64),
        high && lowest < Some(64),
        high && lowest >= Some(64),
        jobs.contains(&63) && jobs.contains(&64),
    ]
}

/// How the two may stand to each other. Each has to come up.
const PAIRS: [&str; 6] = [
    "all open",
    "fewer open, with the same lowest",
    "fewer open, with a higher lowest",
    "none open, though some were looked past",
    "looked past jobs in both words, open in the high one only",
    "looked past jobs in both words, open in the low one only",
];

fn pair_met(past: &[usize], open: &[usize]) -> [bool; PAIRS.len()] {
    let (fewer, some) = (open.len() < past.len(), !open.is_empty());
    let both_words = past.first() < Some(&64) && past.last() >= Some(&64);
    [
        some && !fewer,
        some && fewer && open[0] == past[0],
        some && fewer && open[0] > past[0],
        !some && fewer,
        some && both_words && open[0] >= 64,
        some && both_words && open.last() < Some(&64),
    ]
}

/// How often each was met: of the jobs looked past and of the open ones, and of the two.
#[derive(Default)]
pub struct Sets {
    past: [u64; SETS.len()],
    open: [u64; SETS.len()],
    pairs: [u64; PAIRS.len()],
}

impl Sets {
    pub fn count(&mut self, past: &[usize], open: &[usize]) {
        add(&mut self.past, set_met(past));
        add(&mut self.open, set_met(open));
        add(&mut self.pairs, pair_met(past, open));
    }

    pub fn print(&self) {
        println!("The jobs looked past, and the open ones among them:");
        for ((what, past), open) in SETS.iter().zip(self.past).zip(self.open) {
            println!("  {what}: {past} and {open}");
        }
        print(&PAIRS, &self.pairs);
    }

    pub fn came_up(&self) {
        let all = |times: &[u64]| times.iter().all(|&times| times > 0);
        assert!(all(&self.past), "no such jobs were looked past: {:?}", self.past);
        assert!(all(&self.open), "no such jobs were open: {:?}", self.open);
        assert!(all(&self.pairs), "no such pair came up: {:?}", self.pairs);
    }
}
