//! What is told of a set of jobs (R78), and of a guess by two such sets (R79). Which
//! jobs are in them is found where the jobs are, in `record` and in `engine`. R
//! numbers are the rules of docs/RULES.md.

use crate::engine::MOST_JOBS;

/// R78: how many jobs there are, and the least of their numbers; none exactly where
/// there are no jobs.
#[derive(Clone, Copy, PartialEq, Eq, Debug, Default)]
pub struct Told {
    pub size: usize,
    pub lowest: Option<usize>,
}

/// R79. By default both sets are of no jobs: so it is of a job without a guess to
/// tell of, and beside a refusal (R81).
#[derive(Clone, Copy, PartialEq, Eq, Debug, Default)]
pub struct GuessTold {
    /// The jobs that the guess looked past.
    pub looked_past: Told,
    /// Those among them that are not settled.
    pub open: Told,
}

impl Told {
    /// The set of the jobs for which this holds: asked of each number that a job may
    /// have (R2), one by one.
    pub fn among(is_in: impl Fn(usize) -> bool) -> Told {
        let mut told = Told::default();
        for job in 0..MOST_JOBS {
            if is_in(job) {
                told.size += 1;
                told.lowest = told.lowest.or(Some(job));
            }
        }
        told
    }

    /// The set of the jobs in the list, where none stands twice; in any order.
    pub fn of(jobs: &[usize]) -> Told {
        Told {
            size: jobs.len(),
            lowest: jobs.iter().copied().min(),
        }
    }
}
