//! The batch that everything here is timed on, and what its workers report.
//!
//! The batch is made by a fixed generator, so that every engine, every task
//! runtime and every run of the benchmark gets the same one.

pub const READ: u8 = 0;
pub const WRITE: u8 = 1;
pub const UNCERTAIN_WRITE: u8 = 2;
pub const PREDICTED_WRITE: u8 = 3;

pub const MOST_ACCESSES: usize = 4;

#[derive(Clone, Copy, Debug, Default, PartialEq, Eq)]
pub struct Access {
    pub cell: u8,
    pub mode: u8,
}

#[derive(Clone, Copy, Debug, Default, PartialEq, Eq)]
pub struct Job {
    pub kind: u8,
    pub arity: u8,
    pub accesses: [Access; MOST_ACCESSES],
    pub parameter: i32,
    /// A prediction for each access, of no meaning but with [`PREDICTED_WRITE`].
    pub predicted: [i32; MOST_ACCESSES],
}

impl Job {
    /// A job of a kind from 1 to 6 on these cells.
    pub fn new(kind: u8, parameter: i32, cells: &[u8]) -> Job {
        let modes = modes(kind).expect("a kind from 1 to 6");
        assert_eq!(modes.len(), cells.len(), "the cells of kind {kind}");
        let mut accesses = [Access::default(); MOST_ACCESSES];
        for (access, (&cell, &mode)) in accesses.iter_mut().zip(cells.iter().zip(modes)) {
            *access = Access { cell, mode };
        }
        Job {
            kind,
            arity: cells.len() as u8,
            accesses,
            parameter,
            predicted: [0; MOST_ACCESSES],
        }
    }

    pub fn used(&self) -> &[Access] {
        &self.accesses[..self.arity as usize]
    }
}

/// The modes of a kind's accesses in order; none for kind 0, where they are
/// free, and for numbers that are no kind.
pub fn modes(kind: u8) -> Option<&'static [u8]> {
    match kind {
        1 | 2 => Some(&[WRITE]),
        3 => Some(&[UNCERTAIN_WRITE, READ]),
        4 => Some(&[UNCERTAIN_WRITE]),
        5 => Some(&[WRITE, READ, READ]),
        6 => Some(&[UNCERTAIN_WRITE, UNCERTAIN_WRITE]),
        _ => None,
    }
}

/// What a worker reports for a job of kind 1 to 6 that was handed these values:
/// the proved library's result where its archive is linked, else the second hand's.
pub fn report(job: &Job, handed: [i32; 4]) -> ([i32; 4], u8) {
    #[cfg(feature = "proved")]
    use crate::proved::result;
    #[cfg(not(feature = "proved"))]
    use crate::second::result;
    result(job, handed).expect("a kind from 1 to 6")
}

/// A xorshift generator with a multiplied output (xorshift64*).
pub struct Random(u64);

impl Random {
    pub fn new(seed: u64) -> Random {
        // The state must not be 0.
        Random(seed.wrapping_mul(0x9E37_79B9_7F4A_7C15) | 1)
    }

    pub fn below(&mut self, limit: u32) -> u32 {
        self.0 ^= self.0 >> 12;
        self.0 ^= self.0 << 25;
        self.0 ^= self.0 >> 27;
        let high = self.0.wrapping_mul(0x2545_F491_4F6C_DD1D) >> 32;
        ((high * u64::from(limit)) >> 32) as u32
    }
}

/// Taken because at 16, 32, 64 and 128 jobs alike it gives about 2.8 steps for a
/// job, guesses for about two jobs of three, and about half of these are kept. So
/// what differs between the sizes is the size.
const SEED: u64 = 15;

/// How many jobs the batch has where its size is not what is measured.
pub const JOBS: usize = 128;

#[derive(Clone, Debug, PartialEq, Eq)]
pub struct Batch {
    pub heights: Vec<i32>,
    pub jobs: Vec<Job>,
}

impl Batch {
    /// The benchmark's batch of that many jobs (at most 128), on half as many cells.
    pub fn of(jobs: usize) -> Batch {
        let cells = (jobs / 2).max(2);
        let mut random = Random::new(SEED);
        let heights = (0..cells)
            .map(|_| 1400 + random.below(200) as i32)
            .collect();
        let jobs = (0..jobs).map(|_| draw_job(&mut random, cells)).collect();
        Batch { heights, jobs }
    }

    /// The cells as the jobs leave them when each runs after the one before it.
    pub fn in_order(&self) -> Vec<i32> {
        let mut cells = self.heights.clone();
        for job in &self.jobs {
            let mut handed = [0; 4];
            for (value, access) in handed.iter_mut().zip(job.used()) {
                *value = cells[access.cell as usize];
            }
            // Values of cells that are not written are those handed.
            let (values, _) = report(job, handed);
            for (&value, access) in values.iter().zip(job.used()) {
                cells[access.cell as usize] = value;
            }
        }
        cells
    }
}

/// Kinds 3, 4 and 6 are drawn more often than not; shifts and means, which
/// come behind them, fill most of the rest.
const KINDS: [u8; 16] = [1, 2, 2, 2, 3, 3, 3, 4, 4, 4, 5, 5, 5, 6, 6, 6];

fn draw_job(random: &mut Random, cells: usize) -> Job {
    let drawn = KINDS[random.below(KINDS.len() as u32) as usize];
    let places = modes(drawn).map_or(1, <[u8]>::len);
    // A mean needs three cells; the smallest batches have two.
    let kind = if places > cells { 2 } else { drawn };
    let parameter = match kind {
        1 => 1400 + random.below(200) as i32,
        2 => random.below(81) as i32 - 40,
        3 => 40 + random.below(160) as i32,
        4 => 1380 + random.below(100) as i32,
        _ => 0,
    };
    let mut chosen: Vec<u8> = Vec::new();
    while chosen.len() < modes(kind).map_or(1, <[u8]>::len) {
        let cell = random.below(cells as u32) as u8;
        if !chosen.contains(&cell) {
            chosen.push(cell);
        }
    }
    Job::new(kind, parameter, &chosen)
}

#[cfg(test)]
mod tests {
    use super::*;

    fn result(kind: u8, parameter: i32, handed: [i32; 4]) -> ([i32; 4], u8) {
        let cells: Vec<u8> = (0..modes(kind).unwrap().len() as u8).collect();
        report(&Job::new(kind, parameter, &cells), handed)
    }

    #[test]
    fn examples_p1_to_p6() {
        assert_eq!(result(4, 1400, [1399, 0, 0, 0]), ([1400, 0, 0, 0], 1));
        assert_eq!(result(4, 1400, [1400, 0, 0, 0]), ([1400, 0, 0, 0], 0));
        assert_eq!(result(3, 1399, [2900, 1500, 0, 0]), ([1500, 1500, 0, 0], 1));
        assert_eq!(result(3, 1400, [2900, 1500, 0, 0]), ([2900, 1500, 0, 0], 0));
        let far = [i32::MAX, i32::MIN, 0, 0];
        assert_eq!(result(3, i32::MAX, far), ([i32::MIN, i32::MIN, 0, 0], 1));
        assert_eq!(result(2, 20, [2147483640, 0, 0, 0]).0[0], i32::MAX);
        assert_eq!(result(5, 0, [0, 3, 4, 0]).0[0], 4);
        assert_eq!(result(5, 0, [0, -3, -4, 0]).0[0], -4);
        assert_eq!(result(5, 0, [0, -1, 0, 0]).0[0], -1);
        assert_eq!(result(6, 0, [1720, 1480, 0, 0]), ([1480, 1720, 0, 0], 1));
        assert_eq!(result(6, 0, [7, 7, 0, 0]).1, 0);
    }

    #[cfg(feature = "proved")]
    #[test]
    fn results_of_the_library_are_those_of_the_second_hand() {
        let mut random = Random::new(5);
        let mut height = || match random.below(4) {
            0 => i32::MAX - random.below(3) as i32,
            1 => i32::MIN + random.below(3) as i32,
            _ => random.below(7) as i32 - 3,
        };
        for turn in 0..60_000u32 {
            let kind = (turn % 8) as u8;
            let (p, handed) = (height(), [height(), height(), height(), 0]);
            let job = Job {
                kind,
                parameter: p,
                ..Job::default()
            };
            assert_eq!(
                crate::proved::result(&job, handed),
                crate::second::result(&job, handed)
            );
        }
    }

    #[test]
    fn batches_are_the_same_each_time_and_within_limits() {
        for jobs in [2, 3, 4, 5, 6, 16, 32, 64, 128] {
            let batch = Batch::of(jobs);
            assert_eq!(batch, Batch::of(jobs));
            assert_eq!(batch.jobs.len(), jobs);
            assert_eq!(batch.heights.len(), (jobs / 2).max(2));
        }
    }
}
