//! The engine by a different hand, as it is, behind the benchmark's trait.

use second_hand::engine as hand;

use crate::batch::Job;
use crate::engine::{self, Engine};

pub struct SecondHand(pub hand::Batch);

/// What the job's kind gives; none for a kind that is not 1 to 6.
#[cfg(any(test, not(feature = "proved")))]
pub fn result(job: &Job, handed: [i32; 4]) -> Option<([i32; 4], u8)> {
    let report = second_hand::kinds::result(u32::from(job.kind), job.parameter, handed).ok()?;
    Some((report.values, report.mark as u8))
}

fn answer<T>(result: Result<T, u32>) -> u8 {
    result.err().unwrap_or(0) as u8
}

impl Engine for SecondHand {
    const RECORD_BYTES: Option<usize> = None;

    fn open(heights: &[i32]) -> SecondHand {
        SecondHand(hand::Batch::open(heights).expect("1 to 64 cells"))
    }

    fn insert(&mut self, job: &Job) -> u8 {
        let mut accesses = [hand::Access::to(0, 0); 4];
        for (place, access) in job.used().iter().enumerate() {
            accesses[place] = hand::Access {
                cell: u32::from(access.cell),
                mode: u32::from(access.mode),
                predicted: job.predicted[place],
            };
        }
        let used = &accesses[..job.arity as usize];
        answer(self.0.insert(u32::from(job.kind), job.parameter, used))
    }

    fn seal(&mut self, speculating: u8) -> u8 {
        answer(self.0.seal(u32::from(speculating)))
    }

    fn step(&mut self, number: u8, job: usize, values: [i32; 4], wrote: u8) -> (u8, [i32; 4]) {
        let job = job as u32;
        let mark = u32::from(wrote);
        let report = hand::Report { values, mark };
        let started = match number {
            engine::START_OWN => self.0.start_own(job),
            engine::START_SPECULATION => self.0.start_guess(job),
            engine::REPORT_OWN => return (answer(self.0.report_own(job, report)), [0; 4]),
            engine::REPORT_SPECULATION => {
                return (answer(self.0.report_guess(job, report)), [0; 4])
            }
            engine::COMMIT => return (answer(self.0.settle(job)), [0; 4]),
            other => panic!("{other} is no step"),
        };
        match started {
            Ok(handed) => (0, handed),
            Err(refusal) => (refusal as u8, [0; 4]),
        }
    }

    fn choose(&self) -> Option<(u8, usize, u8)> {
        let choice = self.0.choose().ok()?;
        Some((choice.step as u8, choice.job as usize, choice.chain as u8))
    }

    fn cell(&self, cell: usize) -> i32 {
        self.0.ask_cell(cell as u32).expect("a cell of the batch")
    }
}

/// Random lists of calls, right and wrong ones, to the plain engine and to this
/// one: every answer, every value handed out and all that can be asked agree.
#[cfg(test)]
mod tests {
    use super::*;
    use crate::batch::{modes, Access, Random};
    use crate::plain::Plain;

    /// One in so many, as a number to add.
    fn rarely(random: &mut Random, one_in: u32) -> u32 {
        u32::from(random.below(one_in) == 0)
    }

    fn random_job(random: &mut Random, cells: u32) -> Job {
        let mut job = Job {
            kind: random.below(8) as u8,
            parameter: random.below(40) as i32,
            ..Job::default()
        };
        let modes = modes(job.kind).filter(|_| random.below(20) > 0);
        // More than four accesses do not fit into a job here.
        job.arity = modes.map_or(random.below(5), |modes| modes.len() as u32) as u8;
        for place in 0..job.arity as usize {
            let (cell_over, mode_over) = (rarely(random, 30), rarely(random, 40));
            let mode = random.below(4 + mode_over) as u8;
            job.accesses[place] = Access {
                cell: random.below(cells + cell_over) as u8,
                mode: modes.map_or(mode, |modes| modes[place]),
            };
        }
        // In the range of the heights, so that some predictions are right.
        job.predicted = [0; 4].map(|_: i32| random.below(50) as i32);
        job
    }

    fn assert_same(plain: &Plain, other: &SecondHand, cells: usize, jobs: usize) {
        let chosen =
            |choice: hand::Choice| (choice.step as u8, choice.job as usize, choice.chain as u8);
        let expected = other
            .0
            .choose()
            .map(chosen)
            .map_err(|refusal| refusal as u8);
        assert_eq!(plain.choose(), expected);
        for cell in 0..cells + 1 {
            let expected = other
                .0
                .ask_cell(cell as u32)
                .map_err(|refusal| refusal as u8);
            assert_eq!(plain.cell(cell), expected);
        }
        for job in 0..jobs + 1 {
            let expected = match other.0.ask_job(job as u32) {
                Ok(hand::Settled::No) => Ok((0, 0)),
                Ok(hand::Settled::ByOwnRun { mark }) => Ok((1, mark as u8)),
                Ok(hand::Settled::ByGuess { mark }) => Ok((2, mark as u8)),
                Err(refusal) => Err(refusal as u8),
            };
            assert_eq!(plain.job(job), expected);
        }
        assert!(plain.is_in_form());
    }

    /// Mostly a step that is allowed, so that guesses are built on guesses; else
    /// any step, of a job that there may not be.
    fn random_step(random: &mut Random, engine: &SecondHand, jobs: u32) -> (u8, u32) {
        let mut draws_left = if rarely(random, 4) == 1 { 1 } else { 30 };
        loop {
            let number_over = rarely(random, 20).max(u32::from(jobs == 0));
            let step = random.below(5);
            let job = random.below(jobs + number_over);
            draws_left -= 1;
            if draws_left == 0 || engine.0.would_answer(step, job) == Some(0) {
                return (step as u8, job);
            }
        }
    }

    /// Inserts a job into both; one if it was accepted.
    fn insert_in_both(
        random: &mut Random,
        plain: &mut Plain,
        other: &mut SecondHand,
        cells: usize,
    ) -> usize {
        let job = random_job(random, cells as u32);
        let answer = Engine::insert(plain, &job);
        assert_eq!(answer, other.insert(&job), "{job:?}");
        usize::from(answer == 0)
    }

    /// One list of calls; counts each pair of step number and answer.
    fn one_list(random: &mut Random, answers: &mut [[usize; 20]; 5]) {
        let cells = 1 + random.below(6) as usize;
        let heights: Vec<i32> = (0..cells).map(|_| random.below(50) as i32).collect();
        let mut plain: Plain = Engine::open(&heights);
        let mut other = SecondHand::open(&heights);
        let mut jobs = 0;
        for _ in 0..random.below(18) {
            jobs += insert_in_both(random, &mut plain, &mut other, cells);
        }
        for turn in 0..10 + 6 * jobs {
            // Some lists have steps before sealing, or are sealed again.
            if turn == 2 || rarely(random, 50) == 1 {
                let switch = [1, 1, 1, 1, 1, 1, 0, 2][random.below(8) as usize];
                assert_eq!(Engine::seal(&mut plain, switch), other.seal(switch));
            }
            // Some jobs come when the others are under way, or settled.
            if rarely(random, 12) == 1 {
                jobs += insert_in_both(random, &mut plain, &mut other, cells);
            }
            let (step, job) = random_step(random, &other, jobs as u32);
            let wrote = [0, 0, 0, 1, 1, 2][random.below(6) as usize];
            let values = [0; 4].map(|_: i32| random.below(50) as i32);
            let answer = plain.step(step, job as usize, values, wrote);
            assert_eq!(answer, other.step(step, job as usize, values, wrote));
            answers[step as usize][answer.0 as usize] += 1;
            assert_same(&plain, &other, cells, jobs);
        }
    }

    #[test]
    fn plain_engine_agrees_on_random_lists() {
        let mut random = Random::new(1);
        let mut answers = [[0; 20]; 5];
        for _ in 0..5000 {
            one_list(&mut random, &mut answers);
        }
        // The lists are worth something only if all that can happen has happened.
        let possible: [&[usize]; 5] = [
            &[0, 10, 11, 13, 15, 17],
            &[0, 10, 11, 12, 13, 14, 15],
            &[0, 10, 11, 13, 16],
            &[0, 10, 11, 13, 16],
            &[0, 10, 11, 13, 15, 18],
        ];
        for (step, possible) in possible.iter().enumerate() {
            for &answer in possible.iter() {
                assert!(
                    answers[step][answer] > 20,
                    "step {step} answer {answer}: {answers:?}"
                );
            }
        }
    }
}
