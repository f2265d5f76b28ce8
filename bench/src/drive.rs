//! Plays the workers: drives a batch to its end by the chooser, or repeats steps
//! that were recorded when it was so driven.

use std::collections::VecDeque;

use crate::batch::{report, Batch};
use crate::engine::{Engine, COMMIT, REPORT_OWN, REPORT_SPECULATION, START_OWN, START_SPECULATION};

/// Sees every call to an engine; the numbers 0 to 4 are those of the steps.
pub trait Watch {
    fn call<T>(&mut self, which: usize, call: impl FnOnce() -> T) -> T;
}

pub const INSERT: usize = 5;
pub const SEAL: usize = 6;
pub const CHOOSE: usize = 7;
/// Calls that only the proved library has.
pub const INSERT_ALL: usize = 8;
pub const TURN: usize = 9;
pub const CALLS: usize = 10;

/// Looks away, and costs nothing.
pub struct Unwatched;

impl Watch for Unwatched {
    fn call<T>(&mut self, _which: usize, call: impl FnOnce() -> T) -> T {
        call()
    }
}

#[derive(Clone, Copy, Debug, PartialEq, Eq)]
pub struct Step {
    pub number: u8,
    pub job: u8,
    pub values: [i32; 4],
    pub wrote: u8,
}

impl Step {
    /// A step that brings no report.
    pub fn naming(number: u8, job: usize) -> Step {
        Step {
            number,
            job: job as u8,
            values: [0; 4],
            wrote: 0,
        }
    }
}

/// What came of asking the chooser.
#[derive(Clone, Copy, Debug, Default, PartialEq, Eq)]
pub struct Chosen {
    pub times: usize,
    /// The chain lengths that it gave, added up.
    pub chain_lengths: usize,
}

/// How a batch was driven to its end.
#[derive(Clone, Debug, Default, PartialEq, Eq)]
pub struct Drive {
    /// All steps, all of them accepted.
    pub steps: Vec<Step>,
    /// None where the batch was driven by turns, in which the engine asks itself.
    pub chosen: Option<Chosen>,
    /// Speculative runs started, and those of them that were committed.
    pub started: usize,
    pub kept: usize,
}

impl Drive {
    /// At the end a speculative run that was not committed had become invalid
    /// and was discarded for an own run.
    pub fn discarded(&self) -> usize {
        self.started - self.kept
    }

    /// Whether the steps are the same and what became of the guesses, and also
    /// what the chooser gave where both asked it.
    pub fn is_like(&self, other: &Drive) -> bool {
        let chosen_alike = match (self.chosen, other.chosen) {
            (Some(one), Some(other)) => one == other,
            _ => true,
        };
        let counts = |drive: &Drive| (drive.started, drive.kept);
        self.steps == other.steps && counts(self) == counts(other) && chosen_alike
    }

    pub fn steps_of(&self, number: u8) -> usize {
        self.steps
            .iter()
            .filter(|step| step.number == number)
            .count()
    }
}

/// A run that a worker has in hand.
struct Run {
    job: usize,
    report_number: u8,
    handed: [i32; 4],
}

/// Opens the batch, inserts its jobs and seals it.
pub fn prepare<E: Engine>(batch: &Batch, watch: &mut impl Watch) -> E {
    let mut engine = E::open(&batch.heights);
    for job in &batch.jobs {
        let answer = watch.call(INSERT, || engine.insert(job));
        assert_eq!(answer, 0, "insert {job:?}");
    }
    assert_eq!(watch.call(SEAL, || engine.seal(1)), 0, "seal");
    engine
}

/// The workers: what they have in hand, and what was done.
pub struct Workers<'a> {
    batch: &'a Batch,
    /// Oldest first. Speculative runs that were discarded stay until met.
    runs_out: VecDeque<Run>,
    /// Bit j for job j: its own run was started, so a speculative one is discarded.
    own_started: u128,
    /// Jobs that are not committed.
    to_commit: usize,
    pub drive: Drive,
}

impl Workers<'_> {
    pub fn of(batch: &Batch) -> Workers<'_> {
        Workers {
            batch,
            runs_out: VecDeque::with_capacity(2 * batch.jobs.len()),
            own_started: 0,
            to_commit: batch.jobs.len(),
            drive: Drive {
                // At most four steps for a job.
                steps: Vec::with_capacity(4 * batch.jobs.len()),
                ..Drive::default()
            },
        }
    }

    pub fn are_done(&self) -> bool {
        self.to_commit == 0
    }

    /// A step that the chooser named was made, and handed out these values.
    pub fn took(&mut self, number: u8, job: usize, handed: [i32; 4]) {
        self.drive.steps.push(Step::naming(number, job));
        let report_number = match number {
            COMMIT => {
                self.drive.kept += 1;
                self.to_commit -= 1;
                return;
            }
            START_OWN => {
                self.own_started |= 1 << job;
                REPORT_OWN
            }
            START_SPECULATION => {
                self.drive.started += 1;
                REPORT_SPECULATION
            }
            other => panic!("the chooser named step {other}"),
        };
        self.runs_out.push_back(Run {
            job,
            report_number,
            handed,
        });
    }

    /// The report on the oldest run that is out. Discarded runs are dropped unreported.
    pub fn oldest_report(&mut self) -> Step {
        let discarded = |run: &Run| {
            run.report_number == REPORT_SPECULATION && self.own_started >> run.job & 1 == 1
        };
        let mut run = self.runs_out.pop_front().expect("a run is out");
        while discarded(&run) {
            run = self.runs_out.pop_front().expect("a run is out");
        }
        let (values, wrote) = report(&self.batch.jobs[run.job], run.handed);
        Step {
            values,
            wrote,
            ..Step::naming(run.report_number, run.job)
        }
    }

    /// The report was made.
    pub fn reported(&mut self, report: Step) {
        self.drive.steps.push(report);
        self.to_commit -= usize::from(report.number == REPORT_OWN);
    }
}

/// Drives a sealed batch until all its jobs are committed. There are as many
/// workers as jobs: every step that the chooser names is made at once, guesses
/// too, and only when it names none (19) is a run reported, the oldest. With few
/// workers it would hardly come to a guess, as the chooser prefers own runs.
pub fn drive<E: Engine, W: Watch>(engine: &mut E, batch: &Batch, watch: &mut W) -> Drive {
    let mut workers = Workers::of(batch);
    let mut chosen = Chosen::default();
    while !workers.are_done() {
        chosen.times += 1;
        match watch.call(CHOOSE, || engine.choose()) {
            Some((number, job, length)) => {
                chosen.chain_lengths += usize::from(length);
                let handed = make(engine, Step::naming(number, job), watch);
                workers.took(number, job, handed);
            }
            None => {
                let report = workers.oldest_report();
                make(engine, report, watch);
                workers.reported(report);
            }
        }
    }
    workers.drive.chosen = Some(chosen);
    workers.drive
}

/// Makes the step, which has to be accepted, and gives the values handed out.
fn make<E: Engine, W: Watch>(engine: &mut E, step: Step, watch: &mut W) -> [i32; 4] {
    let call = || engine.step(step.number, step.job as usize, step.values, step.wrote);
    let (answer, handed) = watch.call(step.number as usize, call);
    assert_eq!(answer, 0, "{step:?}");
    handed
}

/// Repeats recorded steps on a sealed batch, without choosing.
pub fn replay<E: Engine>(engine: &mut E, steps: &[Step]) {
    for step in steps {
        let (answer, handed) = engine.step(step.number, step.job as usize, step.values, step.wrote);
        assert_eq!(answer, 0, "{step:?}");
        std::hint::black_box(handed);
    }
}
