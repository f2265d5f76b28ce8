//! The proved engine, by the functions of its archive: with the record lent to
//! the steps, and by value. Inserting and sealing are by value in both, and
//! choosing and asking take a copy of the record. A list of jobs and a turn are
//! there in the lent form alone.

use sorghemi::raw::{
    sorghemi_answer_plan, sorghemi_ask_batch, sorghemi_ask_cell, sorghemi_ask_job,
    sorghemi_ask_speculation, sorghemi_ask_tally, sorghemi_choose, sorghemi_copy_out,
    sorghemi_insert, sorghemi_insert_all, sorghemi_kept_share, sorghemi_open, sorghemi_result,
    sorghemi_seal, sorghemi_step, sorghemi_step_by_value, sorghemi_total, sorghemi_turn, Access,
    Answer, JobList, StepList, Turned, NO_REPORT,
};
use sorghemi::{Record, Report, Tally};

use crate::batch::{Batch, Job};
use crate::drive::{prepare, Step, Unwatched};
use crate::engine::Engine;
use crate::stack;

fn read(job: &Job) -> sorghemi::Job {
    sorghemi::Job {
        kind: job.kind,
        arity: job.arity,
        accesses: job.accesses.map(|access| Access {
            cell: access.cell,
            mode: access.mode,
        }),
        parameter: job.parameter,
        predicted: job.predicted,
    }
}

/// At most 128 jobs as a list. The places after them are never looked at.
fn list_of(jobs: &[Job]) -> JobList {
    let mut list = JobList {
        count: jobs.len(),
        jobs: [read(&Job::default()); 128],
    };
    for (place, job) in list.jobs.iter_mut().zip(jobs) {
        *place = read(job);
    }
    list
}

/// What the job's kind gives; none for a kind that is not 1 to 6.
pub fn result(job: &Job, handed: [i32; 4]) -> Option<([i32; 4], u8)> {
    // SAFETY: the four values are this call's own.
    let outcome = unsafe { sorghemi_result(job.kind, job.parameter, &handed) };
    (outcome.refusal == 0).then_some((outcome.values, outcome.wrote))
}

/// The stack that the library's other calls touch, on the sealed batch and on a plan.
pub fn other_stacks(batch: &Batch, plan: &str) -> [(&'static str, usize); 12] {
    let Lent(record) = prepare(batch, &mut Unwatched);
    let job = &batch.jobs[0];
    let heights = &batch.heights;
    let mut copied = heights.clone();
    let (to, places) = (copied.as_mut_ptr(), copied.len());
    let (text, length) = (plan.as_ptr(), plan.len());
    let mut buffer = vec![0; sorghemi::LONGEST_ANSWER];
    let (answer, size) = (buffer.as_mut_ptr(), buffer.len());
    // SAFETY: the pointers are valid for their lengths.
    let open = stack::of(|| unsafe { sorghemi_open(heights.as_ptr(), places) });
    let list = list_of(&batch.jobs);
    let Lent(mut filled) = Lent::open(heights);
    let insert_all = stack::of(|| unsafe { sorghemi_insert_all(&mut filled, &list) });
    let ask_cell = stack::of(|| unsafe { sorghemi_ask_cell(record, 0) });
    let ask_job = stack::of(|| unsafe { sorghemi_ask_job(record, 0) });
    let ask_guess = stack::of(|| unsafe { sorghemi_ask_speculation(record, 0) });
    let ask_batch = stack::of(|| unsafe { sorghemi_ask_batch(record) });
    let tallies = [Tally::default(); 31];
    let ask_tally = stack::of(|| unsafe { sorghemi_ask_tally(record) });
    let total = stack::of(|| unsafe { sorghemi_total(tallies.as_ptr(), tallies.len()) });
    let kept_share = stack::of(|| unsafe { sorghemi_kept_share(tallies[0]) });
    let copy_out = stack::of(|| unsafe { sorghemi_copy_out(record, to, places, 0) });
    let answer = stack::of(|| unsafe { sorghemi_answer_plan(text, length, answer, size) });
    [
        ("open", open),
        ("insert all", insert_all),
        ("ask cell", ask_cell),
        ("ask job", ask_job),
        ("ask guess", ask_guess),
        ("ask batch", ask_batch),
        ("copy out", copy_out),
        ("ask tally", ask_tally),
        ("total", total),
        ("kept share", kept_share),
        ("result", stack::of(|| result(job, [0; 4]))),
        ("answer", answer),
    ]
}

pub struct Lent(Record);

impl Lent {
    fn taken(&mut self, answer: Answer) -> u8 {
        self.0 = answer.batch;
        answer.refusal
    }

    /// Inserts the jobs as one list, which is written down first.
    pub fn insert_all(&mut self, jobs: &[Job]) -> u8 {
        let list = list_of(jobs);
        // SAFETY: the record is this engine's own, and the list this call's.
        unsafe { sorghemi_insert_all(&mut self.0, &list) }.refusal
    }

    /// Makes the report, if any, and then at most so many steps, which come to
    /// stand in the list.
    pub fn turn(&mut self, report: Option<Step>, limit: usize, steps: &mut StepList) -> Turned {
        let number = report.map_or(NO_REPORT, |step| step.number);
        let step = report.unwrap_or(Step::naming(number, 0));
        let report = Report {
            values: step.values,
            wrote: step.wrote,
        };
        // SAFETY: the record is this engine's own, and the list its caller's.
        unsafe { sorghemi_turn(&mut self.0, number, step.job as usize, report, limit, steps) }
    }
}

impl Engine for Lent {
    const RECORD_BYTES: Option<usize> = Some(Record::SIZE);

    fn open(heights: &[i32]) -> Lent {
        // SAFETY: the slice is valid for its length.
        let answer = unsafe { sorghemi_open(heights.as_ptr(), heights.len()) };
        assert_eq!(answer.refusal, 0);
        Lent(answer.batch)
    }

    fn insert(&mut self, job: &Job) -> u8 {
        // SAFETY: all goes by value, as in the calls below but for `sorghemi_step`.
        let answer = unsafe { sorghemi_insert(self.0, read(job)) };
        self.taken(answer)
    }

    fn seal(&mut self, speculating: u8) -> u8 {
        let answer = unsafe { sorghemi_seal(self.0, speculating) };
        self.taken(answer)
    }

    fn step(&mut self, number: u8, job: usize, values: [i32; 4], wrote: u8) -> (u8, [i32; 4]) {
        let report = Report { values, wrote };
        // SAFETY: the record is this engine's own.
        let handed = unsafe { sorghemi_step(&mut self.0, number, job, report) };
        (handed.refusal, handed.values)
    }

    fn choose(&self) -> Option<(u8, usize, u8)> {
        let choice = unsafe { sorghemi_choose(self.0) };
        (choice.refusal == 0).then_some((choice.step, choice.job as usize, choice.chain))
    }

    fn cell(&self, cell: usize) -> i32 {
        unsafe { sorghemi_ask_cell(self.0, cell) }.height
    }
}

/// The same but for the steps.
pub struct ByValue(Lent);

impl Engine for ByValue {
    const RECORD_BYTES: Option<usize> = Lent::RECORD_BYTES;

    fn open(heights: &[i32]) -> ByValue {
        ByValue(Engine::open(heights))
    }

    fn insert(&mut self, job: &Job) -> u8 {
        self.0.insert(job)
    }

    fn seal(&mut self, speculating: u8) -> u8 {
        self.0.seal(speculating)
    }

    fn step(&mut self, number: u8, job: usize, values: [i32; 4], wrote: u8) -> (u8, [i32; 4]) {
        let report = Report { values, wrote };
        let record = self.0 .0;
        let started = unsafe { sorghemi_step_by_value(record, number, job, report) };
        self.0 .0 = started.batch;
        (started.refusal, started.handed)
    }

    fn choose(&self) -> Option<(u8, usize, u8)> {
        self.0.choose()
    }

    fn cell(&self, cell: usize) -> i32 {
        self.0.cell(cell)
    }
}
