//! The library's structs and functions, as host/c/sorghemi.h has them for C. `layout` checks the structs against the library's own.

use crate::job::{Job, Report};
use crate::tally::Tally;
use crate::turn::MOST_STEPS;

/// One access of a job: a cell by its number, and its mode: 0 read, 1 write, 2 maybe-write, 3 predicted write.
#[repr(C)]
#[derive(Clone, Copy, Debug, PartialEq, Eq)]
pub struct Access {
    /// The cell.
    pub cell: u8,
    /// The mode.
    pub mode: u8,
}

/// A set of jobs: bit j of `low` is job j, bit j of `high` is job 64 + j.
#[repr(C)]
#[derive(Clone, Copy, Debug, PartialEq, Eq)]
pub struct JobSet {
    /// Jobs 0 to 63.
    pub low: u64,
    /// Jobs 64 to 127.
    pub high: u64,
}

/// A job's run: the values handed out, the report as stored, and of a guess where its values came from.
#[repr(C)]
#[derive(Clone, Copy, Debug, PartialEq, Eq)]
pub struct Run {
    /// The values handed out.
    pub handed: [i32; 4],
    /// The values of the report.
    pub reported: [i32; 4],
    /// The mark of the report.
    pub wrote: u8,
    /// For each access one more than the job that the value was taken from, 0 for the cell itself or a prediction.
    pub sources: [u8; 4],
    /// The jobs looked past.
    pub bypassed: JobSet,
}

/// A batch as it stands in memory. The library answers any record, and refuses one that is out of form with 32, so its
/// fields are open. The first `cell_count` cells and `job_count` places of each column are in use.
#[repr(C)]
#[derive(Clone, Copy, Debug, PartialEq, Eq)]
pub struct Record {
    /// How many cells there are.
    pub cell_count: u8,
    /// How many jobs there are.
    pub job_count: u8,
    /// 1 once the batch is sealed.
    pub sealed: u8,
    /// 1 if guesses may be started.
    pub speculating: u8,
    /// The heights.
    pub cells: [i32; 64],
    /// The jobs as inserted.
    pub jobs: [Job; 128],
    /// Each job's run.
    pub runs: [Run; 128],
    /// How the job was settled: 0 not yet, 1 by its own run, 2 by its guess.
    pub committed: [u8; 128],
    /// 1 while the job's own run is out.
    pub running: [u8; 128],
    /// The job's guess: 0 never started, 1 out, 2 with a stored report, 3 thrown away.
    pub phase: [u8; 128],
}

/// A list of jobs to insert: the first `count` of `jobs`. What stands in the places after them is never looked at.
#[repr(C)]
#[derive(Clone, Copy, Debug, PartialEq, Eq)]
#[allow(missing_docs)]
pub struct JobList {
    pub count: usize,
    pub jobs: [Job; 128],
}

/// What inserting a list into a lent record answers: the number of the refusal and the place of the refused job, or zeros.
#[repr(C)]
#[derive(Clone, Copy, Debug, PartialEq, Eq)]
#[allow(missing_docs)]
pub struct Inserted {
    pub refusal: u8,
    pub at: u8,
}

/// The number that a turn is given where it brings no report.
pub const NO_REPORT: u8 = 255;

/// A step that a turn took: its number 4, 0 or 1, its job, and the values handed to the run that it started, zeros for step 4.
#[repr(C)]
#[derive(Clone, Copy, Debug, Default, PartialEq, Eq)]
#[allow(missing_docs)]
pub struct Taken {
    pub step: u8,
    pub job: u8,
    pub handed: [i32; 4],
}

/// The steps of a turn, in their order, and zeros after them.
#[repr(C)]
#[derive(Clone, Copy, Debug, Default, PartialEq, Eq)]
#[allow(missing_docs)]
pub struct StepList {
    pub taken: [Taken; MOST_STEPS],
}

/// What a turn on a lent record answers: the number of its refusal or 0, and how many steps it took.
#[repr(C)]
#[derive(Clone, Copy, Debug, PartialEq, Eq)]
#[allow(missing_docs)]
pub struct Turned {
    pub refusal: u8,
    pub count: u8,
}

/// What a step on a lent record answers: the number of its refusal or 0, and the values handed to a run that it started, zeros otherwise.
#[repr(C)]
#[derive(Clone, Copy, Debug, PartialEq, Eq)]
#[allow(missing_docs)]
pub struct Handed {
    pub refusal: u8,
    pub values: [i32; 4],
}

/// The same from a step by value, with the record handed back.
#[repr(C)]
#[derive(Clone, Copy, Debug, PartialEq, Eq)]
#[allow(missing_docs)]
pub struct Started {
    pub refusal: u8,
    pub handed: [i32; 4],
    pub batch: Record,
}

/// The number of a refusal or 0, and the record handed back.
#[repr(C)]
#[derive(Clone, Copy, Debug, PartialEq, Eq)]
#[allow(missing_docs)]
pub struct Answer {
    pub refusal: u8,
    pub batch: Record,
}

/// What the chooser names; zeros where it is refused.
#[repr(C)]
#[derive(Clone, Copy, Debug, PartialEq, Eq)]
#[allow(missing_docs)]
pub struct Choice {
    pub refusal: u8,
    pub step: u8,
    pub job: u8,
    pub chain: u8,
}

/// A cell's height, 0 where it is refused.
#[repr(C)]
#[derive(Clone, Copy, Debug, PartialEq, Eq)]
#[allow(missing_docs)]
pub struct CellAnswer {
    pub refusal: u8,
    pub height: i32,
}

/// How a job stands; zeros where it is refused.
#[repr(C)]
#[derive(Clone, Copy, Debug, PartialEq, Eq)]
#[allow(missing_docs)]
pub struct JobAnswer {
    pub refusal: u8,
    pub committed: u8,
    pub wrote: u8,
    pub running: u8,
    pub phase: u8,
    pub validity: u8,
    pub handed: [i32; 4],
    pub reported: [i32; 4],
    pub job: Job,
}

/// What is told of a set of jobs: its size, and the lowest of them where one is present.
#[repr(C)]
#[derive(Clone, Copy, Debug, PartialEq, Eq)]
#[allow(missing_docs)]
pub struct SetAnswer {
    pub size: u8,
    pub present: bool,
    pub lowest: u8,
}

/// What a job's guess looked past, and the open ones among these jobs; zeros where it is refused.
#[repr(C)]
#[derive(Clone, Copy, Debug, PartialEq, Eq)]
#[allow(missing_docs)]
pub struct SpeculationAnswer {
    pub refusal: u8,
    pub bypassed: SetAnswer,
    pub open: SetAnswer,
}

/// How the batch stands; zeros where it is refused.
#[repr(C)]
#[derive(Clone, Copy, Debug, PartialEq, Eq)]
#[allow(missing_docs)]
pub struct BatchAnswer {
    pub refusal: u8,
    pub cell_count: u8,
    pub job_count: u8,
    pub sealed: u8,
    pub speculating: u8,
    pub finished: bool,
}

/// What a kind's check makes of the values handed to it. Where the kind is refused they come back as they were.
#[repr(C)]
#[derive(Clone, Copy, Debug, PartialEq, Eq)]
#[allow(missing_docs)]
pub struct Outcome {
    pub refusal: u8,
    pub values: [i32; 4],
    pub wrote: u8,
}

/// How many bytes of a lent buffer the answer to a plan takes; 0 where it is refused.
#[repr(C)]
#[derive(Clone, Copy, Debug, PartialEq, Eq)]
#[allow(missing_docs)]
pub struct PlanAnswer {
    pub refusal: u8,
    pub length: usize,
}

/// A tally; zeros where it is refused.
#[repr(C)]
#[derive(Clone, Copy, Debug, PartialEq, Eq)]
#[allow(missing_docs)]
pub struct TallyAnswer {
    pub refusal: u8,
    pub tally: Tally,
}

/// The kept share in whole thousandths. Where no guess was started there is none, and 0 stands there.
#[repr(C)]
#[derive(Clone, Copy, Debug, PartialEq, Eq)]
#[allow(missing_docs)]
pub struct ShareAnswer {
    pub present: bool,
    pub thousandths: u64,
}

// Each is proved, for every record and every number, to answer what the engine's definitions say. A caller owes valid pointers
// and lengths, and nothing else.
#[allow(missing_docs)]
extern "C" {
    pub fn sorghemi_open(heights: *const i32, count: usize) -> Answer;
    pub fn sorghemi_insert(batch: Record, job: Job) -> Answer;
    pub fn sorghemi_insert_all(batch: *mut Record, list: *const JobList) -> Inserted;
    pub fn sorghemi_seal(batch: Record, guessing: u8) -> Answer;
    pub fn sorghemi_step(batch: *mut Record, number: u8, job: usize, report: Report) -> Handed;
    pub fn sorghemi_step_by_value(batch: Record, number: u8, job: usize, report: Report) -> Started;
    pub fn sorghemi_choose(batch: Record) -> Choice;
    pub fn sorghemi_turn(
        batch: *mut Record,
        number: u8,
        job: usize,
        report: Report,
        limit: usize,
        steps: *mut StepList,
    ) -> Turned;
    pub fn sorghemi_ask_cell(batch: Record, cell: usize) -> CellAnswer;
    pub fn sorghemi_ask_job(batch: Record, job: usize) -> JobAnswer;
    pub fn sorghemi_ask_speculation(batch: Record, job: usize) -> SpeculationAnswer;
    pub fn sorghemi_ask_batch(batch: Record) -> BatchAnswer;
    pub fn sorghemi_copy_out(batch: Record, buffer: *mut i32, size: usize, at: usize) -> u8;
    pub fn sorghemi_result(kind: u8, parameter: i32, handed: *const [i32; 4]) -> Outcome;
    pub fn sorghemi_answer_plan(plan: *const u8, length: usize, buffer: *mut u8, size: usize) -> PlanAnswer;
    pub fn sorghemi_ask_tally(batch: Record) -> TallyAnswer;
    pub fn sorghemi_total(tallies: *const Tally, count: usize) -> TallyAnswer;
    pub fn sorghemi_kept_share(tally: Tally) -> ShareAnswer;
    pub fn sorghemi_layout(place: usize) -> u32;
}
