//! A plan as the library judged it: sound, with its parts, or at fault.

use sorghemi::{Access, Batch, Job, Refusal, Step};

/// The line of names of each part (R141).
pub const CELL_NAMES: &[u8] = b"cell value";
pub const JOB_NAMES: &[u8] = b"kind p a b c";
pub const GUESS_NAMES: &[u8] = b"guess";
pub const STEP_NAMES: &[u8] = b"step job";

/// What can only be a mistake in this program: it says something else than the library.
#[derive(Debug)]
pub struct Contradiction(pub String);

/// Something that a batch of a sound plan cannot meet.
impl From<Refusal> for Contradiction {
    fn from(refusal: Refusal) -> Contradiction {
        Contradiction(format!("a call that cannot be refused was {refusal}"))
    }
}

/// A fault's number, and its line, counted from 1.
#[derive(Clone, Copy, Debug, PartialEq, Eq)]
pub struct Fault {
    pub number: u8,
    pub line: usize,
}

pub enum Reading {
    Sound(Sound),
    Faulty(Faulty),
}

/// A sound plan, and the library's answer to it.
pub struct Sound {
    pub plan: Plan,
    pub answer: Vec<u8>,
}

/// The fault of a plan, and the library's answer that tells it.
pub struct Faulty {
    pub fault: Fault,
    pub answer: Vec<u8>,
}

/// The parts of a sound plan.
#[derive(Debug, PartialEq, Eq)]
pub struct Plan {
    pub heights: Vec<i32>,
    pub jobs: Vec<Job>,
    pub guessing: bool,
    pub steps: Vec<StepLine>,
    /// How many lines stand before the first step's.
    pub lines_before_steps: usize,
}

/// A line of the steps: the number may be of no job (R146).
#[derive(Clone, Copy, Debug, PartialEq, Eq)]
pub struct StepLine {
    pub step: Step,
    pub job: usize,
}

/// The same for a plan that may lack its last part: where only the names line of the steps is missing, it is put in. A line
/// `step job` is nothing but that names line, so what is sound with it lacked nothing else.
pub fn read_without_steps(plan: &[u8]) -> Result<(Reading, Vec<u8>), Contradiction> {
    let reading = read(plan)?;
    if let Reading::Faulty(_) = reading {
        let longer = [plan, STEP_NAMES, b"\n"].concat();
        let again = read(&longer)?;
        if let Reading::Sound(_) = again {
            return Ok((again, longer));
        }
    }
    Ok((reading, plan.to_owned()))
}

/// Asks the library about the plan. Whether it is sound, and else where the fault is, is the library's answer alone.
pub fn read(plan: &[u8]) -> Result<Reading, Contradiction> {
    // A library of another layout shows here, where it is refused, and not as a panic of `answer`.
    Batch::open(&[0])?;
    let answer = sorghemi::answer(plan);
    if answer.starts_with(b"fault line\n") {
        let fault = fault_of(&answer).ok_or_else(|| Contradiction("the fault was not understood".to_owned()))?;
        return Ok(Reading::Faulty(Faulty { fault, answer }));
    }
    let plan = parts(plan).ok_or_else(|| Contradiction("a sound plan was not understood".to_owned()))?;
    Ok(Reading::Sound(Sound { plan, answer }))
}

/// A plan that is known to be sound.
#[cfg(test)]
pub fn sound(plan: &[u8]) -> Sound {
    match read(plan) {
        Ok(Reading::Sound(sound)) => sound,
        _ => panic!("the plan is sound"),
    }
}

fn fault_of(answer: &[u8]) -> Option<Fault> {
    let text = std::str::from_utf8(answer).ok()?;
    let (number, line) = text.lines().nth(1)?.split_once(' ')?;
    Some(Fault { number: number.parse().ok()?, line: line.parse().ok()? })
}

/// The parts of a plan that is known to be sound; none where it is not understood.
fn parts(plan: &[u8]) -> Option<Plan> {
    let text = std::str::from_utf8(plan).ok()?;
    let mut lines = text.lines();
    lines.next()?;
    let cells = lines.by_ref().take_while(|line| line.as_bytes() != JOB_NAMES);
    let heights = cells.map(|line| line.split_once(' ')?.1.parse().ok()).collect::<Option<Vec<i32>>>()?;
    let jobs = lines.by_ref().take_while(|line| line.as_bytes() != GUESS_NAMES).map(job_of).collect::<Option<Vec<Job>>>()?;
    let guessing = lines.next()? == "1";
    lines.next()?;
    let steps = lines.map(step_of).collect::<Option<Vec<StepLine>>>()?;
    let lines_before_steps = heights.len() + jobs.len() + 5;
    Some(Plan { heights, jobs, guessing, steps, lines_before_steps })
}

fn job_of(line: &str) -> Option<Job> {
    let mut fields = line.split(' ');
    let kind = fields.next()?.parse().ok()?;
    let parameter = fields.next()?.parse().ok()?;
    let cells = fields.filter(|field| *field != "-").map(|field| field.parse().ok()).collect::<Option<Vec<u8>>>()?;
    job(kind, parameter, &cells)
}

fn step_of(line: &str) -> Option<StepLine> {
    let (step, job) = line.split_once(' ')?;
    Some(StepLine { step: Step::from_number(step.parse().ok()?)?, job: job.parse().ok()? })
}

/// A job of the kind on cells 0, 1 and 2, as far as it has them: so how many cells a kind has, and what it may do with them,
/// is said by the library's wrapper and not once more here.
pub fn sample(kind: u8) -> Option<Job> {
    match kind {
        1 => Some(Job::set(0, 0)),
        2 => Some(Job::shift(0, 0)),
        3 => Some(Job::spike(0, 1, 0)),
        4 => Some(Job::floor(0, 0)),
        5 => Some(Job::mean(0, 1, 2)),
        6 => Some(Job::pair(0, 1)),
        _ => None,
    }
}

/// The job of a job line; none where the kind is no kind of plans, or has another number of cells.
fn job(kind: u8, parameter: i32, cells: &[u8]) -> Option<Job> {
    let sample = sample(kind)?;
    if cells.len() != usize::from(sample.arity) {
        return None;
    }
    let mut accesses = sample.accesses;
    for (access, &cell) in accesses.iter_mut().zip(cells) {
        *access = Access { cell, ..*access };
    }
    Some(Job { parameter, accesses, ..sample })
}

impl Plan {
    /// A batch with the plan's cells and jobs, sealed.
    pub fn batch(&self) -> Result<Batch, Contradiction> {
        let mut batch = Batch::open(&self.heights)?;
        for job in &self.jobs {
            batch.insert(*job)?;
        }
        batch.seal(self.guessing)?;
        Ok(batch)
    }
}

/// The cells of a job, in order.
pub fn cells(job: &Job) -> impl Iterator<Item = u8> + '_ {
    job.accesses.iter().take(job.arity.into()).map(|access| access.cell)
}
