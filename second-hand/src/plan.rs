//! The program `gaugebatch` (R140 to R152): the reader of plans, the running of
//! their steps, and the output.

use crate::engine::{
    Access, Batch, Report, Settled, READ, REPORT_GUESS, REPORT_OWN, SETTLE, START_GUESS, START_OWN,
};
use crate::kinds;

/// R122: more bytes than these give 22 on line 0.
pub const MOST_BYTES: usize = 65_536;

/// R141: the four parts begin with these lines.
const CELL_NAMES: &[u8] = b"cell value";
const JOB_NAMES: &[u8] = b"kind p a b c";
const GUESS_NAMES: &[u8] = b"guess";
const STEP_NAMES: &[u8] = b"step job";

/// R121
const NOT_IN_FORM: u32 = 21;

/// R150: a faulty line, counted from 1, and the number that it gives.
#[derive(Clone, Copy, Debug, PartialEq, Eq)]
pub struct Fault {
    pub number: u32,
    pub line: usize,
}

/// A plan without fault: the batch opened, filled and sealed, and the steps.
#[derive(Clone, Debug, PartialEq, Eq)]
pub struct Plan {
    pub batch: Batch,
    pub steps: Vec<Step>,
}

#[derive(Clone, Copy, Debug, PartialEq, Eq)]
pub struct Step {
    pub step: u32,
    pub job: u32,
}

/// A plan after all its steps: each step's answer, and the batch they left.
#[derive(Clone, Debug, PartialEq, Eq)]
pub struct Outcome {
    pub answers: Vec<(Step, u32)>,
    pub batch: Batch,
}

// ---------------------------------------------------------------------------
// Lines

/// The lines of the input in turn, with the number of the last one handed out.
struct Lines<'a> {
    rest: &'a [u8],
    number: usize,
}

impl<'a> Lines<'a> {
    /// The next line, without its line feed.
    ///
    /// R142: a last line without its line feed is not in form. R149: input that
    /// ends too soon is at fault on the line after its last whole one. Both give
    /// 21 on the line that would stand here.
    fn next(&mut self) -> Result<&'a [u8], Fault> {
        self.number += 1;
        match self.rest.iter().position(|&byte| byte == b'\n') {
            Some(end) => {
                let line = &self.rest[..end];
                self.rest = &self.rest[end + 1..];
                Ok(line)
            }
            None => self.fault(NOT_IN_FORM),
        }
    }

    fn at_end(&self) -> bool {
        self.rest.is_empty()
    }

    /// A fault on the line last handed out.
    fn fault<T>(&self, number: u32) -> Result<T, Fault> {
        Err(Fault { number, line: self.number })
    }

    /// The line last handed out is at fault if it is not in form.
    fn in_form<T>(&self, read: Option<T>) -> Result<T, Fault> {
        match read {
            Some(value) => Ok(value),
            None => self.fault(NOT_IN_FORM),
        }
    }

    /// The line last handed out is at fault if the engine refuses what it says.
    fn accepted<T>(&self, answer: Result<T, u32>) -> Result<T, Fault> {
        answer.or_else(|number| self.fault(number))
    }

    /// R141: the next line has to be this line of names, byte for byte.
    fn expect_names(&mut self, names: &[u8]) -> Result<(), Fault> {
        if self.next()? != names {
            return self.fault(NOT_IN_FORM);
        }
        Ok(())
    }
}

// ---------------------------------------------------------------------------
// Fields. None stands for: not in form.

/// R142: one space between. Two spaces, or one at an end of the line, make an
/// empty field, and no field may be empty.
fn fields(line: &[u8]) -> Vec<&[u8]> {
    line.split(|&byte| byte == b' ').collect()
}

/// R143, a height or p: base ten, 32 signed bits, without plus sign, leading zeros
/// and minus zero.
fn signed(field: &[u8]) -> Option<i32> {
    let (minus, digits) = match field.strip_prefix(b"-") {
        Some(digits) => (true, digits),
        None => (false, field),
    };
    if digits.is_empty() || !digits.iter().all(u8::is_ascii_digit) {
        return None;
    }
    // Leading zeros.
    if digits.len() > 1 && digits[0] == b'0' {
        return None;
    }
    // Minus zero.
    if minus && digits == b"0" {
        return None;
    }
    // No number of 32 bits has more than ten digits, and ten fit into 64 bits.
    if digits.len() > 10 {
        return None;
    }
    let mut size: i64 = 0;
    for digit in digits {
        size = size * 10 + i64::from(digit - b'0');
    }
    i32::try_from(if minus { -size } else { size }).ok()
}

/// R143, any other number: without a minus sign.
fn unsigned(field: &[u8]) -> Option<u32> {
    u32::try_from(signed(field)?).ok()
}

/// R145: the cells of a job line. Those that the job does not have are `-`, and
/// after one `-` only `-` may follow.
fn cells_of_job(given: &[&[u8]]) -> Option<Vec<u32>> {
    let mut cells = Vec::new();
    let mut absent = false;
    for &field in given {
        if field == b"-" {
            absent = true;
        } else if absent {
            return None;
        } else {
            cells.push(unsigned(field)?);
        }
    }
    Some(cells)
}

// ---------------------------------------------------------------------------
// Value lines. None stands for: not in form.

/// `cell value`. R144: numbered in turn.
fn cell_line(line: &[u8], due: usize) -> Option<i32> {
    let fields = fields(line);
    if fields.len() != 2 {
        return None;
    }
    let cell = unsigned(fields[0])?;
    let height = signed(fields[1])?;
    if cell as usize != due {
        return None;
    }
    Some(height)
}

/// `kind p a b c`. R145: kind 0 is not in form.
fn job_line(line: &[u8]) -> Option<(u32, i32, Vec<u32>)> {
    let fields = fields(line);
    if fields.len() != 5 {
        return None;
    }
    let kind = unsigned(fields[0])?;
    let p = signed(fields[1])?;
    let cells = cells_of_job(&fields[2..])?;
    if kind == 0 {
        return None;
    }
    Some((kind, p, cells))
}

/// `guess`.
fn guess_line(line: &[u8]) -> Option<u32> {
    let fields = fields(line);
    if fields.len() != 1 {
        return None;
    }
    unsigned(fields[0])
}

/// `step job`. R146: a step above 4 is not in form; any job number is.
fn step_line(line: &[u8]) -> Option<Step> {
    let fields = fields(line);
    if fields.len() != 2 {
        return None;
    }
    let step = unsigned(fields[0])?;
    let job = unsigned(fields[1])?;
    if step > SETTLE {
        return None;
    }
    Some(Step { step, job })
}

/// R145: the modes are those of the kind. Cells for which it has none are taken
/// as read: the number of accesses is then not that of the kind, or the kind is
/// none, and either gives 8 unless a lower number applies (R147).
fn accesses_of(kind: u32, cells: &[u32]) -> Vec<Access> {
    let modes = kinds::modes(kind).unwrap_or(&[]);
    let mut accesses = Vec::new();
    for (place, &cell) in cells.iter().enumerate() {
        let mode = modes.get(place).copied().unwrap_or(READ);
        accesses.push(Access::to(cell, mode));
    }
    accesses
}

// ---------------------------------------------------------------------------
// The reader

/// R150: the first faulty line decides, before any step is tried; so the lines are
/// read in turn, and reading ends at the first fault. R148: on one line 21 goes
/// before; so each line is read as a whole before the engine is asked (R147).
pub fn read(input: &[u8]) -> Result<Plan, Fault> {
    // R140: whatever it says.
    if input.len() > MOST_BYTES {
        return Err(Fault { number: 22, line: 0 });
    }
    let mut lines = Lines { rest: input, number: 0 };

    lines.expect_names(CELL_NAMES)?;
    let mut heights = Vec::new();
    let mut line = lines.next()?;
    while line != JOB_NAMES {
        let height = lines.in_form(cell_line(line, heights.len()))?;
        heights.push(height);
        line = lines.next()?;
    }

    // R147: opened on the names line of the jobs.
    let mut batch = lines.accepted(Batch::open(&heights))?;
    let mut line = lines.next()?;
    while line != GUESS_NAMES {
        let (kind, p, cells) = lines.in_form(job_line(line))?;
        lines.accepted(batch.insert(kind, p, &accesses_of(kind, &cells)))?;
        line = lines.next()?;
    }

    let line = lines.next()?;
    let guess = lines.in_form(guess_line(line))?;
    lines.accepted(batch.seal(guess))?;

    lines.expect_names(STEP_NAMES)?;
    let mut steps = Vec::new();
    while !lines.at_end() {
        let line = lines.next()?;
        steps.push(lines.in_form(step_line(line))?);
    }
    Ok(Plan { batch, steps })
}

// ---------------------------------------------------------------------------
// The steps

/// R151: what the job's kind gives for the values handed to the run. Without such
/// a run the report does not matter, because the step is refused with 11 or 13.
fn report_of(batch: &Batch, job: u32, handed: Option<[i32; 4]>) -> Report {
    let nothing = Report { values: [0; 4], mark: 0 };
    match (batch.job(job), handed) {
        (Some(held), Some(handed)) => {
            kinds::result(held.kind, held.p, handed).unwrap_or(nothing)
        }
        _ => nothing,
    }
}

/// Tries the step: 0 if it is accepted, else the refusal.
pub fn try_step(batch: &mut Batch, step: Step) -> u32 {
    let job = step.job;
    let answer = match step.step {
        START_OWN => batch.start_own(job).map(|_handed| ()),
        START_GUESS => batch.start_guess(job).map(|_handed| ()),
        REPORT_OWN => {
            let report = report_of(batch, job, batch.own_handed(job));
            batch.report_own(job, report)
        }
        REPORT_GUESS => {
            let report = report_of(batch, job, batch.guess_handed(job));
            batch.report_guess(job, report)
        }
        SETTLE => batch.settle(job),
        _ => Err(NOT_IN_FORM),
    };
    match answer {
        Ok(()) => 0,
        Err(number) => number,
    }
}

/// R151: every step is tried, also after a refusal.
pub fn run(plan: Plan) -> Outcome {
    let mut batch = plan.batch;
    let mut answers = Vec::new();
    for step in plan.steps {
        let answer = try_step(&mut batch, step);
        answers.push((step, answer));
    }
    Outcome { answers, batch }
}

// ---------------------------------------------------------------------------
// The output

/// R150: two lines and nothing else.
pub fn write_fault(fault: Fault) -> Vec<u8> {
    format!("fault line\n{} {}\n", fault.number, fault.line).into_bytes()
}

/// R152: steps in the plan's order, jobs and cells by number.
pub fn write_outcome(outcome: &Outcome) -> Vec<u8> {
    let mut out = String::from("step answer\n");
    for (step, answer) in &outcome.answers {
        out += &format!("{} {}\n", step.step, answer);
    }
    out += "job how mark\n";
    for job in 0..outcome.batch.job_count() {
        // R72: 0 not settled, 1 by its own run, 2 by its guess; mark 0 with the first.
        let (how, mark) = match outcome.batch.ask_job(job) {
            Ok(Settled::ByOwnRun { mark }) => (1, mark),
            Ok(Settled::ByGuess { mark }) => (2, mark),
            Ok(Settled::No) | Err(_) => (0, 0),
        };
        out += &format!("{job} {how} {mark}\n");
    }
    out += "cell value\n";
    for cell in 0..outcome.batch.cell_count() {
        let height = outcome.batch.ask_cell(cell).unwrap_or(0);
        out += &format!("{cell} {height}\n");
    }
    out.into_bytes()
}
