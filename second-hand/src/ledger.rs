//! The ledger (R162 to R166), kept from a list of calls alone: each call's
//! arguments, whether it was accepted, and what a start handed out. Nothing is read
//! from a batch. R numbers are the rules of docs/RULES.md.

use std::collections::BTreeSet;

use crate::engine::Report;
use crate::lists::{Answer, Call};
use crate::record::{Job, Taken};
use crate::sets::{GuessTold, Told};
use crate::turns::Turn;

/// R56: the run that counts, and what was reported of it.
#[derive(Clone, Copy, Debug)]
pub struct Counted {
    pub handed: [i32; 4],
    pub report: Report,
    pub by_guess: bool,
}

/// What is entered of a guess.
#[derive(Clone, Debug)]
pub struct Guess {
    pub handed: [i32; 4],
    pub report: Option<Report>,
    /// The jobs that it looked past and those that it took from, by R41 and R46, as
    /// the ledger stood when it started; going up.
    pub looked_past: Vec<usize>,
    pub taken_from: Vec<usize>,
}

/// What is entered of one job.
#[derive(Clone, Debug)]
pub struct Line {
    pub job: Job,
    /// Whether the batch was sealed when it came in.
    pub added: bool,
    /// What the own run was handed, once it is started.
    pub own: Option<[i32; 4]>,
    /// None where it was never started or is struck out.
    pub guess: Option<Guess>,
    pub counted: Option<Counted>,
    /// R163: the accepted steps.
    pub steps: u32,
}

/// R23: the modes that write whatever the mark is.
const SURE_WRITES: [u8; 2] = [1, 3];

#[derive(Clone, Debug)]
pub struct Ledger {
    heights: Vec<i32>,
    pub jobs: Vec<Line>,
    /// The guess switch, once the batch is sealed.
    pub sealed: Option<u8>,
}

impl Ledger {
    pub fn open(heights: &[i32]) -> Ledger {
        Ledger {
            heights: heights.to_vec(),
            jobs: Vec::new(),
            sealed: None,
        }
    }

    /// R162: a refused call enters nothing.
    pub fn enter(&mut self, call: &Call, (refusal, handed): Answer) {
        if refusal != 0 {
            return;
        }
        match *call {
            Call::Insert(job) => self.jobs.push(Line {
                job,
                added: self.sealed.is_some(),
                own: None,
                guess: None,
                counted: None,
                steps: 0,
            }),
            Call::Seal(guessing) => self.sealed = Some(guessing),
            Call::Step {
                number,
                job,
                values,
                mark,
            } => {
                let report = Report {
                    values,
                    mark: u32::from(mark),
                };
                let started = (number == 1).then(|| self.new_guess(job, handed));
                self.jobs[job].enter(number, handed, report, started);
            }
        }
    }

    /// R161: an accepted list of jobs (R25) counts as the inserts of its jobs, in their
    /// order; a refused one counts as no call.
    pub fn enter_list(&mut self, jobs: &[Job], refusal: u8) {
        if refusal == 0 {
            let inserts = jobs.iter().map(|&job| Call::Insert(job));
            inserts.for_each(|insert| self.enter(&insert, (0, [0; 4])));
        }
    }

    /// R161: a turn (R64) counts as its report, where it has one, and then as the steps in
    /// its list, in their order; a refused one counts as no call.
    pub fn enter_turn(&mut self, turn: &Turn, refusal: u8, taken: &[Taken]) {
        if refusal == 0 {
            let report = turn.report().map(|report| (report, [0; 4]));
            let steps = taken.iter().map(|taken| (taken.step_call(), taken.handed));
            let calls = report.into_iter().chain(steps);
            calls.for_each(|(call, handed)| self.enter(&call, (0, handed)));
        }
    }

    /// R41, as the ledger stands. Of a cell of the job the guess takes from the last
    /// open writer before it, and looks past the open maybe-writers after that one, or
    /// past all of them where there is none. R46: of a predicted one neither.
    fn new_guess(&self, job: usize, handed: [i32; 4]) -> Guess {
        let (mut looked_past, mut taken_from) = (BTreeSet::new(), BTreeSet::new());
        let used = self.jobs[job].job.used().iter();
        for &(cell, _) in used.filter(|access| access.1 != 3) {
            let open = |modes: &'static [u8]| {
                let before = self.jobs[..job].iter().enumerate();
                let open = before.filter(|(_, line)| line.counted.is_none());
                let has = move |&(other, mode): &(u8, u8)| other == cell && modes.contains(&mode);
                let having = open.filter(move |(_, line)| line.job.used().iter().any(has));
                having.map(|(other, _)| other)
            };
            let writer = open(&SURE_WRITES).last();
            taken_from.extend(writer);
            looked_past.extend(open(&[2]).filter(|&other| Some(other) > writer));
        }
        Guess {
            handed,
            report: None,
            looked_past: looked_past.into_iter().collect(),
            taken_from: taken_from.into_iter().collect(),
        }
    }

    /// R183: what asking the job's guess tells.
    pub fn told(&self, job: usize) -> GuessTold {
        let Some(guess) = &self.jobs[job].guess else {
            return GuessTold::default();
        };
        GuessTold {
            looked_past: Told::of(&guess.looked_past),
            open: Told::of(&self.open_of(guess)),
        }
    }

    /// Those among the jobs that the guess looked past which have no counted report.
    pub fn open_of(&self, guess: &Guess) -> Vec<usize> {
        let mut jobs = guess.looked_past.clone();
        jobs.retain(|&other| self.jobs[other].counted.is_none());
        jobs
    }

    /// R21: every earlier job that conflicts with it (R20) has a counted report.
    pub fn is_ready(&self, job: usize) -> bool {
        let accesses = self.jobs[job].job.used();
        let clash = |a: &(u8, u8), b: &(u8, u8)| a.0 == b.0 && (a.1 != 0 || b.1 != 0);
        let conflicts = |other: &Line| {
            let mut theirs = other.job.used().iter();
            theirs.any(|a| accesses.iter().any(|b| clash(a, b)))
        };
        let mut before = self.jobs[..job].iter();
        before.all(|line| line.counted.is_some() || !conflicts(line))
    }

    /// R45 of every job. What the cells hold now is known here only as what the
    /// insertion-order run of the counted reports leaves in them (R165, R173).
    pub fn judged(&self) -> Vec<u8> {
        let (_, cells) = self.run();
        let judged = |(number, line): (usize, &Line)| match &line.guess {
            Some(guess) if line.counted.is_none() => {
                let mut handed = line.job.used().iter().zip(guess.handed);
                let right = handed.all(|(&(cell, _), value)| cells[usize::from(cell)] == value);
                match (self.is_ready(number), right) {
                    (false, _) => 1,
                    (true, true) => 2,
                    (true, false) => 3,
                }
            }
            _ => 0,
        };
        self.jobs.iter().enumerate().map(judged).collect()
    }

    /// R187: at each place in use with mode 3 the prediction that the job was inserted
    /// with; none at any other.
    pub fn predicted(&self, job: usize) -> [Option<i32>; 4] {
        let Job {
            arity,
            accesses,
            predicted,
            ..
        } = self.jobs[job].job;
        let is_predicted = |place: usize| place < usize::from(arity) && accesses[place].1 == 3;
        [0, 1, 2, 3].map(|place| is_predicted(place).then_some(predicted[place]))
    }

    /// R188: what start guess of the job hands out, whatever the jobs before it are at;
    /// none where the rule does not speak of the job as it stands.
    pub fn guessed_at_once(&self, job: usize) -> Option<[i32; 4]> {
        let line = &self.jobs[job];
        let predicted = self.predicted(job);
        let all = predicted.iter().flatten().count() == line.job.used().len();
        // A guess is struck out only where the own run is started.
        let idle = line.counted.is_none() && line.own.is_none() && line.guess.is_none();
        let speaks = self.sealed == Some(1) && idle && all && !self.is_ready(job);
        speaks.then(|| predicted.map(Option::unwrap_or_default))
    }

    /// R164: whether every job has a counted report.
    pub fn all_settled(&self) -> bool {
        self.jobs.iter().all(|line| line.counted.is_some())
    }

    /// R165, the insertion-order run of the counted reports: for each job what the
    /// jobs before it left (R166), and the heights at the end.
    pub fn run(&self) -> (Vec<[i32; 4]>, Vec<i32>) {
        let mut cells = self.heights.clone();
        let mut left = Vec::new();
        for line in &self.jobs {
            let mut before = [0; 4];
            for (place, &(cell, mode)) in line.job.used().iter().enumerate() {
                let height = &mut cells[usize::from(cell)];
                before[place] = *height;
                // R33. No cell stands twice in a job (R3), so none is read after
                // it is written.
                let writes = |mark| SURE_WRITES.contains(&mode) || (mode == 2 && mark == 1);
                match line.counted {
                    Some(counted) if writes(counted.report.mark) => {
                        *height = counted.report.values[place];
                    }
                    _ => {}
                }
            }
            left.push(before);
        }
        (left, cells)
    }

    /// Panics unless R171 and R173 to R175 hold of a batch, of which are asked the
    /// cells, and of each job how it is settled and its mark.
    pub fn claim(&self, cells: &[i32], settled: &[(u8, u8)]) {
        let (left, heights) = self.run();
        assert_eq!(cells, heights, "R173");
        assert_eq!(settled.len(), self.jobs.len());
        for (number, line) in self.jobs.iter().enumerate() {
            assert!(line.steps <= 4, "R171, job {number}");
            let due = match line.counted {
                None => (0, 0),
                Some(counted) => {
                    assert_eq!(counted.handed, left[number], "R174, job {number}");
                    (1 + u8::from(counted.by_guess), counted.report.mark as u8)
                }
            };
            assert_eq!(settled[number], due, "R175, job {number}");
        }
    }
}

impl Line {
    /// An accepted step, and the guess that it started, if it did. Panics where what
    /// it speaks of was never entered.
    fn enter(&mut self, number: u8, handed: [i32; 4], report: Report, started: Option<Guess>) {
        self.steps += 1;
        match number {
            0 => {
                self.own = Some(handed);
                self.guess = None;
            }
            1 => self.guess = started,
            2 => self.count(self.own.unwrap(), report, false),
            3 => self.guess.as_mut().unwrap().report = Some(report),
            _ => {
                let guess = self.guess.as_ref().unwrap();
                self.count(guess.handed, guess.report.unwrap(), true);
            }
        }
    }

    fn count(&mut self, handed: [i32; 4], report: Report, by_guess: bool) {
        self.counted = Some(Counted {
            handed,
            report,
            by_guess,
        });
    }
}
