//! Two rules as they were before. By the former rule of judging, here just the former
//! rule, guesses fell before R43 and R44 compared heights: it is here for R185, and for
//! the figure of how many guesses it would have kept. By the former chooser's rule a
//! chain had links of any conflict, and ties went to the lowest number at once: it is
//! here only for figures of what R22 and R61 change. Nothing else goes by either. R
//! numbers are the rules of docs/RULES.md.

use std::collections::VecDeque;

use crate::engine::{
    conflict, Batch, Choice, Guess, GuessState, REPORT_GUESS, REPORT_OWN, SETTLE, START_GUESS,
    START_OWN,
};
use crate::lists::reported;

/// Why a guess that is out or stored had fallen by the former rule. By default it had
/// not, or there is none.
#[derive(Clone, Copy, PartialEq, Eq, Debug, Default)]
pub struct Fell {
    /// A job that it looked past is settled with mark 1, whatever heights that wrote.
    pub past: bool,
    /// The guess of a job that it took from has fallen by this rule, or is thrown away.
    pub source: bool,
}

impl Fell {
    pub fn at_all(&self) -> bool {
        self.past || self.source
    }
}

/// How the guess of each job of the batch had fallen. A guess takes only from earlier
/// jobs, so going up through the jobs each answer is known before it is needed.
pub fn falls(batch: &Batch) -> Vec<Fell> {
    let mut falls: Vec<Fell> = Vec::new();
    for job in 0..batch.job_count() {
        let fell = live_guess(batch, job).map(|guess| Fell {
            past: guess.looked_past.iter().any(|&k| is_marked(batch, k)),
            source: guess.taken_from.iter().any(|&k| {
                // What was taken from was stored, so where none is left it is thrown away.
                falls[k].at_all() || live_guess(batch, k as u32).is_none()
            }),
        });
        falls.push(fell.unwrap_or_default());
    }
    falls
}

/// Whether the job's guess had fallen, ready or not.
pub fn has_fallen(batch: &Batch, job: usize) -> bool {
    falls(batch)[job].at_all()
}

/// The job's guess while it is out or stored; R55: it stays stored where the job is
/// settled by it.
fn live_guess(batch: &Batch, job: u32) -> Option<&Guess> {
    let guess = batch.guess(job)?;
    (guess.state != GuessState::ThrownAway).then_some(guess)
}

/// Whether the job is settled with mark 1.
pub fn is_marked(batch: &Batch, job: usize) -> bool {
    batch.ask_job(job as u32).is_ok_and(|how| how.mark() == 1)
}

// ---------------------------------------------------------------------------
// How many guesses are kept by either rule

impl Batch {
    /// The batch as it is, but from now on its guesses fall by the former rule.
    pub fn under_former_rule(mut self) -> Batch {
        self.by_former_rule = true;
        self
    }
}

/// How many guesses are kept when the batch, which is sealed and has no runs, is worked
/// to its end: by R43 and R44, and by the former rule. All else is done alike. None
/// where it has too many jobs. Panics unless both end with the heights of the
/// insertion-order run (R176).
pub fn kept_by_each(batch: &Batch) -> Option<[u64; 2]> {
    let former = batch.clone().under_former_rule();
    let [now, former] = [batch, &former].map(|batch| worked_out(batch, NOW));
    Some([now?.kept, former?.kept])
}

// ---------------------------------------------------------------------------
// The former chooser

/// What the former chooser named: as R60 has it, of the job with the longest chain, by
/// links of any conflict, the lowest number first.
pub fn choose_formerly(batch: &Batch) -> Result<Choice, u32> {
    // The refusals are the same.
    batch.choose()?;
    let chains = former_chains(batch);
    let named = [SETTLE, START_OWN, START_GUESS]
        .into_iter()
        .find_map(|step| {
            let jobs = 0..batch.job_count();
            let allowed = jobs.filter(|&job| batch.would_answer(step, job) == Some(0));
            // Of several greatest the last is taken, so the jobs come from the back.
            let job = allowed.rev().max_by_key(|&job| chains[job as usize])?;
            let chain = chains[job as usize];
            Some(Choice { step, job, chain })
        });
    named.ok_or(19)
}

/// For every job the length of the longest chain from it on, by links of any conflict.
fn former_chains(batch: &Batch) -> Vec<u32> {
    let jobs: Vec<_> = (0..batch.job_count())
        .map(|job| batch.job(job).unwrap())
        .collect();
    let mut chains = vec![1; jobs.len()];
    for job in (0..jobs.len()).rev() {
        let later = (job + 1..jobs.len()).filter(|&later| conflict(jobs[job], jobs[later]) != 0);
        chains[job] = 1 + later.map(|later| chains[later]).max().unwrap_or(0);
    }
    chains
}

/// What came of a batch that was worked to its end.
#[derive(Clone, Copy, PartialEq, Eq, Debug, Default)]
pub struct Came {
    /// The guesses, as the tally has them (R75).
    pub started: u64,
    pub kept: u64,
    pub thrown_away: u64,
    /// How many turns it took, each run one.
    pub turns: u64,
}

impl std::ops::AddAssign for Came {
    fn add_assign(&mut self, more: Came) {
        self.started += more.started;
        self.kept += more.kept;
        self.thrown_away += more.thrown_away;
        self.turns += more.turns;
    }
}

/// What comes of the batch, which is sealed and has no runs, by the chooser as it is and by
/// the former one. All else is done alike. None where it has too many jobs.
pub fn worked_by_each_chooser(batch: &Batch) -> Option<[Came; 2]> {
    let [now, former] = [NOW, choose_formerly].map(|choose| worked_out(batch, choose));
    Some([now?, former?])
}

// ---------------------------------------------------------------------------
// Batches worked to their end

/// So many workers work a batch in `worked_out`.
const WORKERS: usize = 4;

/// So many jobs may it have; with more it takes long.
pub const MOST_WORKED_OUT: u32 = 60;

type Chooser = fn(&Batch) -> Result<Choice, u32>;

/// The chooser as it is.
const NOW: Chooser = Batch::choose;

/// What comes of the batch. Panics unless it ends with the heights of the insertion-order
/// run (R176).
fn worked_out(batch: &Batch, choose: Chooser) -> Option<Came> {
    if batch.job_count() > MOST_WORKED_OUT {
        return None;
    }
    let (end, turns) = worked(batch.clone(), choose);
    assert_eq!(end.cells(), one_by_one(batch.clone()).cells(), "R176");
    let tally = end.tally();
    let [started, kept, thrown_away] =
        [tally.started, tally.kept, tally.thrown_away].map(u64::from);
    Some(Came {
        started,
        kept,
        thrown_away,
        turns,
    })
}

/// The batch worked to its end by own runs in the order of the jobs.
fn one_by_one(mut batch: Batch) -> Batch {
    for job in 0..batch.job_count() {
        let handed = batch.start_own(job).unwrap();
        report(&mut batch, (REPORT_OWN, job, handed));
    }
    batch
}

/// The batch worked to its end: each worker that is free gets what the chooser names;
/// where there is none, or nothing is named, the run that is out longest is reported,
/// by one rule of what it was handed. Also the turn in which the last report came: a run
/// is reported one turn after its start, and nothing else takes time.
fn worked(mut batch: Batch, choose: Chooser) -> (Batch, u64) {
    let mut out = VecDeque::new();
    let mut turn = 0;
    while !batch.finished() {
        let free = out.len() < WORKERS;
        match choose(&batch) {
            Ok(named) if named.step == SETTLE => batch.settle(named.job).unwrap(),
            Ok(named) if free => {
                let (report, handed) = match named.step {
                    START_OWN => (REPORT_OWN, batch.start_own(named.job)),
                    START_GUESS => (REPORT_GUESS, batch.start_guess(named.job)),
                    other => unreachable!("the chooser names no step {other}"),
                };
                out.push_back((turn + 1, (report, named.job, handed.unwrap())));
            }
            _ => {
                // R172: something is due.
                let (due, run) = out.pop_front().unwrap();
                turn = due;
                report(&mut batch, run);
            }
        }
    }
    (batch, turn)
}

fn report(batch: &mut Batch, (number, job, handed): (u32, u32, [i32; 4])) {
    let report = reported(batch.job(job).unwrap(), handed);
    match number {
        REPORT_OWN => batch.report_own(job, report).unwrap(),
        // Thrown away meanwhile, it is refused (R113).
        _ => batch.report_guess(job, report).unwrap_or(()),
    }
}
