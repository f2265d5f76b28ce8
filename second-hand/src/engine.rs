//! The engine: cells, jobs, batch, steps 0 to 4, the chooser, asking and copying
//! out. R numbers are the rules of docs/RULES.md; refusal n is R(100 + n).
//!
//! R81, R100: a refused call changes nothing, and the lowest number that applies
//! is given. So the checks of an operation stand in the order of their numbers,
//! and all of them before the first change. Refusal 32 is about a batch record in
//! a caller's hands; here the fields are closed to callers, so no record is ever
//! out of form.

use std::cmp::Reverse;
use std::collections::BTreeSet;

use crate::former;
use crate::kinds;
use crate::sets::{GuessTold, Told};
use crate::tally::Tally;

/// R3: the modes of an access.
pub const READ: u32 = 0;
pub const WRITE: u32 = 1;
pub const MAYBE: u32 = 2;
pub const PREDICTED: u32 = 3;

/// R50: the five steps.
pub const START_OWN: u32 = 0;
pub const START_GUESS: u32 = 1;
pub const REPORT_OWN: u32 = 2;
pub const REPORT_GUESS: u32 = 3;
pub const SETTLE: u32 = 4;

/// R64: in the place of a report's number, that a turn has none.
pub const NO_REPORT: u32 = 255;

/// R64: so many steps a turn takes at most.
pub const MOST_TAKEN: usize = 16;

/// R1, R2: the limits.
pub const MOST_CELLS: usize = 64;
pub const MOST_JOBS: usize = 128;

#[derive(Clone, Copy, Debug, PartialEq, Eq)]
pub struct Access {
    pub cell: u32,
    pub mode: u32,
    /// R3: held as given with any mode, and looked at with mode 3 alone.
    pub predicted: i32,
}

impl Access {
    /// One with the prediction 0.
    pub fn to(cell: u32, mode: u32) -> Access {
        Access { cell, mode, predicted: 0 }
    }
}

#[derive(Clone, Debug, PartialEq, Eq)]
pub struct Job {
    pub kind: u32,
    pub p: i32,
    pub accesses: Vec<Access>,
}

/// R32: four values, and mark 1 if the maybe-write cells were written, else 0.
#[derive(Clone, Copy, Debug, PartialEq, Eq)]
pub struct Report {
    pub values: [i32; 4],
    pub mark: u32,
}

/// How far a job's own run has come.
#[derive(Clone, Copy, Debug, PartialEq, Eq)]
pub enum Own {
    NotStarted,
    /// The run is out; it was handed these values.
    Out([i32; 4]),
    Reported,
}

/// How far a job's guess has come (R40). R55: one by which its job is settled
/// stays stored; here it has a name of its own.
#[derive(Clone, Copy, Debug, PartialEq, Eq)]
pub enum GuessState {
    /// The run is out.
    Out,
    /// The report is in stored state.
    Stored(Report),
    ThrownAway,
    /// Step 4 settled the job by this guess.
    Kept,
}

#[derive(Clone, Debug, PartialEq, Eq)]
pub struct Guess {
    pub handed: [i32; 4],
    /// The maybe-writers this guess looked past (R41), fixed by R42.
    pub looked_past: BTreeSet<usize>,
    /// The writers from whose guesses this guess took a value.
    pub taken_from: BTreeSet<usize>,
    pub state: GuessState,
}

/// R72: how a job is settled, with its mark (R57).
#[derive(Clone, Copy, Debug, PartialEq, Eq)]
pub enum Settled {
    No,
    ByOwnRun { mark: u32 },
    ByGuess { mark: u32 },
}

impl Settled {
    /// R57: the mark of the counted report, 0 while there is none.
    pub fn mark(&self) -> u32 {
        match *self {
            Settled::No => 0,
            Settled::ByOwnRun { mark } | Settled::ByGuess { mark } => mark,
        }
    }
}

#[derive(Clone, Debug, PartialEq, Eq)]
struct Entry {
    job: Job,
    own: Own,
    /// None until a guess is started. R40: at most one, ever.
    guess: Option<Guess>,
    settled: Settled,
}

#[derive(Clone, Debug, PartialEq, Eq)]
pub struct Batch {
    cells: Vec<i32>,
    jobs: Vec<Entry>,
    /// None before sealing, then whether guessing is on.
    sealed: Option<bool>,
    /// Guesses fall by the former rule (`former`), not by R43 and R44. For figures only.
    pub(crate) by_former_rule: bool,
}

/// R62: what the chooser names.
#[derive(Clone, Copy, Debug, PartialEq, Eq)]
pub struct Choice {
    pub step: u32,
    pub job: u32,
    /// The length of the job's chain (R22).
    pub chain: u32,
}

/// R65: a step that a turn took, and the values that it handed out, zeros for a step 4.
#[derive(Clone, Copy, Debug, PartialEq, Eq)]
pub struct Taken {
    pub step: u32,
    pub job: u32,
    pub handed: [i32; 4],
}

impl Job {
    /// The place of this cell among the job's accesses, and its mode there.
    fn access_to(&self, cell: u32) -> Option<(usize, u32)> {
        for (place, access) in self.accesses.iter().enumerate() {
            if access.cell == cell {
                return Some((place, access.mode));
            }
        }
        None
    }

    pub(crate) fn has_maybe_write(&self) -> bool {
        self.accesses.iter().any(|access| access.mode == MAYBE)
    }

    /// Whether its guess is handed a prediction (R46).
    pub(crate) fn predicts(&self) -> bool {
        self.accesses.iter().any(|access| access.mode == PREDICTED)
    }

    /// R33: whether a report with this mark writes the cell of this access.
    fn writes(access: &Access, mark: u32) -> bool {
        is_write(access.mode) || (access.mode == MAYBE && mark == 1)
    }
}

/// R23: a predicted write is a write.
fn is_write(mode: u32) -> bool {
    mode == WRITE || mode == PREDICTED
}

/// R24: the sort of the conflict of an earlier and a later job, 0 where there is none
/// (R20). The later one's accesses are gone through: 1 at the first cell that the earlier
/// one may write; 2 is left where it only writes what the other reads.
pub fn conflict(earlier: &Job, later: &Job) -> u32 {
    let mut sort = 0;
    for access in &later.accesses {
        match earlier.access_to(access.cell) {
            Some((_, mode)) if mode != READ => return 1,
            Some(_) if access.mode != READ => sort = 2,
            _ => {}
        }
    }
    sort
}

// ---------------------------------------------------------------------------
// Opening, inserting, sealing

impl Batch {
    /// R5: the heights as given, not sealed, no jobs.
    pub fn open(heights: &[i32]) -> Result<Batch, u32> {
        // R101: not 1 to 64 heights.
        if heights.is_empty() || heights.len() > MOST_CELLS {
            return Err(1);
        }
        Ok(Batch {
            cells: heights.to_vec(),
            jobs: Vec::new(),
            sealed: None,
            by_former_rule: false,
        })
    }

    /// R6: adds the job as the last, before sealing or after it. It is later than
    /// all others, so no rule of theirs looks at it but that of chains (R22).
    pub fn insert(&mut self, kind: u32, p: i32, accesses: &[Access]) -> Result<(), u32> {
        // R103: 128 jobs are held.
        if self.jobs.len() >= MOST_JOBS {
            return Err(3);
        }
        // R104: not 1 to 4 accesses.
        if accesses.is_empty() || accesses.len() > 4 {
            return Err(4);
        }
        // R105: a cell that is not there.
        if accesses.iter().any(|access| access.cell as usize >= self.cells.len()) {
            return Err(5);
        }
        // R106: a mode above 3.
        if accesses.iter().any(|access| access.mode > PREDICTED) {
            return Err(6);
        }
        // R107: a cell twice.
        for (place, access) in accesses.iter().enumerate() {
            if accesses[..place].iter().any(|before| before.cell == access.cell) {
                return Err(7);
            }
        }
        // R108: no kind, or number and modes of the accesses are not the kind's.
        if kind > 6 {
            return Err(8);
        }
        if let Some(wanted) = kinds::modes(kind) {
            let given: Vec<u32> = accesses.iter().map(|access| access.mode).collect();
            if given != wanted {
                return Err(8);
            }
        }
        self.jobs.push(Entry {
            job: Job { kind, p, accesses: accesses.to_vec() },
            own: Own::NotStarted,
            guess: None,
            settled: Settled::No,
        });
        Ok(())
    }

    /// R25: the jobs one after the other, each as `insert` takes it. That is done on a
    /// copy: the first job that is refused ends it, and then nothing has changed. What is
    /// told is the number of its refusal and its place in the list, from 0.
    pub fn insert_list(&mut self, jobs: &[Job]) -> Result<(), (u32, usize)> {
        let mut copy = self.clone();
        for (place, job) in jobs.iter().enumerate() {
            let inserted = copy.insert(job.kind, job.p, &job.accesses);
            inserted.map_err(|refusal| (refusal, place))?;
        }
        *self = copy;
        Ok(())
    }

    /// R7: once for a batch, with guessing off (0) or on (1).
    pub fn seal(&mut self, guess: u32) -> Result<(), u32> {
        // R102: sealed already.
        if self.sealed.is_some() {
            return Err(2);
        }
        // R109: the switch is neither 0 nor 1.
        if guess > 1 {
            return Err(9);
        }
        self.sealed = Some(guess == 1);
        Ok(())
    }
}

// ---------------------------------------------------------------------------
// The rules between jobs

impl Batch {
    fn is_settled(&self, job: usize) -> bool {
        self.jobs[job].settled != Settled::No
    }

    /// R24, of two jobs by their numbers.
    fn sort(&self, earlier: usize, later: usize) -> u32 {
        conflict(&self.jobs[earlier].job, &self.jobs[later].job)
    }

    /// R21: every earlier job in conflict with it, of whatever sort, is settled.
    fn is_ready(&self, job: usize) -> bool {
        (0..job).all(|earlier| self.is_settled(earlier) || self.sort(earlier, job) == 0)
    }

    /// Whether the job has a guess to judge: out or stored, and the job is not settled
    /// (R45). One by which it is settled has a state of its own here.
    fn has_live_guess(&self, job: usize) -> bool {
        let state = self.guess_state(job);
        matches!(state, Some(GuessState::Out | GuessState::Stored(_)))
    }

    /// R43: each value that the job's guess was handed is the height that the cell
    /// holds now. Places not in use are 0 in both (R30).
    fn was_handed_present(&self, job: usize) -> bool {
        self.guess_handed(job as u32) == Some(self.present_values(job))
    }

    /// R43; or by the former rule, where the batch is worked by that. It knew no
    /// predictions (R185): a guess that was handed one goes by R43 all the same.
    fn guess_stands(&self, job: usize) -> bool {
        let sound = match self.by_former_rule && !self.jobs[job].job.predicts() {
            false => self.was_handed_present(job),
            true => !former::has_fallen(self, job),
        };
        self.has_live_guess(job) && self.is_ready(job) && sound
    }

    /// R45: 0 there is no guess to judge, 1 it is not yet to be judged, 2 it stands
    /// (R43), 3 it has fallen (R44).
    fn judged(&self, job: usize) -> u32 {
        if !self.has_live_guess(job) {
            0
        } else if !self.is_ready(job) {
            1
        } else if self.guess_stands(job) {
            2
        } else {
            3
        }
    }

    fn guess_state(&self, job: usize) -> Option<GuessState> {
        self.jobs[job].guess.as_ref().map(|guess| guess.state)
    }

    fn stored_report(&self, job: usize) -> Option<Report> {
        match self.guess_state(job) {
            Some(GuessState::Stored(report)) => Some(report),
            _ => None,
        }
    }

    fn own_is_out(&self, job: usize) -> bool {
        matches!(self.jobs[job].own, Own::Out(_))
    }

    /// R31: the heights of the job's cells in the order of its accesses, and by
    /// R30 0 in places not in use.
    fn present_values(&self, job: usize) -> [i32; 4] {
        let mut values = [0; 4];
        for (place, access) in self.jobs[job].job.accesses.iter().enumerate() {
            values[place] = self.cells[access.cell as usize];
        }
        values
    }

    /// The guess that would start for this job now, or none where a job that it
    /// would take from has no stored guess (R115).
    ///
    /// R41: for each access, back through the unsettled jobs. Maybe-writers of
    /// the cell are looked past; the first writer ends it, and what its guess has
    /// stored is taken. Without a writer the present value stays. R46: for a
    /// predicted write there is no going back.
    fn new_guess(&self, job: usize) -> Option<Guess> {
        let mut handed = self.present_values(job);
        let mut looked_past = BTreeSet::new();
        let mut taken_from = BTreeSet::new();
        for (place, access) in self.jobs[job].job.accesses.iter().enumerate() {
            if access.mode == PREDICTED {
                handed[place] = access.predicted;
                continue;
            }
            for earlier in (0..job).rev() {
                if self.is_settled(earlier) {
                    continue;
                }
                match self.jobs[earlier].job.access_to(access.cell) {
                    Some((_, MAYBE)) => {
                        looked_past.insert(earlier);
                    }
                    Some((there, mode)) if is_write(mode) => {
                        // Also of a fallen guess, but not by the former rule.
                        let report = self.stored_report(earlier)?;
                        if self.by_former_rule && former::has_fallen(self, earlier) {
                            return None;
                        }
                        handed[place] = report.values[there];
                        taken_from.insert(earlier);
                        break;
                    }
                    // R41: a reader of the cell, or a job without it, leaves no trace.
                    _ => {}
                }
            }
        }
        Some(Guess { handed, looked_past, taken_from, state: GuessState::Out })
    }

    /// R34: the reported value where the cell is written, else the handed one;
    /// R30: 0 in places not in use.
    fn stored_form(&self, job: usize, handed: [i32; 4], report: Report) -> Report {
        let mut values = [0; 4];
        for (place, access) in self.jobs[job].job.accesses.iter().enumerate() {
            values[place] = if Job::writes(access, report.mark) {
                report.values[place]
            } else {
                handed[place]
            };
        }
        Report { values, mark: report.mark }
    }

    /// R35: the cells that the report writes get its values; the others stay.
    fn write_cells(&mut self, job: usize, report: Report) {
        for (place, access) in self.jobs[job].job.accesses.iter().enumerate() {
            if Job::writes(access, report.mark) {
                self.cells[access.cell as usize] = report.values[place];
            }
        }
    }
}

// ---------------------------------------------------------------------------
// What refuses a step

impl Batch {
    /// R110: not sealed. R111: no such job.
    fn check_any_step(&self, job: u32) -> Result<(), u32> {
        if self.sealed.is_none() {
            return Err(10);
        }
        if job as usize >= self.jobs.len() {
            return Err(11);
        }
        Ok(())
    }

    /// R116: neither 0 nor 1, or 1 of a job that maybe-writes nothing.
    fn check_mark(&self, job: usize, mark: u32) -> Result<(), u32> {
        if mark > 1 || (mark == 1 && !self.jobs[job].job.has_maybe_write()) {
            return Err(16);
        }
        Ok(())
    }

    fn check_start_own(&self, number: u32) -> Result<(), u32> {
        self.check_any_step(number)?;
        let job = number as usize;
        // R113: settled, or its own run is out.
        if self.is_settled(job) || self.own_is_out(job) {
            return Err(13);
        }
        // R115: not ready.
        if !self.is_ready(job) {
            return Err(15);
        }
        // R117: its guess stands.
        if self.guess_stands(job) {
            return Err(17);
        }
        Ok(())
    }

    fn check_start_guess(&self, number: u32) -> Result<Guess, u32> {
        self.check_any_step(number)?;
        let job = number as usize;
        // R112: guessing is off.
        if self.sealed == Some(false) {
            return Err(12);
        }
        // R113: settled, its own run is out, or a guess was ever started.
        if self.is_settled(job) || self.own_is_out(job) || self.jobs[job].guess.is_some() {
            return Err(13);
        }
        // R114: ready.
        if self.is_ready(job) {
            return Err(14);
        }
        // R115: a job to take from has no stored guess.
        self.new_guess(job).ok_or(15)
    }

    fn check_report_own(&self, number: u32, mark: u32) -> Result<(), u32> {
        self.check_any_step(number)?;
        let job = number as usize;
        // R113: the own run is not out.
        if !self.own_is_out(job) {
            return Err(13);
        }
        self.check_mark(job, mark)
    }

    fn check_report_guess(&self, number: u32, mark: u32) -> Result<(), u32> {
        self.check_any_step(number)?;
        let job = number as usize;
        // R113: the guess is not out; one thrown away is not.
        if self.guess_state(job) != Some(GuessState::Out) {
            return Err(13);
        }
        self.check_mark(job, mark)
    }

    fn check_settle(&self, number: u32) -> Result<Report, u32> {
        self.check_any_step(number)?;
        let job = number as usize;
        // R113: settled, or no guess is stored.
        if self.is_settled(job) {
            return Err(13);
        }
        let report = self.stored_report(job).ok_or(13u32)?;
        // R115: not ready.
        if !self.is_ready(job) {
            return Err(15);
        }
        // R118: the guess has fallen, as it does not stand (R44).
        if !self.guess_stands(job) {
            return Err(18);
        }
        Ok(report)
    }

    /// What this step would be answered now, with a well-formed report where one
    /// is due: 0 or a refusal. Used by the chooser and by the generator of plans.
    /// A number above 4 is no step, and only then is there no answer.
    pub fn would_answer(&self, step: u32, job: u32) -> Option<u32> {
        let check = match step {
            START_OWN => self.check_start_own(job),
            START_GUESS => self.check_start_guess(job).map(|_guess| ()),
            REPORT_OWN => self.check_report_own(job, 0),
            REPORT_GUESS => self.check_report_guess(job, 0),
            SETTLE => self.check_settle(job).map(|_report| ()),
            _ => return None,
        };
        Some(check.err().unwrap_or(0))
    }
}

// ---------------------------------------------------------------------------
// The steps

impl Batch {
    /// R51: hands out the present values.
    pub fn start_own(&mut self, number: u32) -> Result<[i32; 4], u32> {
        self.check_start_own(number)?;
        let job = number as usize;
        let handed = self.present_values(job);
        // R51: its guess is thrown away. It has fallen, as it does not stand.
        if let Some(guess) = &mut self.jobs[job].guess {
            guess.state = GuessState::ThrownAway;
        }
        self.jobs[job].own = Own::Out(handed);
        Ok(handed)
    }

    /// R52: hands out what R41 and R46 find.
    pub fn start_guess(&mut self, number: u32) -> Result<[i32; 4], u32> {
        let guess = self.check_start_guess(number)?;
        let handed = guess.handed;
        self.jobs[number as usize].guess = Some(guess);
        Ok(handed)
    }

    /// R53: writes the report into the cells, and the job is settled. R19: any
    /// well-formed report, whatever the kind.
    pub fn report_own(&mut self, number: u32, report: Report) -> Result<(), u32> {
        self.check_report_own(number, report.mark)?;
        let job = number as usize;
        self.write_cells(job, report);
        self.jobs[job].own = Own::Reported;
        self.jobs[job].settled = Settled::ByOwnRun { mark: report.mark };
        Ok(())
    }

    /// R54: stores the report, of a fallen guess too; no cell changes.
    pub fn report_guess(&mut self, number: u32, report: Report) -> Result<(), u32> {
        self.check_report_guess(number, report.mark)?;
        let job = number as usize;
        let handed = self.guess_handed(number).unwrap_or([0; 4]);
        let stored = self.stored_form(job, handed, report);
        if let Some(guess) = &mut self.jobs[job].guess {
            guess.state = GuessState::Stored(stored);
        }
        Ok(())
    }

    /// R55: writes the stored report into the cells; the job is settled by its
    /// guess.
    pub fn settle(&mut self, number: u32) -> Result<(), u32> {
        let report = self.check_settle(number)?;
        let job = number as usize;
        self.write_cells(job, report);
        if let Some(guess) = &mut self.jobs[job].guess {
            guess.state = GuessState::Kept;
        }
        self.jobs[job].settled = Settled::ByGuess { mark: report.mark };
        Ok(())
    }
}

// ---------------------------------------------------------------------------
// The chooser

impl Batch {
    /// R22: for every job the length of the longest chain from it on, by links of sort 1.
    fn chains(&self) -> Vec<u32> {
        let count = self.jobs.len();
        let mut chains = vec![1; count];
        for job in (0..count).rev() {
            for later in job + 1..count {
                if self.sort(job, later) == 1 {
                    chains[job] = chains[job].max(1 + chains[later]);
                }
            }
        }
        chains
    }

    /// R60: a step 4 if one is allowed, else a 0, else a 1. R61: of the job with the
    /// longest chain, then the fewest accesses, then the lowest number.
    pub fn choose(&self) -> Result<Choice, u32> {
        // R110: not sealed.
        if self.sealed.is_none() {
            return Err(10);
        }
        let chains = self.chains();
        let rank = |&job: &usize| (Reverse(chains[job]), self.jobs[job].job.accesses.len(), job);
        for step in [SETTLE, START_OWN, START_GUESS] {
            let allowed = |job: &usize| self.would_answer(step, *job as u32) == Some(0);
            if let Some(job) = (0..self.jobs.len()).filter(allowed).min_by_key(rank) {
                return Ok(Choice { step, job: job as u32, chain: chains[job] });
            }
        }
        // R119: none is allowed.
        Err(19)
    }
}

// ---------------------------------------------------------------------------
// The turn

impl Batch {
    /// R64: the report, and then what the chooser names, again and again. R65: the steps
    /// taken, in their order. R66: or the number of a refusal, and nothing has changed.
    pub fn turn(&mut self, number: u32, job: u32, report: Report, limit: usize) -> Result<Vec<Taken>, u32> {
        match number {
            REPORT_OWN => self.report_own(job, report)?,
            REPORT_GUESS => self.report_guess(job, report)?,
            NO_REPORT if self.sealed.is_some() => {}
            NO_REPORT => return Err(10),
            _ => return Err(21),
        }
        let mut taken = Vec::new();
        while taken.len() < limit.min(MOST_TAKEN) {
            match self.choose() {
                Ok(named) => taken.push(self.take(named)),
                Err(19) => break,
                Err(other) => unreachable!("{other} of a sealed batch"),
            }
        }
        Ok(taken)
    }

    /// Takes the step that the chooser named. R63: it is accepted.
    fn take(&mut self, Choice { step, job, .. }: Choice) -> Taken {
        let handed = match step {
            SETTLE => self.settle(job).map(|()| [0; 4]),
            START_OWN => self.start_own(job),
            _ => self.start_guess(job),
        };
        Taken { step, job, handed: handed.expect("R63") }
    }
}

// ---------------------------------------------------------------------------
// The reader of results. R70: before sealing too.

impl Batch {
    pub fn job_count(&self) -> u32 {
        self.jobs.len() as u32
    }

    pub fn cell_count(&self) -> u32 {
        self.cells.len() as u32
    }

    /// R8: sealed, and every job settled; also with no jobs at all. An insert ends it.
    pub fn finished(&self) -> bool {
        self.sealed.is_some() && (0..self.jobs.len()).all(|job| self.is_settled(job))
    }

    /// The heights of all cells.
    pub fn cells(&self) -> Vec<i32> {
        self.cells.clone()
    }

    /// R71; R105 where there is no such cell.
    pub fn ask_cell(&self, cell: u32) -> Result<i32, u32> {
        self.cells.get(cell as usize).copied().ok_or(5)
    }

    /// R72, as far as plans need it; R111 where there is no such job.
    pub fn ask_job(&self, job: u32) -> Result<Settled, u32> {
        self.jobs.get(job as usize).map(|entry| entry.settled).ok_or(11)
    }

    /// R72: how the job's guess is judged (R45); R111 where there is no such job.
    pub fn ask_guess(&self, job: u32) -> Result<u32, u32> {
        if job as usize >= self.jobs.len() {
            return Err(11);
        }
        Ok(self.judged(job as usize))
    }

    /// R79: what the job's guess looked past, and what of that is not settled; R111
    /// where there is no such job.
    pub fn ask_looked_past(&self, job: u32) -> Result<GuessTold, u32> {
        let entry = self.jobs.get(job as usize).ok_or(11u32)?;
        let looked_past: Vec<usize> = match &entry.guess {
            None => Vec::new(),
            Some(guess) if guess.state == GuessState::ThrownAway => Vec::new(),
            // Out or stored; R55: the latter also where its job is settled by it.
            Some(guess) => guess.looked_past.iter().copied().collect(),
        };
        let mut open = looked_past.clone();
        open.retain(|&past| !self.is_settled(past));
        Ok(GuessTold { looked_past: Told::of(&looked_past), open: Told::of(&open) })
    }

    /// R75: each number counted over the jobs by itself.
    pub fn tally(&self) -> Tally {
        let mut tally = Tally::default();
        for (job, entry) in self.jobs.iter().enumerate() {
            let state = self.guess_state(job);
            let kept = matches!(entry.settled, Settled::ByGuess { .. });
            tally.jobs += 1;
            tally.started += u32::from(state.is_some());
            tally.kept += u32::from(kept);
            tally.thrown_away += u32::from(state == Some(GuessState::ThrownAway));
            tally.rest += u32::from(self.has_live_guess(job) && entry.settled == Settled::No);
        }
        tally
    }

    /// R74: the cells from that place of the buffer on; all other places keep what
    /// they hold. R120: too few places are left.
    pub fn copy_cells(&self, buffer: &mut [i32], place: usize) -> Result<(), u32> {
        let remain = buffer.len().saturating_sub(place);
        if remain < self.cells.len() {
            return Err(20);
        }
        buffer[place..place + self.cells.len()].copy_from_slice(&self.cells);
        Ok(())
    }

    /// A job as it was inserted.
    pub fn job(&self, job: u32) -> Option<&Job> {
        self.jobs.get(job as usize).map(|entry| &entry.job)
    }

    /// A job's guess, if one was ever started.
    pub fn guess(&self, job: u32) -> Option<&Guess> {
        self.jobs.get(job as usize)?.guess.as_ref()
    }

    /// The values handed to a job's own run while that run is out.
    pub fn own_handed(&self, job: u32) -> Option<[i32; 4]> {
        match self.jobs.get(job as usize)?.own {
            Own::Out(handed) => Some(handed),
            _ => None,
        }
    }

    /// The values handed to a job's guess, if one was ever started.
    pub fn guess_handed(&self, job: u32) -> Option<[i32; 4]> {
        self.guess(job).map(|guess| guess.handed)
    }
}
