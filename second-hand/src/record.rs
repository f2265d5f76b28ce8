//! The engine on a batch record as it stands in memory (R90 to R95). R numbers are
//! the rules of docs/RULES.md; refusal n is R(100 + n).
//!
//! `engine` keeps its batch closed, so there a state that no list of calls leads
//! to cannot come up. Here it can: the record lies with the host, field by field
//! as the C header `sorghemi.h` has it, and anybody may have written into it. So
//! nothing is taken for granted but what the fields say. A record out of form is
//! refused with 32; on any other the rules are applied to the fields one by one,
//! whether or not some list of calls leads there (R93).
//!
//! R81, R100: a refused call changes nothing, and the lowest number that applies
//! is given, but 32 before all. So in each operation the checks stand in that
//! order, and all of them before the first change.

use std::ops::Range;

use crate::kinds;
use crate::sets::{GuessTold, Told};
use crate::tally::Tally;

const READ: u8 = 0;
const WRITE: u8 = 1;
const MAYBE: u8 = 2;
const PREDICTED: u8 = 3;

const START_OWN: u8 = 0;
const START_GUESS: u8 = 1;
const REPORT_OWN: u8 = 2;
const REPORT_GUESS: u8 = 3;
const SETTLE: u8 = 4;

/// R64: the number of a turn without a report.
const NO_REPORT: u8 = 255;

const MOST_CELLS: u8 = 64;
const MOST_JOBS: u8 = 128;

/// R72: how a job is settled.
const NOT_SETTLED: u8 = 0;
const BY_OWN_RUN: u8 = 1;
const BY_GUESS: u8 = 2;

/// R72: the states of a guess.
const NEVER_STARTED: u8 = 0;
const OUT: u8 = 1;
const STORED: u8 = 2;
const THROWN_AWAY: u8 = 3;

/// R45: how a guess is judged.
const NONE_TO_JUDGE: u8 = 0;
const NOT_YET: u8 = 1;
const STANDS: u8 = 2;
const FALLEN: u8 = 3;

/// What places not in use hold (R30), and what a refused call hands out (R81).
const ZEROS: [i32; 4] = [0; 4];

/// R90: a batch. R92: only the first `cell_count` cells and the first `job_count`
/// places of each column are looked at, and the bytes between the fields, which
/// mean nothing, are not held at all.
#[derive(Clone, PartialEq, Eq, Debug)]
pub struct Record {
    pub cell_count: u8,
    pub job_count: u8,
    /// 1 once the batch is sealed, else 0.
    pub sealed: u8,
    /// 1 if guessing is on, else 0.
    pub speculating: u8,
    pub cells: [i32; 64],
    /// Always 128.
    pub jobs: Vec<Job>,
    /// Always 128.
    pub runs: Vec<Run>,
    /// How the job is settled.
    pub committed: [u8; 128],
    /// 1 while the job's own run is out, else 0.
    pub running: [u8; 128],
    /// The state of the job's guess.
    pub phase: [u8; 128],
}

/// R3: a job as inserted. The first `arity` accesses are in use; each is a cell
/// and a mode. The predictions are those of the accesses in their order, and are held
/// as given with any mode, in places not in use too.
#[derive(Clone, Copy, PartialEq, Eq, Debug, Default)]
pub struct Job {
    pub kind: u8,
    pub arity: u8,
    pub accesses: [(u8, u8); 4],
    pub parameter: i32,
    pub predicted: [i32; 4],
}

/// R25: a list of jobs as it is lent: the first `count` of these, in their order. What
/// stands in the other places is not looked at. A count may say more than there are
/// places: so many jobs find no room in any batch (R2), so 3 is answered at place 128 at
/// the latest, and what would stand there does not matter.
#[derive(Clone, PartialEq, Eq, Debug)]
pub struct JobList {
    pub count: usize,
    /// Always 128.
    pub jobs: Vec<Job>,
}

/// R25: what inserting a list answers: 0 or the refusal, and the place in the list of the
/// job that is refused, 0 where none is.
#[derive(Clone, Copy, PartialEq, Eq, Debug, Default)]
pub struct Inserted {
    pub refusal: u8,
    pub at: u8,
}

/// R64: as many places the lent list of a turn has.
pub const PLACES: usize = 16;

/// R65: a step that a turn took, with its number (4, 0 or 1), its job and the values that
/// it handed out. Zeros stand in the places after the last.
#[derive(Clone, Copy, PartialEq, Eq, Debug, Default)]
pub struct Taken {
    pub step: u8,
    pub job: u8,
    pub handed: [i32; 4],
}

/// R65, R66: what a turn answers: 0 or the refusal, and how many steps were taken.
#[derive(Clone, Copy, PartialEq, Eq, Debug, Default)]
pub struct Turned {
    pub refusal: u8,
    pub count: u8,
}

/// R90: the one run that a job holds, its own or its guess.
#[derive(Clone, Copy, PartialEq, Eq, Debug, Default)]
pub struct Run {
    pub handed: [i32; 4],
    pub reported: [i32; 4],
    /// The stored mark.
    pub wrote: u8,
    /// For each place one more than the number of the job taken from, 0 for none.
    pub sources: [u8; 4],
    /// The jobs looked past; bit j is job j.
    pub bypassed: u128,
}

/// R72: how a job stands. All as the record has it, places not in use too; but
/// `wrote` is 0 while the job is not settled, and `validity` is how its guess is
/// judged (R45). Zeros where it is refused (R81).
#[derive(Clone, Copy, PartialEq, Eq, Debug, Default)]
pub struct JobAnswer {
    pub refusal: u8,
    pub committed: u8,
    pub wrote: u8,
    pub running: u8,
    pub phase: u8,
    pub validity: u8,
    pub handed: [i32; 4],
    pub reported: [i32; 4],
    pub job: Job,
}

/// R73: how the batch stands. Zeros where it is refused (R81).
#[derive(Clone, Copy, PartialEq, Eq, Debug, Default)]
pub struct BatchAnswer {
    pub refusal: u8,
    pub cell_count: u8,
    pub job_count: u8,
    pub sealed: u8,
    pub speculating: u8,
    pub finished: bool,
}

// ---------------------------------------------------------------------------
// The record in memory (R95): the header's structs on x86-64

const CELLS_AT: usize = 4;
const JOBS_AT: usize = 260;
const JOB_SIZE: usize = 32;
const RUNS_AT: usize = 4360;
const RUN_SIZE: usize = 56;
const COMMITTED_AT: usize = 11528;
const RUNNING_AT: usize = 11656;
const PHASE_AT: usize = 11784;

fn height_at(bytes: &[u8], at: usize) -> i32 {
    i32::from_le_bytes([bytes[at], bytes[at + 1], bytes[at + 2], bytes[at + 3]])
}

fn four_heights_at(bytes: &[u8], at: usize) -> [i32; 4] {
    [0, 4, 8, 12].map(|further| height_at(bytes, at + further))
}

fn column_at(bytes: &[u8], at: usize) -> [u8; 128] {
    let mut column = [0; 128];
    column.copy_from_slice(&bytes[at..at + 128]);
    column
}

impl Job {
    /// Kind at 0, arity at 1, accesses of two bytes each at 2, parameter at 12,
    /// predictions at 16.
    fn from_bytes(bytes: &[u8]) -> Job {
        Job {
            kind: bytes[0],
            arity: bytes[1],
            accesses: [2, 4, 6, 8].map(|at| (bytes[at], bytes[at + 1])),
            parameter: height_at(bytes, 12),
            predicted: four_heights_at(bytes, 16),
        }
    }
}

impl Run {
    /// Handed at 0, reported at 16, wrote at 32, sources at 33, bypassed at 40: two
    /// words, bit j of the first for job j, of the second for job 64 + j.
    fn from_bytes(bytes: &[u8]) -> Run {
        let mut bypassed = 0;
        for (place, byte) in bytes[40..56].iter().enumerate() {
            bypassed |= u128::from(*byte) << (8 * place);
        }
        Run {
            handed: four_heights_at(bytes, 0),
            reported: four_heights_at(bytes, 16),
            wrote: bytes[32],
            sources: [bytes[33], bytes[34], bytes[35], bytes[36]],
            bypassed,
        }
    }
}

impl Record {
    /// The bytes of one record.
    pub const SIZE: usize = 11912;

    /// The record that lies in these bytes. Panics if they are not `SIZE`.
    pub fn from_bytes(bytes: &[u8]) -> Record {
        assert_eq!(bytes.len(), Record::SIZE, "the bytes of one record");
        let mut cells = [0; 64];
        for (cell, height) in cells.iter_mut().enumerate() {
            *height = height_at(bytes, CELLS_AT + 4 * cell);
        }
        let jobs = bytes[JOBS_AT..].chunks(JOB_SIZE).take(128);
        let runs = bytes[RUNS_AT..].chunks(RUN_SIZE).take(128);
        Record {
            cell_count: bytes[0],
            job_count: bytes[1],
            sealed: bytes[2],
            speculating: bytes[3],
            cells,
            jobs: jobs.map(Job::from_bytes).collect(),
            runs: runs.map(Run::from_bytes).collect(),
            committed: column_at(bytes, COMMITTED_AT),
            running: column_at(bytes, RUNNING_AT),
            phase: column_at(bytes, PHASE_AT),
        }
    }

    /// R5: the record that an accepted opening hands back, not sealed and without
    /// jobs. None stands for R101, not 1 to 64 heights.
    pub fn open(heights: &[i32]) -> Option<Record> {
        if heights.is_empty() || heights.len() > usize::from(MOST_CELLS) {
            return None;
        }
        let mut cells = [0; 64];
        cells[..heights.len()].copy_from_slice(heights);
        Some(Record {
            cell_count: heights.len() as u8,
            job_count: 0,
            sealed: 0,
            speculating: 0,
            cells,
            jobs: vec![Job::default(); 128],
            runs: vec![Run::default(); 128],
            committed: [0; 128],
            running: [0; 128],
            phase: [0; 128],
        })
    }
}

// ---------------------------------------------------------------------------
// Jobs and runs by themselves

impl Job {
    /// The accesses in use. Only for a job that is not refused with 4.
    pub(crate) fn used(&self) -> &[(u8, u8)] {
        &self.accesses[..usize::from(self.arity)]
    }

    /// The place of this cell among the accesses in use, and its mode there.
    pub(crate) fn access_to(&self, cell: u8) -> Option<(usize, u8)> {
        let place = self.used().iter().position(|access| access.0 == cell)?;
        Some((place, self.accesses[place].1))
    }

    /// The cells of the accesses in use: bit c is cell c.
    fn cells(&self) -> u64 {
        self.used()
            .iter()
            .fold(0, |set, &(cell, _)| set | 1 << cell)
    }

    /// The cells of those accesses in use that are not a read: those it may write.
    fn cells_not_read(&self) -> u64 {
        let not_read = self.used().iter().filter(|access| access.1 != READ);
        not_read.fold(0, |set, &(cell, _)| set | 1 << cell)
    }

    pub(crate) fn has_maybe_write(&self) -> bool {
        self.used().iter().any(|access| access.1 == MAYBE)
    }

    /// Whether its guess is handed a prediction (R46).
    pub fn predicts(&self) -> bool {
        self.used().iter().any(|access| access.1 == PREDICTED)
    }

    /// With which of 4 to 8 inserting refuses this job; 0 with none of them.
    pub(crate) fn refusal(&self, cell_count: u8) -> u8 {
        // R104: not 1 to 4 accesses.
        if self.arity < 1 || self.arity > 4 {
            return 4;
        }
        let used = self.used();
        // R105: a cell that is not there.
        if used.iter().any(|&(cell, _)| cell >= cell_count) {
            return 5;
        }
        // R106: a mode above 3.
        if used.iter().any(|&(_, mode)| mode > PREDICTED) {
            return 6;
        }
        // R107: a cell twice.
        for (place, access) in used.iter().enumerate() {
            if used[..place].iter().any(|before| before.0 == access.0) {
                return 7;
            }
        }
        // R108: no kind, or number and modes of the accesses are not the kind's.
        // Kind 0 may have any.
        if self.kind > 6 {
            return 8;
        }
        if let Some(modes) = kinds::modes(u32::from(self.kind)) {
            if !used
                .iter()
                .map(|access| u32::from(access.1))
                .eq(modes.iter().copied())
            {
                return 8;
            }
        }
        0
    }
}

impl Run {
    /// The jobs whose guesses this run took from. R91: in all four places, in use or
    /// not.
    fn took_from(&self) -> impl Iterator<Item = usize> + '_ {
        let named = self.sources.iter().filter(|&&source| source != 0);
        named.map(|&source| usize::from(source) - 1)
    }

    fn looked_past(&self, job: usize) -> bool {
        self.bypassed >> job & 1 == 1
    }
}

/// R23: a predicted write is a write.
fn is_write(mode: u8) -> bool {
    mode == WRITE || mode == PREDICTED
}

/// R33: whether a report with this mark writes the cell of an access of this mode.
fn is_written(mode: u8, mark: u8) -> bool {
    is_write(mode) || (mode == MAYBE && mark == 1)
}

// ---------------------------------------------------------------------------
// R132: the record is out of form

impl Record {
    /// R91: whether 32 does not apply. Looked at are the counts, the two states of
    /// the batch, and the held jobs, each with its run and its columns.
    pub fn in_form(&self) -> bool {
        // R1, R2. The numbers of accesses come under 4 of each held job.
        let cells = 1 <= self.cell_count && self.cell_count <= MOST_CELLS;
        let jobs = self.job_count <= MOST_JOBS;
        // Each by itself: not sealed and yet guessing on is in form.
        let states = self.sealed <= 1 && self.speculating <= 1;
        cells && jobs && states && self.held().all(|job| self.held_job_in_form(job))
    }

    fn held_job_in_form(&self, job: usize) -> bool {
        // Inserting would not refuse it with 4 to 8.
        let sound = self.jobs[job].refusal(self.cell_count) == 0;
        // Each by itself, in whatever combination.
        let states = self.committed[job] <= BY_GUESS
            && self.running[job] <= 1
            && self.phase[job] <= THROWN_AWAY;
        // 0 or 1, whatever the job's modes.
        let run = &self.runs[job];
        let mark = run.wrote <= 1;
        // Jobs looked past and taken from are before it, whether or not a guess
        // was ever started.
        let past = run.bypassed >> job == 0; // no bit from the job's own on
        let taken = run.took_from().all(|other| other < job);
        sound && states && mark && past && taken
    }

    fn held(&self) -> Range<usize> {
        0..usize::from(self.job_count)
    }
}

// ---------------------------------------------------------------------------
// Inserting and sealing

impl Record {
    /// R6: adds the job as the last. Whether the batch is sealed, or how its other
    /// jobs stand, is not asked.
    pub fn insert(&mut self, job: Job) -> u8 {
        if !self.in_form() {
            return 32;
        }
        // R103: 128 jobs are held.
        if self.job_count == MOST_JOBS {
            return 3;
        }
        let refusal = job.refusal(self.cell_count);
        if refusal != 0 {
            return refusal;
        }
        self.take(job);
        0
    }

    /// A job that is not refused comes into the next place. R92, R94: all of it is
    /// overwritten, with zeros but for the job. R6, R3: the job is held as given, places
    /// not in use and predictions too.
    fn take(&mut self, job: Job) {
        let place = usize::from(self.job_count);
        self.jobs[place] = job;
        self.runs[place] = Run::default();
        self.committed[place] = NOT_SETTLED;
        self.running[place] = 0;
        self.phase[place] = NEVER_STARTED;
        self.job_count += 1;
    }

    /// R25: the jobs of the list one after the other. All are looked at before the first
    /// is taken; what refuses one of 4 to 8 does not depend on the jobs before it, and 3
    /// does so by their number alone.
    pub fn insert_list(&mut self, list: &JobList) -> Inserted {
        if !self.in_form() {
            // R81: no job of the list is refused, so 0 stands in the place's place.
            return Inserted { refusal: 32, at: 0 };
        }
        let room = usize::from(MOST_JOBS - self.job_count);
        for place in 0..list.count {
            let refusal = match place == room {
                // R103: with the jobs before it 128 are held.
                true => 3,
                false => list.jobs[place].refusal(self.cell_count),
            };
            if refusal != 0 {
                return Inserted {
                    refusal,
                    at: place as u8,
                };
            }
        }
        for &job in &list.jobs[..list.count] {
            self.take(job);
        }
        Inserted::default()
    }

    /// R7, R94: sealed, once for a batch, with guessing off (0) or on (1).
    pub fn seal(&mut self, guessing: u8) -> u8 {
        if !self.in_form() {
            return 32;
        }
        // R102: sealed already.
        if self.sealed == 1 {
            return 2;
        }
        // R109: the switch is neither 0 nor 1.
        if guessing > 1 {
            return 9;
        }
        self.sealed = 1;
        self.speculating = guessing;
        0
    }
}

// ---------------------------------------------------------------------------
// The rules between jobs

/// The rules on one record in form. What they ask again and again is worked out
/// once: of every held job its cells, and those it does not only read.
struct Rules<'a> {
    record: &'a Record,
    cells: Vec<u64>,
    cells_not_read: Vec<u64>,
}

impl<'a> Rules<'a> {
    fn of(record: &'a Record) -> Rules<'a> {
        let jobs = &record.jobs[record.held()];
        Rules {
            record,
            cells: jobs.iter().map(Job::cells).collect(),
            cells_not_read: jobs.iter().map(Job::cells_not_read).collect(),
        }
    }

    /// R24: the sort of the conflict of an earlier and a later job; 0 without one (R20).
    fn sort(&self, earlier: usize, later: usize) -> u8 {
        let passing = self.cells_not_read[earlier] & self.cells[later];
        let overtaking = self.cells[earlier] & self.cells_not_read[later];
        match (passing, overtaking) {
            (0, 0) => 0,
            (0, _) => 2,
            _ => 1,
        }
    }

    /// R93: where the number that says how is 1 or 2.
    fn is_settled(&self, job: usize) -> bool {
        self.record.committed[job] != NOT_SETTLED
    }

    /// R21: every earlier job in conflict with it, of whatever sort, is settled.
    fn is_ready(&self, job: usize) -> bool {
        (0..job).all(|earlier| self.is_settled(earlier) || self.sort(earlier, job) == 0)
    }

    fn own_is_out(&self, job: usize) -> bool {
        self.record.running[job] == 1
    }

    /// Whether the job has a guess that is out or stored. R44: no other stands or has
    /// fallen.
    fn has_live_guess(&self, job: usize) -> bool {
        let phase = self.record.phase[job];
        phase == OUT || phase == STORED
    }

    /// Whether at each place in use the run was handed what the cell holds now. R93:
    /// handed is what stands so in the run.
    fn was_handed_present(&self, job: usize) -> bool {
        let handed = self.record.runs[job].handed;
        let mut places = self.record.jobs[job].used().iter().zip(handed);
        places.all(|(&(cell, _), value)| self.record.cells[usize::from(cell)] == value)
    }

    /// R43: out or stored, of a ready job, and handed what is there.
    fn guess_stands(&self, job: usize) -> bool {
        self.has_live_guess(job) && self.is_ready(job) && self.was_handed_present(job)
    }

    /// R44: out or stored, of a ready job, and handed anything else.
    fn guess_has_fallen(&self, job: usize) -> bool {
        self.has_live_guess(job) && self.is_ready(job) && !self.was_handed_present(job)
    }

    /// R45. Whether the job's own run is out is not asked.
    fn judged(&self, job: usize) -> u8 {
        if self.is_settled(job) || !self.has_live_guess(job) {
            NONE_TO_JUDGE
        } else if self.guess_stands(job) {
            STANDS
        } else if self.guess_has_fallen(job) {
            FALLEN
        } else {
            NOT_YET
        }
    }

    /// The run that a guess of this job started now would be, or none where a job
    /// that it would take from has no stored guess (R115).
    ///
    /// R41: for each access, back through the unsettled jobs. Maybe-writers of
    /// the cell are looked past; the first writer ends it, and what its guess has
    /// stored is taken. Without a writer the present value stays. R46: for a
    /// predicted write there is no going back.
    fn new_guess(&self, job: usize) -> Option<Run> {
        let record = self.record;
        let mut run = Run {
            handed: record.present_values(job),
            ..Run::default()
        };
        for (place, &(cell, mode)) in record.jobs[job].used().iter().enumerate() {
            if mode == PREDICTED {
                run.handed[place] = record.jobs[job].predicted[place];
                continue;
            }
            for earlier in (0..job).rev() {
                if self.is_settled(earlier) || self.cells[earlier] >> cell & 1 == 0 {
                    continue;
                }
                match record.jobs[earlier].access_to(cell) {
                    Some((_, MAYBE)) => run.bypassed |= 1 << earlier,
                    Some((there, mode)) if is_write(mode) => {
                        // Fallen or not.
                        if record.phase[earlier] != STORED {
                            return None;
                        }
                        run.handed[place] = record.runs[earlier].reported[there];
                        run.sources[place] = earlier as u8 + 1;
                        break;
                    }
                    // R41: a reader leaves no trace.
                    _ => {}
                }
            }
        }
        Some(run)
    }

    /// The later jobs with a conflict of sort 1: bit j is job j.
    fn links(&self, job: usize) -> u128 {
        let later = (job + 1..self.cells.len()).filter(|&later| self.sort(job, later) == 1);
        later.fold(0, |set, later| set | 1 << later)
    }

    /// R22: for every job the length of the longest chain from it on, over all jobs
    /// held, settled ones too. Those with no link to any that is left are taken out, all
    /// at once, until none is left: each has the number of the round as its length.
    fn chains(&self) -> Vec<u8> {
        let links: Vec<u128> = (0..self.cells.len()).map(|job| self.links(job)).collect();
        let mut chains = vec![0; links.len()];
        let mut left = (0..links.len()).fold(0, |set, job| set | 1 << job);
        let mut round = 0;
        while left != 0 {
            round += 1;
            let before = left;
            for job in (0..links.len()).filter(|job| before >> job & 1 == 1) {
                if links[job] & before == 0 {
                    chains[job] = round;
                    left ^= 1 << job;
                }
            }
        }
        chains
    }
}

// ---------------------------------------------------------------------------
// What refuses a step: 10 to 18

impl Rules<'_> {
    /// 0 if the step 0 to 4 is allowed on the job, else the refusal. The mark is
    /// asked for by steps 2 and 3 only (R116).
    fn refusal(&self, step: u8, job: usize, mark: u8) -> u8 {
        // R110: not sealed.
        if self.record.sealed == 0 {
            return 10;
        }
        // R111: no such job.
        if !self.record.held().contains(&job) {
            return 11;
        }
        match step {
            START_OWN => self.start_own_refusal(job),
            START_GUESS => self.start_guess_refusal(job),
            REPORT_OWN => self.report_refusal(job, self.own_is_out(job), mark),
            // R113: one thrown away is not out.
            REPORT_GUESS => self.report_refusal(job, self.record.phase[job] == OUT, mark),
            SETTLE => self.settle_refusal(job),
            _ => unreachable!("a step above 4 is answered before"),
        }
    }

    fn start_own_refusal(&self, job: usize) -> u8 {
        // R113: settled, or its own run is out.
        if self.is_settled(job) || self.own_is_out(job) {
            return 13;
        }
        // R115: not ready.
        if !self.is_ready(job) {
            return 15;
        }
        // R117: its guess stands.
        if self.guess_stands(job) {
            return 17;
        }
        0
    }

    fn start_guess_refusal(&self, job: usize) -> u8 {
        // R112: guessing is off.
        if self.record.speculating == 0 {
            return 12;
        }
        // R113: settled, its own run is out, or a guess was ever started.
        let ever_started = self.record.phase[job] != NEVER_STARTED;
        if self.is_settled(job) || self.own_is_out(job) || ever_started {
            return 13;
        }
        // R114: ready.
        if self.is_ready(job) {
            return 14;
        }
        // R115: a job to take from has no stored guess.
        if self.new_guess(job).is_none() {
            return 15;
        }
        0
    }

    fn report_refusal(&self, job: usize, that_run_is_out: bool, mark: u8) -> u8 {
        // R113: that run is not out. R93: of a settled job too nothing else is
        // asked.
        if !that_run_is_out {
            return 13;
        }
        // R116: neither 0 nor 1, or 1 of a job that maybe-writes nothing.
        if mark > 1 || (mark == 1 && !self.record.jobs[job].has_maybe_write()) {
            return 16;
        }
        0
    }

    fn settle_refusal(&self, job: usize) -> u8 {
        // R113: settled, or no guess is stored.
        if self.is_settled(job) || self.record.phase[job] != STORED {
            return 13;
        }
        // R115: not ready.
        if !self.is_ready(job) {
            return 15;
        }
        // R118: the guess has fallen.
        if self.guess_has_fallen(job) {
            return 18;
        }
        0
    }
}

// ---------------------------------------------------------------------------
// The steps

impl Record {
    /// R50: the step with this number on the job: 0 or the refusal, and the values
    /// handed out, or four zeros where none are.
    pub fn step(&mut self, number: u8, job: usize, values: [i32; 4], wrote: u8) -> (u8, [i32; 4]) {
        if !self.in_form() {
            return (32, ZEROS);
        }
        // R121: no step, so that 10 to 19 do not apply to it.
        if number > SETTLE {
            return (21, ZEROS);
        }
        let rules = Rules::of(self);
        let refusal = rules.refusal(number, job, wrote);
        if refusal != 0 {
            return (refusal, ZEROS);
        }
        match number {
            START_OWN => self.start_own(job),
            START_GUESS => {
                if let Some(run) = rules.new_guess(job) {
                    self.start_guess(job, run);
                }
            }
            REPORT_OWN => self.report_own(job, values, wrote),
            REPORT_GUESS => self.report_guess(job, values, wrote),
            _ => self.settle(job),
        }
        let starts = number == START_OWN || number == START_GUESS;
        (0, if starts { self.runs[job].handed } else { ZEROS })
    }

    /// R51, R94: the run becomes the present values and zeros else.
    fn start_own(&mut self, job: usize) {
        self.runs[job] = Run {
            handed: self.present_values(job),
            ..Run::default()
        };
        self.running[job] = 1;
        // A guess that is out or stored here has fallen, or 17 would have applied.
        if self.phase[job] != NEVER_STARTED {
            self.phase[job] = THROWN_AWAY;
        }
    }

    /// R52, R94: the run becomes what R41 and R46 find, and zeros else.
    fn start_guess(&mut self, job: usize, run: Run) {
        self.runs[job] = run;
        self.phase[job] = OUT;
    }

    /// R53, R94: stored and written into the cells; the job is settled.
    fn report_own(&mut self, job: usize, values: [i32; 4], mark: u8) {
        self.store_report(job, values, mark);
        self.write_cells(job);
        self.committed[job] = BY_OWN_RUN;
        self.running[job] = 0;
    }

    /// R54, R94: stored; no cell changes.
    fn report_guess(&mut self, job: usize, values: [i32; 4], mark: u8) {
        self.store_report(job, values, mark);
        self.phase[job] = STORED;
    }

    /// R55, R94: what is stored is written into the cells; the job is settled.
    fn settle(&mut self, job: usize) {
        self.write_cells(job);
        self.committed[job] = BY_GUESS;
    }

    /// R31: the heights of the job's cells; R30: 0 in places not in use.
    fn present_values(&self, job: usize) -> [i32; 4] {
        let mut values = ZEROS;
        for (place, &(cell, _)) in self.jobs[job].used().iter().enumerate() {
            values[place] = self.cells[usize::from(cell)];
        }
        values
    }

    /// R34: the reported value where the cell is written, else the handed one as it
    /// stands; R30: 0 in places not in use, whatever stands handed there.
    fn store_report(&mut self, job: usize, values: [i32; 4], mark: u8) {
        let run = &mut self.runs[job];
        run.reported = ZEROS;
        for (place, &(_, mode)) in self.jobs[job].used().iter().enumerate() {
            let written = is_written(mode, mark);
            run.reported[place] = if written {
                values[place]
            } else {
                run.handed[place]
            };
        }
        run.wrote = mark;
    }

    /// R35: the run's report, as it is stored, into the cells that it writes.
    fn write_cells(&mut self, job: usize) {
        let run = &self.runs[job];
        for (place, &(cell, mode)) in self.jobs[job].used().iter().enumerate() {
            if is_written(mode, run.wrote) {
                self.cells[usize::from(cell)] = run.reported[place];
            }
        }
    }
}

// ---------------------------------------------------------------------------
// The chooser

impl Record {
    /// R62: refusal, step, job, chain; zeros after a refusal.
    pub fn choose(&self) -> (u8, u8, u8, u8) {
        if !self.in_form() {
            return (32, 0, 0, 0);
        }
        // R110: not sealed.
        if self.sealed == 0 {
            return (10, 0, 0, 0);
        }
        let rules = Rules::of(self);
        let chains = rules.chains();
        // R60: a step 4 if one is allowed, else a 0, else a 1.
        for step in [SETTLE, START_OWN, START_GUESS] {
            let mut left: Vec<usize> = self.held().collect();
            left.retain(|&job| rules.refusal(step, job, 0) == 0);
            // R61: those with the longest chain, of these those with the fewest
            // accesses, of these the first.
            let longest = left.iter().map(|&job| chains[job]).max();
            left.retain(|&job| Some(chains[job]) == longest);
            let fewest = left.iter().map(|&job| self.jobs[job].arity).min();
            left.retain(|&job| Some(self.jobs[job].arity) == fewest);
            if let Some(&job) = left.first() {
                return (0, step, job as u8, chains[job]);
            }
        }
        // R119: none is allowed.
        (19, 0, 0, 0)
    }
}

// ---------------------------------------------------------------------------
// The turn

impl Record {
    /// R64: a report, or none, and then steps of the chooser, as many as the limit says
    /// and the list has places. Job, values and mark are looked at for a report alone.
    pub fn turn(
        &mut self,
        number: u8,
        job: usize,
        values: [i32; 4],
        wrote: u8,
        limit: usize,
        list: &mut [Taken; PLACES],
    ) -> Turned {
        let refusal = match number {
            // R132, before all else, whatever the number.
            _ if !self.in_form() => 32,
            // R64: the report comes first. R66: refused, the turn is, with its number.
            REPORT_OWN | REPORT_GUESS => self.step(number, job, values, wrote).0,
            // R66: without a report, whatever the limit.
            NO_REPORT if self.sealed == 0 => 10,
            NO_REPORT => 0,
            // R66, R121: no such number, so that 10 to 19 do not apply.
            _ => 21,
        };
        let mut turned = Turned { refusal, count: 0 };
        // R66: neither record nor list changes.
        if refusal != 0 {
            return turned;
        }
        // R65: zeros in the places after the steps.
        *list = [Taken::default(); PLACES];
        for place in list {
            // R64: as many are taken as the limit says.
            if usize::from(turned.count) == limit {
                break;
            }
            let (refusal, step, job, _) = self.choose();
            // R119, R66: the turn has taken what it could, and is not refused.
            if refusal == 19 {
                break;
            }
            let (answer, handed) = self.step(step, job.into(), ZEROS, 0);
            assert_eq!((refusal, answer), (0, 0), "R63");
            *place = Taken { step, job, handed };
            turned.count += 1;
        }
        turned
    }
}

// ---------------------------------------------------------------------------
// The reader of results. R70: before sealing too.

impl Record {
    pub fn ask_cell(&self, cell: usize) -> (u8, i32) {
        if !self.in_form() {
            return (32, 0);
        }
        // R105: no such cell.
        if cell >= usize::from(self.cell_count) {
            return (5, 0);
        }
        (0, self.cells[cell])
    }

    pub fn ask_job(&self, job: usize) -> JobAnswer {
        if !self.in_form() {
            return JobAnswer {
                refusal: 32,
                ..JobAnswer::default()
            };
        }
        // R111: no such job.
        if !self.held().contains(&job) {
            return JobAnswer {
                refusal: 11,
                ..JobAnswer::default()
            };
        }
        let run = &self.runs[job];
        let settled = self.committed[job] != NOT_SETTLED;
        JobAnswer {
            refusal: 0,
            committed: self.committed[job],
            // R72: 0 where it is not settled.
            wrote: if settled { run.wrote } else { 0 },
            running: self.running[job],
            phase: self.phase[job],
            validity: Rules::of(self).judged(job),
            handed: run.handed,
            reported: run.reported,
            job: self.jobs[job],
        }
    }

    /// R79: what the job's guess looked past, and what of that is not settled. R81:
    /// no jobs where it is refused.
    pub fn ask_looked_past(&self, job: usize) -> (u8, GuessTold) {
        if !self.in_form() {
            return (32, GuessTold::default());
        }
        // R111: no such job.
        if !self.held().contains(&job) {
            return (11, GuessTold::default());
        }
        // By the state of the guess alone (R93), however its job is settled. What
        // stands in the run of a job without one is not looked at.
        let has_one = self.phase[job] == OUT || self.phase[job] == STORED;
        let past = |other| has_one && self.runs[job].looked_past(other);
        let open = |other| past(other) && self.committed[other] == NOT_SETTLED;
        let told = GuessTold {
            looked_past: Told::among(past),
            open: Told::among(open),
        };
        (0, told)
    }

    pub fn ask_batch(&self) -> BatchAnswer {
        if !self.in_form() {
            return BatchAnswer {
                refusal: 32,
                ..BatchAnswer::default()
            };
        }
        // R8: also with no jobs at all; no longer, once a job is added.
        let all_settled = self.held().all(|job| self.committed[job] != NOT_SETTLED);
        BatchAnswer {
            refusal: 0,
            cell_count: self.cell_count,
            job_count: self.job_count,
            sealed: self.sealed,
            speculating: self.speculating,
            finished: self.sealed == 1 && all_settled,
        }
    }

    /// R75: what became of the guesses, each number counted over the held jobs by
    /// itself. R81: zeros where it is refused.
    pub fn ask_tally(&self) -> (u8, Tally) {
        if !self.in_form() {
            return (32, Tally::default());
        }
        let rules = Rules::of(self);
        let count = |is: &dyn Fn(usize) -> bool| self.held().filter(|&job| is(job)).count() as u32;
        let tally = Tally {
            jobs: count(&|_job| true),
            started: count(&|job| self.phase[job] != NEVER_STARTED),
            // R93: by how the job is settled alone, whatever the state of its guess.
            kept: count(&|job| self.committed[job] == BY_GUESS),
            thrown_away: count(&|job| self.phase[job] == THROWN_AWAY),
            // R55: the guess of a settled job may still be stored. One that has
            // fallen belongs here until it is thrown away.
            rest: count(&|job| !rules.is_settled(job) && rules.has_live_guess(job)),
        };
        (0, tally)
    }

    /// R74: the cells from that place of the buffer on; all other places keep what
    /// they hold. R120: too few places are left.
    pub fn copy_out(&self, buffer: &mut [i32], at: usize) -> u8 {
        if !self.in_form() {
            return 32;
        }
        let count = usize::from(self.cell_count);
        if buffer.len().saturating_sub(at) < count {
            return 20;
        }
        buffer[at..at + count].copy_from_slice(&self.cells[..count]);
        0
    }
}
