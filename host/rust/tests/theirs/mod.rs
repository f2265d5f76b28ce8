//! One record in two hands: each call is made on both, and what they answer and leave has to be the same.

use second_hand::sets::{GuessTold, Told};
use second_hand::turns::{List, Turn};
use second_hand::{record, tally};
use sorghemi::raw::*;
use sorghemi::{Access, Job, Record, Report, Tally};

#[derive(Clone)]
pub struct Both {
    pub ours: Record,
    pub theirs: record::Record,
}

/// The library's record as the second hand reads it.
fn read(record: &Record) -> record::Record {
    record::Record::from_bytes(&record.to_bytes())
}

pub fn read_job(job: &Job) -> record::Job {
    record::Job {
        kind: job.kind,
        arity: job.arity,
        accesses: job.accesses.map(|access| (access.cell, access.mode)),
        parameter: job.parameter,
        predicted: job.predicted,
    }
}

/// The second hand's job in the library's form.
pub fn given_job(&record::Job { kind, arity, accesses, parameter, predicted }: &record::Job) -> Job {
    Job { kind, arity, accesses: accesses.map(|(cell, mode)| Access { cell, mode }), parameter, predicted }
}

/// The second hand's list of jobs in the library's form.
pub fn given_list(list: &record::JobList) -> JobList {
    let mut places = list.jobs.iter().map(given_job);
    JobList { count: list.count, jobs: [(); 128].map(|()| places.next().unwrap()) }
}

/// The library's list of jobs as the second hand reads it.
pub fn read_list(list: &JobList) -> record::JobList {
    record::JobList { count: list.count, jobs: list.jobs.iter().map(read_job).collect() }
}

/// The second hand's list of steps in the library's form.
pub fn given_steps(list: &List) -> StepList {
    StepList { taken: list.map(|record::Taken { step, job, handed }| Taken { step, job, handed }) }
}

/// The library's list of steps as the second hand reads it.
pub fn read_steps(list: &StepList) -> List {
    list.taken.map(|Taken { step, job, handed }| record::Taken { step, job, handed })
}

/// Something lent, with bytes around it that nobody may touch.
#[repr(C)]
struct Around<T> {
    before: [u64; 8],
    lent: T,
    after: [u64; 8],
}

impl<T> Around<T> {
    fn of(lent: T) -> Around<T> {
        Around { before: [0x5ca1_ab1e; 8], lent, after: [0x5ca1_ab1e; 8] }
    }

    /// What was lent, where nothing around it was touched.
    fn back(self) -> T {
        assert_eq!([self.before, self.after], [[0x5ca1_ab1e; 8]; 2], "more than what was lent was touched");
        self.lent
    }
}

/// The library's tally with the second hand's names.
pub fn read_tally(tally: &Tally) -> tally::Tally {
    let Tally { jobs, started, kept, discarded: thrown_away, pending: rest } = *tally;
    tally::Tally { jobs, started, kept, thrown_away, rest }
}

/// What the second hand tells of a guess in the library's form. R78: 0 stands in the place of a lowest that is not there.
pub fn told((refusal, GuessTold { looked_past, open }): (u8, GuessTold)) -> SpeculationAnswer {
    let set = |Told { size, lowest }: Told| SetAnswer {
        size: size as u8,
        present: lowest.is_some(),
        lowest: lowest.unwrap_or(0) as u8,
    };
    SpeculationAnswer { refusal, bypassed: set(looked_past), open: set(open) }
}

impl Both {
    pub fn of(record: &Record) -> Both {
        Both { ours: *record, theirs: read(record) }
    }

    /// The records after a call are the same; where not, the columns of the first job that differs are shown.
    fn same_record(&self, call: &str) {
        let ours = read(&self.ours);
        let column = |r: &record::Record, j: usize| (r.jobs[j], r.runs[j], r.committed[j], r.running[j], r.phase[j]);
        for j in 0..128 {
            assert_eq!(column(&ours, j), column(&self.theirs, j), "job {j} after {call}");
        }
        assert_eq!(ours, self.theirs, "after {call}");
    }

    pub fn insert(&mut self, job: Job) -> u8 {
        let answer = unsafe { sorghemi_insert(self.ours, job) };
        assert_eq!(answer.refusal, self.theirs.insert(read_job(&job)), "insert {job:?} into {:?}", self.ours);
        self.ours = answer.batch;
        self.same_record("insert");
        answer.refusal
    }

    /// R25; R9: the list stays as it is.
    pub fn insert_all(&mut self, list: &record::JobList) -> record::Inserted {
        let (before, lent) = (self.ours, given_list(list));
        let Inserted { refusal, at } = unsafe { sorghemi_insert_all(&mut self.ours, &lent) };
        let theirs = self.theirs.insert_list(list);
        assert_eq!((refusal, at), (theirs.refusal, theirs.at), "insert {list:?} into {before:?}");
        assert_eq!(read_list(&lent), *list);
        self.same_record("insert all");
        theirs
    }

    pub fn seal(&mut self, guessing: u8) -> u8 {
        let answer = unsafe { sorghemi_seal(self.ours, guessing) };
        assert_eq!(answer.refusal, self.theirs.seal(guessing));
        self.ours = answer.batch;
        self.same_record("seal");
        answer.refusal
    }

    /// The step in the lent form and by value.
    pub fn step(&mut self, number: u8, job: usize, report: Report) -> (u8, [i32; 4]) {
        let before = self.ours;
        let by_value = unsafe { sorghemi_step_by_value(before, number, job, report) };
        let handed = unsafe { sorghemi_step(&mut self.ours, number, job, report) };
        let theirs = self.theirs.step(number, job, report.values, report.wrote);
        assert_eq!((handed.refusal, handed.values), theirs, "step {number} of job {job}, {report:?}, of {before:?}");
        assert_eq!((by_value.refusal, by_value.handed, by_value.batch), (handed.refusal, handed.values, self.ours));
        self.same_record(&format!("step {number} of job {job}"));
        theirs
    }

    /// R64 to R66, with this in the lent list before it. What the turn answers, and the list after it.
    pub fn turn(&mut self, turn: &Turn, lent: &List) -> (record::Turned, List) {
        let (before, mut list) = (self.ours, *lent);
        let (mut record, mut steps) = (Around::of(before), Around::of(given_steps(lent)));
        let &Turn { number, job, values, mark, limit } = turn;
        let report = Report { values, wrote: mark };
        let answer = unsafe { sorghemi_turn(&mut record.lent, number, job, report, limit, &mut steps.lent) };
        let theirs = turn.on_record(&mut self.theirs, &mut list);
        assert_eq!((answer.refusal, answer.count), (theirs.refusal, theirs.count), "{turn:?} of {before:?}");
        assert_eq!(read_steps(&steps.back()), list, "{turn:?} of {before:?}");
        self.ours = record.back();
        self.same_record(&format!("{turn:?}"));
        (theirs, list)
    }

    pub fn choose(&self) -> Choice {
        let ours = unsafe { sorghemi_choose(self.ours) };
        assert_eq!((ours.refusal, ours.step, ours.job, ours.chain), self.theirs.choose(), "choose of {:?}", self.ours);
        ours
    }

    pub fn ask_cell(&self, cell: usize) -> CellAnswer {
        let ours = unsafe { sorghemi_ask_cell(self.ours, cell) };
        assert_eq!((ours.refusal, ours.height), self.theirs.ask_cell(cell));
        ours
    }

    pub fn ask_job(&self, job: usize) -> JobAnswer {
        let ours = unsafe { sorghemi_ask_job(self.ours, job) };
        let theirs = self.theirs.ask_job(job);
        assert_eq!(
            (
                ours.refusal,
                ours.committed,
                ours.wrote,
                ours.running,
                ours.phase,
                ours.validity,
                ours.handed,
                ours.reported,
                read_job(&ours.job)
            ),
            (
                theirs.refusal,
                theirs.committed,
                theirs.wrote,
                theirs.running,
                theirs.phase,
                theirs.validity,
                theirs.handed,
                theirs.reported,
                theirs.job
            ),
            "ask job {job} of {:?}",
            self.ours
        );
        ours
    }

    pub fn ask_speculation(&self, job: usize) -> SpeculationAnswer {
        let ours = unsafe { sorghemi_ask_speculation(self.ours, job) };
        assert_eq!(ours, told(self.theirs.ask_looked_past(job)), "ask the guess of job {job} of {:?}", self.ours);
        ours
    }

    pub fn ask_batch(&self) -> BatchAnswer {
        let ours = unsafe { sorghemi_ask_batch(self.ours) };
        let theirs = self.theirs.ask_batch();
        assert_eq!(
            (ours.refusal, ours.cell_count, ours.job_count, ours.sealed, ours.speculating, ours.finished),
            (theirs.refusal, theirs.cell_count, theirs.job_count, theirs.sealed, theirs.speculating, theirs.finished)
        );
        ours
    }

    /// R70: the record handed in stays as it is.
    pub fn ask_tally(&self) -> TallyAnswer {
        let ours = unsafe { sorghemi_ask_tally(self.ours) };
        assert_eq!((ours.refusal, read_tally(&ours.tally)), self.theirs.ask_tally(), "ask tally of {:?}", self.ours);
        self.same_record("ask tally");
        ours
    }

    pub fn copy_out(&self, size: usize, at: usize) -> u8 {
        let size = size.min(200);
        let (mut ours, mut theirs) = (vec![-7; size], vec![-7; size]);
        let refusal = unsafe { sorghemi_copy_out(self.ours, ours.as_mut_ptr(), size, at) };
        assert_eq!(refusal, self.theirs.copy_out(&mut theirs, at));
        assert_eq!(ours, theirs);
        refusal
    }
}
