//! Random lists of calls on one batch (R160), most of them accepted, in which jobs
//! come in before the seal and after it, and some guesses are kept, some thrown
//! away, and some still out or stored wherever one stops. Many reports give the
//! height that was there, or one that was there before. The lists follow from the
//! dice, and from how the record stands before each call.

use crate::engine::{self, Access, Batch, Report};
use crate::kinds;
use crate::plans::Dice;
use crate::record::{Job, Record};

#[derive(Clone, Copy, Debug)]
pub enum Call {
    Insert(Job),
    Seal(u8),
    /// Steps 0, 1 and 4 do not look at values and mark.
    Step {
        number: u8,
        job: usize,
        values: [i32; 4],
        mark: u8,
    },
}

/// 0 or the refusal, and the values handed out, or four zeros where none are.
pub type Answer = (u8, [i32; 4]);

const NOTHING: [i32; 4] = [0; 4];

impl Call {
    /// Makes the call on a record.
    pub fn on_record(&self, record: &mut Record) -> Answer {
        match *self {
            Call::Insert(job) => (record.insert(job), NOTHING),
            Call::Seal(guessing) => (record.seal(guessing), NOTHING),
            Call::Step {
                number,
                job,
                values,
                mark,
            } => record.step(number, job, values, mark),
        }
    }

    /// Makes the call on a batch of `engine`.
    pub fn on_batch(&self, batch: &mut Batch) -> Answer {
        let answer = match *self {
            Call::Insert(job) => {
                let inserted = batch.insert(u32::from(job.kind), job.parameter, &accesses(&job));
                inserted.map(|()| NOTHING)
            }
            Call::Seal(guessing) => batch.seal(u32::from(guessing)).map(|()| NOTHING),
            Call::Step {
                number,
                job,
                values,
                mark,
            } => step(batch, number, job as u32, values, u32::from(mark)),
        };
        match answer {
            Ok(handed) => (0, handed),
            Err(refusal) => (refusal as u8, NOTHING),
        }
    }
}

/// As many accesses as the job says, though it has places for four (R104).
fn accesses(job: &Job) -> Vec<Access> {
    let access = |place: usize| {
        let (cell, mode) = job.accesses.get(place).copied().unwrap_or_default();
        Access {
            cell: u32::from(cell),
            mode: u32::from(mode),
            predicted: job.predicted.get(place).copied().unwrap_or_default(),
        }
    };
    (0..usize::from(job.arity)).map(access).collect()
}

fn step(
    batch: &mut Batch,
    number: u8,
    job: u32,
    values: [i32; 4],
    mark: u32,
) -> Result<[i32; 4], u32> {
    let report = Report { values, mark };
    match number {
        0 => batch.start_own(job),
        1 => batch.start_guess(job),
        2 => batch.report_own(job, report).map(|()| NOTHING),
        3 => batch.report_guess(job, report).map(|()| NOTHING),
        _ => batch.settle(job).map(|()| NOTHING),
    }
}

/// R2: as many jobs a batch holds.
const FULL: usize = 128;

/// What a list is like.
pub struct Manner {
    /// The heights to open with.
    pub heights: Vec<i32>,
    /// The jobs to insert, in this order; all of them are sound, but there may be
    /// one more than the batch holds.
    jobs: Vec<Job>,
    /// How many of them come in before the seal. The others come when the batch is
    /// finished, each time one, and at their pace before that.
    early: usize,
    guessing: u8,
    /// Each report follows one rule of what its run was handed (R176); else it is
    /// any.
    by_rule: bool,
    /// The heights that reports choose from, where they are any; all if there are
    /// none here.
    pool: Vec<i32>,
    // How often in a hundred:
    /// A call on a sealed, unfinished batch inserts, while there are jobs to come.
    pace: usize,
    /// A call is any call at all.
    wild: usize,
    /// A step is one on a guess.
    eager: usize,
    /// A job that may write reports that it has, where its report is any.
    writes: usize,
    /// Of a cell the height that was handed is reported, where the report is any.
    same: usize,
    /// A step starts a guess that takes from a fallen one, if that can be.
    behind: usize,
    /// A turn reports no own run while a guess is out or can be started.
    pub(crate) patience: usize,
}

impl Manner {
    /// Mostly few cells, so that jobs have to wait for each other. A third of the
    /// lists insert all jobs before they seal, and a third seal at once.
    pub fn any(dice: &mut Dice) -> Manner {
        let cells = dice.pick(&[1, 2, 3, 4, 5, 6, 7, 64]);
        let jobs = match dice.below(30) {
            0 => 0,
            1 => FULL + 1,
            _ => dice.below(14),
        };
        let early = match dice.below(3) {
            0 => 0,
            1 => dice.below(jobs + 1),
            _ => jobs,
        };
        let pool = some_pool(dice);
        Manner {
            heights: (0..cells).map(|_| height_of(dice, &pool)).collect(),
            jobs: (0..jobs).map(|_| job_for(dice, cells, &pool)).collect(),
            early: early.min(FULL),
            guessing: u8::from(dice.percent(92)),
            by_rule: false,
            pool,
            pace: dice.pick(&[0, 10, 20, 40]),
            wild: dice.pick(&[0, 5, 20]),
            eager: dice.pick(&[20, 50, 80]),
            writes: dice.pick(&[0, 10, 40, 80]),
            same: dice.pick(&[0, 40, 80]),
            behind: 0,
            patience: 0,
        }
    }

    /// Few cells and few heights, and reports that mostly write: so a guess is often
    /// handed what is there, or one wrong height among right ones, though jobs that it
    /// looked past have written and those that it took from have run again.
    pub fn few_heights(dice: &mut Dice) -> Manner {
        let cells = dice.pick(&[1, 1, 2, 2, 3, 4, 4, 5]);
        let jobs = 3 + dice.below(9);
        let pool = twins(dice);
        Manner {
            heights: (0..cells).map(|_| height_of(dice, &pool)).collect(),
            jobs: (0..jobs).map(|_| outside_job(dice, cells, &pool)).collect(),
            early: dice.pick(&[jobs, jobs / 2, 0]),
            guessing: 1,
            by_rule: false,
            pool,
            pace: dice.pick(&[10, 40]),
            wild: dice.pick(&[0, 3]),
            eager: dice.pick(&[40, 60, 80]),
            writes: dice.pick(&[30, 60, 90]),
            same: dice.pick(&[0, 0, 30, 60, 90]),
            behind: dice.pick(&[0, 50]),
            patience: 0,
        }
    }

    /// Outside jobs of which no cells, some or all are predicted, and other kinds between
    /// them. Half of the lists report by the one rule, so that it is known beforehand what
    /// a job will find, and predictions are right or wrong by choice; in the others they are
    /// of the few heights that there are.
    pub fn predicting(dice: &mut Dice) -> Manner {
        let manner = Manner::few_heights(dice);
        let (cells, many) = (manner.heights.len(), manner.jobs.len());
        let some = |_| predicting_job(dice, cells, &manner.pool);
        let mut jobs: Vec<Job> = (0..many).map(some).collect();
        let by_rule = dice.percent(50);
        if by_rule {
            predict(dice, &manner.heights, &mut jobs);
        }
        Manner {
            jobs,
            by_rule,
            wild: dice.pick(&[0, 5, 20]),
            ..manner
        }
    }

    /// R176: two lists whose jobs differ in their predictions, and in what stands in places
    /// not in use, and which report by one rule. In all else they may differ.
    pub fn predicting_pair(dice: &mut Dice) -> [Manner; 2] {
        let calm = |dice: &mut Dice| Manner {
            guessing: u8::from(dice.percent(90)),
            by_rule: true,
            wild: 0,
            ..Manner::predicting(dice)
        };
        let (first, other) = (calm(dice), calm(dice));
        let mut jobs = first.jobs.clone();
        predict(dice, &first.heights, &mut jobs);
        for job in &mut jobs {
            job.accesses[usize::from(job.arity)..].fill_with(|| any_access(dice));
        }
        let second = Manner {
            heights: first.heights.clone(),
            jobs,
            ..other
        };
        [first, second]
    }

    /// Jobs of all kinds and of outside ones that read much, so that conflicts are of either
    /// sort (R24), on so many cells that several jobs can be started at once.
    pub fn picking(dice: &mut Dice) -> Manner {
        let cells = dice.pick(&[2, 3, 4, 5, 6, 8, 12]);
        let jobs = 3 + dice.below(14);
        let pool = some_pool(dice);
        Manner {
            heights: (0..cells).map(|_| height_of(dice, &pool)).collect(),
            jobs: (0..jobs).map(|_| reading_job(dice, cells, &pool)).collect(),
            early: dice.pick(&[jobs, jobs, jobs / 2, 0]),
            guessing: u8::from(dice.percent(75)),
            by_rule: false,
            pool,
            pace: dice.pick(&[10, 40]),
            wild: dice.pick(&[0, 5, 20]),
            eager: dice.pick(&[20, 50, 80]),
            writes: dice.pick(&[0, 10, 40]),
            same: dice.pick(&[0, 60, 90]),
            behind: 0,
            patience: 0,
        }
    }

    /// Many jobs, most of which maybe-write, so that a guess may look past many, on both
    /// sides of job 64. Each cell comes up with a job of its own, often one about 64:
    /// what is looked past for its sake begins there.
    pub fn past_many(dice: &mut Dice) -> Manner {
        let cells = dice.pick(&[1, 4, 8, 16]);
        let writers = dice.pick(&[0, 3, 15]);
        let mut firsts: Vec<usize> = (0..cells)
            .map(|_| dice.pick(&[0, 0, 0, 40, 63, 64, 65]))
            .collect();
        // Every job has to have a cell.
        firsts[0] = 0;
        let many = dice.pick(&[70, 90, FULL, FULL]);
        Manner {
            heights: (0..cells).map(|_| height(dice)).collect(),
            jobs: (0..many)
                .map(|number| maybe_writer(dice, number, &firsts, writers))
                .collect(),
            early: dice.pick(&[0, many / 2, many]),
            guessing: 1,
            by_rule: false,
            pool: Vec::new(),
            pace: dice.pick(&[10, 40]),
            wild: dice.pick(&[0, 2]),
            eager: dice.pick(&[40, 60, 80]),
            writes: dice.pick(&[0, 2, 10]),
            same: dice.pick(&[0, 40, 80]),
            behind: 0,
            patience: 0,
        }
    }

    /// Many cells and many jobs, most of them on one of these, so that many can be started
    /// at once.
    pub fn wide(dice: &mut Dice) -> Manner {
        let jobs = match dice.below(4) {
            0 => FULL,
            1 => dice.pick(&[15, 16, 16, 17]),
            _ => 14 + dice.below(40),
        };
        Manner::wide_of(dice, jobs)
    }

    /// The same with as many jobs as a batch holds.
    pub fn full(dice: &mut Dice) -> Manner {
        Manner::wide_of(dice, FULL)
    }

    fn wide_of(dice: &mut Dice, jobs: usize) -> Manner {
        let cells = dice.pick(&[18, 40, 64, 64]);
        // Few jobs have a cell each.
        let job = |dice: &mut Dice, number: usize| {
            let most = dice.pick(&[1, 1, 1, 2, 4]);
            let modes = any_modes(dice, most, &[0, 1, 1, 2, 3]);
            let mut job = job_of(dice, cells, 0, &modes, &[]);
            if jobs < 18 {
                (job.arity, job.accesses[0].0) = (1, number as u8);
            }
            job
        };
        Manner {
            heights: (0..cells).map(|_| height(dice)).collect(),
            jobs: (0..jobs).map(|number| job(dice, number)).collect(),
            early: dice.pick(&[jobs, jobs, jobs / 2]),
            guessing: u8::from(dice.percent(75)),
            by_rule: dice.percent(30),
            pool: Vec::new(),
            pace: dice.pick(&[10, 40]),
            wild: dice.pick(&[0, 5]),
            eager: dice.pick(&[20, 50]),
            writes: dice.pick(&[0, 10, 40]),
            same: dice.pick(&[0, 60, 90]),
            behind: 0,
            patience: dice.pick(&[0, 90]),
        }
    }

    /// Long rows of writers on few cells, each behind a maybe-writer that mostly writes
    /// nothing: so a turn that reports one of these may settle many guesses.
    pub fn rows(dice: &mut Dice) -> Manner {
        let cells = dice.pick(&[1, 1, 1, 2, 3]);
        let jobs = cells * (18 + dice.below(20));
        let one = |dice: &mut Dice, number: usize| {
            let mode = match number < cells {
                true => 2,
                false if dice.percent(2) => 3,
                false => dice.pick(&[1, 1, 1, 2]),
            };
            let mut job = job_of(dice, cells, 0, &[mode], &[]);
            job.accesses[0].0 = (number % cells) as u8;
            job
        };
        Manner {
            heights: (0..cells).map(|_| height(dice)).collect(),
            jobs: (0..jobs).map(|number| one(dice, number)).collect(),
            early: jobs,
            guessing: 1,
            by_rule: false,
            pool: Vec::new(),
            pace: 0,
            wild: dice.pick(&[0, 0, 3]),
            eager: 80,
            writes: dice.pick(&[0, 5]),
            same: dice.pick(&[0, 50]),
            behind: 0,
            patience: dice.pick(&[90, 98, 100]),
        }
    }

    /// R176: two lists that insert the same jobs into the same cells, and report by
    /// one rule. The first inserts all before it seals, the second some or all of
    /// them after. In all else they may differ.
    pub fn pair(dice: &mut Dice) -> [Manner; 2] {
        let calm = |dice: &mut Dice| Manner {
            guessing: u8::from(dice.percent(70)),
            by_rule: true,
            wild: 0,
            ..Manner::any(dice)
        };
        let (one, other) = (calm(dice), calm(dice));
        let first = Manner {
            early: one.jobs.len().min(FULL),
            ..one
        };
        let second = Manner {
            heights: first.heights.clone(),
            early: dice.below(first.early.max(1)),
            jobs: first.jobs.clone(),
            ..other
        };
        [first, second]
    }

    /// The jobs to insert.
    pub fn jobs(&self) -> &[Job] {
        &self.jobs
    }

    /// A batch of `engine` with the same cells and jobs, as many as it holds, sealed with
    /// guessing on.
    pub fn batch(&self) -> Batch {
        self.sealed_with(1)
    }

    /// The same, sealed with this switch.
    pub fn sealed_with(&self, guessing: u8) -> Batch {
        let mut batch = Batch::open(&self.heights).unwrap();
        for &job in self.jobs.iter().take(FULL) {
            Call::Insert(job).on_batch(&mut batch);
        }
        Call::Seal(guessing).on_batch(&mut batch);
        batch
    }

    /// About as many calls as settle every job.
    pub fn calls(&self) -> usize {
        9 * self.jobs.len() + 6
    }

    /// Whether all jobs that the batch can hold have come in and are settled.
    pub fn is_done(&self, record: &Record) -> bool {
        let all = self.jobs.len().min(FULL);
        usize::from(record.job_count) >= all && record.ask_batch().finished
    }

    /// The call that comes next.
    pub fn call(&self, dice: &mut Dice, record: &Record) -> Call {
        if dice.percent(self.wild) {
            return self.wild_call(dice, record);
        }
        let held = usize::from(record.job_count);
        match self.jobs.get(held) {
            Some(&job) if self.inserts_now(dice, record) => Call::Insert(job),
            _ if record.sealed == 0 => Call::Seal(self.guessing),
            _ => self.fitting_step(dice, record),
        }
    }

    fn inserts_now(&self, dice: &mut Dice, record: &Record) -> bool {
        let held = usize::from(record.job_count);
        if record.sealed == 0 {
            held < self.early
        } else if held == FULL {
            // Refused, so only now and then.
            dice.percent(2)
        } else {
            dice.percent(self.pace) || record.ask_batch().finished
        }
    }

    fn wild_call(&self, dice: &mut Dice, record: &Record) -> Call {
        match dice.below(8) {
            0 => Call::Insert(self.wild_job(dice)),
            1 => Call::Seal(dice.below(3) as u8),
            _ => Call::Step {
                number: dice.below(5) as u8,
                job: dice.below(usize::from(record.job_count) + 1),
                values: [0; 4].map(|_: i32| height(dice)),
                mark: dice.below(3) as u8,
            },
        }
    }

    /// A step on a job in the state for it, if there is one; of starts and settling
    /// half of the time the one that the chooser names.
    fn fitting_step(&self, dice: &mut Dice, record: &Record) -> Call {
        if dice.percent(self.behind) {
            if let Some(start) = start_behind_fallen(record) {
                return start;
            }
        }
        let mut number = if dice.percent(self.eager) {
            dice.pick(&[1, 3])
        } else {
            dice.pick(&[0, 2, 2, 4])
        };
        let held = usize::from(record.job_count);
        let fitting: Vec<usize> = (0..held).filter(|&job| fits(record, number, job)).collect();
        let mut job = if fitting.is_empty() {
            dice.below(held + 1)
        } else {
            dice.pick(&fitting)
        };
        if number != 2 && number != 3 && dice.percent(50) {
            if let (0, step, named, _) = record.choose() {
                (number, job) = (step, usize::from(named));
            }
        }
        let Report { values, mark } = self.report(dice, record, job);
        Call::Step {
            number,
            job,
            values,
            mark: mark as u8,
        }
    }

    /// What is reported of the run that the job holds.
    pub(crate) fn report(&self, dice: &mut Dice, record: &Record, job: usize) -> Report {
        let held = job < usize::from(record.job_count);
        let handed = if held {
            record.runs[job].handed
        } else {
            NOTHING
        };
        if self.by_rule && held {
            return reported(&plain(&record.jobs[job]), handed);
        }
        // A mark that R116 refuses is as rare as other wild calls.
        let may_write = held && record.jobs[job].has_maybe_write();
        let marked = if may_write {
            self.writes
        } else {
            self.wild / 2
        };
        Report {
            values: handed.map(|value| match dice.percent(self.same) {
                true => value,
                false => height_of(dice, &self.pool),
            }),
            mark: u32::from(dice.percent(marked)),
        }
    }

    /// Half of the time a sound job, else one with something changed, that inserting
    /// mostly refuses.
    fn wild_job(&self, dice: &mut Dice) -> Job {
        let mut job = sound_job(dice, self.heights.len());
        match dice.below(10) {
            0 => job.kind = dice.below(9) as u8,
            1 => job.arity = dice.pick(&[0, 1, 2, 3, 4, 5, 255]),
            2 => job.accesses[0].0 = self.heights.len() as u8,
            3 => job.accesses[0].1 = dice.pick(&[0, 1, 2, 3, 3, 4, 5, 255]),
            4 => {
                job.arity = job.arity.max(2);
                job.accesses[1] = job.accesses[0];
            }
            _ => {}
        }
        job
    }
}

/// An outside job with accesses of any modes, or one of another kind with its own;
/// inserting refuses it only where the batch is full.
pub fn sound_job(dice: &mut Dice, cells: usize) -> Job {
    job_for(dice, cells, &[])
}

/// The same, with predictions from the pool.
fn job_for(dice: &mut Dice, cells: usize, pool: &[i32]) -> Job {
    let kind = dice.pick(&[0, 0, 0, 1, 2, 3, 4, 5, 6]);
    let modes: Vec<u32> = match kinds::modes(kind) {
        Some(modes) => modes.to_vec(),
        None => any_modes(dice, 4, &[0, 1, 2, 2, 3]),
    };
    if modes.len() > cells {
        return job_for(dice, cells, pool);
    }
    job_of(dice, cells, kind, &modes, pool)
}

/// An outside job with accesses of any modes but 3, often to four cells.
fn outside_job(dice: &mut Dice, cells: usize, pool: &[i32]) -> Job {
    let most = cells.min(4);
    let modes = match dice.percent(40) {
        true => (0..most).map(|_| dice.pick(&[0, 0, 1, 2])).collect(),
        false => any_modes(dice, most as i64, &[0, 1, 2, 2]),
    };
    job_of(dice, cells, 0, &modes, pool)
}

/// An outside job of which no cells, some or all are predicted, or one of any kind.
fn predicting_job(dice: &mut Dice, cells: usize, pool: &[i32]) -> Job {
    if dice.percent(20) {
        return job_for(dice, cells, pool);
    }
    let mut job = outside_job(dice, cells, pool);
    let share = dice.pick(&[0, 40, 70, 100]);
    // Of the others sometimes all are written.
    let writes = dice.percent(20);
    for access in &mut job.accesses[..usize::from(job.arity)] {
        if dice.percent(share) {
            access.1 = 3;
        } else if writes {
            access.1 = 1;
        }
    }
    job
}

/// Half of the time an outside job that mostly reads, else one of any kind.
fn reading_job(dice: &mut Dice, cells: usize, pool: &[i32]) -> Job {
    if dice.percent(50) {
        return job_for(dice, cells, pool);
    }
    let modes = any_modes(dice, cells.min(4) as i64, &[0, 0, 0, 1, 2, 3]);
    job_of(dice, cells, 0, &modes, pool)
}

/// Those of one access up to so many, each one of these.
fn any_modes(dice: &mut Dice, most: i64, modes: &[u32]) -> Vec<u32> {
    let count = dice.range(1, most);
    (0..count).map(|_| dice.pick(modes)).collect()
}

/// What stands in a place not in use: it may look like one in use.
fn any_access(dice: &mut Dice) -> (u8, u8) {
    (dice.below(5) as u8, dice.below(5) as u8)
}

/// A job of the kind with these modes, on any of the cells. It has predictions in all
/// places: with other modes than 3 and in places not in use they mean nothing (R3).
fn job_of(dice: &mut Dice, cells: usize, kind: u32, modes: &[u32], pool: &[i32]) -> Job {
    let mut order: Vec<u8> = (0..cells as u8).collect();
    dice.shuffle(&mut order);
    let mut accesses = [(); 4].map(|()| any_access(dice));
    for (place, &mode) in modes.iter().enumerate() {
        accesses[place] = (order[place], mode as u8);
    }
    Job {
        kind: kind as u8,
        arity: modes.len() as u8,
        accesses,
        parameter: height(dice),
        predicted: [(); 4].map(|()| height_of(dice, pool)),
    }
}

/// Gives each job predictions, where all report by the one rule: of one job all are
/// right, all wrong, or each is either. Those of places not in use are any.
fn predict(dice: &mut Dice, heights: &[i32], jobs: &mut [Job]) {
    let right = foreseen(heights, jobs);
    for (job, right) in jobs.iter_mut().zip(right) {
        let wrong = dice.pick(&[0, 0, 50, 100]);
        for (place, right) in right.into_iter().enumerate() {
            job.predicted[place] = match place < usize::from(job.arity) {
                true if dice.percent(wrong) => dice.twin(right),
                true => right,
                false => height(dice),
            };
        }
    }
}

/// What each job finds in its cells: what its own run is handed when all jobs run one
/// after the other and report by the one rule (R176).
fn foreseen(heights: &[i32], jobs: &[Job]) -> Vec<[i32; 4]> {
    let mut record = Record::open(heights).unwrap();
    record.seal(0);
    let run = |(number, &job): (usize, &Job)| {
        record.insert(job);
        let (_, found) = record.step(0, number, NOTHING, 0);
        let Report { values, mark } = reported(&plain(&job), found);
        record.step(2, number, values, mark as u8);
        found
    };
    jobs.iter().enumerate().map(run).collect()
}

/// An outside job on cells that come up with it, which it maybe-writes, or have come up
/// before. Of the latter it mostly reads up to four or maybe-writes one or two; of a
/// hundred so many are written.
fn maybe_writer(dice: &mut Dice, number: usize, firsts: &[usize], writers: usize) -> Job {
    let mut cells: Vec<usize> = (0..firsts.len())
        .filter(|&cell| firsts[cell] <= number)
        .collect();
    dice.shuffle(&mut cells);
    cells.sort_by_key(|&cell| firsts[cell] != number);
    let (most, mostly) = dice.pick(&[(1, 2), (1, 2), (2, 2), (4, 0)]);
    cells.truncate(most);
    let mut accesses = [(0, 0); 4];
    for (place, &cell) in cells.iter().enumerate() {
        let mode = match firsts[cell] == number {
            true => 2,
            false if dice.percent(writers) => dice.pick(&[1, 3]),
            false => mostly,
        };
        accesses[place] = (cell as u8, mode);
    }
    Job {
        kind: 0,
        arity: cells.len() as u8,
        accesses,
        parameter: 0,
        predicted: [(); 4].map(|()| height(dice)),
    }
}

/// The job as `engine` has it.
pub(crate) fn plain(job: &Job) -> engine::Job {
    engine::Job {
        kind: u32::from(job.kind),
        p: job.parameter,
        accesses: accesses(job),
    }
}

/// R176: one fixed rule of the values handed to a run: the kind's result. An outside
/// job goes by a sum of all that it was handed: it may write or not, and writes the
/// heights that were there, all but one of them, or others. What was predicted is not
/// looked at: jobs that differ in that alone are the same.
pub fn reported(job: &engine::Job, handed: [i32; 4]) -> Report {
    let outside = |_| {
        let next = |sum: i32, value: &i32| sum.wrapping_mul(3).wrapping_add(*value);
        let sum = handed.iter().fold(job.p, next);
        let mut values = handed;
        match sum.rem_euclid(5) {
            0 | 1 => {}
            2 => values[sum.rem_euclid(4) as usize] ^= sum,
            _ => values = handed.map(|value| value.wrapping_add(sum)),
        }
        Report {
            values,
            mark: u32::from(job.has_maybe_write() && sum.rem_euclid(3) == 1),
        }
    };
    kinds::result(job.kind, job.p, handed).unwrap_or_else(outside)
}

/// Whether to look closely at a batch now: always where it has few jobs, now and
/// then where it has many and looking takes long.
pub fn worth_a_look(dice: &mut Dice, record: &Record) -> bool {
    record.job_count < 20 || dice.percent(5)
}

/// The start of a guess that would take from a fallen one.
fn start_behind_fallen(record: &Record) -> Option<Call> {
    let start = |job| Call::Step {
        number: 1,
        job,
        values: NOTHING,
        mark: 0,
    };
    let fallen = |source: u8| source > 0 && record.ask_job(usize::from(source) - 1).validity == 3;
    let held = 0..usize::from(record.job_count);
    let mut fitting = held.filter(|&job| fits(record, 1, job));
    let found = fitting.find(|&job| {
        let mut after = record.clone();
        start(job).on_record(&mut after).0 == 0 && after.runs[job].sources.into_iter().any(fallen)
    });
    found.map(start)
}

/// Whether the job is in the state for the step.
fn fits(record: &Record, number: u8, job: usize) -> bool {
    let idle = record.committed[job] == 0 && record.running[job] == 0;
    match number {
        0 => idle,
        1 => idle && record.phase[job] == 0,
        2 => record.running[job] == 1,
        3 => record.phase[job] == 1,
        _ => idle && record.phase[job] == 2,
    }
}

fn height(dice: &mut Dice) -> i32 {
    dice.range(-2000, 2000) as i32
}

/// One of the pool; any where that is empty.
fn height_of(dice: &mut Dice, pool: &[i32]) -> i32 {
    match pool {
        [] => height(dice),
        _ => dice.pick(pool),
    }
}

/// Half of the time no pool.
fn some_pool(dice: &mut Dice) -> Vec<i32> {
    match dice.percent(50) {
        true => Vec::new(),
        false => twins(dice),
    }
}

/// Two heights that are twins, sometimes with a third; many lie at the ends of the
/// range.
fn twins(dice: &mut Dice) -> Vec<i32> {
    let one = dice.pick(&[0, 1, 1500, -1500, i32::MAX, i32::MIN, i32::MIN + 1]);
    let other = dice.twin(one);
    match dice.below(4) {
        0 => vec![one, other, height(dice)],
        _ => vec![one, other],
    }
}
