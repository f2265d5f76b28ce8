//! Records that somebody wrote into: valid ones on their way with some of their bytes changed, or with jobs in any state, that were
//! handed anything and looked past any jobs. Anything stands in places of jobs that are not in use.

use second_hand::plans::Dice;
use second_hand::turns::{self, Turn};
use second_hand::{engine, record};
use sorghemi::raw::{JobSet, Run};
use sorghemi::{Access, Batch, Job, Mode, Record, Report, Step};
use std::mem::{offset_of, size_of};

/// A small generator of random numbers, the same in every run.
pub struct Random(pub u64);

impl Random {
    pub fn below(&mut self, limit: usize) -> usize {
        self.0 ^= self.0 << 13;
        self.0 ^= self.0 >> 7;
        self.0 ^= self.0 << 17;
        (self.0 >> 11) as usize % limit
    }

    pub fn one_in(&mut self, chance: usize) -> bool {
        self.below(chance) == 0
    }

    pub fn height(&mut self) -> i32 {
        self.below(4000) as i32 - 2000
    }

    /// A number below the limit, and sometimes one that is not.
    pub fn around(&mut self, limit: usize) -> usize {
        match self.below(20) {
            0 => limit,
            1 => 255,
            2 => usize::MAX - self.below(2),
            _ => self.below(limit.max(1)),
        }
    }

    /// 128 bits.
    pub fn bits(&mut self) -> u128 {
        (0..4).fold(0, |bits, _| bits << 32 | self.below(1 << 32) as u128)
    }

    pub fn report(&mut self) -> Report {
        let wrote = if self.one_in(20) { self.below(256) as u8 } else { self.below(2) as u8 };
        Report { values: [(); 4].map(|_| self.height()), wrote }
    }

    /// A job on the cells that inserting mostly takes, with any predictions, and anything in places not in use.
    pub fn job(&mut self, cells: usize) -> Job {
        let mut job = self.job_without(cells);
        job.accesses[job.arity as usize..].fill_with(|| self.unused(cells));
        Job { predicted: [(); 4].map(|_| self.height()), ..job }
    }

    /// What stands in a place not in use: mostly what looks like an access in use.
    pub fn unused(&mut self, cells: usize) -> Access {
        match self.one_in(8) {
            true => Access { cell: self.below(256) as u8, mode: self.below(256) as u8 },
            false => Access { cell: self.below(cells) as u8, mode: self.below(4) as u8 },
        }
    }

    /// Of kind 0 with any accesses, or of another kind with its own modes.
    pub fn job_without(&mut self, cells: usize) -> Job {
        let mut left: Vec<u8> = (0..cells as u8).collect();
        let mut cell = || if left.is_empty() { 0 } else { left.swap_remove(self.below(left.len())) };
        let [a, b, c, d] = [(); 4].map(|()| cell());
        match self.below(10) {
            0 => Job::set(a, self.height()),
            1 | 2 => Job::shift(a, self.height()),
            3 => Job::spike(a, b, self.below(2000) as i32),
            4 => Job::floor(a, self.height()),
            5 => Job::mean(a, b, c),
            6 => Job::pair(a, b),
            _ => {
                let most = cells.min(4);
                let count = if self.one_in(3) { 1 + self.below(most) } else { most };
                Job::outside(0, &self.accesses([a, b, c, d])[..count])
            }
        }
    }

    /// Accesses of any mode, but the fourth is mostly no read, and often the only maybe-write.
    pub fn accesses(&mut self, cells: [u8; 4]) -> [(u8, Mode); 4] {
        let modes = [Mode::Read, Mode::Write, Mode::MaybeWrite, Mode::PredictedWrite];
        let lists = [[3, 3, 3, 3], [2, 2, 2, 3], [4, 4, 4, 4], [4, 4, 4, 4]][self.below(4)];
        let mut place = 0;
        cells.map(|cell| {
            let mode = modes[self.below(lists[place])];
            place += 1;
            let more = place == 4 && mode == Mode::Read && !self.one_in(4);
            (cell, if more { modes[1 + self.below(2)] } else { mode })
        })
    }
}

/// A valid record somewhere on its way, with some cells and jobs.
pub fn valid_record(random: &mut Random) -> Record {
    let cells = if random.one_in(10) { 64 } else { 1 + random.below(6) };
    let heights: Vec<i32> = (0..cells).map(|_| random.height()).collect();
    let jobs = if random.one_in(20) { 128 } else { random.below(24) };
    worked_record(&heights, jobs, random)
}

/// One with these heights and so many jobs: mostly sealed, after some steps of the chooser and some reports. Guesses are
/// reported before own runs half of the time, and mostly not settled at once, so that guesses stand on guesses.
pub fn worked_record(heights: &[i32], jobs: usize, random: &mut Random) -> Record {
    let mut batch = Batch::open(heights).unwrap();
    let cells = heights.len();
    for _ in 0..jobs {
        let _ = batch.insert(random.job(cells));
    }
    if random.one_in(20) {
        return *batch.record();
    }
    batch.seal(!random.one_in(8)).unwrap();
    let mut out = Vec::new();
    for _ in 0..random.below(3 * jobs + 1) {
        let choice = if random.one_in(3) { None } else { batch.choose().ok() };
        if let Some(choice) = choice.filter(|choice| choice.step != Step::Commit || random.one_in(4)) {
            let _ = batch.step(choice.step, choice.job, Report::default());
            if choice.step != Step::Commit {
                out.push((choice.step, choice.job));
            }
        } else if !out.is_empty() {
            let guess = out.iter().position(|&(start, _)| start == Step::StartSpeculation).filter(|_| random.one_in(2));
            let (start, job) = out.swap_remove(guess.unwrap_or(random.below(out.len())));
            let step = if start == Step::StartOwn { Step::ReportOwn } else { Step::ReportSpeculation };
            let report = Report { wrote: random.one_in(3) as u8, ..random.report() };
            // A job without mode 2 has mark 0.
            if batch.step(step, job, report).is_err() {
                let _ = batch.step(step, job, Report { wrote: 0, ..report });
            }
        }
    }
    *batch.record()
}

/// A byte of the record at random: of any place, or of a place in use, where it matters.
pub fn place(record: &Record, random: &mut Random) -> usize {
    let job = random.below(record.job_count.max(1) as usize);
    let (held, arity) = (offset_of!(Record, jobs) + job * size_of::<Job>(), record.jobs[job].arity.clamp(1, 4));
    match random.below(11) {
        0 | 1 => random.below(Record::SIZE),
        2 => random.below(offset_of!(Record, cells)),
        3 => held + random.below(size_of::<Job>()),
        8 | 9 => held + offset_of!(Job, accesses) + random.below(arity.into()) * size_of::<Access>() + offset_of!(Access, mode),
        10 => held + offset_of!(Job, predicted) + random.below(16),
        4 => offset_of!(Record, runs) + job * size_of::<Run>() + random.below(size_of::<Run>()),
        5 => offset_of!(Record, committed) + job,
        6 => offset_of!(Record, running) + job,
        _ => offset_of!(Record, phase) + job,
    }
}

/// The record with one to three of its bytes changed: to another number in its list, to any number, or in one bit.
pub fn damaged(record: &Record, random: &mut Random, place: fn(&Record, &mut Random) -> usize) -> Record {
    let mut bytes = record.to_bytes();
    for _ in 0..1 + random.below(3) {
        let byte = &mut bytes[place(record, random)];
        *byte = match random.below(3) {
            0 => random.below(5) as u8,
            1 => random.below(256) as u8,
            _ => *byte ^ (1 << random.below(8)),
        };
    }
    Record::from_bytes(&bytes)
}

/// The record with any states, marks, handed values and origins of its jobs that are in form, so that hardly a list of calls leads
/// there.
pub fn any_states(record: &Record, random: &mut Random) -> Record {
    let mut record = *record;
    for job in 0..record.job_count as usize {
        record.committed[job] = random.below(3) as u8;
        record.running[job] = random.below(2) as u8;
        record.phase[job] = random.below(4) as u8;
        let present = present(&record, job);
        let run = &mut record.runs[job];
        run.handed = any_handed(present, run.handed, random);
        run.wrote = random.one_in(4) as u8;
        run.sources = run.sources.map(|_| if random.one_in(6) { random.below(job + 1) as u8 } else { 0 });
        run.bypassed = JobSet { low: 0, high: 0 };
        for _ in 0..random.below(3).min(job) {
            let past = 1u128 << random.below(job);
            run.bypassed.low |= past as u64;
            run.bypassed.high |= (past >> 64) as u64;
        }
    }
    record
}

/// What stands in the cells of the job's four places; of a place not in use in any cell that it names, or 0.
pub fn present(record: &Record, job: usize) -> [i32; 4] {
    record.jobs[job].accesses.map(|access| record.cells.get(access.cell as usize).copied().unwrap_or(0))
}

/// Mostly what is there, or that with one place changed in one bit or in its sign; else what was handed, or anything.
pub fn any_handed(present: [i32; 4], handed: [i32; 4], random: &mut Random) -> [i32; 4] {
    let (mut values, place) = (present, random.below(4));
    match random.below(6) {
        0 => return handed,
        1 => return [(); 4].map(|()| random.height()),
        2 | 3 => values[place] ^= 1 << [0, 8, 16, 30, 31][random.below(5)],
        4 => values[place] = values[place].wrapping_neg(),
        _ => {}
    }
    values
}

/// Sets of jobs at the edges of two words. Each has to come up as what a guess looked past.
pub const EDGES: [(&str, u128); 8] = [
    ("no jobs", 0),
    ("job 0", 1),
    ("job 63", 1 << 63),
    ("job 64", 1 << 64),
    ("job 126", 1 << 126),
    ("jobs 63 and 64", 3 << 63),
    ("jobs 0 and 126", 1 | 1 << 126),
    ("jobs 0 to 126", (1 << 127) - 1),
];

/// A set of jobs before this one: one of EDGES, some of which only the last job can have; few, many, or those of one word alone.
pub fn any_set(job: usize, random: &mut Random) -> u128 {
    let bits = random.bits();
    let set = match random.below(6) {
        kind if kind < 2 || job == 127 => EDGES[random.below(EDGES.len())].1,
        2 => bits & random.bits() & random.bits() & random.bits(),
        3 => bits,
        4 => bits >> 64,
        _ => bits >> 64 << 64,
    };
    // Only jobs before it, or the record would be out of form.
    set & ((1 << job) - 1)
}

/// The record with any jobs looked past; the guesses mostly out or stored, and few jobs, many or all settled.
pub fn any_sets(record: &Record, random: &mut Random) -> Record {
    let mut record = *record;
    let settled = random.below(5);
    for job in 0..record.job_count as usize {
        let set = any_set(job, random);
        record.runs[job].bypassed = JobSet { low: set as u64, high: (set >> 64) as u64 };
        record.phase[job] = [0, 1, 1, 2, 2, 3][random.below(6)];
        record.committed[job] = if random.below(4) < settled { 1 + random.below(2) as u8 } else { 0 };
    }
    record
}

/// A byte that asking a guess looks at: of the jobs looked past, often the one with the bit of the job itself.
pub fn place_of_a_guess(record: &Record, random: &mut Random) -> usize {
    let job = random.below(record.job_count.max(1) as usize);
    let set = offset_of!(Record, runs) + job * size_of::<Run>() + offset_of!(Run, bypassed);
    match random.below(7) {
        0 => offset_of!(Record, job_count),
        1 => offset_of!(Record, committed) + job,
        2 => offset_of!(Record, phase) + job,
        3 => set + job / 8,
        _ => set + random.below(16),
    }
}

/// A turn on such a record, in form or not: mostly with the report of a run that is out, of what was handed or of other heights.
pub fn any_turn(dice: &mut Dice, record: &record::Record) -> Turn {
    let report = |dice: &mut Dice, job: usize| {
        let handed = record.runs.get(job).map_or([0; 4], |run| run.handed);
        let same = dice.pick(&[0, 50, 100]);
        let mut value = |value| if dice.percent(same) { value } else { dice.range(-2000, 2000) as i32 };
        engine::Report { values: handed.map(&mut value), mark: dice.below(2) as u32 }
    };
    let patient = dice.percent(30);
    turns::any_turn(dice, record, patient, report)
}
