//! The engine in plain Rust over `&mut`: the same rules and refusals
//! (docs/RULES.md), but the record is trusted (no refusal 32), never copied, and
//! without proof.
//!
//! All state is in fixed arrays. A set of jobs is one word of 128 bits, so that
//! readiness is one mask, and a pass over the jobs touches only those in question.

use crate::batch::{modes, Access, Job, PREDICTED_WRITE, READ, UNCERTAIN_WRITE, WRITE};
use crate::engine::{self, Engine};

pub const MOST_CELLS: usize = 64;
pub const MOST_JOBS: usize = 128;

/// Bit j stands for job j.
type JobSet = u128;

fn only(job: usize) -> JobSet {
    1 << job
}

fn below(job: usize) -> JobSet {
    only(job) - 1
}

fn has(set: JobSet, job: usize) -> bool {
    set & only(job) != 0
}

/// The jobs of a set, lowest first.
fn members(mut set: JobSet) -> impl Iterator<Item = usize> {
    std::iter::from_fn(move || {
        if set == 0 {
            return None;
        }
        let job = set.trailing_zeros() as usize;
        set &= set - 1;
        Some(job)
    })
}

/// The jobs that use a cell, by the mode of their access.
#[derive(Clone, Copy, Default)]
struct CellUse {
    readers: JobSet,
    writers: JobSet,
    uncertain_writers: JobSet,
}

#[derive(Clone, Copy)]
struct Speculation {
    handed: [i32; 4],
    /// Uncertain writers that were taken not to write.
    bypassed: JobSet,
    /// Writers whose stored report was handed on.
    sources: JobSet,
}

#[derive(Clone, Copy)]
pub struct Plain {
    cells: [i32; MOST_CELLS],
    cell_count: usize,
    jobs: [Job; MOST_JOBS],
    job_count: usize,
    sealed: bool,
    speculating: bool,

    // These follow from the jobs; chain lengths are there once the batch is sealed.
    uses: [CellUse; MOST_CELLS],
    waits_for: [JobSet; MOST_JOBS],
    chain_lengths: [u8; MOST_JOBS],

    // A job's speculative run: what it was handed, and the same with what its
    // report writes in place. Nothing reads where the values came from but the
    // check of the record.
    handed: [[i32; 4]; MOST_JOBS],
    speculated: [[i32; 4]; MOST_JOBS],
    bypassed: [JobSet; MOST_JOBS],
    sources: [JobSet; MOST_JOBS],

    // What has become of the jobs and their runs.
    own_out: JobSet,
    speculation_started: JobSet,
    speculation_out: JobSet,
    speculation_stored: JobSet,
    speculation_wrote: JobSet,
    committed: JobSet,
    committed_by_speculation: JobSet,
    wrote: JobSet,
}

/// The lowest of refusals 4 to 8 that this job would get, or 0.
fn refusal_of_job(job: &Job, cell_count: usize) -> u8 {
    if !(1..=4).contains(&job.arity) {
        return 4;
    }
    let used = job.used();
    if used.iter().any(|access| access.cell as usize >= cell_count) {
        return 5;
    }
    if used.iter().any(|access| access.mode > PREDICTED_WRITE) {
        return 6;
    }
    let seen = used
        .iter()
        .fold(0u64, |cells, access| cells | 1 << access.cell);
    if seen.count_ones() as usize != used.len() {
        return 7;
    }
    let right_modes = match modes(job.kind) {
        Some(modes) => used
            .iter()
            .map(|access| access.mode)
            .eq(modes.iter().copied()),
        None => job.kind == 0,
    };
    if right_modes {
        0
    } else {
        8
    }
}

/// A predicted write is a write (R23).
fn surely_writes(access: &Access) -> bool {
    matches!(access.mode, WRITE | PREDICTED_WRITE)
}

fn writes(access: &Access, wrote: bool) -> bool {
    surely_writes(access) || (access.mode == UNCERTAIN_WRITE && wrote)
}

// Opening, inserting, sealing.
impl Plain {
    pub fn open(heights: &[i32]) -> Result<Plain, u8> {
        if heights.is_empty() || heights.len() > MOST_CELLS {
            return Err(1);
        }
        let mut cells = [0; MOST_CELLS];
        cells[..heights.len()].copy_from_slice(heights);
        Ok(Plain {
            cells,
            cell_count: heights.len(),
            jobs: [Job::default(); MOST_JOBS],
            job_count: 0,
            sealed: false,
            speculating: false,
            uses: [CellUse::default(); MOST_CELLS],
            waits_for: [0; MOST_JOBS],
            chain_lengths: [0; MOST_JOBS],
            handed: [[0; 4]; MOST_JOBS],
            speculated: [[0; 4]; MOST_JOBS],
            bypassed: [0; MOST_JOBS],
            sources: [0; MOST_JOBS],
            own_out: 0,
            speculation_started: 0,
            speculation_out: 0,
            speculation_stored: 0,
            speculation_wrote: 0,
            committed: 0,
            committed_by_speculation: 0,
            wrote: 0,
        })
    }

    pub fn insert(&mut self, job: &Job) -> Result<(), u8> {
        if self.job_count == MOST_JOBS {
            return Err(3);
        }
        match refusal_of_job(job, self.cell_count) {
            0 => {}
            refusal => return Err(refusal),
        }
        let number = self.job_count;
        let mut waits_for = 0;
        for access in job.used() {
            let uses = &mut self.uses[access.cell as usize];
            waits_for |= uses.writers | uses.uncertain_writers;
            if access.mode != READ {
                waits_for |= uses.readers;
            }
            match access.mode {
                READ => uses.readers |= only(number),
                WRITE | PREDICTED_WRITE => uses.writers |= only(number),
                _ => uses.uncertain_writers |= only(number),
            }
        }
        self.jobs[number] = *job;
        self.waits_for[number] = waits_for;
        self.job_count += 1;
        if self.sealed {
            self.compute_chain_lengths();
        }
        Ok(())
    }

    pub fn seal(&mut self, speculating: u8) -> Result<(), u8> {
        if self.sealed {
            return Err(2);
        }
        if speculating > 1 {
            return Err(9);
        }
        self.sealed = true;
        self.speculating = speculating == 1;
        self.compute_chain_lengths();
        Ok(())
    }

    /// One pass from the last job to the first: a chain goes on from the cells
    /// that a job may write, with any later use of them (R22, R24). So for each
    /// cell it is enough to know the longest chain that begins with a use of it.
    fn compute_chain_lengths(&mut self) {
        let mut with_a_use = [0u8; MOST_CELLS];
        for number in (0..self.job_count).rev() {
            let job = &self.jobs[number];
            let written = job.used().iter().filter(|access| access.mode != READ);
            let later = written.map(|access| with_a_use[access.cell as usize]).max();
            let length = 1 + later.unwrap_or(0);
            for access in job.used() {
                let longest = &mut with_a_use[access.cell as usize];
                *longest = length.max(*longest);
            }
            self.chain_lengths[number] = length;
        }
    }
}

// The rules between jobs.
impl Plain {
    fn is_ready(&self, job: usize) -> bool {
        self.waits_for[job] & !self.committed == 0
    }

    /// R43, of a ready job: its speculative run is out or stored, and was handed
    /// the present values.
    fn is_valid(&self, job: usize) -> bool {
        has(self.speculation_out | self.speculation_stored, job)
            && self.handed[job] == self.present_values(job)
    }

    fn present_values(&self, job: usize) -> [i32; 4] {
        let mut values = [0; 4];
        for (value, access) in values.iter_mut().zip(self.jobs[job].used()) {
            *value = self.cells[access.cell as usize];
        }
        values
    }

    /// The last writer of the cell among the earlier uncommitted jobs.
    fn nearest_writer(&self, job: usize, cell: u8) -> Option<usize> {
        let writers = self.uses[cell as usize].writers & below(job) & !self.committed;
        match writers {
            0 => None,
            _ => Some(MOST_JOBS - 1 - writers.leading_zeros() as usize),
        }
    }

    /// Whether each writer that the job would meet has a stored report.
    fn can_speculate(&self, job: usize) -> bool {
        self.jobs[job].used().iter().all(|access| {
            if access.mode == PREDICTED_WRITE {
                return true;
            }
            let writer = self.nearest_writer(job, access.cell);
            writer.map_or(true, |writer| has(self.speculation_stored, writer))
        })
    }

    /// The speculative run of a job that can speculate.
    fn speculate(&self, job: usize) -> Speculation {
        let earlier = below(job) & !self.committed;
        let mut handed = self.present_values(job);
        let mut bypassed = 0;
        let mut sources = 0;
        for (place, access) in self.jobs[job].used().iter().enumerate() {
            if access.mode == PREDICTED_WRITE {
                handed[place] = self.jobs[job].predicted[place];
                continue;
            }
            let mut between = self.uses[access.cell as usize].uncertain_writers & earlier;
            if let Some(writer) = self.nearest_writer(job, access.cell) {
                handed[place] = self.speculated_value(writer, access.cell);
                sources |= only(writer);
                between &= !below(writer);
            }
            bypassed |= between;
        }
        Speculation {
            handed,
            bypassed,
            sources,
        }
    }

    /// What the job's speculative run holds for one of its cells.
    fn speculated_value(&self, job: usize, cell: u8) -> i32 {
        let mut places = self.jobs[job].used().iter().zip(self.speculated[job]);
        places
            .find(|(access, _)| access.cell == cell)
            .map_or(0, |(_, value)| value)
    }

    fn write_and_commit(&mut self, job: usize, values: [i32; 4], wrote: bool) {
        for (access, value) in self.jobs[job].used().iter().zip(values) {
            if writes(access, wrote) {
                self.cells[access.cell as usize] = value;
            }
        }
        self.committed |= only(job);
        if wrote {
            self.wrote |= only(job);
        }
    }
}

// The steps. The checks of each stand in the order of the refusals' numbers.
impl Plain {
    fn check_any_step(&self, job: usize) -> Result<(), u8> {
        if !self.sealed {
            return Err(10);
        }
        if job >= self.job_count {
            return Err(11);
        }
        Ok(())
    }

    fn check_wrote(&self, job: usize, wrote: u8) -> Result<(), u8> {
        let may_write = |access: &Access| access.mode == UNCERTAIN_WRITE;
        match wrote {
            0 => Ok(()),
            1 if self.jobs[job].used().iter().any(may_write) => Ok(()),
            _ => Err(16),
        }
    }

    pub fn start_own(&mut self, job: usize) -> Result<[i32; 4], u8> {
        self.check_any_step(job)?;
        if has(self.committed | self.own_out, job) {
            return Err(13);
        }
        if !self.is_ready(job) {
            return Err(15);
        }
        if self.is_valid(job) {
            return Err(17);
        }
        // An invalid speculative run is discarded.
        self.speculation_out &= !only(job);
        self.speculation_stored &= !only(job);
        self.own_out |= only(job);
        Ok(self.present_values(job))
    }

    pub fn start_speculation(&mut self, job: usize) -> Result<[i32; 4], u8> {
        self.check_any_step(job)?;
        if !self.speculating {
            return Err(12);
        }
        if has(
            self.committed | self.own_out | self.speculation_started,
            job,
        ) {
            return Err(13);
        }
        if self.is_ready(job) {
            return Err(14);
        }
        if !self.can_speculate(job) {
            return Err(15);
        }
        let speculation = self.speculate(job);
        self.handed[job] = speculation.handed;
        self.speculated[job] = speculation.handed;
        self.bypassed[job] = speculation.bypassed;
        self.sources[job] = speculation.sources;
        self.speculation_started |= only(job);
        self.speculation_out |= only(job);
        Ok(speculation.handed)
    }

    pub fn report_own(&mut self, job: usize, values: [i32; 4], wrote: u8) -> Result<(), u8> {
        self.check_any_step(job)?;
        if !has(self.own_out, job) {
            return Err(13);
        }
        self.check_wrote(job, wrote)?;
        self.own_out &= !only(job);
        self.write_and_commit(job, values, wrote == 1);
        Ok(())
    }

    pub fn report_speculation(
        &mut self,
        job: usize,
        values: [i32; 4],
        wrote: u8,
    ) -> Result<(), u8> {
        self.check_any_step(job)?;
        if !has(self.speculation_out, job) {
            return Err(13);
        }
        self.check_wrote(job, wrote)?;
        let stored = &mut self.speculated[job];
        for (place, access) in self.jobs[job].used().iter().enumerate() {
            if writes(access, wrote == 1) {
                stored[place] = values[place];
            }
        }
        if wrote == 1 {
            self.speculation_wrote |= only(job);
        }
        self.speculation_out &= !only(job);
        self.speculation_stored |= only(job);
        Ok(())
    }

    pub fn commit(&mut self, job: usize) -> Result<(), u8> {
        self.check_any_step(job)?;
        if has(self.committed, job) || !has(self.speculation_stored, job) {
            return Err(13);
        }
        if !self.is_ready(job) {
            return Err(15);
        }
        if !self.is_valid(job) {
            return Err(18);
        }
        self.speculation_stored &= !only(job);
        self.committed_by_speculation |= only(job);
        let wrote = has(self.speculation_wrote, job);
        self.write_and_commit(job, self.speculated[job], wrote);
        Ok(())
    }
}

// The chooser, and asking.
impl Plain {
    /// Of these jobs the one with the longest chain; where chains tie the one with
    /// the fewest accesses, and the lowest of those (R61).
    fn preferred(&self, jobs: impl Iterator<Item = usize>) -> Option<(usize, u8)> {
        let mut best: Option<(usize, u8)> = None;
        for job in jobs {
            let length = self.chain_lengths[job];
            let goes_before = best.map_or(true, |(other, longest)| {
                let fewer = self.jobs[job].used().len() < self.jobs[other].used().len();
                length > longest || length == longest && fewer
            });
            if goes_before {
                best = Some((job, length));
            }
        }
        best
    }

    pub fn choose(&self) -> Result<(u8, usize, u8), u8> {
        if !self.sealed {
            return Err(10);
        }
        let all = match self.job_count {
            MOST_JOBS => JobSet::MAX,
            count => below(count),
        };
        let idle = all & !self.committed & !self.own_out;
        let mut ready = 0;
        let mut valid = 0;
        for job in members(idle) {
            if self.is_ready(job) {
                ready |= only(job);
                if self.is_valid(job) {
                    valid |= only(job);
                }
            }
        }
        let commits = members(ready & valid & self.speculation_stored);
        if let Some((job, length)) = self.preferred(commits) {
            return Ok((engine::COMMIT, job, length));
        }
        if let Some((job, length)) = self.preferred(members(ready & !valid)) {
            return Ok((engine::START_OWN, job, length));
        }
        if self.speculating {
            let waiting = members(idle & !ready & !self.speculation_started);
            let allowed = waiting.filter(|&job| self.can_speculate(job));
            if let Some((job, length)) = self.preferred(allowed) {
                return Ok((engine::START_SPECULATION, job, length));
            }
        }
        Err(19)
    }

    pub fn cell(&self, cell: usize) -> Result<i32, u8> {
        self.cells[..self.cell_count].get(cell).copied().ok_or(5)
    }

    /// How the job was committed (0 not yet, 1 by its own run, 2 by its
    /// speculative run), and whether it wrote.
    #[cfg(test)]
    pub fn job(&self, job: usize) -> Result<(u8, u8), u8> {
        if job >= self.job_count {
            return Err(11);
        }
        let how = u8::from(has(self.committed, job));
        let by_speculation = u8::from(has(self.committed_by_speculation, job));
        Ok((how + by_speculation, u8::from(has(self.wrote, job))))
    }

    /// R91: what is asked of a record before a call relies on it (32). The plain
    /// engine does without; `priced.rs` uses it to see what it costs.
    pub fn is_in_form(&self) -> bool {
        (1..=MOST_CELLS).contains(&self.cell_count)
            && self.job_count <= MOST_JOBS
            && (0..self.job_count).all(|job| {
                refusal_of_job(&self.jobs[job], self.cell_count) == 0
                    && (self.bypassed[job] | self.sources[job]) & !below(job) == 0
            })
    }
}

fn number<T>(answer: Result<T, u8>) -> u8 {
    answer.err().unwrap_or(0)
}

impl Engine for Plain {
    const RECORD_BYTES: Option<usize> = Some(std::mem::size_of::<Plain>());

    fn open(heights: &[i32]) -> Plain {
        Plain::open(heights).expect("1 to 64 cells")
    }

    fn insert(&mut self, job: &Job) -> u8 {
        number(self.insert(job))
    }

    fn seal(&mut self, speculating: u8) -> u8 {
        number(self.seal(speculating))
    }

    fn step(&mut self, step: u8, job: usize, values: [i32; 4], wrote: u8) -> (u8, [i32; 4]) {
        let started = match step {
            engine::START_OWN => self.start_own(job),
            engine::START_SPECULATION => self.start_speculation(job),
            engine::REPORT_OWN => return (number(self.report_own(job, values, wrote)), [0; 4]),
            engine::REPORT_SPECULATION => {
                return (number(self.report_speculation(job, values, wrote)), [0; 4])
            }
            engine::COMMIT => return (number(self.commit(job)), [0; 4]),
            other => panic!("{other} is no step"),
        };
        match started {
            Ok(handed) => (0, handed),
            Err(refusal) => (refusal, [0; 4]),
        }
    }

    fn choose(&self) -> Option<(u8, usize, u8)> {
        self.choose().ok()
    }

    fn cell(&self, cell: usize) -> i32 {
        self.cell(cell).expect("a cell of the batch")
    }
}

#[cfg(test)]
mod tests {
    use super::*;
    use crate::batch::report;

    fn batch(heights: &[i32], jobs: &[Job]) -> Plain {
        let mut batch = Plain::open(heights).ok().unwrap();
        for job in jobs {
            assert_eq!(batch.insert(job), Ok(()));
        }
        assert_eq!(batch.seal(1), Ok(()));
        batch
    }

    #[test]
    fn worked_plan() {
        let jobs = [Job::new(4, 1400, &[0]), Job::new(2, 20, &[0])];
        let mut batch = batch(&[1500, 1480], &jobs);
        let handed_0 = batch.start_own(0).unwrap();
        let handed_1 = batch.start_speculation(1).unwrap();
        assert_eq!((handed_0, handed_1), ([1500, 0, 0, 0], [1500, 0, 0, 0]));
        let (values, wrote) = report(&jobs[1], handed_1);
        assert_eq!(batch.report_speculation(1, values, wrote), Ok(()));
        assert_eq!(batch.cell(0), Ok(1500));
        let (values, wrote) = report(&jobs[0], handed_0);
        assert_eq!(batch.report_own(0, values, wrote), Ok(()));
        assert_eq!(batch.commit(1), Ok(()));
        assert_eq!((batch.job(0), batch.job(1)), (Ok((1, 0)), Ok((2, 0))));
        assert_eq!((batch.cell(0), batch.cell(1)), (Ok(1520), Ok(1480)));
        assert_eq!((batch.cell(2), batch.job(2)), (Err(5), Err(11)));
        assert_eq!(batch.choose(), Err(19));
    }

    #[test]
    fn example_p9() {
        let shift = Job::new(2, 20, &[0]);
        let mut batch = batch(&[1399], &[Job::new(4, 1400, &[0]), shift, shift]);
        assert_eq!(batch.choose(), Ok((0, 0, 3)));
        batch.start_own(0).unwrap();
        assert_eq!(batch.start_speculation(2), Err(15));
        for job in [1, 2] {
            assert_eq!(batch.choose(), Ok((1, job, 3 - job as u8)));
            let handed = batch.start_speculation(job).unwrap();
            let (values, wrote) = report(&shift, handed);
            assert_eq!(batch.report_speculation(job, values, wrote), Ok(()));
        }
        assert_eq!(batch.speculated[2][0], 1439);
        assert_eq!(batch.report_own(0, [1400, 0, 0, 0], 1), Ok(()));
        assert!(!batch.is_valid(1));
        assert_eq!((batch.commit(1), batch.commit(2)), (Err(18), Err(15)));
        assert_eq!(batch.start_own(2), Err(15));
        assert_eq!(batch.start_own(1), Ok([1400, 0, 0, 0]));
    }

    #[test]
    fn limits() {
        assert!(Plain::open(&[0; 64]).is_ok());
        assert!(matches!(Plain::open(&[0; 65]), Err(1)));
        assert!(matches!(Plain::open(&[]), Err(1)));
        let mut full = Plain::open(&[0; 64]).ok().unwrap();
        assert_eq!((full.choose(), full.start_own(0)), (Err(10), Err(10)));
        for _ in 0..MOST_JOBS {
            assert_eq!(full.insert(&Job::new(1, 0, &[63])), Ok(()));
        }
        assert_eq!(full.insert(&Job::new(1, 0, &[63])), Err(3));
        assert_eq!(full.seal(2), Err(9));
        assert_eq!(full.seal(0), Ok(()));
        assert_eq!(full.seal(0), Err(2));
        assert_eq!(full.insert(&Job::new(1, 0, &[63])), Err(3));
        assert_eq!(full.choose(), Ok((0, 0, 128)));
        assert_eq!(
            (full.start_speculation(127), full.commit(128)),
            (Err(12), Err(11))
        );
        let mut empty = Plain::open(&[0]).ok().unwrap();
        assert_eq!(empty.seal(1), Ok(()));
        assert_eq!(empty.choose(), Err(19));
    }
}
