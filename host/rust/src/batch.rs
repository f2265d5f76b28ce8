//! A batch that the host owns, and the calls on it.

use crate::job::{Job, Report};
use crate::layout;
use crate::numbers::{Committed, Phase, Step, Validity};
use crate::raw::{self, Inserted, JobList, Record, StepList};
use crate::refusal::{Refusal, RefusedJob};
use crate::tally::Tally;
use crate::turn::{RunReport, Turn};
use std::ops::Range;

/// A step worth taking next.
#[derive(Clone, Copy, Debug, PartialEq, Eq)]
pub struct Choice {
    /// `Commit`, `StartOwn` or `StartSpeculation`, in this order of preference.
    pub step: Step,
    /// The job.
    pub job: usize,
    /// The length of the longest chain of jobs, this one the first, in which each has a cell that the one before it may write (R22).
    pub chain: usize,
}

/// How a job stands.
#[derive(Clone, Copy, Debug, PartialEq, Eq)]
pub struct JobState {
    /// Whether it is settled, and how.
    pub committed: Committed,
    /// The mark of a settled job: whether its maybe-write cells were written. False before that.
    pub wrote: bool,
    /// Whether its own run is out.
    pub running: bool,
    /// The state of its guess.
    pub phase: Phase,
    /// How its guess is judged.
    pub validity: Validity,
    /// The values that its run was handed.
    pub handed: [i32; 4],
    /// The values of the report on it.
    pub reported: [i32; 4],
    /// The job as inserted.
    pub job: Job,
}

/// What is told of a set of jobs (R78).
#[derive(Clone, Copy, Debug, PartialEq, Eq)]
pub struct Jobs {
    /// How many there are.
    pub size: usize,
    /// The lowest number among them; none exactly where there are no jobs.
    pub lowest: Option<usize>,
}

/// What a job's guess looked past (R79). Both sets are empty where the job has no guess that is out or stored.
#[derive(Clone, Copy, Debug, PartialEq, Eq)]
pub struct Speculation {
    /// The jobs that it looked past, settled since or not.
    pub bypassed: Jobs,
    /// Those of them that are not settled: for these the guess still waits.
    pub open: Jobs,
}

/// How a batch stands.
#[derive(Clone, Copy, Debug, PartialEq, Eq)]
pub struct Progress {
    /// How many cells there are.
    pub cells: usize,
    /// How many jobs there are.
    pub jobs: usize,
    /// Whether the batch is sealed.
    pub sealed: bool,
    /// Whether guesses may be started.
    pub speculating: bool,
    /// Whether it is sealed and every job settled. A job that is inserted makes it false again.
    pub finished: bool,
}

/// A batch. A call that the rules do not allow is refused, and then changes nothing.
///
/// Its record is always in form: [`open`](Batch::open) makes it so, [`from_record`](Batch::from_record) checks it, nothing but the
/// library writes it, and every call keeps it in form (R91, R94). So no method refuses it with
/// [`OUT_OF_FORM`](Refusal::OUT_OF_FORM), and questions that only such a record would not answer have no error.
#[derive(Clone, PartialEq, Eq)]
pub struct Batch {
    record: Record,
}

/// Why an answer that only a record out of form would not give is there.
const IN_FORM: &str = "a batch is in form";

impl Batch {
    /// Opens a batch whose cells hold the heights, 1 to 64 of them.
    ///
    /// # Errors
    ///
    /// [`CELL_COUNT`](Refusal::CELL_COUNT). [`OUT_OF_FORM`](Refusal::OUT_OF_FORM) if the program was linked with a library of
    /// another layout.
    pub fn open(heights: &[i32]) -> Result<Batch, Refusal> {
        layout::check()?;
        let answer = unsafe { raw::sorghemi_open(heights.as_ptr(), heights.len()) };
        Refusal::check(answer.refusal)?;
        Ok(Batch { record: answer.batch })
    }

    /// A batch from a record that the host kept.
    ///
    /// # Errors
    ///
    /// [`OUT_OF_FORM`](Refusal::OUT_OF_FORM) where the record is, or if the program was linked with a library of another layout.
    pub fn from_record(record: Record) -> Result<Batch, Refusal> {
        layout::check()?;
        let batch = Batch { record };
        batch.progress()?;
        Ok(batch)
    }

    /// The record, to keep.
    pub fn record(&self) -> &Record {
        &self.record
    }

    /// Inserts the job as the last one, and tells its number, the next.
    ///
    /// It may be called at any moment: before [`seal`](Batch::seal) or after it, with runs out or all other jobs settled (R6). The
    /// batch is then not finished (R8). No run is disturbed, and no guess falls: the job is later than all others (R180).
    ///
    /// A correction that comes in when all is done:
    ///
    /// ```
    /// use sorghemi::{Batch, Job, Report, Step};
    ///
    /// # fn main() -> Result<(), sorghemi::Refusal> {
    /// let mut batch = Batch::open(&[1500])?;
    /// batch.insert(Job::shift(0, 20))?;
    /// batch.seal(true)?;
    /// batch.start_own(0)?;
    /// batch.report_own(0, Report::of(&[1520]))?;
    /// assert!(batch.finished());
    ///
    /// assert_eq!(batch.insert(Job::shift(0, 5))?, 1);
    /// assert!(!batch.finished());
    /// let choice = batch.choose()?;
    /// assert_eq!((choice.step, choice.job), (Step::StartOwn, 1));
    /// assert_eq!(batch.start_own(1)?, [1520, 0, 0, 0]);
    /// batch.report_own(1, Report::of(&[1525]))?;
    /// assert!(batch.finished());
    /// assert_eq!(batch.cells(), [1525]);
    /// # Ok(())
    /// # }
    /// ```
    ///
    /// # Errors
    ///
    /// [`TOO_MANY_JOBS`](Refusal::TOO_MANY_JOBS), [`ACCESS_COUNT`](Refusal::ACCESS_COUNT), [`NO_SUCH_CELL`](Refusal::NO_SUCH_CELL),
    /// [`NO_SUCH_MODE`](Refusal::NO_SUCH_MODE), [`CELL_TWICE`](Refusal::CELL_TWICE), [`WRONG_KIND`](Refusal::WRONG_KIND).
    pub fn insert(&mut self, job: Job) -> Result<usize, Refusal> {
        let answer = unsafe { raw::sorghemi_insert(self.record, job) };
        Refusal::check(answer.refusal)?;
        self.record = answer.batch;
        Ok(self.record.job_count as usize - 1)
    }

    /// Inserts the jobs of the list, one after the other, in one call, and tells their numbers. The first that is refused ends it:
    /// then no job is inserted (R25). It costs one check of the record and not one for each job.
    ///
    /// ```
    /// use sorghemi::{Batch, Job, Refusal, RefusedJob};
    ///
    /// # fn main() -> Result<(), sorghemi::Refusal> {
    /// let mut batch = Batch::open(&[1500, 1480])?;
    /// assert_eq!(batch.insert_all(&[Job::spike(0, 1, 1000), Job::shift(0, 20)])?, 0..2);
    ///
    /// // There is no cell 2, so the floor is not inserted either.
    /// let refused = RefusedJob { at: 1, refusal: Refusal::NO_SUCH_CELL };
    /// assert_eq!(batch.insert_all(&[Job::floor(0, 1400), Job::shift(2, 20)]), Err(refused));
    /// assert_eq!(batch.progress()?.jobs, 2);
    /// # Ok(())
    /// # }
    /// ```
    ///
    /// # Errors
    ///
    /// Those of [`insert`](Batch::insert), with the place of the job in the list. So of a list that is too long the first job that
    /// finds no place is refused with [`TOO_MANY_JOBS`](Refusal::TOO_MANY_JOBS), if none before it is refused.
    pub fn insert_all(&mut self, jobs: &[Job]) -> Result<Range<usize>, RefusedJob> {
        // Of more than 128 jobs the library looks at no more than 128, since there is a place for no more.
        let mut list = JobList { count: jobs.len(), jobs: [Job::outside(0, &[]); 128] };
        for (place, job) in list.jobs.iter_mut().zip(jobs) {
            *place = *job;
        }
        let first = self.record.job_count as usize;
        let Inserted { refusal, at } = unsafe { raw::sorghemi_insert_all(&mut self.record, &list) };
        Refusal::check(refusal).map_err(|refusal| RefusedJob { at: at as usize, refusal })?;
        Ok(first..self.record.job_count as usize)
    }

    /// Says, once for a batch, whether guesses may be started. Steps and choices come after it, and further jobs may (R7).
    ///
    /// # Errors
    ///
    /// [`SEALED`](Refusal::SEALED).
    pub fn seal(&mut self, guessing: bool) -> Result<(), Refusal> {
        let answer = unsafe { raw::sorghemi_seal(self.record, guessing as u8) };
        Refusal::check(answer.refusal)?;
        self.record = answer.batch;
        Ok(())
    }

    /// The step on the job, in the record where it stands. The values are those handed to a run that was started, and zeros
    /// otherwise. Only the two reporting steps look at the report.
    ///
    /// # Errors
    ///
    /// Those of the step's own method below.
    pub fn step(&mut self, step: Step, job: usize, report: Report) -> Result<[i32; 4], Refusal> {
        let handed = unsafe { raw::sorghemi_step(&mut self.record, step.number(), job, report) };
        Refusal::check(handed.refusal)?;
        Ok(handed.values)
    }

    /// The same step by value: the batch as it is after it, and the values.
    ///
    /// # Errors
    ///
    /// Those of [`step`](Batch::step).
    pub fn stepped(&self, step: Step, job: usize, report: Report) -> Result<(Batch, [i32; 4]), Refusal> {
        let started = unsafe { raw::sorghemi_step_by_value(self.record, step.number(), job, report) };
        Refusal::check(started.refusal)?;
        Ok((Batch { record: started.batch }, started.handed))
    }

    /// Starts the job's own run: the present heights of its cells. A guess of the job that has fallen is thrown away.
    ///
    /// # Errors
    ///
    /// [`NOT_SEALED`](Refusal::NOT_SEALED), [`NO_SUCH_JOB`](Refusal::NO_SUCH_JOB), [`WRONG_STATE`](Refusal::WRONG_STATE),
    /// [`MUST_WAIT`](Refusal::MUST_WAIT), [`GUESS_STANDS`](Refusal::GUESS_STANDS).
    pub fn start_own(&mut self, job: usize) -> Result<[i32; 4], Refusal> {
        self.step(Step::StartOwn, job, Report::default())
    }

    /// Starts the job's guess: heights as if the uncertain jobs before it changed nothing.
    ///
    /// # Errors
    ///
    /// [`NOT_SEALED`](Refusal::NOT_SEALED), [`NO_SUCH_JOB`](Refusal::NO_SUCH_JOB), [`GUESSING_OFF`](Refusal::GUESSING_OFF),
    /// [`WRONG_STATE`](Refusal::WRONG_STATE), [`JOB_READY`](Refusal::JOB_READY), [`MUST_WAIT`](Refusal::MUST_WAIT).
    pub fn start_speculation(&mut self, job: usize) -> Result<[i32; 4], Refusal> {
        self.step(Step::StartSpeculation, job, Report::default())
    }

    /// Reports on the job's own run: writes its cells and settles it.
    ///
    /// # Errors
    ///
    /// [`NOT_SEALED`](Refusal::NOT_SEALED), [`NO_SUCH_JOB`](Refusal::NO_SUCH_JOB), [`WRONG_STATE`](Refusal::WRONG_STATE),
    /// [`WRONG_MARK`](Refusal::WRONG_MARK).
    pub fn report_own(&mut self, job: usize, report: Report) -> Result<(), Refusal> {
        self.step(Step::ReportOwn, job, report).map(drop)
    }

    /// Reports on the job's guess: no cell changes.
    ///
    /// # Errors
    ///
    /// [`NOT_SEALED`](Refusal::NOT_SEALED), [`NO_SUCH_JOB`](Refusal::NO_SUCH_JOB), [`WRONG_STATE`](Refusal::WRONG_STATE),
    /// [`WRONG_MARK`](Refusal::WRONG_MARK). With several workers `WRONG_STATE` is no mistake: the guess was thrown away while
    /// one had it.
    pub fn report_speculation(&mut self, job: usize, report: Report) -> Result<(), Refusal> {
        self.step(Step::ReportSpeculation, job, report).map(drop)
    }

    /// Settles the job by its guess: writes the stored report into the cells.
    ///
    /// # Errors
    ///
    /// [`NOT_SEALED`](Refusal::NOT_SEALED), [`NO_SUCH_JOB`](Refusal::NO_SUCH_JOB), [`WRONG_STATE`](Refusal::WRONG_STATE),
    /// [`MUST_WAIT`](Refusal::MUST_WAIT), [`GUESS_FALLEN`](Refusal::GUESS_FALLEN).
    pub fn commit(&mut self, job: usize) -> Result<(), Refusal> {
        self.step(Step::Commit, job, Report::default()).map(drop)
    }

    /// The step worth taking next: a settling, else an own run, else a guess. Of the jobs that may take it the one with the longest
    /// [chain](Choice::chain), of several such the one with the fewest accesses, and of several such again the lowest. It is named and
    /// not taken; [`turn`](Batch::turn) takes such steps.
    ///
    /// # Errors
    ///
    /// [`NOT_SEALED`](Refusal::NOT_SEALED). [`NOTHING_TO_START`](Refusal::NOTHING_TO_START) where a report has to come first, or
    /// all is done; [`finished`](Batch::finished) tells which.
    pub fn choose(&self) -> Result<Choice, Refusal> {
        let choice = unsafe { raw::sorghemi_choose(self.record) };
        Refusal::check(choice.refusal)?;
        let step = Step::from_number(choice.step).expect("the chooser names a step");
        Ok(Choice { step, job: choice.job as usize, chain: choice.chain as usize })
    }

    /// A worker's turn: makes the report that it brings, if any, and then the step that [`choose`](Batch::choose) names, and this
    /// again and again, until as many steps are taken as the limit says, or [`MOST_STEPS`], or none is allowed (R64).
    ///
    /// Where it took fewer steps than the limit, and fewer than [`MOST_STEPS`], none is allowed before another report, or another
    /// job. With a limit of 0 the report alone is made. The batch is left as report and steps leave it call by call (R161).
    ///
    /// [`MOST_STEPS`]: crate::MOST_STEPS
    ///
    /// Monday's batch, the shift guessed while the spike test is out:
    ///
    /// ```
    /// use sorghemi::{Batch, Job, Report, RunReport, Step};
    ///
    /// # fn main() -> Result<(), sorghemi::Refusal> {
    /// let mut batch = Batch::open(&[1500, 1480])?;
    /// let (spike, shift) = (batch.insert(Job::spike(0, 1, 1000))?, batch.insert(Job::shift(0, 20))?);
    /// batch.seal(true)?;
    ///
    /// // Two workers are free, and there is a run for each.
    /// let turn = batch.turn(None, 2)?;
    /// let [test, guess] = turn.steps() else { panic!("{turn:?}") };
    /// assert_eq!((test.step, test.job, test.handed), (Step::StartOwn, spike, [1500, 1480, 0, 0]));
    /// assert_eq!((guess.step, guess.job, guess.handed), (Step::StartSpeculation, shift, [1500, 0, 0, 0]));
    ///
    /// // The shift is done first. It has to wait for the test, and so does its worker.
    /// let turn = batch.turn(Some(RunReport::Speculation(shift, Report::of(&[1520]))), 1)?;
    /// assert_eq!(turn.steps(), []);
    ///
    /// // The test found nothing, and so the shift is settled by its guess, in the same call.
    /// let turn = batch.turn(test.reporting(Report::of(&[1500, 1480])), 2)?;
    /// assert_eq!(turn.steps().len(), 1);
    /// assert_eq!((turn.steps()[0].step, turn.steps()[0].job), (Step::Commit, shift));
    /// assert!(batch.finished());
    /// assert_eq!(batch.cells(), [1520, 1480]);
    /// # Ok(())
    /// # }
    /// ```
    ///
    /// # Errors
    ///
    /// Those of the report, [`report_own`](Batch::report_own) or [`report_speculation`](Batch::report_speculation): then no step is
    /// taken either, and nothing is changed. Without a report [`NOT_SEALED`](Refusal::NOT_SEALED). That no step is allowed is no
    /// error.
    pub fn turn(&mut self, report: Option<RunReport>, limit: usize) -> Result<Turn, Refusal> {
        let (number, job, report) = match report.map(RunReport::parts) {
            Some((step, job, report)) => (step.number(), job, report),
            None => (raw::NO_REPORT, 0, Report::default()),
        };
        let mut steps = StepList::default();
        let turned = unsafe { raw::sorghemi_turn(&mut self.record, number, job, report, limit, &mut steps) };
        Refusal::check(turned.refusal)?;
        Ok(Turn::of(steps, turned.count))
    }

    /// The height of a cell.
    ///
    /// # Errors
    ///
    /// [`NO_SUCH_CELL`](Refusal::NO_SUCH_CELL).
    pub fn cell(&self, cell: usize) -> Result<i32, Refusal> {
        let answer = unsafe { raw::sorghemi_ask_cell(self.record, cell) };
        Refusal::check(answer.refusal)?;
        Ok(answer.height)
    }

    /// The heights of all cells.
    pub fn cells(&self) -> Vec<i32> {
        let mut heights = vec![0; self.record.cell_count as usize];
        self.copy_out(&mut heights, 0).expect(IN_FORM);
        heights
    }

    /// How a job stands.
    ///
    /// # Errors
    ///
    /// [`NO_SUCH_JOB`](Refusal::NO_SUCH_JOB).
    pub fn job(&self, job: usize) -> Result<JobState, Refusal> {
        let answer = unsafe { raw::sorghemi_ask_job(self.record, job) };
        Refusal::check(answer.refusal)?;
        Ok(JobState {
            committed: Committed::from_number(answer.committed).expect(IN_FORM),
            wrote: answer.wrote != 0,
            running: answer.running != 0,
            phase: Phase::from_number(answer.phase).expect(IN_FORM),
            validity: Validity::from_number(answer.validity).expect(IN_FORM),
            handed: answer.handed,
            reported: answer.reported,
            job: answer.job,
        })
    }

    /// What a job's guess looked past, and for which of these jobs it still waits.
    ///
    /// A shift behind two floors of its cell:
    ///
    /// ```
    /// use sorghemi::{Batch, Job, Jobs, Report};
    ///
    /// # fn main() -> Result<(), sorghemi::Refusal> {
    /// let mut batch = Batch::open(&[1500])?;
    /// for job in [Job::floor(0, 1400), Job::floor(0, 1450), Job::shift(0, 20)] {
    ///     batch.insert(job)?;
    /// }
    /// batch.seal(true)?;
    /// batch.start_speculation(2)?;
    /// let guess = batch.speculation(2)?;
    /// assert_eq!(guess.bypassed, Jobs { size: 2, lowest: Some(0) });
    /// assert_eq!(guess.open, guess.bypassed);
    ///
    /// // The first floor changed nothing: the guess waits for the second alone.
    /// batch.start_own(0)?;
    /// batch.report_own(0, Report::of(&[1500]))?;
    /// let guess = batch.speculation(2)?;
    /// assert_eq!(guess.bypassed, Jobs { size: 2, lowest: Some(0) });
    /// assert_eq!(guess.open, Jobs { size: 1, lowest: Some(1) });
    ///
    /// // The second floor has no guess.
    /// assert_eq!(batch.speculation(1)?.bypassed, Jobs { size: 0, lowest: None });
    /// # Ok(())
    /// # }
    /// ```
    ///
    /// # Errors
    ///
    /// [`NO_SUCH_JOB`](Refusal::NO_SUCH_JOB).
    pub fn speculation(&self, job: usize) -> Result<Speculation, Refusal> {
        let answer = unsafe { raw::sorghemi_ask_speculation(self.record, job) };
        Refusal::check(answer.refusal)?;
        let told = |set: raw::SetAnswer| Jobs { size: set.size as usize, lowest: set.present.then_some(set.lowest as usize) };
        Ok(Speculation { bypassed: told(answer.bypassed), open: told(answer.open) })
    }

    /// How the batch stands.
    ///
    /// # Errors
    ///
    /// None, since a batch is in form; the question is what [`from_record`](Batch::from_record) checks it by.
    pub fn progress(&self) -> Result<Progress, Refusal> {
        let answer = unsafe { raw::sorghemi_ask_batch(self.record) };
        Refusal::check(answer.refusal)?;
        Ok(Progress {
            cells: answer.cell_count as usize,
            jobs: answer.job_count as usize,
            sealed: answer.sealed != 0,
            speculating: answer.speculating != 0,
            finished: answer.finished,
        })
    }

    /// Whether the batch is sealed and every job settled (R8). It may become false again: [`insert`](Batch::insert) makes it so.
    pub fn finished(&self) -> bool {
        self.progress().expect(IN_FORM).finished
    }

    /// How many jobs the batch has, and what became of their guesses so far (R75). It may be asked at any time.
    pub fn tally(&self) -> Tally {
        let answer = unsafe { raw::sorghemi_ask_tally(self.record) };
        Refusal::check(answer.refusal).expect(IN_FORM);
        answer.tally
    }

    /// Copies the cells to the buffer's places from `at` on; all other places keep their values.
    ///
    /// # Errors
    ///
    /// [`BUFFER_TOO_SMALL`](Refusal::BUFFER_TOO_SMALL).
    pub fn copy_out(&self, buffer: &mut [i32], at: usize) -> Result<(), Refusal> {
        let number = unsafe { raw::sorghemi_copy_out(self.record, buffer.as_mut_ptr(), buffer.len(), at) };
        Refusal::check(number)
    }
}
