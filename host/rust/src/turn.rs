//! A worker's turn in one call: a report or none, and then the steps that the chooser names.

use crate::job::Report;
use crate::numbers::Step;
use crate::raw::{self, StepList};
use std::{fmt, slice};

/// How many steps a turn takes at the most, whatever its limit (R64).
pub const MOST_STEPS: usize = 16;

/// A worker's report on the run that it had, to be made in its turn: the job, and what is reported.
#[derive(Clone, Copy, Debug, PartialEq, Eq)]
pub enum RunReport {
    /// On the job's own run, as in [`report_own`](crate::Batch::report_own).
    Own(usize, Report),
    /// On the job's guess, as in [`report_speculation`](crate::Batch::report_speculation).
    Speculation(usize, Report),
}

impl RunReport {
    /// The step that it is, its job and the report itself.
    pub(crate) fn parts(self) -> (Step, usize, Report) {
        match self {
            RunReport::Own(job, report) => (Step::ReportOwn, job, report),
            RunReport::Speculation(job, report) => (Step::ReportSpeculation, job, report),
        }
    }
}

/// A step that a [turn](crate::Batch::turn) took.
#[derive(Clone, Copy, Debug, PartialEq, Eq)]
pub struct Taken {
    /// `Commit`, `StartOwn` or `StartSpeculation`.
    pub step: Step,
    /// The job.
    pub job: usize,
    /// The values handed to the run that was started, and zeros for `Commit`.
    pub handed: [i32; 4],
}

impl Taken {
    /// Whether a run was started, for a worker to do. (Else the job was settled, and there is nothing to be done.)
    pub fn is_run(&self) -> bool {
        self.step != Step::Commit
    }

    /// The report on the run that was started, for a later turn; none where the job was settled.
    pub fn reporting(&self, report: Report) -> Option<RunReport> {
        match self.step {
            Step::StartOwn => Some(RunReport::Own(self.job, report)),
            Step::StartSpeculation => Some(RunReport::Speculation(self.job, report)),
            _ => None,
        }
    }
}

/// The steps that a [turn](crate::Batch::turn) took, in their order.
#[derive(Clone, Copy, PartialEq, Eq)]
pub struct Turn {
    places: [Taken; MOST_STEPS],
    count: usize,
}

impl Turn {
    pub(crate) fn of(list: StepList, count: u8) -> Turn {
        let taken = |raw: raw::Taken| {
            let step = Step::from_number(raw.step).expect("a turn takes steps that there are");
            Taken { step, job: raw.job as usize, handed: raw.handed }
        };
        // In the places that are not counted stand zeros, which can be read as a step too.
        Turn { places: list.taken.map(taken), count: count as usize }
    }

    /// The steps.
    pub fn steps(&self) -> &[Taken] {
        &self.places[..self.count]
    }

    /// The runs among them: what workers have to do now.
    pub fn runs(&self) -> impl Iterator<Item = &Taken> {
        self.steps().iter().filter(|taken| taken.is_run())
    }
}

impl fmt::Debug for Turn {
    fn fmt(&self, f: &mut fmt::Formatter) -> fmt::Result {
        f.debug_tuple("Turn").field(&self.steps()).finish()
    }
}

impl<'a> IntoIterator for &'a Turn {
    type Item = &'a Taken;
    type IntoIter = slice::Iter<'a, Taken>;

    fn into_iter(self) -> Self::IntoIter {
        self.steps().iter()
    }
}
