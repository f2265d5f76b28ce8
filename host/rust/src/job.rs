//! Jobs and reports.

use crate::layout;
use crate::numbers::{Kind, Mode};
use crate::raw::{self, Access};
use crate::refusal::Refusal;

/// A job. The first `arity` accesses are in use, and their predictions where the mode is 3.
#[repr(C)]
#[derive(Clone, Copy, Debug, PartialEq, Eq)]
pub struct Job {
    /// The number of its [`Kind`].
    pub kind: u8,
    /// How many accesses there are.
    pub arity: u8,
    /// The accesses.
    pub accesses: [Access; 4],
    /// The kind's parameter.
    pub parameter: i32,
    /// A predicted height for each access ([`predicting`](Job::predicting)); with modes other than 3 it is kept and not looked
    /// at.
    pub predicted: [i32; 4],
}

impl Job {
    /// A job of the kind with the accesses. Of more than four the first four are kept, with their number, which inserting refuses.
    pub fn new(kind: u8, parameter: i32, accesses: &[(u8, Mode)]) -> Job {
        let mut kept = [Access { cell: 0, mode: 0 }; 4];
        for (place, &(cell, mode)) in kept.iter_mut().zip(accesses) {
            *place = Access { cell, mode: mode.number() };
        }
        let arity = accesses.len().min(255) as u8;
        Job { kind, arity, accesses: kept, parameter, predicted: [0; 4] }
    }

    /// The job, with a forecast: it writes the cell, and predicts that it will find the height there when its turn comes (R46).
    ///
    /// Its guess is handed the prediction and waits for nobody on account of this cell. Its own run is handed the cell itself,
    /// and a guess that was handed a wrong height falls, so a prediction may be wrong without harm. Only outside jobs may predict.
    ///
    /// The job's access to the cell becomes a [`PredictedWrite`](Mode::PredictedWrite), in its place and whatever its mode was.
    /// Where there is none it comes last; a fifth is not kept but counted, which inserting refuses.
    ///
    /// ```
    /// # use sorghemi::{Batch, Job, Mode, Report};
    /// # fn main() -> Result<(), sorghemi::Refusal> {
    /// let mut batch = Batch::open(&[1500, 12])?;
    /// let gauge = batch.insert(Job::outside(0, &[(0, Mode::Write)]))?;
    /// let table = batch.insert(Job::outside(0, &[(0, Mode::Write), (1, Mode::Read)]).predicting(0, 1510))?;
    /// batch.seal(true)?;
    ///
    /// // The table does not wait for the gauge: the forecast is 1510.
    /// assert_eq!(batch.start_own(gauge)?, [1500, 0, 0, 0]);
    /// assert_eq!(batch.start_speculation(table)?, [1510, 12, 0, 0]);
    /// batch.report_speculation(table, Report::of(&[1522, 12]))?;
    ///
    /// // The gauge says so too, and the guess is kept.
    /// batch.report_own(gauge, Report::of(&[1510]))?;
    /// batch.commit(table)?;
    /// assert_eq!(batch.cells(), [1522, 12]);
    /// # Ok(())
    /// # }
    /// ```
    pub fn predicting(mut self, cell: u8, height: i32) -> Job {
        let count = usize::from(self.arity);
        let place = self.accesses.iter().take(count).position(|access| access.cell == cell).unwrap_or(count);
        if place == count {
            self.arity = self.arity.saturating_add(1);
        }
        if let Some(access) = self.accesses.get_mut(place) {
            *access = Access { cell, mode: Mode::PredictedWrite.number() };
            self.predicted[place] = height;
        }
        self
    }

    /// A job whose result is the worker's own. The engine keeps its parameter, and makes nothing of it. Heights that it predicts
    /// are given by [`predicting`](Job::predicting); they are 0 else.
    pub fn outside(parameter: i32, accesses: &[(u8, Mode)]) -> Job {
        Job::new(Kind::Outside.number(), parameter, accesses)
    }

    /// The cell becomes the height.
    pub fn set(cell: u8, height: i32) -> Job {
        Job::new(Kind::Set.number(), height, &[(cell, Mode::Write)])
    }

    /// The cell grows by the distance, held at the end of the 32-bit range that it would pass.
    pub fn shift(cell: u8, distance: i32) -> Job {
        Job::new(Kind::Shift.number(), distance, &[(cell, Mode::Write)])
    }

    /// If the cell and its neighbour are further apart than the limit, the cell becomes the neighbour's height.
    pub fn spike(cell: u8, neighbour: u8, limit: i32) -> Job {
        Job::new(Kind::Spike.number(), limit, &[(cell, Mode::MaybeWrite), (neighbour, Mode::Read)])
    }

    /// If the cell is below the height, it becomes the height.
    pub fn floor(cell: u8, height: i32) -> Job {
        Job::new(Kind::Floor.number(), height, &[(cell, Mode::MaybeWrite)])
    }

    /// The cell becomes the mean of the two others. A half goes away from zero (R16).
    ///
    /// ```
    /// # use sorghemi::{Job, Report};
    /// let mean = Job::mean(0, 1, 2);
    /// assert_eq!(mean.result([0, 3, 4, 0]), Ok(Report::of(&[4, 3, 4])));
    /// assert_eq!(mean.result([0, -3, -4, 0]), Ok(Report::of(&[-4, -3, -4])));
    /// ```
    pub fn mean(cell: u8, one: u8, other: u8) -> Job {
        Job::new(Kind::Mean.number(), 0, &[(cell, Mode::Write), (one, Mode::Read), (other, Mode::Read)])
    }

    /// If the first cell is above the second, they are exchanged.
    pub fn pair(first: u8, second: u8) -> Job {
        Job::new(Kind::Pair.number(), 0, &[(first, Mode::MaybeWrite), (second, Mode::MaybeWrite)])
    }

    /// The kind by its name; none for a number that is no kind, which inserting refuses.
    pub fn named_kind(&self) -> Option<Kind> {
        Kind::from_number(self.kind)
    }

    /// What a worker reports of the values handed to a run of the job, as the rules of its kind say (R10 to R18). It looks at
    /// kind and parameter only.
    ///
    /// ```
    /// # use sorghemi::{Job, Mode, Refusal, Report};
    /// assert_eq!(Job::spike(0, 1, 1000).result([2900, 1500, 0, 0]), Ok(Report::written(&[1500, 1500])));
    /// assert_eq!(Job::outside(0, &[(0, Mode::Write)]).result([1; 4]), Err(Refusal::WRONG_KIND));
    /// ```
    ///
    /// # Errors
    ///
    /// [`WRONG_KIND`](Refusal::WRONG_KIND) where the kind is not 1 to 6: the result of an outside job is the worker's own.
    /// [`OUT_OF_FORM`](Refusal::OUT_OF_FORM) if the program was linked with a library of another layout.
    pub fn result(&self, handed: [i32; 4]) -> Result<Report, Refusal> {
        layout::check()?;
        // SAFETY: the four values are this call's own.
        let outcome = unsafe { raw::sorghemi_result(self.kind, self.parameter, &handed) };
        Refusal::check(outcome.refusal)?;
        Ok(Report { values: outcome.values, wrote: outcome.wrote })
    }
}

/// What a worker reports on a run.
#[repr(C)]
#[derive(Clone, Copy, Debug, Default, PartialEq, Eq)]
pub struct Report {
    /// A value for each access; those for cells not written are ignored.
    pub values: [i32; 4],
    /// The mark: 1 if the maybe-write cells were written, else 0.
    pub wrote: u8,
}

impl Report {
    /// A report with mark 0: the write cells get these values, the maybe-write cells were not written.
    pub fn of(values: &[i32]) -> Report {
        let mut report = Report::default();
        for (place, value) in report.values.iter_mut().zip(values) {
            *place = *value;
        }
        report
    }

    /// The same with mark 1: the maybe-write cells were written too.
    pub fn written(values: &[i32]) -> Report {
        Report { wrote: 1, ..Report::of(values) }
    }
}
