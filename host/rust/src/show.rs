//! How a batch is shown for debugging: its cells and the jobs held, each in a few words.

use crate::batch::{Batch, JobState};
use crate::numbers::{Mode, Phase};
use std::fmt;

impl fmt::Debug for Batch {
    fn fmt(&self, f: &mut fmt::Formatter) -> fmt::Result {
        let record = self.record();
        f.debug_struct("Batch")
            .field("cells", &self.cells())
            .field("sealed", &(record.sealed != 0))
            .field("speculating", &(record.speculating != 0))
            .field("jobs", &Jobs(self))
            .finish()
    }
}

/// The jobs held, by their numbers.
struct Jobs<'a>(&'a Batch);

impl fmt::Debug for Jobs<'_> {
    fn fmt(&self, f: &mut fmt::Formatter) -> fmt::Result {
        let states = (0..).map_while(|number| self.0.job(number).ok().map(|state| (number, Held(state))));
        f.debug_map().entries(states).finish()
    }
}

/// A job, and then how it stands, as far as there is something to say.
struct Held(JobState);

impl fmt::Debug for Held {
    fn fmt(&self, f: &mut fmt::Formatter) -> fmt::Result {
        let JobState { committed, wrote, running, phase, validity, job, .. } = &self.0;
        if let Some(kind) = job.named_kind() {
            write!(f, "{kind:?} {}", job.parameter)?;
        }
        for (access, height) in job.accesses.iter().zip(job.predicted).take(job.arity as usize) {
            match Mode::from_number(access.mode) {
                Some(mode @ Mode::PredictedWrite) => write!(f, " {mode:?}({}, {height})", access.cell)?,
                Some(mode) => write!(f, " {mode:?}({})", access.cell)?,
                None => {}
            }
        }
        write!(f, ": {committed:?}")?;
        if *wrote {
            write!(f, ", wrote")?;
        }
        if *running {
            write!(f, ", running")?;
        }
        if *phase != Phase::NeverStarted {
            write!(f, ", speculation {phase:?} {validity:?}")?;
        }
        Ok(())
    }
}
