//! What became of guesses: those of a batch, and those of many batches together.

use crate::layout;
use crate::raw;
use crate::refusal::Refusal;

/// How many jobs there are, and what became of their guesses (R75). [`Batch::tally`](crate::Batch::tally) has that of a batch.
///
/// A morning is two batches here: in the first the guess is kept, in the second it falls.
///
/// ```
/// use sorghemi::{Batch, Job, Tally};
///
/// # fn main() -> Result<(), sorghemi::Refusal> {
/// let mut tallies = Vec::new();
/// for height in [1500, 2900] {
///     let jobs = [Job::spike(0, 1, 1000), Job::shift(0, 20)];
///     let mut batch = Batch::open(&[height, 1480])?;
///     for job in jobs {
///         batch.insert(job)?;
///     }
///     batch.seal(true)?;
///     let tested = batch.start_own(0)?;
///     let guessed = batch.start_speculation(1)?;
///     batch.report_speculation(1, jobs[1].result(guessed)?)?;
///     batch.report_own(0, jobs[0].result(tested)?)?;
///     if batch.commit(1).is_err() {
///         let again = batch.start_own(1)?;
///         batch.report_own(1, jobs[1].result(again)?)?;
///     }
///     tallies.push(batch.tally());
/// }
/// let total = Tally::total(&tallies)?;
/// assert_eq!(total, Tally { jobs: 4, started: 2, kept: 1, discarded: 1, pending: 0 });
/// assert_eq!(total.kept_share(), Some(500)); // thousandths
/// # Ok(())
/// # }
/// ```
#[repr(C)]
#[derive(Clone, Copy, Debug, Default, PartialEq, Eq, Hash)]
pub struct Tally {
    /// The jobs.
    pub jobs: u32,
    /// The guesses that were started.
    pub started: u32,
    /// Those kept: their job is settled by them.
    pub kept: u32,
    /// Those thrown away.
    pub discarded: u32,
    /// Those still out or stored, of jobs that are not settled.
    pub pending: u32,
}

impl Tally {
    /// The tallies added up. Of none it is all zeros.
    ///
    /// Of tallies that batches gave, `started` is `kept`, `discarded` and `pending` together, in each and in the total (R177, R178).
    ///
    /// # Errors
    ///
    /// [`TOTAL_TOO_LARGE`](Refusal::TOTAL_TOO_LARGE) where one of the five totals does not fit 32 bits.
    /// [`OUT_OF_FORM`](Refusal::OUT_OF_FORM) if the program was linked with a library of another layout.
    pub fn total(tallies: &[Tally]) -> Result<Tally, Refusal> {
        layout::check()?;
        // SAFETY: the pointer is valid for the length, and the library only reads.
        let answer = unsafe { raw::sorghemi_total(tallies.as_ptr(), tallies.len()) };
        Refusal::check(answer.refusal)?;
        Ok(answer.tally)
    }

    /// How many thousandths of the guesses started were kept, rounded down; none where none was started (R77). A tally that a batch
    /// gave has at most 1000.
    ///
    /// ```
    /// # use sorghemi::Tally;
    /// assert_eq!(Tally { started: 3, kept: 2, ..Tally::default() }.kept_share(), Some(666));
    /// assert_eq!(Tally::default().kept_share(), None);
    /// ```
    ///
    /// # Panics
    ///
    /// If the program was linked with a library of another layout.
    pub fn kept_share(self) -> Option<u64> {
        layout::require();
        // SAFETY: a call by value.
        let share = unsafe { raw::sorghemi_kept_share(self) };
        share.present.then_some(share.thousandths)
    }
}
