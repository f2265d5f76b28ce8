//! The batch engine for Rust hosts: a safe wrapper over the static library that is proved to meet its contracts.
//!
//! A batch holds cells (heights in millimetres) and jobs in the order of insertion. Workers take jobs when they are free; a
//! later job may run early as a guess (a *speculative* run), as if the uncertain jobs before it changed nothing, and the
//! guess is kept or thrown away. Further jobs may come in meanwhile, or when all is done ([`Batch::insert`]). Whatever the
//! order of the runs, the final heights are those of the counted reports applied in the order of insertion.
//!
//! Monday's batch: a spike test that mostly changes nothing, and a shift behind it.
//!
//! ```
//! use sorghemi::{Batch, Job, Report};
//!
//! # fn main() -> Result<(), sorghemi::Refusal> {
//! let mut batch = Batch::open(&[1500, 1480])?;
//! let spike = batch.insert(Job::spike(0, 1, 1000))?;
//! let shift = batch.insert(Job::shift(0, 20))?;
//! batch.seal(true)?;
//!
//! // The spike test is handed to one worker; another runs the shift as a guess.
//! assert_eq!(batch.start_own(spike)?, [1500, 1480, 0, 0]);
//! assert_eq!(batch.start_speculation(shift)?, [1500, 0, 0, 0]);
//! batch.report_speculation(shift, Report::of(&[1520]))?;
//!
//! // The test found nothing, so the guess stands and is settled without running the shift again.
//! batch.report_own(spike, Report::of(&[1500, 1480]))?;
//! batch.commit(shift)?;
//! assert!(batch.finished());
//! assert_eq!(batch.cells(), [1520, 1480]);
//! # Ok(())
//! # }
//! ```
//!
//! A call that the rules do not allow is refused and changes nothing. The refusal has a name, a number and words:
//!
//! ```
//! # use sorghemi::{Batch, Refusal};
//! let refusal = Batch::open(&[]).unwrap_err();
//! assert_eq!(refusal, Refusal::CELL_COUNT);
//! assert_eq!(refusal.number(), 1);
//! assert_eq!(refusal.to_string(), "refused with 1: a batch has 1 to 64 cells");
//! ```
//!
//! A host with threads puts one lock round its batch, and its workers take turns ([`Batch::turn`]); `examples/threads.rs` is such a
//! host, and host/README.md says what it has to know.
//!
//! # Stack
//!
//! A step touches 106 KB of stack, no other call on a batch more, and [`answer`] 119 KB (host/README.md has the figures). A
//! thread with 256 KiB has enough; Rust's have 2 MiB if nothing else is said.
#![warn(missing_docs)]

mod batch;
mod bytes;
mod job;
mod layout;
mod numbers;
mod plan;
pub mod raw;
mod refusal;
mod show;
mod tally;
mod turn;

pub use batch::{Batch, Choice, JobState, Jobs, Progress, Speculation};
pub use job::{Job, Report};
pub use layout::{library_layout, wrapper_layout};
pub use numbers::{Committed, Kind, Mode, Phase, Step, Validity};
pub use plan::{answer, LONGEST_ANSWER};
pub use raw::{Access, JobSet, Record, Run};
pub use refusal::{Refusal, RefusedJob};
pub use tally::Tally;
pub use turn::{RunReport, Taken, Turn, MOST_STEPS};

/// The example on the project's first page, tried with the others.
#[cfg(doctest)]
#[doc = include_str!("../../../README.md")]
struct FirstPage;
