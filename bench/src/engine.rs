//! What the benchmark asks of an engine.

use crate::batch::Job;

pub const START_OWN: u8 = 0;
pub const START_SPECULATION: u8 = 1;
pub const REPORT_OWN: u8 = 2;
pub const REPORT_SPECULATION: u8 = 3;
pub const COMMIT: u8 = 4;

/// An engine by the rules of docs/RULES.md. An answer is 0 if the call was
/// accepted, else the number of its refusal.
pub trait Engine {
    /// The size of the batch record, or none if it is spread over the heap.
    const RECORD_BYTES: Option<usize>;

    /// A batch on 1 to 64 cells.
    fn open(heights: &[i32]) -> Self;

    fn insert(&mut self, job: &Job) -> u8;

    fn seal(&mut self, speculating: u8) -> u8;

    /// Makes the step of that number, from 0 to 4. Values and `wrote` are those
    /// of a report and matter to steps 2 and 3 only; the values that go back
    /// are those handed out by steps 0 and 1.
    fn step(&mut self, number: u8, job: usize, values: [i32; 4], wrote: u8) -> (u8, [i32; 4]);

    /// The step number, the job and the length of its chain.
    fn choose(&self) -> Option<(u8, usize, u8)>;

    fn cell(&self, cell: usize) -> i32;
}
