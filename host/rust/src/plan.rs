//! A whole plan answered by the library.

use crate::layout;
use crate::raw;

/// How many bytes a buffer for the answer to a plan has to have (R153). No answer fills it.
pub const LONGEST_ANSWER: usize = 334_861;

/// What the program `gaugebatch` answers to the plan, byte for byte, from the proved library (R153). Any bytes get an answer; one
/// that is no plan gets its fault with the line: the fault's number is that of a [`Refusal`](crate::Refusal).
///
/// It allocates [`LONGEST_ANSWER`] bytes, and gives back those that the answer does not fill. It needs more stack than any other
/// call ([the crate's page](crate#stack) says how much).
///
/// ```
/// let plan = "\
/// cell value
/// 0 1500
/// 1 1480
/// kind p a b c
/// 4 1400 0 - -
/// 2 20 0 - -
/// guess
/// 1
/// step job
/// 0 0
/// 1 1
/// 3 1
/// 2 0
/// 4 1
/// ";
/// let answer = "\
/// step answer
/// 0 0
/// 1 0
/// 3 0
/// 2 0
/// 4 0
/// job how mark
/// 0 1 0
/// 1 2 0
/// cell value
/// 0 1520
/// 1 1480
/// ";
/// assert_eq!(sorghemi::answer(plan.as_bytes()), answer.as_bytes());
/// assert_eq!(sorghemi::answer(b""), b"fault line\n21 1\n");
/// ```
///
/// # Panics
///
/// If the program was linked with a library of another layout.
pub fn answer(plan: &[u8]) -> Vec<u8> {
    layout::require();
    let mut buffer = vec![0; LONGEST_ANSWER];
    // SAFETY: both pointers are valid for their lengths, and the buffer is this call's own.
    let answer = unsafe { raw::sorghemi_answer_plan(plan.as_ptr(), plan.len(), buffer.as_mut_ptr(), buffer.len()) };
    assert_eq!(answer.refusal, 0, "only a shorter buffer is refused");
    buffer.truncate(answer.length);
    buffer.shrink_to_fit();
    buffer
}
