//! What a command writes, and the status that it ends with.

use crate::fault;
use crate::plan::{Contradiction, Faulty};

/// A plan at fault.
pub const FAULTY: u8 = 1;
/// The arguments are wrong, or reading or writing failed.
pub const FAILED: u8 = 2;
/// The program contradicts the library, which is a mistake in the program.
pub const CONTRADICTION: u8 = 3;

pub struct Answer {
    pub output: Vec<u8>,
    /// For standard error.
    pub message: String,
    pub status: u8,
}

pub fn quiet(output: impl Into<Vec<u8>>, status: u8) -> Answer {
    Answer { output: output.into(), message: String::new(), status }
}

/// Nothing can be made of a plan at fault; what is wrong goes to standard error, the library's answer first.
pub fn refused(input: &[u8], faulty: &Faulty) -> Answer {
    let answer = String::from_utf8_lossy(&faulty.answer);
    Answer { output: Vec::new(), message: format!("{answer}\n{}", fault::explained(input, faulty.fault)), status: FAULTY }
}

pub fn failed(message: &str) -> Answer {
    Answer { output: Vec::new(), message: format!("gaugeplan: {message}\n"), status: FAILED }
}

pub fn contradicted(contradiction: Contradiction) -> Answer {
    let message = format!("gaugeplan: a mistake in gaugeplan: {}\n", contradiction.0);
    Answer { output: Vec::new(), message, status: CONTRADICTION }
}
