//! A second `gaugebatch`, by a hand that had not read the first. It is meant to be
//! compared with the first one, so it is plain rather than fast, and the numbers of
//! the rules (docs/RULES.md) stand where they are carried out.

pub mod choosing;
pub mod engine;
pub mod former;
pub mod frame;
pub mod joblists;
pub mod judging;
pub mod kinds;
pub mod ledger;
pub mod lists;
pub mod picks;
pub mod plan;
pub mod plans;
pub mod predictions;
pub mod record;
pub mod sets;
pub mod tally;
pub mod turns;

/// The whole output of the program for one whole input.
pub fn answer(input: &[u8]) -> Vec<u8> {
    match plan::read(input) {
        Err(fault) => plan::write_fault(fault),
        Ok(plan) => plan::write_outcome(&plan::run(plan)),
    }
}

/// R153: as many places a lent buffer needs.
pub const ANSWER_PLACES: usize = 334_861;

/// R153: the answer to a lent plan comes to stand at the beginning of a lent buffer,
/// and all other places keep what they hold: 0 and the answer's length. R120, R81:
/// or 20 and 0, and the whole buffer stays.
pub fn answer_plan(plan: &[u8], buffer: &mut [u8]) -> (u32, usize) {
    if buffer.len() < ANSWER_PLACES {
        return (20, 0);
    }
    let answer = answer(plan);
    buffer[..answer.len()].copy_from_slice(&answer);
    (0, answer.len())
}
