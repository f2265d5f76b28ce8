//! `answers`: reads a stream of plans and writes the stream of their answers.

use std::io::{BufReader, BufWriter, Write};

use second_hand::{answer, frame};

fn main() -> std::io::Result<()> {
    let mut input = BufReader::new(std::io::stdin().lock());
    let mut out = BufWriter::new(std::io::stdout().lock());
    while let Some(plan) = frame::read(&mut input)? {
        frame::write(&mut out, &answer(&plan))?;
    }
    out.flush()
}
