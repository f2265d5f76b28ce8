//! `gaugebatch`: a plan from standard input, its answer to standard output (R140).

use std::io::{Read, Write};

fn main() -> std::io::Result<()> {
    // One byte over the limit is enough to know that the input is too long.
    let most = second_hand::plan::MOST_BYTES as u64 + 1;
    let mut input = Vec::new();
    std::io::stdin().lock().take(most).read_to_end(&mut input)?;
    let mut out = std::io::stdout().lock();
    out.write_all(&second_hand::answer(&input))?;
    out.flush()
}
