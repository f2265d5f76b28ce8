//! Many plans, or many answers, in one stream: each as its length in bytes, in
//! base ten on a line of its own, and then exactly that many bytes.

use std::io::{self, BufRead, Write};

pub fn write(out: &mut impl Write, bytes: &[u8]) -> io::Result<()> {
    writeln!(out, "{}", bytes.len())?;
    out.write_all(bytes)
}

/// The next piece of the stream, or none at its end.
pub fn read(input: &mut impl BufRead) -> io::Result<Option<Vec<u8>>> {
    let mut line = String::new();
    if input.read_line(&mut line)? == 0 {
        return Ok(None);
    }
    let length: usize = line
        .trim_end_matches('\n')
        .parse()
        .map_err(|_| io::Error::new(io::ErrorKind::InvalidData, "a length was expected"))?;
    let mut bytes = vec![0; length];
    input.read_exact(&mut bytes)?;
    Ok(Some(bytes))
}
