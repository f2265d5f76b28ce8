//! Standard input and output by their descriptors. Rust's own handles take a closed descriptor for an empty input, or for an
//! output that swallows everything; here it is a failure, as any other.

use std::ffi::c_int;
use std::io::{self, Read, Write};

extern "C" {
    fn read(descriptor: c_int, buffer: *mut u8, size: usize) -> isize;
    fn write(descriptor: c_int, buffer: *const u8, size: usize) -> isize;
    fn close(descriptor: c_int) -> c_int;
    fn signal(number: c_int, handler: usize) -> usize;
}

const SIGPIPE: c_int = 13;
const SIG_IGN: usize = 1;

/// More than a plan may have: whatever follows, the answer is 22, and so nothing more is read (R154).
const MOST: u64 = 65_537;

/// A descriptor that the program was started with, open or not.
struct Descriptor(c_int);

/// What the system answered: a count of bytes, or the reason why there is none.
fn counted(answer: isize) -> io::Result<usize> {
    usize::try_from(answer).map_err(|_| io::Error::last_os_error())
}

impl Read for Descriptor {
    fn read(&mut self, buffer: &mut [u8]) -> io::Result<usize> {
        // SAFETY: the buffer is valid for its length. A descriptor that is not open is answered with an error.
        counted(unsafe { read(self.0, buffer.as_mut_ptr(), buffer.len()) })
    }
}

impl Write for Descriptor {
    fn write(&mut self, buffer: &[u8]) -> io::Result<usize> {
        // SAFETY: as above.
        counted(unsafe { write(self.0, buffer.as_ptr(), buffer.len()) })
    }

    fn flush(&mut self) -> io::Result<()> {
        Ok(())
    }
}

/// Writing into a pipe that nobody reads is to fail like any writing, and not to end the program unheard.
pub fn ignore_broken_pipes() {
    // SAFETY: no handler is given that could run.
    unsafe { signal(SIGPIPE, SIG_IGN) };
}

/// The plan on standard input.
pub fn read_input() -> io::Result<Vec<u8>> {
    read_plan(Descriptor(0))
}

/// A plan: all that stands there, or the first 65,537 bytes.
pub fn read_plan(source: impl Read) -> io::Result<Vec<u8>> {
    let mut plan = Vec::new();
    source.take(MOST).read_to_end(&mut plan)?;
    Ok(plan)
}

/// Writes all of it, once and for all: some systems tell of a full disk only on closing.
pub fn write_output(text: &[u8]) -> io::Result<()> {
    Descriptor(1).write_all(text)?;
    // SAFETY: nothing is written to it afterwards.
    match unsafe { close(1) } {
        0 => Ok(()),
        _ => Err(io::Error::last_os_error()),
    }
}

/// A message that cannot be written has nowhere else to go; the status tells the rest.
pub fn write_message(text: &[u8]) {
    let _ = Descriptor(2).write_all(text);
}
