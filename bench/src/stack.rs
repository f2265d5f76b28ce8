//! How much stack a call touches: the stack below is painted before the call,
//! and afterwards it is seen how far down the paint is gone.

use std::hint::black_box;

use crate::drive::{Watch, CALLS};

const PAINT: u64 = 0xC0FF_EE11_C0FF_EE11;
/// A mebibyte is painted for a call on a batch, and four for one that answers a plan.
const WORDS: usize = 1 << 17;
const MOST_WORDS: usize = 4 * WORDS;
/// Frames of different functions do not begin at quite the same address; words
/// this near to the far end of the paint are not looked at.
const MARGIN: usize = 64;

/// A thread that uses this watch needs a stack of this size.
pub const THREAD_BYTES: usize = 8 * MOST_WORDS * 2;

#[inline(never)]
fn paint<const WORDS: usize>() {
    let mut words = [PAINT; WORDS];
    black_box(&mut words);
}

/// Bytes from here down to the lowest word that is no longer painted.
#[inline(never)]
fn touched<const WORDS: usize>() -> usize {
    let here = 0u64;
    let top = black_box(&here) as *const u64 as usize;
    for word in (1..WORDS - MARGIN).rev() {
        let address = top - 8 * word;
        // SAFETY: `paint` has just had these pages as its frame, in this thread,
        // and a volatile read of any bytes as a number is harmless. Nothing else
        // than the pattern is made of them.
        if unsafe { std::ptr::read_volatile(address as *const u64) } != PAINT {
            return 8 * word;
        }
    }
    0
}

#[inline(never)]
fn apart<T>(call: impl FnOnce() -> T) -> T {
    call()
}

/// The stack that one call touches, which may be much.
#[cfg(feature = "proved")]
pub fn of<T>(call: impl FnOnce() -> T) -> usize {
    paint::<MOST_WORDS>();
    black_box(apart(call));
    touched::<MOST_WORDS>()
}

/// Measures every call's stack and keeps the deepest of each sort.
pub struct Stack {
    pub deepest: [usize; CALLS],
}

impl Stack {
    pub fn new() -> Stack {
        Stack {
            deepest: [0; CALLS],
        }
    }
}

impl Watch for Stack {
    fn call<T>(&mut self, which: usize, call: impl FnOnce() -> T) -> T {
        paint::<WORDS>();
        let answer = apart(call);
        self.deepest[which] = self.deepest[which].max(touched::<WORDS>());
        answer
    }
}
