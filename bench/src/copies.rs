//! The program's own memcpy, memmove and memset in place of the C library's, which
//! add up the bytes that they are asked for. What the C library runs differs from
//! one processor to the next; these do not, and callgrind names them, so that
//! their instructions can be left out.

use std::arch::asm;
use std::hint::black_box;
use std::sync::atomic::{AtomicU64, Ordering::Relaxed};

static BYTES: AtomicU64 = AtomicU64::new(0);

/// Bytes copied and filled since the program began.
pub fn bytes() -> u64 {
    // The compiler takes it that a copy changes nothing else, and might look earlier.
    black_box(&BYTES).load(Relaxed)
}

/// Whether a copy is counted, and not made by another memcpy.
pub fn are_counted() -> bool {
    let from = black_box(vec![7u8; 999]);
    let mut to = black_box(vec![0; from.len()]);
    let before = bytes();
    to.copy_from_slice(&from);
    bytes() - before == black_box(to).len() as u64
}

/// # Safety
/// As of the C library's.
#[no_mangle]
pub unsafe extern "C" fn memcpy(to: *mut u8, from: *const u8, bytes: usize) -> *mut u8 {
    BYTES.fetch_add(bytes as u64, Relaxed);
    // In assembly, since the compiler would make a call to memcpy of a loop.
    asm!(
        "rep movsb",
        inout("rcx") bytes => _, inout("rdi") to => _, inout("rsi") from => _,
        options(nostack, preserves_flags)
    );
    to
}

/// # Safety
/// As of the C library's.
#[no_mangle]
pub unsafe extern "C" fn memmove(to: *mut u8, from: *const u8, bytes: usize) -> *mut u8 {
    if (to as usize).wrapping_sub(from as usize) >= bytes {
        return memcpy(to, from, bytes);
    }
    BYTES.fetch_add(bytes as u64, Relaxed);
    // The end of `from` would be written over before it is read: from the last byte down.
    asm!(
        "std", "rep movsb", "cld",
        inout("rcx") bytes => _,
        inout("rdi") to.wrapping_add(bytes).wrapping_sub(1) => _,
        inout("rsi") from.wrapping_add(bytes).wrapping_sub(1) => _,
        options(nostack)
    );
    to
}

/// # Safety
/// As of the C library's.
#[no_mangle]
pub unsafe extern "C" fn memset(to: *mut u8, byte: i32, bytes: usize) -> *mut u8 {
    BYTES.fetch_add(bytes as u64, Relaxed);
    asm!(
        "rep stosb",
        inout("rcx") bytes => _, inout("rdi") to => _, in("al") byte as u8,
        options(nostack, preserves_flags)
    );
    to
}
