//! Counting what was met, so that a case that never came up is seen.

/// Adds one to the times of what was met.
pub fn add<const COUNT: usize>(times: &mut [u64; COUNT], met: [bool; COUNT]) {
    times.iter_mut().zip(met).for_each(|(times, did)| *times += did as u64);
}

/// Prints how often each was met.
pub fn print(names: &[&str], times: &[u64]) {
    names.iter().zip(times).for_each(|(what, times)| println!("  {what}: {times}"));
}
