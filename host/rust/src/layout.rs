//! The sizes and offsets of the structs, here and as the library was built: a host that was built against another version is
//! refused before the library touches its record.

use crate::job::{Job, Report};
use crate::raw::*;
use crate::refusal::Refusal;
use crate::tally::Tally;
use std::mem::{offset_of, size_of};
use std::sync::OnceLock;

macro_rules! places {
    ($list:ident: $($name:ident { $($field:ident),* })*) => {
        $( $list.push(size_of::<$name>() as u32); $( $list.push(offset_of!($name, $field) as u32); )* )*
    };
}

/// The list as this crate has it: a version, then of each struct its size and the offsets of its fields, in bytes.
pub fn wrapper_layout() -> Vec<u32> {
    let mut list = vec![7];
    places! { list:
        Record { cell_count, job_count, sealed, speculating, cells, jobs, runs, committed, running, phase }
        Run { handed, reported, wrote, sources, bypassed }
        JobSet { low, high }
        Job { kind, arity, accesses, parameter, predicted }
        Access { cell, mode }
        Report { values, wrote }
        Handed { refusal, values }
        Started { refusal, handed, batch }
        Answer { refusal, batch }
        Choice { refusal, step, job, chain }
        CellAnswer { refusal, height }
        JobAnswer { refusal, committed, wrote, running, phase, validity, handed, reported, job }
        BatchAnswer { refusal, cell_count, job_count, sealed, speculating, finished }
        Outcome { refusal, values, wrote }
        PlanAnswer { refusal, length }
        Tally { jobs, started, kept, discarded, pending }
        TallyAnswer { refusal, tally }
        ShareAnswer { present, thousandths }
        SetAnswer { size, present, lowest }
        SpeculationAnswer { refusal, bypassed, open }
        JobList { count, jobs }
        Inserted { refusal, at }
        Taken { step, job, handed }
        StepList { taken }
        Turned { refusal, count }
    }
    list
}

/// The list as the library has it, with the first `count` places and the one after them, which is 0 where the list ends.
pub fn library_layout(count: usize) -> Vec<u32> {
    (0..=count).map(|place| unsafe { sorghemi_layout(place) }).collect()
}

/// Whether the library's list is this one and ends with it.
fn is_same(ours: &[u32], library: &[u32]) -> bool {
    library.split_last() == Some((&0, ours))
}

/// Refuses a library that was not built with these structs. It is asked once.
pub(crate) fn check() -> Result<(), Refusal> {
    static SAME: OnceLock<bool> = OnceLock::new();
    let same = *SAME.get_or_init(|| {
        let ours = wrapper_layout();
        is_same(&ours, &library_layout(ours.len()))
    });
    if same {
        Ok(())
    } else {
        Err(Refusal::OUT_OF_FORM)
    }
}

/// The same for a call that has no refusal to give.
pub(crate) fn require() {
    check().expect("the library that was linked has this layout");
}

#[cfg(test)]
mod tests {
    use super::*;

    #[test]
    fn another_layout_is_told() {
        let ours = wrapper_layout();
        let library = library_layout(ours.len());
        assert!(is_same(&ours, &library));
        for place in 0..library.len() {
            let mut other = library.clone();
            other[place] += 1;
            assert!(!is_same(&ours, &other), "place {place}");
        }
        assert!(!is_same(&ours[1..], &library));
    }
}
