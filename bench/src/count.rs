//! `count NAME` drives the benchmark's batch once by the proved library, and prints
//! how many calls of that name it made and how many bytes these copied. Each of them
//! is made in `counted_call`, so that callgrind can count their instructions and no
//! others (`--toggle-collect=counted_call`). `count` alone prints the names.

// The modules are the benchmark's, and not all of them is used here.
#![allow(dead_code)]

mod batch;
mod copies;
mod drive;
mod engine;
mod proved;
mod stack;
mod turns;

use std::hint::black_box;

use batch::{Batch, JOBS};
use drive::{drive, prepare, Unwatched, Watch, CALLS, CHOOSE, INSERT, INSERT_ALL, SEAL, TURN};
use engine::Engine;
use proved::Lent;
use sorghemi::MOST_STEPS;
use turns::{drive_by_turns, prepare_by_list};

/// No call of an engine: the batch from its opening to its last commit.
const WHOLE: usize = CALLS;

/// Drives the batch under a mark, and gives its cells at the end.
type Way = fn(&Batch, &mut Mark) -> Vec<i32>;

/// What is counted: its name, the number of its calls as a watch sees them, and the
/// way of driving that makes them.
const COUNTED: [(&str, usize, Way); 11] = [
    ("insert", INSERT, call_by_call),
    ("seal", SEAL, call_by_call),
    ("choose", CHOOSE, call_by_call),
    ("step 0", 0, call_by_call),
    ("step 1", 1, call_by_call),
    ("step 2", 2, call_by_call),
    ("step 3", 3, call_by_call),
    ("step 4", 4, call_by_call),
    ("insert all", INSERT_ALL, by_turns),
    ("turn", TURN, by_turns),
    ("batch", WHOLE, whole),
];

/// Under this name callgrind finds the calls that are counted.
#[no_mangle]
#[inline(never)]
pub fn counted_call(call: &mut dyn FnMut()) {
    black_box(call)()
}

/// Makes the calls of one number in `counted_call`.
struct Mark {
    which: usize,
    calls: u64,
    bytes: u64,
}

impl Watch for Mark {
    fn call<T>(&mut self, which: usize, call: impl FnOnce() -> T) -> T {
        if which != self.which {
            return call();
        }
        let mut call = Some(call);
        let mut answer = None;
        let before = copies::bytes();
        counted_call(&mut || answer = call.take().map(|call| call()));
        self.bytes += copies::bytes() - before;
        self.calls += 1;
        answer.expect("the call was made")
    }
}

fn driven(batch: &Batch, watch: &mut impl Watch) -> Lent {
    let mut engine = prepare(batch, watch);
    drive(&mut engine, batch, watch);
    engine
}

fn cells(engine: &impl Engine, batch: &Batch) -> Vec<i32> {
    let cells = 0..batch.heights.len();
    cells.map(|cell| engine.cell(cell)).collect()
}

fn call_by_call(batch: &Batch, mark: &mut Mark) -> Vec<i32> {
    cells(&driven(batch, mark), batch)
}

/// As many steps in a turn as there may be.
fn by_turns(batch: &Batch, mark: &mut Mark) -> Vec<i32> {
    let mut engine = prepare_by_list(batch, mark);
    drive_by_turns(&mut engine, batch, MOST_STEPS, mark);
    cells(&engine, batch)
}

fn whole(batch: &Batch, mark: &mut Mark) -> Vec<i32> {
    let engine = mark.call(WHOLE, || driven(batch, &mut Unwatched));
    cells(&engine, batch)
}

fn main() {
    let Some(name) = std::env::args().nth(1) else {
        COUNTED.iter().for_each(|(name, ..)| println!("{name}"));
        return;
    };
    let named = COUNTED.iter().find(|counted| counted.0 == name);
    let &(_, which, way) = named.expect("a name that is counted");
    assert!(copies::are_counted(), "another memcpy is linked");
    let batch = Batch::of(JOBS);
    let mut mark = Mark {
        which,
        calls: 0,
        bytes: 0,
    };
    assert_eq!(way(&batch, &mut mark), batch.in_order());
    println!("{} {}", mark.calls, mark.bytes);
}
