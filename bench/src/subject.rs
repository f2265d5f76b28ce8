//! The engines that are measured, the ways of driving them, and what is done with
//! each.

use std::hint::black_box;
use std::marker::PhantomData;

use crate::batch::Batch;
use crate::drive::{drive, prepare, replay, Drive, Step, Unwatched, Watch};
use crate::engine::Engine;
use crate::measure::Clock;
use crate::plain::Plain;
use crate::priced;
use crate::second::SecondHand;
use crate::stack::Stack;

/// How an engine is driven through the whole batch, from opening to the last commit.
pub trait Manner {
    type Engine: Engine;

    fn drive(batch: &Batch, watch: &mut impl Watch) -> (Self::Engine, Drive);
}

/// Jobs are inserted one by one, and each choice and each step is a call.
struct CallByCall<E>(PhantomData<E>);

impl<E: Engine> Manner for CallByCall<E> {
    type Engine = E;

    fn drive(batch: &Batch, watch: &mut impl Watch) -> (E, Drive) {
        let mut engine = prepare(batch, watch);
        let drive = drive(&mut engine, batch, watch);
        (engine, drive)
    }
}

/// A manner by its name, with what is measured of it.
#[derive(Clone, Copy)]
pub struct Way {
    pub name: &'static str,
    pub driven: fn(&Batch) -> Drive,
    /// Every call clocked by itself.
    pub clocked: fn(&Batch, &mut Clock),
    pub stacked: fn(&Batch, &mut Stack),
    pub cells_at_end: fn(&Batch) -> Vec<i32>,
}

fn driven<M: Manner>(batch: &Batch) -> Drive {
    let (engine, drive) = M::drive(batch, &mut Unwatched);
    black_box(engine);
    drive
}

fn watched<M: Manner, W: Watch>(batch: &Batch, watch: &mut W) {
    black_box(M::drive(batch, watch).1);
}

fn cells_at_end<M: Manner>(batch: &Batch) -> Vec<i32> {
    let (engine, _) = M::drive(batch, &mut Unwatched);
    let cells = 0..batch.heights.len();
    cells.map(|cell| engine.cell(cell)).collect()
}

impl Way {
    pub fn of<M: Manner>(name: &'static str) -> Way {
        Way {
            name,
            driven: driven::<M>,
            clocked: watched::<M, Clock>,
            stacked: watched::<M, Stack>,
            cells_at_end: cells_at_end::<M>,
        }
    }

    /// Whether it makes the steps that it should and ends with the cells of the
    /// batch run in order: no figure of a wrong engine is printed.
    pub fn is_right(&self, batch: &Batch, expected: &Drive) -> bool {
        (self.driven)(batch).is_like(expected) && (self.cells_at_end)(batch) == batch.in_order()
    }
}

/// An engine driven call by call.
#[derive(Clone, Copy)]
pub struct Subject {
    pub way: Way,
    pub record_bytes: Option<usize>,
    /// The same calls without choosing.
    pub replayed: fn(&Batch, &[Step]),
}

fn replayed<E: Engine>(batch: &Batch, steps: &[Step]) {
    let mut engine: E = prepare(batch, &mut Unwatched);
    replay(&mut engine, steps);
    black_box(engine);
}

impl Subject {
    fn of<E: Engine>(name: &'static str) -> Subject {
        Subject {
            way: Way::of::<CallByCall<E>>(name),
            record_bytes: E::RECORD_BYTES,
            replayed: replayed::<E>,
        }
    }
}

/// The first is the one that all are compared with.
pub fn subjects() -> Vec<Subject> {
    vec![
        Subject::of::<Plain>("plain, over &mut"),
        Subject::of::<priced::Checked>("plain, over &mut, record checked"),
        Subject::of::<priced::ByValue>("plain, by value"),
        #[cfg(feature = "proved")]
        Subject::of::<crate::proved::Lent>("proved, lent"),
        #[cfg(feature = "proved")]
        Subject::of::<crate::proved::ByValue>("proved, by value"),
        Subject::of::<SecondHand>("second hand"),
    ]
}

/// Ways with fewer calls, which the proved library alone has.
pub fn ways_with_fewer_calls() -> Vec<Way> {
    #[cfg(feature = "proved")]
    let ways = crate::ways::all();
    #[cfg(not(feature = "proved"))]
    let ways = Vec::new();
    ways
}

#[cfg(test)]
mod tests {
    use super::*;

    #[test]
    fn every_engine_makes_the_same_steps_and_ends_with_the_same_cells() {
        for jobs in [2, 3, 16, 32, 64, 128] {
            let batch = Batch::of(jobs);
            let expected = driven::<CallByCall<SecondHand>>(&batch);
            for Subject { way, replayed, .. } in subjects() {
                assert!(way.is_right(&batch, &expected), "{}", way.name);
                replayed(&batch, &expected.steps);
            }
            for way in ways_with_fewer_calls() {
                assert!(way.is_right(&batch, &expected), "{}", way.name);
            }
        }
    }

    #[test]
    fn another_drive_is_told() {
        let drive = driven::<CallByCall<Plain>>(&Batch::of(16));
        let other = |change: fn(&mut Drive)| {
            let mut other = drive.clone();
            change(&mut other);
            other
        };
        let by_turns = other(|drive| drive.chosen = None);
        assert!(by_turns.is_like(&drive) && drive.is_like(&by_turns) && drive.is_like(&drive));
        let wrong = [
            other(|drive| drive.steps.swap(0, 1)),
            other(|drive| drive.kept += 1),
            other(|drive| drive.started += 1),
            other(|drive| drive.chosen.as_mut().unwrap().chain_lengths += 1),
        ];
        assert!(wrong.iter().all(|wrong| !wrong.is_like(&drive)));
        assert!(wrong[..3].iter().all(|wrong| !by_turns.is_like(wrong)));
    }

    #[test]
    fn a_good_share_of_guesses_is_kept_and_a_good_share_is_not() {
        for jobs in [16, 32, 64, 128] {
            let drive = driven::<CallByCall<Plain>>(&Batch::of(jobs));
            assert!(drive.started * 2 > jobs, "{jobs} jobs: {}", drive.started);
            assert!(drive.kept * 4 > drive.started, "{jobs} jobs");
            assert!(drive.discarded() * 4 > drive.started, "{jobs} jobs");
        }
    }
}
