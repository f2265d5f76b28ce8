//! A batch worked by a list of calls (`second_hand::lists`) in three hands at once: the library, the second hand's record and
//! its other engine.

use crate::theirs::{given_job, Both};
use second_hand::lists::{Answer, Call};
use second_hand::turns::{List, Turn};
use second_hand::{engine, record};
use sorghemi::{Batch, Report};

#[derive(Clone)]
pub struct Hands {
    pub both: Both,
    pub third: engine::Batch,
}

impl Hands {
    pub fn open(heights: &[i32]) -> Hands {
        let both = Both::of(Batch::open(heights).unwrap().record());
        Hands { both, third: engine::Batch::open(heights).unwrap() }
    }

    /// Makes the call in all hands; they answer the same.
    pub fn make(&mut self, call: &Call) -> Answer {
        let answer = match *call {
            Call::Insert(job) => (self.both.insert(given_job(&job)), [0; 4]),
            Call::Seal(guessing) => (self.both.seal(guessing), [0; 4]),
            Call::Step { number, job, values, mark } => self.both.step(number, job, Report { values, wrote: mark }),
        };
        assert_eq!(answer, call.on_batch(&mut self.third), "{call:?} left {:?}", self.both.ours);
        answer
    }

    /// Inserts the list in all hands; they answer the same.
    #[allow(dead_code)] // Only tests/lists.rs does.
    pub fn insert_all(&mut self, list: &record::JobList) -> record::Inserted {
        let answer = self.both.insert_all(list);
        assert_eq!(answer, list.on_batch(&mut self.third), "insert {list:?} left {:?}", self.both.ours);
        answer
    }

    /// Makes the turn in all hands, with this in the lent list before it; they answer the same, and tell the same steps.
    #[allow(dead_code)] // Only tests/turns.rs does.
    pub fn turn(&mut self, turn: &Turn, lent: &List) -> (record::Turned, List) {
        let answer = self.both.turn(turn, lent);
        let mut list = *lent;
        let third = turn.on_batch(&mut self.third, &mut list);
        assert_eq!((third, list), answer, "{turn:?} left {:?}", self.both.ours);
        answer
    }
}
