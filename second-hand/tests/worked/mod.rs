//! One batch on both implementations, and its ledger.

use second_hand::engine::Batch;
use second_hand::ledger::Ledger;
use second_hand::lists::{Answer, Call};
use second_hand::record::Record;

#[derive(Clone)]
pub struct Worked {
    pub record: Record,
    pub batch: Batch,
    pub ledger: Ledger,
}

impl Worked {
    pub fn open(heights: &[i32]) -> Worked {
        Worked {
            record: Record::open(heights).unwrap(),
            batch: Batch::open(heights).unwrap(),
            ledger: Ledger::open(heights),
        }
    }

    /// Makes the call on both, which answer alike, and enters it.
    pub fn make(&mut self, call: &Call) -> Answer {
        let answer = call.on_record(&mut self.record);
        assert_eq!(call.on_batch(&mut self.batch), answer, "{call:?}");
        self.ledger.enter(call, answer);
        answer
    }
}
