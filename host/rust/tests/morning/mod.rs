//! A batch on its way: in all hands, and by what the calls alone say.

use crate::hands::Hands;
use second_hand::ledger::Ledger;
use second_hand::lists::Call;
use second_hand::record;

pub struct Morning {
    pub hands: Hands,
    pub ledger: Ledger,
}

impl Morning {
    pub fn open(heights: &[i32]) -> Morning {
        Morning { hands: Hands::open(heights), ledger: Ledger::open(heights) }
    }

    pub fn record(&self) -> &record::Record {
        &self.hands.both.theirs
    }

    /// Makes the call in all hands, which answer the same, and enters it.
    pub fn make(&mut self, call: &Call) -> u8 {
        let answer = self.hands.make(call);
        self.ledger.enter(call, answer);
        answer.0
    }
}
