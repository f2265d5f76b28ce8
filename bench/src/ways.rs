//! The ways of driving the proved engine with fewer calls than call by call.

use crate::batch::Batch;
use crate::drive::{drive, Drive, Watch};
use crate::proved::Lent;
use crate::subject::{Manner, Way};
use crate::turns::{drive_by_turns, prepare_by_list};

/// The jobs as one list, and then call by call.
struct Listed;

impl Manner for Listed {
    type Engine = Lent;

    fn drive(batch: &Batch, watch: &mut impl Watch) -> (Lent, Drive) {
        let mut engine = prepare_by_list(batch, watch);
        let drive = drive(&mut engine, batch, watch);
        (engine, drive)
    }
}

/// The jobs as one list, and then turns with a limit.
struct ByTurns<const LIMIT: usize>;

impl<const LIMIT: usize> Manner for ByTurns<LIMIT> {
    type Engine = Lent;

    fn drive(batch: &Batch, watch: &mut impl Watch) -> (Lent, Drive) {
        let mut engine = prepare_by_list(batch, watch);
        let drive = drive_by_turns(&mut engine, batch, LIMIT, watch);
        (engine, drive)
    }
}

pub fn all() -> Vec<Way> {
    vec![
        Way::of::<Listed>("proved, lent, inserted as a list"),
        Way::of::<ByTurns<1>>("proved, by turns of 1"),
        Way::of::<ByTurns<2>>("proved, by turns of 2"),
        Way::of::<ByTurns<4>>("proved, by turns of 4"),
        Way::of::<ByTurns<8>>("proved, by turns of 8"),
        Way::of::<ByTurns<16>>("proved, by turns of 16"),
    ]
}
