//! Drives a batch with fewer calls: its jobs inserted as one list, and its workers
//! by turns, each of which makes a report and takes the steps that follow.

use sorghemi::raw::StepList;
use sorghemi::MOST_STEPS;

use crate::batch::Batch;
use crate::drive::{Drive, Watch, Workers, INSERT_ALL, SEAL, TURN};
use crate::engine::Engine;
use crate::proved::Lent;

/// Opens the batch, inserts its jobs in one call and seals it.
pub fn prepare_by_list(batch: &Batch, watch: &mut impl Watch) -> Lent {
    let mut engine = Lent::open(&batch.heights);
    let answer = watch.call(INSERT_ALL, || engine.insert_all(&batch.jobs));
    assert_eq!(answer, 0, "insert all");
    assert_eq!(watch.call(SEAL, || engine.seal(1)), 0, "seal");
    engine
}

/// Drives a sealed batch until all its jobs are committed, with as many workers
/// as jobs. A turn that takes as many steps as its limit may have left some, and
/// so the next one brings no report. One that takes fewer has left none, and the
/// next reports the oldest run that is out. So the steps are those of `drive`.
pub fn drive_by_turns(
    engine: &mut Lent,
    batch: &Batch,
    limit: usize,
    watch: &mut impl Watch,
) -> Drive {
    let mut workers = Workers::of(batch);
    let mut steps = StepList::default();
    let mut report = None;
    while !workers.are_done() {
        let turned = watch.call(TURN, || engine.turn(report, limit, &mut steps));
        assert_eq!(turned.refusal, 0, "a turn with {report:?}");
        if let Some(report) = report {
            workers.reported(report);
        }
        let count = usize::from(turned.count);
        for taken in &steps.taken[..count] {
            workers.took(taken.step, usize::from(taken.job), taken.handed);
        }
        let left_none = count < limit.min(MOST_STEPS);
        report = (left_none && !workers.are_done()).then(|| workers.oldest_report());
    }
    workers.drive
}
