//! Inserting a list of jobs in one call (R25) on `record` and on `engine`: the cases that
//! the rule names and those at its edges, records out of form, and random lists into the
//! batches of random lists of calls, held against single inserts and the ledger.

mod worked;

use second_hand::engine;
use second_hand::joblists::{any_list, any_place, refused_job, Watch};
use second_hand::lists::{sound_job, Call, Manner};
use second_hand::plans::Dice;
use second_hand::record::{Inserted, Job, JobList, Record, Run};
use worked::Worked;

const ACCEPTED: Inserted = Inserted { refusal: 0, at: 0 };

fn refused(refusal: u8, at: u8) -> Inserted {
    Inserted { refusal, at }
}

fn job(kind: u8, parameter: i32, accesses: &[(u8, u8)]) -> Job {
    let mut job = Job {
        kind,
        parameter,
        arity: accesses.len() as u8,
        ..Job::default()
    };
    job.accesses[..accesses.len()].copy_from_slice(accesses);
    job
}

/// Shifts of cell 0, each by another distance, so that one is seen in the place of another.
fn shifts(count: usize) -> Vec<Job> {
    (0..count)
        .map(|by| job(2, by as i32 + 1, &[(0, 1)]))
        .collect()
}

/// Jobs of which each is refused with its number: of two cells, if there is room.
fn with_4() -> Job {
    job(0, 0, &[])
}

fn with_5() -> Job {
    job(0, 0, &[(2, 1)])
}

fn with_8() -> Job {
    job(7, 0, &[(0, 1)])
}

/// The list of these jobs, with such in the other places as are refused.
fn list(jobs: &[Job]) -> JobList {
    JobList::of(jobs, with_4)
}

impl Worked {
    /// A batch of two cells that holds so many jobs.
    fn holding(count: usize) -> Worked {
        let mut worked = Worked::open(&[1500, 1480]);
        for job in shifts(count) {
            assert_eq!(worked.make(&Call::Insert(job)).0, 0);
        }
        worked
    }

    /// Inserts the list in both, which answer alike, and enters it. A refused one changes
    /// nothing (R81), and the list stays as it is.
    fn insert_list(&mut self, list: &JobList) -> Inserted {
        let (before, lent) = (self.clone(), list.clone());
        let answer = self.record.insert_list(list);
        assert_eq!(list.on_batch(&mut self.batch), answer, "{list:?}");
        assert_eq!(*list, lent);
        if answer.refusal != 0 {
            assert!((&self.record, &self.batch) == (&before.record, &before.batch));
        }
        self.ledger.enter_list(list.named(), answer.refusal);
        answer
    }

    fn insert_jobs(&mut self, jobs: &[Job]) -> Inserted {
        self.insert_list(&list(jobs))
    }

    fn held(&self) -> usize {
        usize::from(self.record.job_count)
    }
}

/// R25's words: the jobs one after the other by single inserts, on a copy. The answer, and
/// what is there after it.
fn one_by_one(record: &Record, list: &JobList) -> (Inserted, Record) {
    let mut copy = record.clone();
    if !record.in_form() {
        return (refused(32, 0), copy);
    }
    for place in 0..list.count {
        // One without a place is only spoken of.
        let job = list.jobs.get(place).copied().unwrap_or_default();
        let refusal = copy.insert(job);
        if refusal != 0 {
            return (refused(refusal, place as u8), record.clone());
        }
    }
    (ACCEPTED, copy)
}

// ---------------------------------------------------------------------------
// Named cases

#[test]
fn an_empty_list() {
    for held in [0, 1, 127, 128] {
        let mut worked = Worked::holding(held);
        let before = worked.clone();
        assert_eq!(worked.insert_jobs(&[]), ACCEPTED);
        assert_eq!(worked.record, before.record);
        assert_eq!(worked.batch, before.batch);
        assert_eq!(worked.ledger.jobs.len(), held);
    }
    // R8: a finished batch stays so.
    let mut record = Record::open(&[0]).unwrap();
    record.seal(0);
    assert_eq!(record.insert_list(&list(&[])), ACCEPTED);
    assert!(record.ask_batch().finished);
}

#[test]
fn a_list_of_one() {
    let added = job(0, -9, &[(1, 3)]);
    let mut worked = Worked::holding(3);
    let mut single = worked.record.clone();
    assert_eq!(single.insert(added), 0);
    assert_eq!(worked.insert_jobs(&[added]), ACCEPTED);
    assert_eq!(worked.record, single);
    for (number, wrong) in [(4, with_4()), (5, with_5()), (8, with_8())] {
        assert_eq!(worked.insert_jobs(&[wrong]), refused(number, 0));
    }
}

#[test]
fn a_list_that_fills_the_batch() {
    for held in [1, 5, 64, 127] {
        let mut worked = Worked::holding(held);
        assert_eq!(worked.insert_jobs(&shifts(128 - held)), ACCEPTED);
        assert_eq!(worked.held(), 128);
        assert_eq!(worked.record.jobs[..held], shifts(held));
        assert_eq!(worked.record.jobs[held..], shifts(128 - held));
        assert_eq!(worked.record.insert(shifts(1)[0]), 3);
    }
}

#[test]
fn one_job_too_many() {
    for held in [1, 5, 64, 127, 128] {
        let mut worked = Worked::holding(held);
        let room = 128 - held;
        assert_eq!(
            worked.insert_jobs(&shifts(room + 1)),
            refused(3, room as u8)
        );
        assert_eq!(worked.held(), held);
        // Further ones do not matter.
        assert_eq!(
            worked.insert_jobs(&shifts(room + 12)),
            refused(3, room as u8)
        );
    }
}

#[test]
fn a_list_of_128_into_an_empty_batch() {
    let mut worked = Worked::holding(0);
    assert_eq!(worked.insert_jobs(&shifts(128)), ACCEPTED);
    assert_eq!(worked.record.jobs, shifts(128));
    assert_eq!(worked.batch.job_count(), 128);
    assert_eq!(worked.ledger.jobs.len(), 128);
}

#[test]
fn a_list_of_129_into_an_empty_batch() {
    let mut worked = Worked::holding(0);
    assert_eq!(worked.insert_jobs(&shifts(129)), refused(3, 128));
    // The last is ill-formed too: still 3 (R100).
    let mut jobs = shifts(129);
    jobs[128] = with_4();
    let plain: Vec<_> = jobs.iter().map(as_in_engine).collect();
    assert_eq!(worked.batch.insert_list(&plain), Err((3, 128)));
    assert_eq!(worked.insert_jobs(&jobs), refused(3, 128));
    // One before it is: its number.
    jobs[127] = with_8();
    assert_eq!(worked.insert_jobs(&jobs), refused(8, 127));
    assert_eq!(worked.held(), 0);
}

fn as_in_engine(job: &Job) -> engine::Job {
    let access = |&(cell, mode): &(u8, u8)| engine::Access::to(cell.into(), mode.into());
    engine::Job {
        kind: job.kind.into(),
        p: job.parameter,
        accesses: job.accesses[..job.arity.into()]
            .iter()
            .map(access)
            .collect(),
    }
}

#[test]
fn the_first_refused_job_decides() {
    let mut worked = Worked::holding(2);
    let mut jobs = shifts(5);
    (jobs[2], jobs[4]) = (with_5(), with_4());
    assert_eq!(worked.insert_jobs(&jobs), refused(5, 2));
    (jobs[2], jobs[4]) = (with_4(), with_5());
    assert_eq!(worked.insert_jobs(&jobs), refused(4, 2));
    (jobs[2], jobs[3], jobs[4]) = (with_8(), with_8(), with_8());
    assert_eq!(worked.insert_jobs(&jobs), refused(8, 2));
    jobs[0] = with_8();
    assert_eq!(worked.insert_jobs(&jobs), refused(8, 0));
}

#[test]
fn a_refused_job_before_the_room_ends_goes_before_3() {
    let mut worked = Worked::holding(125);
    let mut jobs = shifts(6);
    jobs[2] = with_8();
    assert_eq!(worked.insert_jobs(&jobs), refused(8, 2));
    (jobs[2], jobs[3]) = (jobs[0], with_8());
    assert_eq!(worked.insert_jobs(&jobs), refused(3, 3));
    (jobs[3], jobs[4]) = (jobs[0], with_8());
    assert_eq!(worked.insert_jobs(&jobs), refused(3, 3));
}

/// R25, R81; and a single insert of each of the good ones is accepted then.
#[test]
fn a_refused_list_changes_nothing() {
    let mut worked = Worked::holding(2);
    let mut jobs = shifts(5);
    jobs[3] = with_5();
    assert_eq!(worked.insert_jobs(&jobs), refused(5, 3));
    for place in [0, 1, 2, 4] {
        assert_eq!(worked.insert_jobs(&jobs[place..place + 1]), ACCEPTED);
    }
    let mut other = Worked::holding(2).record;
    for place in [0, 1, 2, 4] {
        assert_eq!(other.insert(jobs[place]), 0);
    }
    assert_eq!(worked.record, other);
    assert_eq!(other.insert(jobs[3]), 5);
}

/// What stands in places that are not in use stays where a list is refused, and is
/// overwritten where it is accepted (R92).
#[test]
fn places_not_in_use() {
    let mut record = Worked::holding(2).record;
    let run = Run {
        handed: [7; 4],
        reported: [-7; 4],
        wrote: 9,
        sources: [200; 4],
        bypassed: u128::MAX,
    };
    record.jobs[2..].fill(with_8());
    record.runs[2..].fill(run);
    for column in [
        &mut record.committed,
        &mut record.running,
        &mut record.phase,
    ] {
        column[2..].fill(77);
    }
    let before = record.clone();
    let mut jobs = shifts(4);
    jobs[3] = with_4();
    assert_eq!(record.insert_list(&list(&jobs)), refused(4, 3));
    assert_eq!(record, before);
    assert_eq!(record.insert_list(&list(&jobs[..3])), ACCEPTED);
    let mut due = before;
    due.job_count = 5;
    due.jobs[2..5].copy_from_slice(&jobs[..3]);
    due.runs[2..5].fill(Run::default());
    for column in [&mut due.committed, &mut due.running, &mut due.phase] {
        column[2..5].fill(0);
    }
    assert_eq!(record, due);
}

/// R6, R8: the batch is unfinished again, and its new jobs run.
#[test]
fn a_list_into_a_finished_batch() {
    let mut worked = Worked::holding(0);
    assert_eq!(worked.make(&Call::Seal(1)).0, 0);
    let finished = |worked: &Worked| {
        let finished = worked.record.ask_batch().finished;
        assert_eq!(worked.batch.finished(), finished);
        finished
    };
    let mut height = 1500;
    for settled in [0, 3] {
        assert!(finished(&worked));
        assert_eq!(worked.insert_jobs(&[shifts(1)[0], with_5()]), refused(5, 1));
        assert!(finished(&worked));
        assert_eq!(worked.insert_jobs(&shifts(3)), ACCEPTED);
        assert_eq!(worked.record.choose(), (0, 0, settled as u8, 3));
        for job in settled..settled + 3 {
            assert!(!finished(&worked));
            let step = |number, value| Call::Step {
                number,
                job,
                values: [value; 4],
                mark: 0,
            };
            assert_eq!(worked.make(&step(0, 0)), (0, [height, 0, 0, 0]));
            height += 1;
            assert_eq!(worked.make(&step(2, height)).0, 0);
        }
    }
    assert!(finished(&worked));
    assert_eq!(worked.record.ask_cell(0), (0, 1506));
}

/// Only the first jobs are there that the count says, and 3 comes before any other.
#[test]
fn counts_that_are_far_too_large() {
    let many = [
        129,
        255,
        256,
        256 + 2,
        1 << 32,
        (1 << 32) + 2,
        usize::MAX / 2,
        usize::MAX / 2 + 1,
        usize::MAX - 1,
        usize::MAX,
    ];
    for count in many {
        for held in [0, 1, 126, 127, 128] {
            let mut worked = Worked::holding(held);
            let mut list = JobList {
                count,
                jobs: shifts(128),
            };
            let room = 128 - held;
            assert_eq!(worked.insert_list(&list), refused(3, room as u8));
            if room > 0 {
                list.jobs[room - 1] = with_8();
                assert_eq!(worked.insert_list(&list), refused(8, room as u8 - 1));
            }
        }
    }
}

#[test]
fn places_past_the_count() {
    let mut dice = Dice::new(1, 25);
    for count in [0, 1, 2, 60, 127] {
        for held in [0, 1, 70, 128] {
            let worked = Worked::holding(held);
            let jobs = shifts(count);
            let due = {
                let mut worked = worked.clone();
                (worked.insert_jobs(&jobs), worked.record)
            };
            for _ in 0..20 {
                let mut worked = worked.clone();
                let list = JobList::of(&jobs, || any_place(&mut dice, 2));
                assert_eq!((worked.insert_list(&list), worked.record), due);
            }
        }
    }
}

/// R6, R3: held as given, with predictions and places not in use.
#[test]
fn jobs_are_held_as_given() {
    let mut odd = job(0, i32::MIN, &[(1, 3)]);
    odd.accesses[1..].copy_from_slice(&[(255, 255), (1, 3), (0, 9)]);
    odd.predicted = [i32::MAX, i32::MIN, -1, 1];
    let mut worked = Worked::holding(1);
    assert_eq!(worked.insert_jobs(&[odd, shifts(1)[0], odd]), ACCEPTED);
    assert_eq!(worked.record.jobs[1..4], [odd, shifts(1)[0], odd]);
    assert_eq!(worked.batch.job(3).unwrap().accesses[0].predicted, i32::MAX);
}

// ---------------------------------------------------------------------------
// Out of form

/// R132, R100: 32 before all others, whatever the list says, the empty one too; the place
/// is 0.
#[test]
fn out_of_form() {
    let damages: [fn(&mut Record); 14] = [
        |record| record.cell_count = 0,
        |record| record.cell_count = 65,
        |record| record.job_count = 129,
        |record| record.sealed = 2,
        |record| record.speculating = 2,
        |record| record.jobs[1].arity = 5,
        |record| record.jobs[1].accesses[0].0 = 2,
        |record| record.jobs[1].kind = 3,
        |record| record.committed[1] = 3,
        |record| record.running[1] = 2,
        |record| record.phase[1] = 4,
        |record| record.runs[1].wrote = 2,
        |record| record.runs[1].sources[3] = 2,
        |record| record.runs[1].bypassed = 2,
    ];
    let mut full = shifts(128);
    full[5] = with_4();
    let lists = [
        list(&[]),
        list(&shifts(1)),
        list(&[with_4()]),
        list(&full),
        JobList {
            count: usize::MAX,
            jobs: shifts(128),
        },
    ];
    for held in [2, 128] {
        for damage in damages {
            let mut record = Worked::holding(held).record;
            damage(&mut record);
            let before = record.clone();
            for list in &lists {
                assert_eq!(record.insert_list(list), refused(32, 0));
                assert_eq!(record, before);
            }
        }
    }
}

// ---------------------------------------------------------------------------
// Random lists

/// Each refused job is refused with its own number.
#[test]
fn refused_jobs() {
    let mut dice = Dice::new(1, 48);
    for cells in [1, 2, 3, 7, 63, 64] {
        let record = Record::open(&vec![0; cells]).unwrap();
        for number in 4..=8 {
            for _ in 0..500 {
                let job = refused_job(&mut dice, cells, number);
                assert_eq!(record.clone().insert(job), number, "{job:?}");
            }
        }
    }
}

/// A list into a batch on its way: R25's words by single inserts, and both engines.
fn try_list(worked: &mut Worked, list: &JobList, watch: &mut Watch) {
    let before = worked.record.clone();
    let (due, after) = one_by_one(&before, list);
    assert_eq!(worked.insert_list(list), due, "{list:?}");
    assert_eq!(worked.record, after);
    watch.inserted(&before, list, due);
    let asked = worked.record.ask_batch();
    if due.refusal == 0 && list.count > 0 {
        assert!(!asked.finished && !worked.batch.finished());
    }
    assert_eq!(usize::from(asked.job_count), worked.ledger.jobs.len());
    assert_eq!(worked.batch.job_count(), u32::from(asked.job_count));
}

/// Some lists are tried on copies, and with some the batch goes on. The ledger's claims
/// hold at the end (R161).
fn work(dice: &mut Dice, manner: &Manner, watch: &mut Watch) -> usize {
    let cells = manner.heights.len();
    let mut worked = Worked::open(&manner.heights);
    let list = any_list(dice, cells, 128);
    try_list(&mut worked.clone(), &list, watch);
    if dice.percent(30) {
        let count = 128 - dice.pick(&[0, 1, 2, 3, 5, 30, 127]);
        let jobs: Vec<Job> = (0..count).map(|_| sound_job(dice, cells)).collect();
        try_list(&mut worked, &JobList::of(&jobs, Job::default), watch);
    }
    for _ in 0..manner.calls().min(150) {
        let room = 128 - worked.held();
        if dice.percent(10) {
            let list = any_list(dice, cells, room);
            try_list(&mut worked.clone(), &list, watch);
        }
        if dice.percent(2) {
            // Not one that fills the batch each time.
            let list = any_list(dice, cells, room.min(6));
            try_list(&mut worked, &list, watch);
        }
        let call = manner.call(dice, &worked.record);
        worked.make(&call);
    }
    let cells = worked.batch.cells();
    let settled = |job| {
        let answer = worked.record.ask_job(job);
        (answer.committed, answer.wrote)
    };
    let jobs: Vec<(u8, u8)> = (0..worked.held()).map(settled).collect();
    worked.ledger.claim(&cells, &jobs);
    jobs.iter().filter(|job| job.0 != 0).count()
}

#[test]
fn random_lists() {
    let mut dice = Dice::new(1, 252);
    let (mut watch, mut settled) = (Watch::default(), 0);
    for _ in 0..500 {
        let manner = Manner::any(&mut dice);
        settled += work(&mut dice, &manner, &mut watch);
    }
    println!("{} lists, jobs settled {settled}", watch.lists);
    let lines = watch.lines();
    lines
        .iter()
        .for_each(|(what, times)| println!("{what}: {times}"));
    assert!(lines.iter().all(|&(_, times)| times > 0), "{lines:?}");
}
