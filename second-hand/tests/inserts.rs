//! What is claimed of a job that is added, R179 to R181, after the calls of random
//! lists, on `record` and on `engine`.

use second_hand::engine::{self, Batch, Guess, Settled};
use second_hand::lists::{sound_job, worth_a_look, Answer, Call, Manner};
use second_hand::plans::Dice;
use second_hand::record::{BatchAnswer, Job, JobAnswer, Record};

/// One batch on both implementations.
#[derive(Clone, PartialEq)]
struct Both {
    record: Record,
    batch: Batch,
}

/// All that asking a record answers.
#[derive(PartialEq, Debug)]
struct Asked {
    batch: BatchAnswer,
    cells: Vec<(u8, i32)>,
    jobs: Vec<JobAnswer>,
}

/// What `engine` tells of a job: as inserted, how it is settled, how its guess is
/// judged, its guess, and what its own run was handed.
type Told = (engine::Job, Settled, u32, Option<Guess>, Option<[i32; 4]>);

impl Both {
    fn open(heights: &[i32]) -> Both {
        Both {
            record: Record::open(heights).unwrap(),
            batch: Batch::open(heights).unwrap(),
        }
    }

    fn make(&mut self, call: &Call) -> Answer {
        let answer = call.on_record(&mut self.record);
        assert_eq!(call.on_batch(&mut self.batch), answer, "{call:?}");
        answer
    }

    fn asked(&self) -> Asked {
        let record = &self.record;
        let cells = 0..usize::from(record.cell_count);
        let jobs = 0..usize::from(record.job_count);
        Asked {
            batch: record.ask_batch(),
            cells: cells.map(|cell| record.ask_cell(cell)).collect(),
            jobs: jobs.map(|job| record.ask_job(job)).collect(),
        }
    }

    fn told(&self) -> Vec<Told> {
        let batch = &self.batch;
        let one = |job| {
            (
                batch.job(job).unwrap().clone(),
                batch.ask_job(job).unwrap(),
                batch.ask_guess(job).unwrap(),
                batch.guess(job).cloned(),
                batch.own_handed(job),
            )
        };
        (0..batch.job_count()).map(one).collect()
    }

    /// R179: what an accepted insert leaves, by asking.
    fn with_added(&self, job: Job) -> Both {
        let mut after = self.clone();
        assert_eq!(after.make(&Call::Insert(job)).0, 0);
        let mut due = self.asked();
        due.batch.job_count += 1;
        due.batch.finished = false;
        due.jobs.push(JobAnswer {
            job,
            ..JobAnswer::default()
        });
        assert_eq!(after.asked(), due);
        let mut told = after.told();
        let (inserted, settled, judged, guess, own) = told.pop().unwrap();
        assert_eq!(told, self.told());
        assert_eq!((settled, judged, guess, own), (Settled::No, 0, None, None));
        assert_eq!(
            (inserted.kind, inserted.p),
            (job.kind.into(), job.parameter)
        );
        assert!(!after.batch.finished());
        after
    }

    /// R181: the added job of a batch that was finished has its own run, and is
    /// handed what the cells hold.
    fn own_run_of_the_last(mut self) {
        let job = usize::from(self.record.job_count) - 1;
        let held = self.record.jobs[job];
        let mut present = [0; 4];
        for (place, access) in held.accesses[..usize::from(held.arity)].iter().enumerate() {
            present[place] = self.record.cells[usize::from(access.0)];
        }
        assert_eq!(self.make(&start_own(job)), (0, present));
    }
}

fn start_own(job: usize) -> Call {
    Call::Step {
        number: 0,
        job,
        values: [0; 4],
        mark: 0,
    }
}

/// What has to come up: inserts by how the batch stood, and exchanges.
const MET: [&str; 9] = [
    "an insert before sealing",
    "an insert after sealing",
    "an insert into a finished batch",
    "exchanged with an accepted step 0",
    "exchanged with an accepted step 1",
    "exchanged with an accepted step 2 or 3",
    "exchanged with an accepted step 4",
    "exchanged with a refused step",
    "exchanged with a seal, accepted or refused",
];

/// R180: the insert and the other call in either order. Gives back the place in MET
/// of the exchange.
fn exchanged(both: &Both, job: Job, other: &Call) -> usize {
    let insert = Call::Insert(job);
    let (mut first, mut last) = (both.clone(), both.clone());
    assert_eq!(first.make(&insert).0, 0);
    let after = first.make(other);
    let before = last.make(other);
    assert_eq!(last.make(&insert).0, 0);
    assert_eq!(after, before, "{other:?} after and before the insert");
    assert!(first == last, "{other:?} after and before the insert");
    match (other, before.0) {
        (Call::Step { number, .. }, 0) => [3, 4, 5, 5, 6][usize::from(*number)],
        (Call::Step { .. }, _) => 7,
        _ => 8,
    }
}

/// Whether R180 speaks of the call: a seal, or a step on a job that is there.
fn may_be_exchanged(both: &Both, call: &Call) -> bool {
    match *call {
        Call::Insert(_) => false,
        Call::Seal(_) => true,
        Call::Step { job, .. } => job < usize::from(both.record.job_count),
    }
}

/// Before a call of a list: a job is added on a copy, and exchanged with the call.
fn try_added(dice: &mut Dice, both: &Both, call: &Call, times: &mut [u64; MET.len()]) {
    if both.record.job_count == 128 {
        return;
    }
    let job = sound_job(dice, usize::from(both.record.cell_count));
    let finished = both.batch.finished();
    let after = both.with_added(job);
    times[usize::from(both.record.sealed)] += 1;
    times[2] += u64::from(finished);
    if finished {
        after.own_run_of_the_last();
    }
    if may_be_exchanged(both, call) {
        times[exchanged(both, job, call)] += 1;
    }
}

#[test]
fn a_job_is_added_at_any_moment() {
    let mut dice = Dice::new(1, 179);
    let mut times = [0; MET.len()];
    for _ in 0..400 {
        let manner = Manner::any(&mut dice);
        let mut both = Both::open(&manner.heights);
        for _ in 0..manner.calls() {
            let call = manner.call(&mut dice, &both.record);
            if worth_a_look(&mut dice, &both.record) {
                try_added(&mut dice, &both, &call, &mut times);
            }
            both.make(&call);
        }
    }
    for (what, times) in MET.iter().zip(times) {
        println!("{what}: {times}");
    }
    assert!(times.iter().all(|&times| times > 100), "{times:?}");
}

/// R8: a batch that is sealed without jobs, and finished again after each of 128.
#[test]
fn finished_again_and_again() {
    let mut record = Record::open(&[0]).unwrap();
    assert_eq!(record.seal(1), 0);
    let shift = Job {
        kind: 2,
        parameter: 1,
        arity: 1,
        accesses: [(0, 1), (0, 0), (0, 0), (0, 0)],
        ..Job::default()
    };
    for job in 0..128usize {
        assert!(record.ask_batch().finished);
        assert_eq!(record.insert(shift), 0);
        assert!(!record.ask_batch().finished);
        let height = job as i32;
        assert_eq!(record.choose(), (0, 0, job as u8, 1));
        assert_eq!(record.step(0, job, [0; 4], 0), (0, [height, 0, 0, 0]));
        assert_eq!(record.step(2, job, [height + 1; 4], 0).0, 0);
        assert_eq!(record.ask_cell(0), (0, height + 1));
    }
    assert_eq!(record.insert(shift), 3);
    assert!(record.ask_batch().finished);
}
