//! What a guess looked past: sets at their edges, states and bits made by hand, the
//! refusals, a morning in which all that can be is looked past, and R183 and R184 on
//! random lists of calls.

mod worked;

use std::collections::BTreeSet;

use second_hand::engine::Batch;
use second_hand::lists::{worth_a_look, Call, Manner};
use second_hand::plans::Dice;
use second_hand::record::{Job, Record};
use second_hand::sets::{GuessTold, Told};
use worked::Worked;

fn told(size: usize, lowest: Option<usize>) -> Told {
    Told { size, lowest }
}

/// Of both sets the size and the lowest.
fn both(past: (usize, Option<usize>), open: (usize, Option<usize>)) -> GuessTold {
    GuessTold {
        looked_past: told(past.0, past.1),
        open: told(open.0, open.1),
    }
}

const EMPTY: Told = Told {
    size: 0,
    lowest: None,
};

const NOTHING: GuessTold = GuessTold {
    looked_past: EMPTY,
    open: EMPTY,
};

fn job(accesses: &[(u8, u8)]) -> Job {
    let mut job = Job {
        arity: accesses.len() as u8,
        ..Job::default()
    };
    job.accesses[..accesses.len()].copy_from_slice(accesses);
    job
}

/// A batch of so many jobs that only read, sealed with guessing on.
fn readers(jobs: usize) -> Record {
    let mut record = Record::open(&[0]).unwrap();
    for _ in 0..jobs {
        assert_eq!(record.insert(job(&[(0, 0)])), 0);
    }
    assert_eq!(record.seal(1), 0);
    record
}

/// Asks the record; R70: it stays as it is.
fn asked(record: &Record, job: usize) -> (u8, GuessTold) {
    let before = record.clone();
    let answer = record.ask_looked_past(job);
    assert_eq!(*record, before);
    answer
}

// ---------------------------------------------------------------------------
// R78: sets by themselves

/// The set of the list is told so, in both ways, and whatever the list's order.
fn set(jobs: &[usize], size: usize, lowest: Option<usize>) {
    assert_eq!(Told::among(|job| jobs.contains(&job)), told(size, lowest));
    assert_eq!(Told::of(jobs), told(size, lowest));
    let mut other = jobs.to_vec();
    other.reverse();
    assert_eq!(Told::of(&other), told(size, lowest));
}

#[test]
fn sets_at_their_edges() {
    set(&[], 0, None);
    for only in [0, 1, 62, 63, 64, 65, 126, 127] {
        set(&[only], 1, Some(only));
    }
    set(&[63, 64], 2, Some(63));
    set(&[0, 127], 2, Some(0));
    set(&[64, 127], 2, Some(64));
    set(&[0, 63], 2, Some(0));
    set(&[5, 70, 71], 3, Some(5));
    let all: Vec<usize> = (0..128).collect();
    set(&all, 128, Some(0));
    set(&all[..127], 127, Some(0));
    set(&all[..64], 64, Some(0));
    set(&all[64..], 64, Some(64));
    set(&all[63..65], 2, Some(63));
    set(&all[1..], 127, Some(1));
}

// ---------------------------------------------------------------------------
// R79 on states made by hand

/// Job 127 of a full batch with these bits looked past and its guess stored.
fn last_with(bits: u128) -> Record {
    let mut record = readers(128);
    record.phase[127] = 2;
    record.runs[127].bypassed = bits;
    record
}

#[test]
fn bits_of_the_last_job() {
    let all = (1u128 << 127) - 1;
    let low = u128::from(u64::MAX);
    for (bits, size, lowest) in [
        (0, 0, None),
        (1, 1, Some(0)),
        (1 << 63, 1, Some(63)),
        (1 << 64, 1, Some(64)),
        (1 << 126, 1, Some(126)),
        (1 << 63 | 1 << 64, 2, Some(63)),
        (1 | 1 << 126, 2, Some(0)),
        (1 << 64 | 1 << 126, 2, Some(64)),
        (low, 64, Some(0)),
        (all & !low, 63, Some(64)),
        (all, 127, Some(0)),
    ] {
        let record = last_with(bits);
        let told = both((size, lowest), (size, lowest));
        assert_eq!(asked(&record, 127), (0, told), "{bits:x}");
        // Bits of one job are no other's.
        assert_eq!(asked(&record, 126), (0, NOTHING));
    }
    // Its own number is not before it.
    for bits in [1 << 127, 1 | 1 << 127] {
        assert_eq!(asked(&last_with(bits), 127), (32, NOTHING));
    }
}

/// What is settled, by its own run or its guess, is not open; all else of the jobs
/// looked past plays no part.
#[test]
fn open_ones() {
    let (past, all) = (1 << 3 | 1 << 63 | 1 << 64 | 1 << 100, (4, Some(3)));
    for how in [1, 2] {
        let mut record = last_with(past);
        for (settled, open) in [
            // None that was looked past.
            (4, (4, Some(3))),
            (100, (3, Some(3))),
            (3, (2, Some(63))),
            (63, (1, Some(64))),
            (64, (0, None)),
        ] {
            record.committed[settled] = how;
            assert_eq!(asked(&record, 127), (0, both(all, open)));
        }
    }
    let mut record = last_with(past);
    for other in 0..127 {
        record.phase[other] = (other % 4) as u8;
        record.running[other] = (other % 2) as u8;
        record.runs[other].wrote = 1;
    }
    assert_eq!(asked(&record, 127), (0, both(all, all)));
    record.committed[..127].fill(1);
    assert_eq!(asked(&record, 127), (0, both(all, (0, None))));
    // It stands, and has fallen where another height is there; it is told of both.
    assert_eq!(record.ask_job(127).validity, 2);
    record.cells[0] = 1;
    assert_eq!(record.ask_job(127).validity, 3);
    assert_eq!(asked(&record, 127), (0, both(all, (0, None))));
}

/// R79: there is a guess to tell of where it is out or stored, and nothing else is
/// asked of the job; a batch that is not sealed may be asked (R70).
#[test]
fn every_state_of_the_job_itself() {
    let some = both((2, Some(1)), (1, Some(70)));
    for number in 0..96u8 {
        let mut record = last_with(1 << 1 | 1 << 70);
        record.committed[1] = 2;
        record.phase[127] = number % 4;
        record.committed[127] = number / 4 % 3;
        record.running[127] = number / 12 % 2;
        record.sealed = number / 24 % 2;
        record.speculating = number / 48;
        let there = number % 4 == 1 || number % 4 == 2;
        let due = if there { some } else { NOTHING };
        assert_eq!(asked(&record, 127), (0, due), "{number}");
    }
}

// ---------------------------------------------------------------------------
// Refusals

#[test]
fn no_such_job() {
    for jobs in [0, 1, 64, 127, 128] {
        let mut record = readers(jobs);
        // R92: what stands in places not in use is not looked at.
        record.phase[jobs..].fill(1);
        for run in &mut record.runs[jobs..] {
            run.bypassed = u128::MAX;
        }
        let batch = batch_of(&record);
        for job in [0, 1, 63, 64, 126, 127, 128, 129, 255, 256, u32::MAX] {
            if (job as usize) < jobs {
                assert_eq!(asked(&record, job as usize), (0, NOTHING));
                assert_eq!(batch.ask_looked_past(job), Ok(NOTHING));
            } else {
                assert_eq!(asked(&record, job as usize), (11, NOTHING));
                assert_eq!(batch.ask_looked_past(job), Err(11));
            }
        }
        assert_eq!(asked(&record, 1 << 32), (11, NOTHING));
        assert_eq!(asked(&record, usize::MAX), (11, NOTHING));
        // R100: 32 before all.
        record.cell_count = 0;
        for job in [0, jobs, 128, usize::MAX] {
            assert_eq!(asked(&record, job), (32, NOTHING));
        }
    }
}

/// As many readers in `engine`.
fn batch_of(record: &Record) -> Batch {
    let mut batch = Batch::open(&[0]).unwrap();
    for _ in 0..record.job_count {
        let insert = Call::Insert(job(&[(0, 0)]));
        assert_eq!(insert.on_batch(&mut batch).0, 0);
    }
    batch
}

// ---------------------------------------------------------------------------
// On the way

impl Worked {
    fn step(&mut self, number: u8, job: usize) {
        let call = Call::Step {
            number,
            job,
            values: [0; 4],
            mark: 0,
        };
        assert_eq!(self.make(&call).0, 0, "{call:?}");
    }

    /// R183: all three tell the same. R184: while some are open, it is not ready.
    fn told(&self, job: usize) -> GuessTold {
        let told = self.ledger.told(job);
        assert_eq!(self.record.ask_looked_past(job), (0, told), "job {job}");
        let batch = self.batch.ask_looked_past(job as u32);
        assert_eq!(batch, Ok(told), "job {job}");
        if told.open.size > 0 {
            assert!(!self.ledger.is_ready(job), "R184, job {job}");
            assert_eq!(self.record.ask_job(job).validity, 1, "R184, job {job}");
        }
        told
    }
}

/// The last of 128 jobs looks past all others; then these are settled one after the
/// other, and it is settled by its guess.
#[test]
fn all_that_can_be_looked_past() {
    let mut worked = Worked::open(&[0]);
    for _ in 0..128 {
        assert_eq!(worked.make(&Call::Insert(job(&[(0, 2)]))).0, 0);
    }
    assert_eq!(worked.make(&Call::Seal(1)).0, 0);
    worked.step(1, 127);
    worked.step(3, 127);
    for open in 0..127 {
        let due = both((127, Some(0)), (127 - open, Some(open)));
        assert_eq!(worked.told(127), due);
        assert!(!worked.ledger.is_ready(127));
        worked.step(0, open);
        assert_eq!(worked.told(127), due);
        worked.step(2, open);
    }
    let due = both((127, Some(0)), (0, None));
    assert_eq!(worked.told(127), due);
    assert!(worked.ledger.is_ready(127));
    worked.step(4, 127);
    assert_eq!(worked.told(127), due);
}

/// A guess that looks past no job: it takes from a writer, or waits for a reader
/// alone, which leaves no trace (R41).
#[test]
fn nothing_looked_past() {
    let mut worked = Worked::open(&[0, 0]);
    // A maybe-writer, a writer behind it and a reader of what that writes; on the
    // other cell a reader, and a writer.
    let jobs = [(0, 2), (0, 1), (0, 0), (1, 0), (1, 1)].map(|access| job(&[access]));
    for job in jobs {
        assert_eq!(worked.make(&Call::Insert(job)).0, 0);
    }
    assert_eq!(worked.make(&Call::Seal(1)).0, 0);
    worked.step(1, 1);
    assert_eq!(worked.told(1), both((1, Some(0)), (1, Some(0))));
    worked.step(3, 1);
    worked.step(1, 2);
    assert_eq!(worked.told(2), NOTHING);
    assert_eq!(
        worked.ledger.jobs[2].guess.as_ref().unwrap().taken_from,
        [1]
    );
    worked.step(1, 4);
    assert_eq!(worked.told(4), NOTHING);
    assert!(!worked.ledger.is_ready(4));
}

// ---------------------------------------------------------------------------
// R183, R184 on random lists

/// What has to come up when a guess is asked for.
const MET: [&str; 9] = [
    "looked past none",
    "looked past one",
    "looked past two",
    "looked past three or more",
    "on both sides of 64",
    "from 64 on only",
    "some settled, the lowest not",
    "the lowest settled, some open",
    "all settled",
];

fn met(told: GuessTold, jobs: &[usize]) -> [bool; MET.len()] {
    let GuessTold { looked_past, open } = told;
    let (low, high) = (jobs.iter().any(|&j| j < 64), jobs.iter().any(|&j| j >= 64));
    [
        looked_past.size == 0,
        looked_past.size == 1,
        looked_past.size == 2,
        looked_past.size >= 3,
        low && high,
        high && !low,
        open.size < looked_past.size && open.lowest == looked_past.lowest,
        open.lowest > looked_past.lowest,
        open.size == 0 && looked_past.size > 0,
    ]
}

#[test]
fn random_lists() {
    let mut dice = Dice::new(1, 183);
    let mut times = [0u64; MET.len()];
    for list in 0..400 {
        let manner = match list % 10 {
            0 => Manner::past_many(&mut dice),
            _ => Manner::any(&mut dice),
        };
        let mut worked = Worked::open(&manner.heights);
        for _ in 0..manner.calls() {
            let call = manner.call(&mut dice, &worked.record);
            worked.make(&call);
            if !worth_a_look(&mut dice, &worked.record) {
                continue;
            }
            for job in 0..worked.ledger.jobs.len() {
                let told = worked.told(job);
                if let Some(guess) = &worked.ledger.jobs[job].guess {
                    let distinct: BTreeSet<&usize> = guess.looked_past.iter().collect();
                    assert_eq!(distinct.len(), told.looked_past.size);
                    let met = met(told, &guess.looked_past);
                    times
                        .iter_mut()
                        .zip(met)
                        .for_each(|(t, did)| *t += u64::from(did));
                }
            }
        }
    }
    for (what, times) in MET.iter().zip(times) {
        println!("a guess asked for, {what}: {times}");
    }
    assert!(times.iter().all(|&times| times > 100), "{times:?}");
}
