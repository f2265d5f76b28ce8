//! Predictions (R46): every list of modes behind a maybe-writer, behind writers with and
//! without a stored report, and in own runs; which modes and marks are refused (R106,
//! R108, R116); the former rule beside them (R185); and R187, R188 and R176 on random lists.

mod worked;

use second_hand::former::{falls, kept_by_each, Fell};
use second_hand::kinds;
use second_hand::lists::{Answer, Call, Manner};
use second_hand::plans::Dice;
use second_hand::predictions::Watch;
use second_hand::record::Job;
use worked::Worked;

const READ: u8 = 0;
const WRITE: u8 = 1;
const MAYBE: u8 = 2;
const PREDICTED: u8 = 3;

/// What the four cells hold, what the writers of them report, and what is predicted.
const HEIGHTS: [i32; 4] = [10, 11, 12, 13];
const REPORTED: [i32; 4] = [20, 21, 22, 23];
const FORETOLD: [i32; 4] = [30, 31, 32, 33];

/// An outside job that has cell 0 with the first mode, and so on. In places not in use
/// stands what would matter there, and predictions in all.
fn job(modes: &[u8]) -> Job {
    let mut job = Job {
        arity: modes.len() as u8,
        accesses: [(0, PREDICTED), (1, MAYBE), (2, PREDICTED), (3, MAYBE)],
        predicted: FORETOLD,
        ..Job::default()
    };
    for (place, &mode) in modes.iter().enumerate() {
        job.accesses[place].1 = mode;
    }
    job
}

/// Every list of one to four modes.
fn all_modes() -> Vec<Vec<u8>> {
    let lists = |length: u32| {
        let list = move |number: u32| (0..length).map(move |at| (number >> (2 * at) & 3) as u8);
        (0..4u32.pow(length)).map(move |number| list(number).collect())
    };
    (1..=4).flat_map(lists).collect()
}

impl Worked {
    /// These jobs in four cells, sealed with guessing on.
    fn with(jobs: &[Job]) -> Worked {
        let mut worked = Worked::open(&HEIGHTS);
        for &job in jobs {
            assert_eq!(worked.make(&Call::Insert(job)).0, 0, "{job:?}");
        }
        assert_eq!(worked.make(&Call::Seal(1)).0, 0);
        worked
    }

    /// The step, with these values and this mark where it is a report.
    fn step(&mut self, number: u8, job: usize, values: [i32; 4], mark: u8) -> Answer {
        let call = Call::Step {
            number,
            job,
            values,
            mark,
        };
        self.make(&call)
    }

    /// The job's own run, with this report.
    fn run(&mut self, job: usize, values: [i32; 4], mark: u8) {
        assert_eq!(self.step(0, job, [0; 4], 0).0, 0);
        assert_eq!(self.step(2, job, values, mark).0, 0);
    }

    /// How the job's guess is judged, by all three.
    fn judged(&self, job: usize) -> u8 {
        let judged = self.record.ask_job(job).validity;
        assert_eq!(self.batch.ask_guess(job as u32), Ok(u32::from(judged)));
        assert_eq!(self.ledger.judged()[job], judged);
        judged
    }

    /// Which jobs the job's guess looked past and took from, by all three.
    fn origins(&self, job: usize) -> (Vec<usize>, [u8; 4]) {
        let run = &self.record.runs[job];
        let past: Vec<usize> = (0..128).filter(|k| run.bypassed >> k & 1 == 1).collect();
        let mut from: Vec<usize> = run
            .sources
            .iter()
            .filter_map(|k| k.checked_sub(1))
            .map(usize::from)
            .collect();
        (from.sort(), from.dedup());
        let guess = self.batch.guess(job as u32).unwrap();
        assert!(guess.looked_past.iter().eq(&past) && guess.taken_from.iter().eq(&from));
        let line = self.ledger.jobs[job].guess.as_ref().unwrap();
        assert!(line.looked_past == past && line.taken_from == from);
        (past, run.sources)
    }
}

/// Of each place in use what is due there by its mode, and 0 in the others.
fn each<T: Copy + Default>(modes: &[u8], due: impl Fn(usize, u8) -> T) -> [T; 4] {
    let mut all = [T::default(); 4];
    for (place, &mode) in modes.iter().enumerate() {
        all[place] = due(place, mode);
    }
    all
}

// ---------------------------------------------------------------------------
// R46: each mode in each place

#[test]
fn behind_a_maybe_writer() {
    for modes in all_modes() {
        let mut worked = Worked::with(&[job(&[MAYBE; 4]), job(&modes)]);
        let handed = |place: usize, mode| match mode {
            PREDICTED => FORETOLD[place],
            _ => HEIGHTS[place],
        };
        let handed = each(&modes, handed);
        assert_eq!(worked.step(1, 1, [0; 4], 0), (0, handed), "{modes:?}");
        // It is looked past where any cell is not predicted.
        let past = if modes.iter().all(|&mode| mode == PREDICTED) {
            vec![]
        } else {
            vec![0]
        };
        assert_eq!(worked.origins(1), (past, [0; 4]), "{modes:?}");
        assert_eq!(worked.judged(1), 1);
        // It stands where the cells get what was handed, and in no other case.
        for wrong in 0..5 {
            let mut worked = worked.clone();
            let mut found = handed;
            found[modes.len()..].copy_from_slice(&HEIGHTS[modes.len()..]);
            if wrong < 4 {
                found[wrong] += 1;
            }
            worked.run(0, found, 1);
            let falls = wrong < modes.len();
            assert_eq!(worked.judged(1), if falls { 3 } else { 2 }, "{modes:?}");
        }
    }
}

/// The writer of all four cells has mode 1 or 3 throughout.
#[test]
fn behind_a_writer() {
    for (modes, writes) in all_modes()
        .into_iter()
        .flat_map(|m| [WRITE, PREDICTED].map(|w| (m.clone(), w)))
    {
        let mut worked = Worked::with(&[job(&[MAYBE; 4]), job(&[writes; 4]), job(&modes)]);
        let all = modes.iter().all(|&mode| mode == PREDICTED);
        let due = each(&modes, |place, _| FORETOLD[place]);
        let waits = if all { (0, due) } else { (15, [0; 4]) };
        // Without a stored report: never started, and out.
        assert_eq!(worked.clone().step(1, 2, [0; 4], 0), waits, "{modes:?}");
        assert_eq!(worked.step(1, 1, [0; 4], 0).0, 0);
        assert_eq!(worked.clone().step(1, 2, [0; 4], 0), waits, "{modes:?}");
        // With one that is stored.
        assert_eq!(worked.step(3, 1, REPORTED, 0).0, 0);
        let handed = |place: usize, mode| match mode {
            PREDICTED => FORETOLD[place],
            _ => REPORTED[place],
        };
        assert_eq!(
            worked.step(1, 2, [0; 4], 0),
            (0, each(&modes, handed)),
            "{modes:?}"
        );
        let sources = each(&modes, |_, mode| if mode == PREDICTED { 0 } else { 2 });
        assert_eq!(worked.origins(2), (vec![], sources), "{modes:?}");
    }
}

/// R51: an own run is handed what is there, with any mode. R33 to R35: what is stored of
/// its report, and what comes into the cells.
#[test]
fn own_runs() {
    for modes in all_modes() {
        let marks = if modes.contains(&MAYBE) { 0..2 } else { 0..1 };
        for mark in marks {
            let mut worked = Worked::with(&[job(&modes)]);
            let present = each(&modes, |place, _| HEIGHTS[place]);
            assert_eq!(worked.step(0, 0, [0; 4], 0), (0, present), "{modes:?}");
            assert_eq!(worked.step(2, 0, REPORTED, mark).0, 0);
            let left = |place: usize, mode| match (mode, mark) {
                (WRITE | PREDICTED, _) | (MAYBE, 1) => REPORTED[place],
                _ => HEIGHTS[place],
            };
            let left = each(&modes, left);
            assert_eq!(worked.record.ask_job(0).reported, left, "{modes:?}");
            let cells = [0, 1, 2, 3].map(|cell| worked.record.cells[cell]);
            assert_eq!(cells[..modes.len()], left[..modes.len()], "{modes:?}");
            assert_eq!(cells[modes.len()..], HEIGHTS[modes.len()..], "{modes:?}");
            assert_eq!(worked.batch.cells(), cells);
            worked.ledger.claim(&cells, &[(1, mark)]);
        }
    }
}

/// Of a guess that is settled too.
#[test]
fn kept_guesses() {
    for modes in all_modes() {
        let mut worked = Worked::with(&[job(&[MAYBE; 4]), job(&modes)]);
        let handed = worked.step(1, 1, [0; 4], 0).1;
        assert_eq!(worked.step(3, 1, REPORTED, 0).0, 0);
        let stored = |place: usize, mode| match mode {
            WRITE | PREDICTED => REPORTED[place],
            _ => handed[place],
        };
        let stored = each(&modes, stored);
        assert_eq!(worked.record.ask_job(1).reported, stored, "{modes:?}");
        worked.run(0, handed, 1);
        assert_eq!(worked.step(4, 1, [0; 4], 0).0, 0, "{modes:?}");
        let cells = [0, 1, 2, 3].map(|cell| worked.record.cells[cell]);
        assert_eq!(cells[..modes.len()], stored[..modes.len()], "{modes:?}");
        assert_eq!(worked.batch.cells(), cells);
        worked.ledger.claim(&cells, &[(1, 1), (2, 0)]);
    }
}

/// R20, R21, R24: a predicted write holds others up, and is held up itself, as a write is.
#[test]
fn conflicts() {
    for (one, other) in (0..4).flat_map(|one| (0..4).map(move |other| (one, other))) {
        let mut worked = Worked::with(&[job(&[one]), job(&[other])]);
        let clash = one != READ || other != READ;
        let due = if clash { 15 } else { 0 };
        let answer = worked.clone().step(0, 1, [0; 4], 0).0;
        assert_eq!(answer, due, "{one} and {other}");
        assert_eq!(worked.ledger.is_ready(1), !clash);
        // R24: a height passes only from what may write it.
        let chain = if one != READ { 2 } else { 1 };
        assert_eq!(worked.record.choose(), (0, 0, 0, chain));
        assert_eq!(worked.batch.choose().unwrap().chain, u32::from(chain));
        // R114: a job that is ready is not guessed, whatever it predicts.
        assert_eq!(worked.step(1, 0, [0; 4], 0).0, 14);
        worked.run(0, HEIGHTS, 0);
        assert_eq!(worked.step(1, 1, [0; 4], 0).0, 14);
    }
}

/// The least and the greatest height are predicted too.
#[test]
fn any_height_is_predicted() {
    for height in [0, 1, -1, i32::MIN, i32::MAX, 1 << 30, 255, 256] {
        let foretold = Job {
            predicted: [height; 4],
            ..job(&[PREDICTED])
        };
        let mut worked = Worked::with(&[job(&[WRITE]), foretold]);
        assert_eq!(worked.step(1, 1, [0; 4], 0), (0, [height, 0, 0, 0]));
        let mut twin = worked.clone();
        worked.run(0, [height; 4], 0);
        assert_eq!(worked.judged(1), 2);
        twin.run(0, [height ^ i32::MIN; 4], 0);
        assert_eq!(twin.judged(1), 3);
    }
}

// ---------------------------------------------------------------------------
// Refusals

/// R106: of an outside job modes 0 to 3 are taken in each place, and all above refused.
#[test]
fn refusal_6() {
    for (place, mode) in (0..4).flat_map(|place| (0..=255).map(move |mode| (place, mode))) {
        let mut given = job(&[READ; 4]);
        given.accesses[place].1 = mode;
        let mut worked = Worked::open(&HEIGHTS);
        let due = if mode <= 3 { 0 } else { 6 };
        assert_eq!(worked.make(&Call::Insert(given)).0, due, "{mode}");
        // In a place not in use it is not looked at.
        given.arity = place as u8;
        if place > 0 {
            assert_eq!(worked.make(&Call::Insert(given)).0, 0, "{mode}");
            assert_eq!(
                *worked.record.jobs[..usize::from(worked.record.job_count)]
                    .last()
                    .unwrap(),
                given
            );
        }
    }
}

/// R108: kinds 1 to 6 take no mode 3, in no place; R106 goes before.
#[test]
fn refusal_8() {
    for kind in 1..=6 {
        let modes: Vec<u8> = kinds::modes(kind)
            .unwrap()
            .iter()
            .map(|&mode| mode as u8)
            .collect();
        let given = |modes: &[u8]| Job {
            kind: kind as u8,
            ..job(modes)
        };
        let insert = |job: Job| Worked::open(&HEIGHTS).make(&Call::Insert(job)).0;
        assert_eq!(insert(given(&modes)), 0);
        assert_eq!(insert(given(&vec![PREDICTED; modes.len()])), 8);
        for place in 0..modes.len() {
            for (mode, due) in [(PREDICTED, 8), (4, 6), (255, 6)] {
                let mut other = modes.clone();
                other[place] = mode;
                assert_eq!(insert(given(&other)), due, "kind {kind}, {other:?}");
            }
        }
    }
}

/// R116: mark 1 is refused where no access in use is a maybe-write, of the own run and of
/// the guess; a predicted write is none.
#[test]
fn refusal_16() {
    for modes in all_modes() {
        let mut worked = Worked::with(&[job(&modes), job(&[MAYBE; 4]), job(&modes)]);
        assert_eq!(worked.step(0, 0, [0; 4], 0).0, 0);
        assert_eq!(
            worked.step(1, 2, [0; 4], 0).0,
            guess_behind(&modes),
            "{modes:?}"
        );
        let due = if modes.contains(&MAYBE) { 0 } else { 16 };
        assert_eq!(worked.clone().step(2, 0, REPORTED, 1).0, due, "{modes:?}");
        assert_eq!(worked.step(2, 0, REPORTED, 2).0, 16);
        if worked.record.phase[2] == 1 {
            assert_eq!(worked.clone().step(3, 2, REPORTED, 1).0, due, "{modes:?}");
            assert_eq!(worked.step(3, 2, REPORTED, 2).0, 16);
        }
    }
}

/// What start guess is answered behind a job with these modes, of which it has the same:
/// it waits where it has a cell that is written before it, and is not predicted.
fn guess_behind(modes: &[u8]) -> u8 {
    if modes.contains(&WRITE) {
        15
    } else {
        0
    }
}

// ---------------------------------------------------------------------------
// The former rule

/// R185 does not speak of a job that predicts: by the former rule a guess that was handed
/// a wrong prediction had not fallen. It speaks of one that took from such a guess.
#[test]
fn the_former_rule_knew_no_predictions() {
    let wrong = Job {
        predicted: [99; 4],
        ..job(&[PREDICTED])
    };
    let mut worked = Worked::with(&[job(&[MAYBE]), wrong, job(&[WRITE])]);
    for (guess, handed) in [(1, 99), (2, 20)] {
        assert_eq!(worked.step(1, guess, [0; 4], 0), (0, [handed, 0, 0, 0]));
        assert_eq!(worked.step(3, guess, REPORTED, 0).0, 0);
    }
    worked.run(0, HEIGHTS, 0);
    assert_eq!((worked.judged(1), worked.judged(2)), (3, 1));
    assert_eq!(falls(&worked.batch), [Fell::default(); 3]);
    // Its own run gives the same again: what took from it stands, though it had fallen.
    worked.run(1, REPORTED, 0);
    assert_eq!(worked.judged(2), 2);
    assert!(falls(&worked.batch)[2].source);
    // Where the batch is worked by the former rule, the height decides all the same.
    let mut former = worked.batch.clone().under_former_rule();
    assert_eq!(former.settle(2), Err(18));
}

/// What took from a guess with a right prediction is not lost.
#[test]
fn what_took_from_a_right_prediction_stands() {
    let right = Job {
        predicted: [20; 4],
        ..job(&[PREDICTED])
    };
    let mut worked = Worked::with(&[job(&[WRITE]), right, job(&[WRITE])]);
    for guess in [1, 2] {
        assert_eq!(worked.step(1, guess, [0; 4], 0).0, 0);
        assert_eq!(worked.step(3, guess, [7; 4], 0).0, 0);
    }
    worked.run(0, REPORTED, 0);
    let mut former = worked.batch.clone().under_former_rule();
    assert_eq!(worked.step(4, 1, [0; 4], 0).0, 0);
    assert_eq!(
        (worked.judged(2), falls(&worked.batch)[2]),
        (2, Fell::default())
    );
    assert_eq!((former.settle(1), former.settle(2)), (Ok(()), Ok(())));
}

// ---------------------------------------------------------------------------
// Random lists

/// How often R187 and R188 applied.
#[derive(Default)]
struct Applied {
    handed: u64,
    at_once: u64,
}

impl Applied {
    /// R187, of what a start of the job's guess has handed out.
    fn started(&mut self, worked: &Worked, job: usize, handed: [i32; 4]) {
        for (place, predicted) in worked.ledger.predicted(job).into_iter().enumerate() {
            if let Some(predicted) = predicted {
                assert_eq!(handed[place], predicted, "R187, job {job}");
                self.handed += 1;
            }
        }
    }

    /// R188, of each job as it stands.
    fn stands(&mut self, worked: &Worked) {
        for job in 0..worked.ledger.jobs.len() {
            if let Some(due) = worked.ledger.guessed_at_once(job) {
                let answer = worked.record.clone().step(1, job, [0; 4], 0);
                assert_eq!(answer, (0, due), "R188, job {job}");
                assert_eq!(
                    worked.batch.clone().start_guess(job as u32),
                    Ok(due),
                    "R188"
                );
                self.at_once += 1;
            }
        }
    }
}

/// A list of calls: all guesses are judged as the ledger has it, and each job is held as
/// it was given.
fn worked_out(dice: &mut Dice, manner: &Manner, watch: &mut Watch, applied: &mut Applied) {
    let mut worked = Worked::open(&manner.heights);
    watch.begin();
    for _ in 0..manner.calls() {
        let call = manner.call(dice, &worked.record);
        let before = worked.record.clone();
        let (refusal, handed) = worked.make(&call);
        watch.after(&before, &call, refusal, &worked.record);
        match call {
            Call::Step { number: 1, job, .. } if refusal == 0 => {
                applied.started(&worked, job, handed)
            }
            _ => {}
        }
        applied.stands(&worked);
        for job in 0..worked.ledger.jobs.len() {
            worked.judged(job);
            assert_eq!(worked.record.ask_job(job).job, worked.ledger.jobs[job].job);
        }
    }
    // R176, by either rule.
    kept_by_each(&manner.batch());
}

#[test]
fn random_lists() {
    let mut dice = Dice::new(1, 46);
    let (mut watch, mut applied) = (Watch::default(), Applied::default());
    for _ in 0..2500 {
        let manner = Manner::predicting(&mut dice);
        worked_out(&mut dice, &manner, &mut watch, &mut applied);
    }
    println!(
        "R187 applied {} times, R188 {}",
        applied.handed, applied.at_once
    );
    watch
        .lines()
        .iter()
        .for_each(|(what, times)| println!("  {what}: {times}"));
    assert!(applied.handed > 1000 && applied.at_once > 1000);
    for (what, times) in watch.lines() {
        assert!(times > 20, "{what}: {times}");
    }
}

/// The list worked to its end.
fn to_its_end(dice: &mut Dice, manner: &Manner) -> Worked {
    let mut worked = Worked::open(&manner.heights);
    let mut calls = 0;
    while !manner.is_done(&worked.record) {
        let call = manner.call(dice, &worked.record);
        worked.make(&call);
        calls += 1;
        assert!(calls < 200_000, "the list does not end");
    }
    worked
}

/// R176: pairs whose jobs differ in predictions, and in places not in use, alone.
#[test]
fn pairs_of_lists() {
    let mut dice = Dice::new(1, 176);
    let (mut differ, mut one_kept) = (0, 0);
    for _ in 0..800 {
        let [one, two] =
            Manner::predicting_pair(&mut dice).map(|manner| to_its_end(&mut dice, &manner));
        assert_eq!(one.record.cells, two.record.cells, "R176");
        assert_eq!(one.batch.cells(), two.batch.cells(), "R176");
        let jobs = 0..usize::from(one.record.job_count);
        assert_eq!(one.record.job_count, two.record.job_count);
        for job in jobs.clone() {
            let (job, same) = (one.record.ask_job(job), two.record.ask_job(job));
            assert_eq!(job.wrote, same.wrote, "R176");
            let used = usize::from(job.job.arity);
            assert_eq!(job.job.accesses[..used], same.job.accesses[..used]);
        }
        let kept = |worked: &Worked, job: usize| worked.record.committed[job] == 2;
        let gone = |worked: &Worked, job: usize| worked.record.phase[job] == 3;
        let either = |job| kept(&one, job) && gone(&two, job) || kept(&two, job) && gone(&one, job);
        differ += u32::from(one.record.jobs != two.record.jobs);
        one_kept += u32::from(jobs.clone().any(either));
    }
    println!("800 pairs, other predictions in {differ}, a guess kept in one alone in {one_kept}");
    assert!(differ > 700 && one_kept > 100, "{differ} {one_kept}");
}
