//! How guesses are judged (R43 to R45) on random lists of calls: by the ledger after
//! every call, by the former rule (R185), and how many are kept by either rule.

mod worked;

use second_hand::engine::{Access, Batch, Report, MAYBE, WRITE};
use second_hand::former::{falls, kept_by_each, Fell};
use second_hand::judging::{Watch, KEPT_NOW, MET};
use second_hand::lists::{Call, Manner};
use second_hand::plans::Dice;
use worked::Worked;

impl Worked {
    /// R185 of each job, as both are asked.
    fn none_is_lost(&self) -> u64 {
        let mut applied = 0;
        let judged = self.ledger.judged();
        for (job, fell) in falls(&self.batch).into_iter().enumerate() {
            let asked = self.record.ask_job(job).validity;
            assert_eq!(asked, judged[job], "R45, job {job}");
            let line = &self.ledger.jobs[job];
            let open = line.guess.is_some() && line.counted.is_none();
            let speaks = open && self.ledger.is_ready(job) && !line.job.predicts();
            if speaks && !fell.at_all() {
                assert_eq!(asked, 2, "R185, job {job}");
                assert_eq!(self.batch.ask_guess(job as u32), Ok(2), "R185, job {job}");
                applied += 1;
            }
        }
        applied
    }
}

/// What a list of calls came to: how often R185 applied, what was met, and how many
/// guesses were kept by either rule.
struct Came {
    applied: u64,
    met: [u64; MET.len()],
    kept: [u64; 2],
    kept_by_chooser: [u64; 2],
}

fn worked_out(dice: &mut Dice, manner: &Manner) -> Came {
    let mut worked = Worked::open(&manner.heights);
    let mut former = worked.batch.clone().under_former_rule();
    let mut watch = Watch::of(&worked.batch);
    let mut applied = 0;
    for _ in 0..manner.calls() {
        let call = manner.call(dice, &worked.record);
        let (answer, _) = worked.make(&call);
        // The same calls; some are answered otherwise.
        call.on_batch(&mut former);
        if let (Call::Step { number, job, .. }, 0) = (call, answer) {
            watch.after(&worked.batch, u32::from(number), job);
        }
        applied += worked.none_is_lost();
    }
    Came {
        applied,
        met: watch.met,
        kept: [&worked.batch, &former].map(|batch| u64::from(batch.tally().kept)),
        kept_by_chooser: kept_by_each(&manner.batch()).unwrap_or_default(),
    }
}

#[test]
fn random_lists() {
    let mut dice = Dice::new(1, 185);
    let (mut applied, mut met) = (0, [0; MET.len()]);
    let (mut kept, mut kept_by_chooser) = ([0; 2], [0; 2]);
    for list in 0..3600 {
        let manner = match list % 8 {
            0 => Manner::any(&mut dice),
            1 => Manner::predicting(&mut dice),
            _ => Manner::few_heights(&mut dice),
        };
        let came = worked_out(&mut dice, &manner);
        applied += came.applied;
        met.iter_mut().zip(came.met).for_each(|(a, b)| *a += b);
        for rule in 0..2 {
            kept[rule] += came.kept[rule];
            kept_by_chooser[rule] += came.kept_by_chooser[rule];
        }
    }
    println!("R185 applied {applied} times. A guess:");
    MET.iter()
        .zip(met)
        .for_each(|(what, times)| println!("  {what}: {times}"));
    println!(
        "kept by the rules and by the former rule: {kept:?}, by the chooser {kept_by_chooser:?}"
    );
    assert!(
        applied > 1000 && met.iter().all(|&times| times > 40),
        "{met:?}"
    );
    assert!(met[KEPT_NOW].iter().sum::<u64>() > 1000, "{met:?}");
    assert!(kept[0] > kept[1] && kept_by_chooser[0] > kept_by_chooser[1]);
}

// ---------------------------------------------------------------------------
// The former rule by itself

/// A maybe-writer and two writers on one cell that holds 1500, guessing on; both
/// writers are guessed, and report 1520 and 1540. The first makes this report.
fn found(former: bool, report_of_the_first: Report) -> Batch {
    let mut batch = Batch::open(&[1500]).unwrap();
    if former {
        batch = batch.under_former_rule();
    }
    for mode in [MAYBE, WRITE, WRITE] {
        batch.insert(0, 0, &[Access::to(0, mode)]).unwrap();
    }
    batch.seal(1).unwrap();
    for (job, value) in [(1, 1520), (2, 1540)] {
        batch.start_guess(job).unwrap();
        batch.report_guess(job, report(value, 0)).unwrap();
    }
    batch.start_own(0).unwrap();
    batch.report_own(0, report_of_the_first).unwrap();
    batch
}

fn report(value: i32, mark: u32) -> Report {
    Report {
        values: [value; 4],
        mark,
    }
}

const BY_MARK: Fell = Fell {
    past: true,
    source: false,
};

const BY_SOURCE: Fell = Fell {
    past: false,
    source: true,
};

#[test]
fn the_former_rule_of_a_mark_and_of_what_was_taken() {
    for height in [1500, 1501] {
        let now = found(false, report(height, 1));
        assert_eq!(falls(&now), [Fell::default(), BY_MARK, BY_SOURCE]);
        let mut former = found(true, report(height, 1));
        assert_eq!(falls(&former), falls(&now));
        // It has fallen though the height was there; R185 speaks of no such guess.
        assert_eq!(former.settle(1), Err(18));
        let judged = if height == 1500 { 2 } else { 3 };
        assert_eq!(now.ask_guess(1), Ok(judged));
        // What took from it has fallen when its source runs again, whatever it gives.
        former.start_own(1).unwrap();
        assert_eq!(
            falls(&former),
            [Fell::default(), Fell::default(), BY_SOURCE]
        );
        former.report_own(1, report(1520, 0)).unwrap();
        assert_eq!(former.settle(2), Err(18));
        assert_eq!(former.start_own(2), Ok([1520, 0, 0, 0]));
    }
}

/// Kept by the rules as they are, a guess may have fallen by the former rule, and what
/// took from it with it.
#[test]
fn the_former_rule_of_a_guess_that_was_kept() {
    let mut now = found(false, report(1500, 1));
    now.settle(1).unwrap();
    assert_eq!(falls(&now), [Fell::default(), BY_MARK, BY_SOURCE]);
    assert_eq!(now.ask_guess(2), Ok(2));
    now.settle(2).unwrap();
    assert_eq!(now.ask_cell(0), Ok(1540));
}

/// By the former rule a fallen guess is not taken from, ready or not.
#[test]
fn the_former_rule_of_starting() {
    let writer = [Access::to(0, WRITE)];
    let handed = Ok([1540, 0, 0, 0]);
    for (former, mark, answer) in [(false, 1, handed), (true, 1, Err(15)), (true, 0, handed)] {
        let mut batch = found(former, report(1500, mark));
        batch.insert(0, 0, &writer).unwrap();
        assert_eq!(batch.start_guess(3), answer);
        let fallen = former && mark == 1;
        assert_eq!(batch.settle(1), if fallen { Err(18) } else { Ok(()) });
    }
}
