//! The turn (R64 to R66) on `record` and on `engine`: the cases that the rules name and those
//! at their edges, records out of form, and random turns between the calls of random lists
//! of calls, held against the same calls one by one and the ledger (R161).

mod worked;

use second_hand::lists::{Call, Manner};
use second_hand::plans::Dice;
use second_hand::record::{Job, Record, Taken, Turned};
use second_hand::turns::{any_lent, List, Made, Turn, Watch, NO_REPORT};
use worked::Worked;

fn turned(refusal: u8, count: u8) -> Turned {
    Turned { refusal, count }
}

fn job(kind: u8, parameter: i32, accesses: &[(u8, u8)]) -> Job {
    let mut job = Job {
        kind,
        parameter,
        arity: accesses.len() as u8,
        ..Job::default()
    };
    job.accesses[..accesses.len()].copy_from_slice(accesses);
    job
}

fn shift(cell: u8, by: i32) -> Job {
    job(2, by, &[(cell, 1)])
}

fn floor(cell: u8) -> Job {
    job(4, 1400, &[(cell, 2)])
}

fn taken(step: u8, job: u8, first: i32) -> Taken {
    Taken {
        step,
        job,
        handed: [first, 0, 0, 0],
    }
}

fn report(number: u8, job: usize, value: i32, limit: usize) -> Turn {
    Turn {
        number,
        job,
        values: [value; 4],
        mark: 0,
        limit,
    }
}

/// What stands in the lent list before a turn.
const OTHER: Taken = Taken {
    step: 9,
    job: 200,
    handed: [7; 4],
};

impl Worked {
    /// A batch of these cells and jobs, sealed with guessing on.
    fn sealed(heights: &[i32], jobs: &[Job]) -> Worked {
        let mut worked = Worked::open(heights);
        for &job in jobs {
            assert_eq!(worked.make(&Call::Insert(job)).0, 0);
        }
        assert_eq!(worked.make(&Call::Seal(1)).0, 0);
        worked
    }

    /// Makes the turn in both, which answer alike, tell the same steps and leave what the
    /// single calls leave; and enters it.
    fn turn(&mut self, turn: &Turn, lent: &List) -> (Turned, List) {
        let before = self.clone();
        let (mut list, mut other) = (*lent, *lent);
        let answer = turn.on_record(&mut self.record, &mut list);
        assert_eq!(
            turn.on_batch(&mut self.batch, &mut other),
            answer,
            "{turn:?}"
        );
        assert_eq!(other, list, "{turn:?}");
        let steps = &list[..usize::from(answer.count)];
        self.ledger.enter_turn(turn, answer.refusal, steps);
        if answer.refusal != 0 {
            // R66.
            assert!((&self.record, &self.batch) == (&before.record, &before.batch));
            assert_eq!((answer.count, list), (0, *lent), "{turn:?}");
            return (answer, list);
        }
        // R65: zeros after the steps.
        let rest = &list[usize::from(answer.count)..];
        assert!(rest.iter().all(|place| *place == Taken::default()));
        // R161: the same calls by themselves.
        let mut single = before;
        if let Some(report) = turn.report() {
            assert_eq!(single.make(&report), (0, [0; 4]));
        }
        for taken in steps {
            let (refusal, step, job, _) = single.record.choose();
            assert_eq!((refusal, step, job), (0, taken.step, taken.job), "R64");
            assert_eq!(single.make(&taken.step_call()), (0, taken.handed), "R65");
        }
        assert!(
            (&self.record, &self.batch) == (&single.record, &single.batch),
            "R161"
        );
        (answer, list)
    }

    /// The turn with other numbers in the list: the answer, and the steps that it tells.
    fn steps(&mut self, turn: &Turn) -> (Turned, Vec<Taken>) {
        let (answer, list) = self.turn(turn, &[OTHER; 16]);
        (answer, list[..usize::from(answer.count)].to_vec())
    }

    /// R171 and R173 to R175; R45 and R183, which depend on the order of the steps.
    fn claim(&self) {
        let (record, jobs) = (&self.record, 0..self.ledger.jobs.len());
        let asked: Vec<_> = jobs.clone().map(|job| record.ask_job(job)).collect();
        let settled: Vec<(u8, u8)> = asked.iter().map(|job| (job.committed, job.wrote)).collect();
        self.ledger.claim(&self.batch.cells(), &settled);
        let judged: Vec<u8> = asked.iter().map(|job| job.validity).collect();
        assert_eq!(judged, self.ledger.judged(), "R45");
        for job in jobs {
            let told = self.ledger.told(job);
            assert_eq!(record.ask_looked_past(job), (0, told), "R183");
        }
    }
}

// ---------------------------------------------------------------------------
// Named cases

/// P8's batch in turns: the last report settles the guess in the same turn.
#[test]
fn p8_in_turns() {
    let mut worked = Worked::sealed(&[1500, 1480], &[floor(0), shift(0, 20)]);
    let first = worked.steps(&Turn::without(9));
    assert_eq!(
        first,
        (turned(0, 2), vec![taken(0, 0, 1500), taken(1, 1, 1500)])
    );
    assert_eq!(worked.steps(&report(3, 1, 1520, 9)), (turned(0, 0), vec![]));
    let last = worked.steps(&report(2, 0, 1500, 9));
    assert_eq!(last, (turned(0, 1), vec![taken(4, 1, 0)]));
    assert!(worked.batch.finished());
    assert_eq!(worked.batch.cells(), [1520, 1480]);
}

/// Limits 0, 1, 15, 16, 17 and huge ones, with 20 jobs that do not wait for each other.
#[test]
fn limits() {
    let jobs: Vec<Job> = (0..20).map(|cell| shift(cell, 1)).collect();
    let opened = Worked::sealed(&[1500; 20], &jobs);
    for limit in [
        0,
        1,
        2,
        15,
        16,
        17,
        255,
        256,
        1 << 32,
        usize::MAX / 2 + 1,
        usize::MAX,
    ] {
        let (answer, steps) = opened.clone().steps(&Turn::without(limit));
        let due = limit.min(16);
        assert_eq!(answer, turned(0, due as u8));
        let each: Vec<Taken> = (0..due as u8).map(|job| taken(0, job, 1500)).collect();
        assert_eq!(steps, each);
    }
    // The rest comes with the next turn, and the chooser ends it.
    let mut worked = opened;
    worked.steps(&Turn::without(16));
    assert_eq!(worked.steps(&Turn::without(16)).0, turned(0, 4));
    assert_eq!(worked.steps(&Turn::without(16)).0, turned(0, 0));
}

/// The report is taken with limit 0 too, and no step is.
#[test]
fn a_report_alone() {
    let mut worked = Worked::sealed(&[1500], &[shift(0, 5), shift(0, 5)]);
    worked.steps(&Turn::without(1));
    assert_eq!(worked.steps(&report(2, 0, 1505, 0)).0, turned(0, 0));
    assert_eq!(worked.batch.cells(), [1505]);
    let next = worked.steps(&Turn::without(1));
    assert_eq!(next, (turned(0, 1), vec![taken(0, 1, 1505)]));
}

/// R66: every number but 2, 3 and 255 is refused with 21, before the seal too.
#[test]
fn numbers() {
    let mut unsealed = Worked::open(&[1500]);
    unsealed.make(&Call::Insert(floor(0)));
    let mut sealed = unsealed.clone();
    sealed.make(&Call::Seal(1));
    let mut out = sealed.clone();
    assert_eq!(out.steps(&Turn::without(1)).0, turned(0, 1));
    for number in 0..=255 {
        let due = match number {
            2 | 3 | NO_REPORT => [10, if number == NO_REPORT { 0 } else { 13 }],
            _ => [21, 21],
        };
        for limit in [0, 1, usize::MAX] {
            let turn = report(number, 0, 1500, limit);
            assert_eq!(unsealed.steps(&turn).0, turned(due[0], 0), "{turn:?}");
            assert_eq!(sealed.clone().steps(&turn).0.refusal, due[1], "{turn:?}");
            let with_run = out.clone().steps(&turn).0.refusal;
            assert_eq!(with_run, if number == 2 { 0 } else { due[1] }, "{turn:?}");
        }
    }
}

/// R64: without a report job and report are not looked at.
#[test]
fn what_is_not_looked_at() {
    let opened = Worked::sealed(&[1500], &[floor(0)]);
    for job in [0, 1, 255, 256, usize::MAX] {
        for mark in [0, 1, 2, 255] {
            let turn = Turn {
                job,
                mark,
                ..Turn::without(4)
            };
            let due = (turned(0, 1), vec![taken(0, 0, 1500)]);
            assert_eq!(opened.clone().steps(&turn), due);
        }
    }
}

/// R66: as the report is refused, 10, 11, 13 and 16.
#[test]
fn refused_reports() {
    let mut worked = Worked::sealed(&[1500], &[shift(0, 5), floor(0)]);
    worked.steps(&Turn::without(1));
    let before = worked.record.clone();
    for limit in [0, 1, 16] {
        for job in [2, 128, 255, 256, 1 << 32, usize::MAX] {
            assert_eq!(worked.steps(&report(2, job, 0, limit)).0, turned(11, 0));
            assert_eq!(worked.steps(&report(3, job, 0, limit)).0, turned(11, 0));
        }
        assert_eq!(worked.steps(&report(3, 0, 0, limit)).0, turned(13, 0));
        assert_eq!(worked.steps(&report(2, 1, 0, limit)).0, turned(13, 0));
        for mark in [1, 2, 255] {
            let turn = Turn {
                mark,
                ..report(2, 0, 0, limit)
            };
            assert_eq!(worked.steps(&turn).0, turned(16, 0));
        }
    }
    assert_eq!(worked.record, before);
}

/// R66: that none is named is no refusal: with no jobs, all settled, or all out.
#[test]
fn no_step() {
    let mut worked = Worked::sealed(&[1500], &[]);
    assert_eq!(worked.steps(&Turn::without(16)).0, turned(0, 0));
    worked.make(&Call::Insert(shift(0, 5)));
    assert_eq!(worked.steps(&Turn::without(16)).0, turned(0, 1));
    assert_eq!(worked.steps(&Turn::without(16)).0, turned(0, 0));
    assert_eq!(worked.steps(&report(2, 0, 1505, 16)).0, turned(0, 0));
    assert!(worked.batch.finished());
}

/// One report, and then steps of each number: settles that made each other ready, the start
/// of a job behind them, and a guess.
#[test]
fn all_steps_in_one_turn() {
    let jobs = [floor(0), shift(0, 5), shift(0, 5), floor(0), shift(0, 5)];
    let mut worked = Worked::sealed(&[1500], &jobs);
    assert_eq!(
        worked.steps(&Turn::without(2)).1,
        [taken(0, 0, 1500), taken(1, 1, 1500)]
    );
    assert_eq!(worked.steps(&report(3, 1, 1505, 1)).1, [taken(1, 2, 1505)]);
    assert_eq!(worked.steps(&report(3, 2, 1510, 0)).1, []);
    let due = [
        taken(4, 1, 0),
        taken(4, 2, 0),
        taken(0, 3, 1510),
        taken(1, 4, 1510),
    ];
    assert_eq!(worked.steps(&report(2, 0, 1500, 16)).1, due);
}

/// R132: 32 before all, and neither record nor list changes.
#[test]
fn out_of_form() {
    let opened = Worked::sealed(&[1500], &[floor(0)]).record;
    let damage: [fn(&mut Record); 4] = [
        |record| record.cell_count = 0,
        |record| record.job_count = 129,
        |record| record.sealed = 2,
        |record| record.phase[0] = 4,
    ];
    for damage in damage {
        let mut record = opened.clone();
        damage(&mut record);
        let before = record.clone();
        for number in 0..=255 {
            for limit in [0, 16] {
                let mut list = [OTHER; 16];
                let answer = report(number, 0, 0, limit).on_record(&mut record, &mut list);
                assert_eq!((answer, list), (turned(32, 0), [OTHER; 16]));
            }
        }
        assert_eq!(record, before);
    }
}

// ---------------------------------------------------------------------------
// Random turns

#[test]
fn random_turns() {
    let (mut dice, mut watch) = (Dice::new(1, 64), Watch::default());
    for _ in 0..600 {
        let manner = Manner::turning(&mut dice);
        let mut worked = Worked::open(&manner.heights);
        let share = manner.share_of_turns(&mut dice);
        for _ in 0..manner.turns() {
            if manner.is_done(&worked.record) && dice.percent(30) {
                break;
            }
            if worked.record.sealed == 0 && dice.percent(90) || !dice.percent(share) {
                let call = manner.call(&mut dice, &worked.record);
                worked.make(&call);
                continue;
            }
            let (turn, lent) = (manner.turn(&mut dice, &worked.record), any_lent(&mut dice));
            let before = worked.record.clone();
            let (turned, list) = worked.turn(&turn, &lent);
            let made = Made {
                before: &before,
                turn: &turn,
                lent: &lent,
                turned,
                list: &list,
                after: &worked.record,
            };
            watch.made(&made, before.job_count < 20 || dice.percent(10));
            if dice.percent(20) {
                worked.claim();
            }
        }
        worked.claim();
    }
    let lines = watch.lines();
    lines
        .iter()
        .for_each(|(what, times)| println!("{what}: {times}"));
    assert!(
        lines.iter().all(|&(_, times)| times > 0),
        "something never came up"
    );
}
