//! The worked examples of the rules, P1 to P20, Monday's and Thursday's batch, and
//! some others.

use second_hand::answer;
use second_hand::engine::{
    conflict, Access, Batch, Job, Report, Settled, MAYBE, PREDICTED, READ, WRITE,
};
use second_hand::kinds;
use second_hand::lists::{Answer, Call};
use second_hand::record::{self, Record};
use second_hand::sets::{GuessTold, Told};
use second_hand::tally::{total, Tally};

fn told(plan: &str) -> String {
    String::from_utf8(answer(plan.as_bytes())).unwrap()
}

fn on(cell: u32, mode: u32) -> Access {
    Access::to(cell, mode)
}

fn report(values: [i32; 4], mark: u32) -> Report {
    Report { values, mark }
}

/// The values of the first two places, and the mark.
fn first_two(kind: u32, p: i32, a: i32, b: i32) -> (i32, i32, u32) {
    let report = kinds::result(kind, p, [a, b, 0, 0]).unwrap();
    (report.values[0], report.values[1], report.mark)
}

/// R16, in either order. All else comes back as it was handed, with mark 0.
fn mean(b: i32, c: i32) -> i32 {
    let got = kinds::result(5, 0, [7, b, c, 9]).unwrap();
    assert_eq!(got, report([got.values[0], b, c, 9], 0));
    let turned = kinds::result(5, 0, [7, c, b, 9]).unwrap();
    assert_eq!(turned, report([got.values[0], c, b, 9], 0));
    got.values[0]
}

#[test]
fn p1_floor() {
    assert_eq!(first_two(4, 1400, 1399, 0), (1400, 0, 1));
    assert_eq!(first_two(4, 1400, 1400, 0), (1400, 0, 0));
}

#[test]
fn p2_spike() {
    assert_eq!(first_two(3, 1399, 2900, 1500), (1500, 1500, 1));
    assert_eq!(first_two(3, 1400, 2900, 1500), (2900, 1500, 0));
}

#[test]
fn p3_spike_across_the_whole_range() {
    let (low, high) = (-2147483648, 2147483647);
    assert_eq!(first_two(3, 2147483647, high, low), (low, low, 1));
    assert_eq!(first_two(3, 2147483647, low, high), (high, high, 1));
}

#[test]
fn p4_shift() {
    assert_eq!(first_two(2, 20, 2147483640, 0), (2147483647, 0, 0));
    assert_eq!(first_two(2, -20, -2147483640, 0), (-2147483648, 0, 0));
}

#[test]
fn p5_mean() {
    assert_eq!(mean(3, 4), 4);
    assert_eq!(mean(-3, -4), -4);
    assert_eq!(mean(-1, 0), -1);
}

#[test]
fn means_of_small_heights() {
    assert_eq!(mean(0, 0), 0);
    assert_eq!(mean(1, 0), 1);
    assert_eq!(mean(2, 3), 3);
    assert_eq!(mean(-2, -3), -3);
    assert_eq!(mean(4, 6), 5);
    assert_eq!(mean(-4, -6), -5);
    // One height on each side of zero: it is the sum's side that counts.
    assert_eq!(mean(-1, 1), 0);
    assert_eq!(mean(-1, 2), 1);
    assert_eq!(mean(1, -2), -1);
    assert_eq!(mean(-1, 4), 2);
    assert_eq!(mean(1, -4), -2);
}

#[test]
fn means_at_the_ends_of_the_range() {
    // The four largest sums and the four least, halves 2147483646.5, 2147483645.5,
    // -2147483647.5 and -2147483646.5 among them.
    assert_eq!(mean(2147483647, 2147483647), 2147483647);
    assert_eq!(mean(2147483647, 2147483646), 2147483647);
    assert_eq!(mean(2147483647, 2147483645), 2147483646);
    assert_eq!(mean(2147483646, 2147483645), 2147483646);
    assert_eq!(mean(-2147483648, -2147483648), -2147483648);
    assert_eq!(mean(-2147483648, -2147483647), -2147483648);
    assert_eq!(mean(-2147483648, -2147483646), -2147483647);
    assert_eq!(mean(-2147483647, -2147483646), -2147483647);
    // One height at each end: sums of -1, 0 and 1.
    assert_eq!(mean(-2147483648, 2147483647), -1);
    assert_eq!(mean(-2147483647, 2147483647), 0);
    assert_eq!(mean(-2147483646, 2147483647), 1);
    // The last odd sum within 32 bits on either side, and the first past them.
    assert_eq!(mean(2147483647, 0), 1073741824);
    assert_eq!(mean(2147483647, 2), 1073741825);
    assert_eq!(mean(-2147483648, 1), -1073741824);
    assert_eq!(mean(-2147483648, -1), -1073741825);
}

/// R16, in whole numbers: none is nearer to half of the sum, and one as near is
/// nearer to zero. The two next to the mean decide: all others are farther away.
#[test]
fn a_mean_is_nearest_and_away_from_zero() {
    let (least, most) = (i64::from(i32::MIN), i64::from(i32::MAX));
    // About zero, the ends, and where two alike have a sum that just fits 32 bits.
    let heights: Vec<i64> = [0, least, most, least / 2, most / 2]
        .into_iter()
        .flat_map(|near| near - 9..=near + 9)
        .filter(|height| (least..=most).contains(height))
        .collect();
    let mut halves = [0, 0];
    for &b in &heights {
        for &c in &heights {
            let got = i64::from(mean(b as i32, c as i32));
            // Twice how far a whole number is from half of the sum.
            let far = |whole: i64| (2 * whole - b - c).abs();
            for next in [got - 1, got + 1] {
                let as_far = far(next) == far(got);
                assert!(far(next) >= far(got), "{b} and {c}: {got}");
                assert!(!as_far || next.abs() < got.abs(), "{b} and {c}: {got}");
                halves[usize::from(got < 0)] += u32::from(as_far);
            }
        }
    }
    assert!(halves.iter().all(|&times| times > 1000), "{halves:?}");
}

#[test]
fn p6_pair() {
    assert_eq!(first_two(6, 0, 1720, 1480), (1480, 1720, 1));
    assert_eq!(first_two(6, 0, 1480, 1480), (1480, 1480, 0));
    assert_eq!(first_two(6, 0, 1480, 1720), (1480, 1720, 0));
}

#[test]
fn p7_conflict() {
    let job = |cell, mode| Job {
        kind: 0,
        p: 0,
        accesses: vec![on(cell, mode)],
    };
    let clash = |one: &Job, other: &Job| conflict(one, other) != 0;
    assert!(!clash(&job(0, READ), &job(0, READ)));
    assert!(clash(&job(0, READ), &job(0, MAYBE)));
    assert!(clash(&job(0, MAYBE), &job(0, READ)));
    assert!(clash(&job(0, READ), &job(0, WRITE)));
    assert!(clash(&job(0, WRITE), &job(0, WRITE)));
    assert!(!clash(&job(0, WRITE), &job(1, WRITE)));
    // R23: a predicted write is a write.
    for mode in [READ, WRITE, MAYBE, PREDICTED] {
        assert!(clash(&job(0, mode), &job(0, PREDICTED)));
        assert!(clash(&job(0, PREDICTED), &job(0, mode)));
        assert!(!clash(&job(0, PREDICTED), &job(1, mode)));
    }
}

#[test]
fn p8_the_worked_plan() {
    let input = "cell value\n0 1500\n1 1480\nkind p a b c\n4 1400 0 - -\n2 20 0 - -\nguess\n1\n\
                 step job\n0 0\n1 1\n3 1\n2 0\n4 1\n";
    let output = "step answer\n0 0\n1 0\n3 0\n2 0\n4 0\njob how mark\n0 1 0\n1 2 0\n\
                  cell value\n0 1520\n1 1480\n";
    assert_eq!(told(input), output);
}

#[test]
fn p9_one_guess_falls_and_one_is_not_yet_judged() {
    let mut batch = Batch::open(&[1300]).unwrap();
    batch.insert(4, 1400, &[on(0, MAYBE)]).unwrap();
    batch.insert(2, 20, &[on(0, WRITE)]).unwrap();
    batch.insert(2, 20, &[on(0, WRITE)]).unwrap();
    batch.seal(1).unwrap();
    assert_eq!(batch.start_own(0), Ok([1300, 0, 0, 0]));
    assert_eq!(batch.start_guess(1), Ok([1300, 0, 0, 0]));
    assert_eq!(batch.report_guess(1, report([1320, 0, 0, 0], 0)), Ok(()));
    assert_eq!(batch.start_guess(2), Ok([1320, 0, 0, 0]));
    assert_eq!(batch.report_guess(2, report([1340, 0, 0, 0], 0)), Ok(()));
    assert_eq!(batch.report_own(0, report([1400, 0, 0, 0], 1)), Ok(()));
    assert_eq!([1, 2].map(|job| batch.ask_guess(job)), [Ok(3), Ok(1)]);
    assert_eq!(batch.start_own(2), Err(15));
    assert_eq!(batch.settle(1), Err(18));
    assert_eq!(batch.settle(2), Err(15));
    assert_eq!(batch.start_own(1), Ok([1400, 0, 0, 0]));
    assert_eq!([1, 2].map(|job| batch.ask_guess(job)), [Ok(0), Ok(1)]);
    assert_eq!(batch.report_own(1, report([1420, 0, 0, 0], 0)), Ok(()));
    // Job 2 was handed 1320.
    assert_eq!([1, 2].map(|job| batch.ask_guess(job)), [Ok(0), Ok(3)]);
    assert_eq!(batch.settle(2), Err(18));
    assert_eq!(batch.start_own(2), Ok([1420, 0, 0, 0]));
    assert_eq!(batch.report_own(2, report([1440, 0, 0, 0], 0)), Ok(()));
    assert!(batch.finished());
    assert_eq!(batch.ask_cell(0), Ok(1440));
}

#[test]
fn monday() {
    // The spike test found 1,500 sound, and the guessed 1,520 was taken over.
    let plan = "cell value\n0 1500\n1 1480\nkind p a b c\n3 400 0 1 -\n2 20 0 - -\nguess\n1\n\
                step job\n0 0\n1 1\n3 1\n2 0\n4 1\n";
    let output = "step answer\n0 0\n1 0\n3 0\n2 0\n4 0\njob how mark\n0 1 0\n1 2 0\n\
                  cell value\n0 1520\n1 1480\n";
    assert_eq!(told(plan), output);
}

#[test]
fn thursday() {
    // The same test struck out 2,900 and put in 1,500; the shift ran again.
    let plan = "cell value\n0 2900\n1 1500\nkind p a b c\n3 400 0 1 -\n2 20 0 - -\nguess\n1\n\
                step job\n0 0\n1 1\n3 1\n2 0\n4 1\n0 1\n2 1\n";
    let output = "step answer\n0 0\n1 0\n3 0\n2 0\n4 18\n0 0\n2 0\njob how mark\n0 1 1\n1 1 0\n\
                  cell value\n0 1520\n1 1500\n";
    assert_eq!(told(plan), output);
}

#[test]
fn mark_1_with_an_unchanged_height_leaves_the_guess() {
    // A spike with p below 0 puts 1,500 in for 1,500.
    let plan = "cell value\n0 1500\n1 1500\nkind p a b c\n3 -1 0 1 -\n2 20 0 - -\nguess\n1\n\
                step job\n0 0\n1 1\n3 1\n2 0\n0 1\n4 1\n";
    let output = "step answer\n0 0\n1 0\n3 0\n2 0\n0 17\n4 0\njob how mark\n0 1 1\n1 2 0\n\
                  cell value\n0 1520\n1 1500\n";
    assert_eq!(told(plan), output);
}

#[test]
fn an_earlier_reader_holds_a_writer_back() {
    let mut batch = Batch::open(&[1, 2]).unwrap();
    batch.insert(0, 0, &[on(0, READ)]).unwrap();
    batch.insert(1, 9, &[on(0, WRITE)]).unwrap();
    batch.seal(1).unwrap();
    assert_eq!(batch.start_own(1), Err(15));
    assert_eq!(batch.start_guess(1), Ok([1, 0, 0, 0]));
    assert_eq!(batch.report_guess(1, report([9, 0, 0, 0], 0)), Ok(()));
    assert_eq!(batch.settle(1), Err(15));
    assert_eq!(batch.start_own(0), Ok([1, 0, 0, 0]));
    assert_eq!(batch.report_own(0, report([77, 77, 77, 77], 0)), Ok(()));
    assert_eq!(batch.ask_cell(0), Ok(1));
    assert_eq!(batch.settle(1), Ok(()));
    assert_eq!(batch.ask_cell(0), Ok(9));
    assert_eq!(batch.ask_job(1), Ok(Settled::ByGuess { mark: 0 }));
}

#[test]
fn the_chooser() {
    let mut batch = Batch::open(&[1, 2]).unwrap();
    batch.insert(1, 5, &[on(1, WRITE)]).unwrap(); // 0: a chain of one
    batch.insert(4, 0, &[on(0, MAYBE)]).unwrap(); // 1: a chain of three
    batch.insert(2, 1, &[on(0, WRITE)]).unwrap();
    batch.insert(2, 1, &[on(0, WRITE)]).unwrap();
    batch.seal(1).unwrap();
    let choice = |batch: &Batch| batch.choose().map(|c| (c.step, c.job, c.chain));
    assert_eq!(choice(&batch), Ok((0, 1, 3)));
    batch.start_own(1).unwrap();
    assert_eq!(choice(&batch), Ok((0, 0, 1)));
    batch.start_own(0).unwrap();
    assert_eq!(choice(&batch), Ok((1, 2, 2)));
    batch.start_guess(2).unwrap();
    assert_eq!(choice(&batch), Err(19));
    batch.report_guess(2, report([2, 0, 0, 0], 0)).unwrap();
    assert_eq!(choice(&batch), Ok((1, 3, 1)));
    batch.report_own(1, report([0, 0, 0, 0], 0)).unwrap();
    assert_eq!(choice(&batch), Ok((4, 2, 2)));
}

#[test]
fn p10_limits() {
    let mut batch = Batch::open(&[0; 64]).unwrap();
    for _ in 0..128 {
        batch.insert(4, 0, &[on(63, MAYBE)]).unwrap();
    }
    assert_eq!(batch.insert(4, 0, &[on(63, MAYBE)]), Err(3));
    assert_eq!(Batch::open(&[0; 65]), Err(1));
    let mut batch = Batch::open(&[0; 5]).unwrap();
    assert_eq!(
        batch.insert(0, 0, &[0, 1, 2, 3, 4].map(|cell| on(cell, READ))),
        Err(4)
    );
    assert!(!batch.finished());
    batch.seal(0).unwrap();
    assert!(batch.finished());
}

/// One batch on both implementations, `engine` and `record`.
struct Both {
    batch: Batch,
    record: Record,
}

impl Both {
    fn open(heights: &[i32]) -> Both {
        Both {
            batch: Batch::open(heights).unwrap(),
            record: Record::open(heights).unwrap(),
        }
    }

    /// A floor and so many shifts on cell 0; not sealed.
    fn floor_and_shifts(heights: &[i32], shifts: usize) -> Both {
        let mut both = Both::open(heights);
        both.insert(4, 1400, 2);
        for _ in 0..shifts {
            both.insert(2, 20, 1);
        }
        both
    }

    fn insert(&mut self, kind: u8, parameter: i32, mode: u8) {
        self.insert_on(kind, parameter, &[(0, mode)]);
    }

    fn insert_on(&mut self, kind: u8, parameter: i32, used: &[(u8, u8)]) {
        assert_eq!(self.try_insert(kind, parameter, used, 0), 0);
    }

    /// The prediction is that of the first access.
    fn try_insert(&mut self, kind: u8, parameter: i32, used: &[(u8, u8)], prediction: i32) -> u8 {
        let mut accesses = [(0, 0); 4];
        accesses[..used.len()].copy_from_slice(used);
        self.call(Call::Insert(record::Job {
            kind,
            arity: used.len() as u8,
            accesses,
            parameter,
            predicted: [prediction, 0, 0, 0],
        }))
    }

    /// 0 or the refusal, the same from both.
    fn call(&mut self, call: Call) -> u8 {
        self.answer(call).0
    }

    fn answer(&mut self, call: Call) -> Answer {
        let answer = call.on_record(&mut self.record);
        assert_eq!(call.on_batch(&mut self.batch), answer);
        answer
    }

    /// A step; what is reported is the kind's result.
    fn step(&mut self, number: u8, job: usize) -> u8 {
        self.tried(number, job).0
    }

    fn tried(&mut self, number: u8, job: usize) -> Answer {
        let held = self.record.jobs[job];
        let handed = self.record.runs[job].handed;
        let report = kinds::result(u32::from(held.kind), held.parameter, handed).unwrap();
        self.answer(Call::Step {
            number,
            job,
            values: report.values,
            mark: report.mark as u8,
        })
    }

    /// The tally is this on both.
    fn has(&self, due: [u32; 5]) -> Tally {
        assert_eq!(self.batch.tally().numbers(), due);
        assert_eq!(self.record.ask_tally(), (0, Tally::of_numbers(due)));
        Tally::of_numbers(due)
    }

    /// Asking the job's guess tells of the jobs looked past and of the open ones this
    /// size and lowest, on both.
    fn tells(&self, job: usize, past: (usize, Option<usize>), open: (usize, Option<usize>)) {
        let [looked_past, open] = [past, open].map(|(size, lowest)| Told { size, lowest });
        let told = GuessTold { looked_past, open };
        assert_eq!(self.record.ask_looked_past(job), (0, told));
        assert_eq!(self.batch.ask_looked_past(job as u32), Ok(told));
    }

    /// The guesses of the first jobs are judged so, on both.
    fn judges<const JOBS: usize>(&self, due: [u8; JOBS]) {
        for (job, due) in due.into_iter().enumerate() {
            assert_eq!(self.record.ask_job(job).validity, due, "job {job}");
            assert_eq!(self.batch.ask_guess(job as u32), Ok(u32::from(due)));
        }
    }

    /// A step with this value and mark in its report, if it is one.
    fn step_with(&mut self, number: u8, job: usize, value: i32, mark: u8) -> Answer {
        let values = [value, 0, 0, 0];
        self.answer(Call::Step {
            number,
            job,
            values,
            mark,
        })
    }

    /// Both are finished or both are not, and have these cells.
    fn stands<const CELLS: usize>(&self, finished: bool, cells: [i32; CELLS]) {
        assert_eq!(self.batch.finished(), finished);
        assert_eq!(self.record.ask_batch().finished, finished);
        for (cell, height) in cells.into_iter().enumerate() {
            assert_eq!(self.batch.ask_cell(cell as u32), Ok(height));
            assert_eq!(self.record.ask_cell(cell), (0, height));
        }
    }

    /// The sort of the conflict of the two jobs that it holds (R24): `engine` says it; of
    /// both it is seen in whether the second has to wait (R21), and in the first one's chain
    /// (R22).
    fn sort(&mut self) -> u32 {
        assert_eq!(self.call(Call::Seal(0)), 0);
        let job = |number| self.batch.job(number).unwrap();
        let sort = conflict(job(0), job(1));
        let longest = self.batch.choose().unwrap().chain;
        assert_eq!(u32::from(self.record.choose().3), longest);
        assert_eq!(longest, if sort == 1 { 2 } else { 1 });
        let waits = self.step_with(0, 1, 0, 0).0;
        assert_eq!(waits, if sort == 0 { 0 } else { 15 });
        sort
    }

    /// The chooser names this step, job and chain.
    fn chooses(&self, step: u8, job: u8, chain: u8) {
        let choice = self.batch.choose().unwrap();
        let named = (choice.step, choice.job, choice.chain);
        assert_eq!(named, (step.into(), job.into(), chain.into()));
        assert_eq!(self.record.choose(), (0, step, job, chain));
    }
}

/// P8's batch; its last tally.
fn p11_of_p8() -> Tally {
    let mut both = Both::floor_and_shifts(&[1500, 1480], 1);
    both.has([2, 0, 0, 0, 0]);
    assert_eq!(both.call(Call::Seal(1)), 0);
    assert_eq!(both.step(0, 0), 0);
    assert_eq!(both.step(1, 1), 0);
    both.has([2, 1, 0, 0, 1]);
    assert_eq!(both.step(3, 1), 0);
    both.has([2, 1, 0, 0, 1]);
    assert_eq!(both.step(2, 0), 0);
    // Still stored.
    both.has([2, 1, 0, 0, 1]);
    assert_eq!(both.step(4, 1), 0);
    assert!(both.batch.finished() && both.record.ask_batch().finished);
    assert_eq!(both.batch.ask_cell(0), Ok(1520));
    assert_eq!(both.record.ask_cell(0), (0, 1520));
    both.has([2, 1, 1, 0, 0])
}

/// P9's batch; its last tally.
fn p11_of_p9() -> Tally {
    let mut both = Both::floor_and_shifts(&[1300], 2);
    assert_eq!(both.call(Call::Seal(1)), 0);
    for (number, job) in [(0, 0), (1, 1), (3, 1), (1, 2), (3, 2), (2, 0)] {
        assert_eq!(both.step(number, job), 0);
    }
    // The first guess has fallen, the second is not yet judged, and none is thrown away.
    both.judges([0, 3, 1]);
    both.has([3, 2, 0, 0, 2]);
    assert_eq!(both.step(0, 2), 15);
    both.has([3, 2, 0, 0, 2]);
    assert_eq!(both.step(0, 1), 0);
    both.has([3, 2, 0, 1, 1])
}

#[test]
fn p11_tallies() {
    let both_last = Tally::of_numbers([5, 3, 1, 1, 1]);
    assert_eq!(total(&[p11_of_p8(), p11_of_p9()]), (0, both_last));
    assert_eq!(both_last.kept_share(), Some(333));
}

#[test]
fn p11_totals_at_the_limit() {
    for place in 0..5 {
        let only = |number| {
            let mut numbers = [0; 5];
            numbers[place] = number;
            Tally::of_numbers(numbers)
        };
        let most = only(4_294_967_295);
        assert_eq!(total(&[most, only(0)]), (0, most));
        assert_eq!(total(&[most, only(1)]), (23, Tally::default()));
    }
}

/// P8's batch, sealed with guessing on.
fn p8() -> Both {
    let mut both = Both::floor_and_shifts(&[1500, 1480], 1);
    assert_eq!(both.call(Call::Seal(1)), 0);
    both
}

#[test]
fn p12_a_job_for_a_finished_batch() {
    let mut both = p8();
    for (number, job) in [(0, 0), (1, 1), (3, 1), (2, 0), (4, 1)] {
        assert_eq!(both.step(number, job), 0);
    }
    both.stands(true, [1520, 1480]);
    both.insert(2, 5, 1);
    assert_eq!(both.record.job_count, 3);
    both.stands(false, [1520, 1480]);
    assert_eq!(both.call(Call::Seal(1)), 2);
    both.chooses(0, 2, 1);
    assert_eq!(both.tried(0, 2), (0, [1520, 0, 0, 0]));
    assert_eq!(both.step(2, 2), 0);
    both.stands(true, [1525, 1480]);
}

#[test]
fn p12_a_job_while_both_runs_are_out() {
    let mut both = p8();
    assert_eq!(both.step(0, 0), 0);
    assert_eq!(both.step(1, 1), 0);
    both.insert(2, 5, 1);
    assert_eq!(both.step(1, 2), 15);
    assert_eq!(both.step(3, 1), 0);
    assert_eq!(both.tried(1, 2), (0, [1520, 0, 0, 0]));
    assert_eq!(both.step(3, 2), 0);
    assert_eq!(both.step(2, 0), 0);
    assert_eq!(both.step(4, 2), 15);
    assert_eq!(both.step(4, 1), 0);
    both.stands(false, [1520, 1480]);
    assert_eq!(both.step(4, 2), 0);
    both.stands(true, [1525, 1480]);
}

#[test]
fn p13_what_a_guess_looked_past() {
    let mut both = Both::open(&[1500, 1480, 0]);
    both.insert_on(4, 1400, &[(0, 2)]);
    both.insert_on(4, 1400, &[(1, 2)]);
    both.insert_on(6, 0, &[(0, 2), (1, 2)]);
    both.insert_on(5, 0, &[(2, 1), (0, 0), (1, 0)]);
    assert_eq!(both.call(Call::Seal(1)), 0);
    let none = (0, None);
    both.tells(3, none, none);
    assert_eq!(both.step(1, 3), 0);
    let three = (3, Some(0));
    both.tells(3, three, three);
    for (job, open) in [(0, (2, Some(1))), (1, (1, Some(2))), (2, none)] {
        assert_eq!(both.step(0, job), 0);
        assert_eq!(both.step(2, job), 0);
        both.tells(3, three, open);
    }
    // The pair has changed places.
    assert_eq!(both.record.ask_job(2).wrote, 1);
    both.judges([0, 0, 0, 3]);
    assert_eq!(both.step(0, 3), 0);
    both.tells(3, none, none);
    let refused = (11, GuessTold::default());
    assert_eq!(both.record.ask_looked_past(4), refused);
    assert_eq!(both.batch.ask_looked_past(4), Err(11));
}

/// P14's batch, up to the report of job 0 with mark 1 and this height.
fn p14(height: i32) -> Both {
    let mut both = Both::open(&[1500]);
    both.insert(0, 0, 2);
    both.insert(2, 20, 1);
    assert_eq!(both.call(Call::Seal(1)), 0);
    assert_eq!(both.tried(1, 1), (0, [1500, 0, 0, 0]));
    both.judges([0, 1]);
    assert_eq!(both.step(3, 1), 0);
    assert_eq!(both.record.ask_job(1).reported, [1520, 0, 0, 0]);
    both.judges([0, 1]);
    assert_eq!(both.step_with(0, 0, 0, 0), (0, [1500, 0, 0, 0]));
    both.judges([0, 1]);
    assert_eq!(both.step_with(2, 0, height, 1).0, 0);
    both
}

#[test]
fn p14_the_height_that_was_there() {
    let mut both = p14(1500);
    assert_eq!(both.record.ask_job(0).wrote, 1);
    both.judges([0, 2]);
    assert_eq!(both.step(0, 1), 17);
    both.chooses(4, 1, 1);
    assert_eq!(both.step(4, 1), 0);
    both.judges([0, 0]);
    both.stands(true, [1520]);
}

#[test]
fn p14_another_height() {
    let mut both = p14(1501);
    both.judges([0, 3]);
    assert_eq!(both.step(4, 1), 18);
    both.chooses(0, 1, 1);
    assert_eq!(both.tried(0, 1), (0, [1501, 0, 0, 0]));
    both.judges([0, 0]);
    assert_eq!(both.step(2, 1), 0);
    both.judges([0, 0]);
    both.stands(true, [1521]);
}

/// P15's batch, up to the report of job 1's own run with this height.
fn p15(height: i32) -> Both {
    let mut both = Both::open(&[1390]);
    both.insert(4, 1400, 2);
    both.insert(1, 1500, 1);
    both.insert(2, 20, 1);
    assert_eq!(both.call(Call::Seal(1)), 0);
    for (job, handed, reported) in [(1, 1390, 1500), (2, 1500, 1520)] {
        assert_eq!(both.tried(1, job), (0, [handed, 0, 0, 0]));
        assert_eq!(both.step(3, job), 0);
        assert_eq!(both.record.ask_job(job).reported, [reported, 0, 0, 0]);
    }
    assert_eq!(both.step(0, 0), 0);
    both.judges([0, 1, 1]);
    assert_eq!(both.step(2, 0), 0);
    both.stands(false, [1400]);
    both.judges([0, 3, 1]);
    assert_eq!(both.tried(0, 1), (0, [1400, 0, 0, 0]));
    both.judges([0, 0, 1]);
    assert_eq!(both.step_with(2, 1, height, 0).0, 0);
    both
}

#[test]
fn p15_the_source_gives_the_same_again() {
    let mut both = p15(1500);
    both.judges([0, 0, 2]);
    assert_eq!(both.step(0, 2), 17);
    assert_eq!(both.step(4, 2), 0);
    both.judges([0, 0, 0]);
    both.stands(true, [1520]);
}

#[test]
fn p15_the_source_gives_another() {
    let mut both = p15(1501);
    both.judges([0, 0, 3]);
    assert_eq!(both.step(4, 2), 18);
    assert_eq!(both.tried(0, 2), (0, [1501, 0, 0, 0]));
    assert_eq!(both.step(2, 2), 0);
    both.stands(true, [1521]);
}

/// P16's batch, with job 0's own run out; the cell of job 1 has this mode.
fn p16(mode: u8) -> Both {
    let mut both = Both::open(&[1500]);
    both.insert(0, 0, 1);
    assert_eq!(both.try_insert(0, 0, &[(0, mode)], 1510), 0);
    assert_eq!(both.call(Call::Seal(1)), 0);
    assert_eq!(both.step_with(0, 0, 0, 0), (0, [1500, 0, 0, 0]));
    both
}

/// The guess of job 1 reports 1530, and job 0 this height.
fn p16_reported(height: i32) -> Both {
    let mut both = p16(3);
    assert_eq!(both.step_with(1, 1, 0, 0), (0, [1510, 0, 0, 0]));
    both.tells(1, (0, None), (0, None));
    assert_eq!(both.step_with(3, 1, 1530, 0).0, 0);
    both.judges([0, 1]);
    assert_eq!(both.step_with(2, 0, height, 0).0, 0);
    both
}

#[test]
fn p16_a_prediction_that_was_right() {
    assert_eq!(p16(1).step_with(1, 1, 0, 0).0, 15);
    let mut both = p16_reported(1510);
    both.judges([0, 2]);
    assert_eq!(both.step_with(0, 1, 0, 0).0, 17);
    assert_eq!(both.step_with(4, 1, 0, 0).0, 0);
    both.stands(true, [1530]);
}

#[test]
fn p16_a_prediction_that_was_wrong() {
    let mut both = p16_reported(1511);
    both.judges([0, 3]);
    assert_eq!(both.step_with(4, 1, 0, 0).0, 18);
    assert_eq!(both.step_with(0, 1, 0, 0), (0, [1511, 0, 0, 0]));
    both.has([2, 1, 0, 1, 0]);
    assert_eq!(both.step_with(2, 1, 1531, 0).0, 0);
    both.stands(true, [1531]);
}

#[test]
fn p17_a_prediction_beside_other_cells() {
    let mut both = Both::open(&[1500, 1480]);
    both.insert_on(4, 1400, &[(0, 2)]);
    both.insert_on(4, 1400, &[(1, 2)]);
    assert_eq!(both.try_insert(0, 0, &[(0, 3), (1, 0)], 1510), 0);
    both.insert_on(2, 5, &[(0, 1)]);
    assert_eq!(both.call(Call::Seal(1)), 0);
    assert_eq!(both.step(1, 3), 15);
    assert_eq!(both.step_with(1, 2, 0, 0), (0, [1510, 1480, 0, 0]));
    both.tells(2, (1, Some(1)), (1, Some(1)));
    assert_eq!(both.step(1, 3), 15);
    assert_eq!(both.step_with(3, 2, 1520, 0).0, 0);
    assert_eq!(both.tried(1, 3), (0, [1520, 0, 0, 0]));
    assert_eq!(both.step(3, 3), 0);
    for job in 0..2 {
        assert_eq!(both.step(0, job), 0);
        assert_eq!(both.step(2, job), 0);
        assert_eq!(both.record.ask_job(job).wrote, 0);
    }
    // Cell 0 holds 1500.
    both.judges([0, 0, 3, 1]);
    assert_eq!(both.step_with(0, 2, 0, 0), (0, [1500, 1480, 0, 0]));
    assert_eq!(both.step_with(2, 2, 1520, 0).0, 0);
    both.judges([0, 0, 0, 2]);
    assert_eq!(both.step(4, 3), 0);
    both.stands(true, [1525, 1480]);
}

#[test]
fn p18_refusals_of_modes() {
    let mut both = Both::open(&[1500]);
    assert_eq!(both.try_insert(0, 0, &[(0, 4)], 1510), 6);
    assert_eq!(both.try_insert(2, 20, &[(0, 3)], 1510), 8);
    assert_eq!(both.record.job_count, 0);
    assert_eq!(both.try_insert(0, 0, &[(0, 3)], 1510), 0);
    assert_eq!(both.call(Call::Seal(1)), 0);
    assert_eq!(both.step_with(0, 0, 0, 0), (0, [1500, 0, 0, 0]));
    assert_eq!(both.step_with(2, 0, 1520, 1).0, 16);
    assert_eq!(both.step_with(2, 0, 1520, 0).0, 0);
    both.stands(true, [1520]);
}

/// The sort of two jobs' conflict, each of a kind with these accesses.
fn p19(earlier: (u8, &[(u8, u8)]), later: (u8, &[(u8, u8)])) -> u32 {
    let mut both = Both::open(&[1500; 3]);
    for (kind, used) in [earlier, later] {
        both.insert_on(kind, 20, used);
    }
    both.sort()
}

#[test]
fn p19_sorts_of_one_cell() {
    let sort = |one: u8, other: u8| p19((0, &[(0, one)]), (0, &[(0, other)]));
    assert_eq!([0, 1, 2, 3].map(|mode| sort(0, mode)), [0, 2, 2, 2]);
    for earlier in [1, 2, 3] {
        assert_eq!([0, 1, 2, 3].map(|mode| sort(earlier, mode)), [1; 4]);
    }
}

#[test]
fn p19_sorts_of_several_cells() {
    let mean: (u8, &[(u8, u8)]) = (5, &[(0, 1), (1, 0), (2, 0)]);
    let shift: (u8, &[(u8, u8)]) = (2, &[(1, 1)]);
    assert_eq!(p19(mean, shift), 2);
    assert_eq!(p19(shift, mean), 1);
    let one: (u8, &[(u8, u8)]) = (3, &[(0, 2), (1, 0)]);
    let other: (u8, &[(u8, u8)]) = (3, &[(1, 2), (0, 0)]);
    assert_eq!(p19(one, other), 1);
}

/// P20's batch, sealed, with guessing off.
fn p20() -> Both {
    let mut both = Both::open(&[1500; 7]);
    both.insert_on(5, 0, &[(0, 1), (1, 0), (2, 0)]);
    both.insert_on(2, 5, &[(1, 1)]);
    both.insert_on(3, 1000, &[(3, 2), (4, 0)]);
    both.insert_on(4, 1400, &[(5, 2)]);
    both.insert_on(4, 1400, &[(6, 2)]);
    assert_eq!(both.call(Call::Seal(0)), 0);
    both
}

#[test]
fn p20_what_the_chooser_prefers() {
    let mut both = p20();
    for job in [3, 4, 2, 0] {
        both.chooses(0, job, 1);
        assert_eq!(both.step(0, usize::from(job)), 0);
    }
    assert_eq!(both.batch.choose(), Err(19));
    assert_eq!(both.record.choose(), (19, 0, 0, 0));
    assert_eq!(both.step(2, 0), 0);
    both.chooses(0, 1, 1);
}

#[test]
fn p20_a_longer_chain() {
    let mut both = p20();
    both.insert_on(2, 5, &[(0, 1)]);
    both.chooses(0, 0, 2);
    assert_eq!(both.step(0, 0), 0);
    both.chooses(0, 3, 1);
}
