//! What a guess looked past (R78, R79). Batches are worked by random lists of calls (`second_hand::lists`) in three hands at once,
//! and on the way the guesses of all jobs are asked for: every answer is held against both of the second hand's engines and
//! against the ledger (`second_hand::ledger`, kept from the calls alone), by R183 and R184. So are mornings with many guesses
//! that look past many jobs, which are then settled one by one. BATCHES=COUNT sets how many lists, SEED=NUMBER which; it prints
//! what was met (`cargo test --test speculations -- --nocapture`).

mod hands;
mod met;
mod morning;
mod sets;
mod setting;
#[allow(dead_code)] // Calls that only tests/damaged.rs makes.
mod theirs;

use met::{add, print};
use morning::Morning;
use second_hand::lists::{Call, Manner};
use second_hand::plans::Dice;
use second_hand::record;
use second_hand::sets::GuessTold;
use sets::Sets;
use setting::setting;
use sorghemi::raw::SetAnswer;
use sorghemi::{Batch, Jobs, Refusal, Speculation};
use std::collections::VecDeque;
use theirs::told;

impl Morning {
    /// A call that has to be accepted.
    fn accept(&mut self, call: Call) {
        assert_eq!(self.make(&call), 0, "{call:?}");
    }

    /// With mark 1 it writes another height than the first.
    fn step(&mut self, number: u8, job: usize, mark: u8) {
        self.accept(Call::Step { number, job, values: [i32::from(mark); 4], mark });
    }

    /// An outside job with these cells and modes.
    fn insert(&mut self, used: &[(u8, u8)]) {
        let mut accesses = [(0, 0); 4];
        accesses[..used.len()].copy_from_slice(used);
        self.accept(Call::Insert(record::Job { arity: used.len() as u8, accesses, ..record::Job::default() }));
    }
}

/// How a guess may stand when it is asked for. Each has to come up.
const STATES: [&str; 8] = [
    "not started, the job not settled",
    "not started, the job settled",
    "out, not fallen",
    "out, fallen",
    "stored, not fallen, the job not settled",
    "stored, fallen",
    "kept: the job is settled by it",
    "thrown away",
];

/// The place in STATES of the job's guess, as the second hand's record has it.
fn state(record: &record::Record, job: usize) -> usize {
    let fallen = (record.ask_job(job).validity == 3) as usize;
    match (record.phase[job], record.committed[job]) {
        (0, how) => (how != 0) as usize,
        (1, _) => 2 + fallen,
        (2, 2) => 6,
        (2, _) => 4 + fallen,
        _ => 7,
    }
}

/// What a guess may have taken. Each has to come up.
const TOOK: [&str; 5] = [
    "looked past none, for it only took from a writer",
    "looked past none, for it only waits for readers",
    "looked past some and took from a writer too",
    "looked past none and took from none, for it was handed a prediction",
    "looked past some, and was handed a prediction",
];

/// How many guesses were asked for, of jobs that there are and of others, and what was met.
#[derive(Default)]
struct Met {
    asked: u64,
    refused: u64,
    states: [u64; STATES.len()],
    sets: Sets,
    took: [u64; TOOK.len()],
}

impl Met {
    /// The job's guess, as all hands, the ledger (R183) and the wrapper tell of it. R184: while some of the jobs that it looked
    /// past are open, the job is not ready.
    fn ask(&mut self, Morning { hands, ledger }: &Morning, batch: &Batch, job: usize) {
        let (answer, due) = (hands.both.ask_speculation(job), ledger.told(job));
        assert_eq!(answer, told((0, due)), "R183: the guess of job {job} of {ledger:?}");
        assert_eq!(hands.third.ask_looked_past(job as u32), Ok(due), "the guess of job {job} of {ledger:?}");
        assert_eq!(batch.speculation(job), Ok(wrapped(due)));
        for SetAnswer { size, present, lowest } in [answer.bypassed, answer.open] {
            assert!(present == (size > 0) && (present || lowest == 0), "R78: {answer:?}");
        }
        if answer.bypassed.size > 0 {
            let (ready, judged) = (ledger.is_ready(job), hands.both.ask_job(job).validity);
            let settled = ledger.jobs[job].counted.is_some();
            assert!(!ready || answer.open.size == 0, "R184: job {job} of {ledger:?}");
            assert_eq!((judged == 0, judged == 1), (settled, !ready), "R45: job {job} of {ledger:?} is judged {judged}");
        }
        self.asked += 1;
    }

    /// What is met of the job's guess.
    fn count(&mut self, morning: &Morning, job: usize) {
        self.states[state(morning.record(), job)] += 1;
        if let Some(guess) = &morning.ledger.jobs[job].guess {
            let (none, took) = (guess.looked_past.is_empty(), !guess.taken_from.is_empty());
            let predicts = morning.ledger.jobs[job].job.predicts();
            self.sets.count(&guess.looked_past, &morning.ledger.open_of(guess));
            let alone = none && !took;
            add(&mut self.took, [none && took, alone && !predicts, !none && took, alone && predicts, !none && predicts]);
        }
    }

    /// The guesses of these jobs. R70: the record stays as it is.
    fn ask_each(&mut self, morning: &Morning, jobs: impl IntoIterator<Item = usize>) {
        let before = morning.hands.both.ours;
        let batch = Batch::from_record(before).unwrap();
        for job in jobs {
            self.ask(morning, &batch, job);
            self.count(morning, job);
        }
        assert!(*batch.record() == before && morning.hands.both.ours == before, "the record after its guesses were asked for");
    }

    /// The guesses of jobs that there are not: refused with 11, and zeros stand beside it.
    fn ask_others(&mut self, Morning { hands, ledger }: &Morning) {
        let batch = Batch::from_record(hands.both.ours).unwrap();
        let held = ledger.jobs.len();
        for job in [held, 127, 128, 255, 256, 256 + held, u32::MAX as usize, usize::MAX] {
            if job >= held {
                assert_eq!(hands.both.ask_speculation(job), told((11, GuessTold::default())), "job {job} of {held}");
                assert_eq!(hands.third.ask_looked_past(job as u32), Err(11));
                assert_eq!(batch.speculation(job), Err(Refusal::NO_SUCH_JOB));
                self.refused += 1;
            }
        }
    }

    fn ask_all(&mut self, morning: &Morning) {
        self.ask_each(morning, 0..morning.ledger.jobs.len());
        self.ask_others(morning);
    }

    fn print(&self) {
        println!("{} guesses asked for, and {} refused with 11. They were:", self.asked, self.refused);
        print(&STATES, &self.states);
        print(&TOOK, &self.took);
        self.sets.print();
    }
}

/// The same with the wrapper's names.
fn wrapped(GuessTold { looked_past, open }: GuessTold) -> Speculation {
    let [bypassed, open] = [looked_past, open].map(|set| Jobs { size: set.size, lowest: set.lowest });
    Speculation { bypassed, open }
}

/// A list of calls: with few jobs all guesses are asked for after each; else that of the job in question, and all now and then.
fn worked(dice: &mut Dice, manner: &Manner, met: &mut Met) {
    let mut morning = Morning::open(&manner.heights);
    met.ask_all(&morning);
    for left in (0..manner.calls()).rev() {
        let call = manner.call(dice, morning.record());
        morning.make(&call);
        let held = morning.ledger.jobs.len();
        match call {
            _ if held < 20 || left == 0 || dice.percent(2) => met.ask_all(&morning),
            Call::Step { job, .. } if job < held => met.ask_each(&morning, [job]),
            _ => {}
        }
    }
}

/// R79, R183, R184; every fourth list has many jobs, and guesses that look past many.
#[test]
fn batches() {
    let (count, seed) = (setting("BATCHES", 160), setting("SEED", 1));
    let mut dice = Dice::new(seed, 183);
    let mut met = Met::default();
    for list in 0..count {
        let manner = if list % 4 == 0 { Manner::past_many(&mut dice) } else { Manner::any(&mut dice) };
        worked(&mut dice, &manner, &mut met);
    }
    println!("{count} batches of seed {seed}: every answer the second hand's twice over, and the ledger's.");
    met.print();
    assert!(met.refused > 0, "none was refused");
    assert!(met.states.iter().all(|&times| times > 0), "no guess stood so: {:?}", met.states);
    assert!(met.took.iter().all(|&times| times > 0), "no guess took so: {:?}", met.took);
    met.sets.came_up();
}

/// From job `first` on all maybe-write one cell, and each is guessed before any is settled: job j looks past `first` to j - 1.
/// Then they are settled one after the other.
fn one_after_the_other(first: usize, met: &mut Met) {
    let mut morning = Morning::open(&[0, 0]);
    (0..128).for_each(|job| morning.insert(if job < first { &[(1, 0)] } else { &[(0, 2)] }));
    morning.accept(Call::Seal(1));
    for job in first + 1..128 {
        morning.step(1, job, 0);
        morning.step(3, job, 0);
    }
    for lowest in first..128 {
        met.ask_each(&morning, first..128);
        let last = morning.hands.both.ask_speculation(127);
        assert_eq!((last.bypassed, last.open), (up_to_126(first), up_to_126(lowest)));
        if lowest == first {
            morning.step(0, first, 0);
            morning.step(2, first, 0);
        } else {
            morning.step(4, lowest, 0);
        }
    }
    met.ask_each(&morning, first..128);
}

/// The jobs from this one to 126; none from 127 on.
fn up_to_126(lowest: usize) -> SetAnswer {
    let size = 127 - lowest as u8;
    SetAnswer { size, present: size > 0, lowest: if size > 0 { lowest as u8 } else { 0 } }
}

#[test]
fn guesses_past_all_before_them() {
    let mut met = Met::default();
    [0, 1, 62, 63, 64, 65, 126, 127].into_iter().for_each(|first| one_after_the_other(first, &mut met));
    println!("{} guesses of batches whose jobs were settled one after the other.", met.asked);
}

/// Jobs that each maybe-write one cell, of eight that there are, some only before job 64 and some only from there on; behind them
/// some that read four, which are guessed. Then the first are settled, those of one cell in their order and else in any, so that
/// the sets have gaps anywhere.
fn in_any_order(dice: &mut Dice, met: &mut Met) {
    let mut morning = Morning::open(&[0; 8]);
    let first = 60 + dice.below(65);
    let mut left: Vec<VecDeque<usize>> = vec![VecDeque::new(); 8];
    for job in 0..first {
        let cell = dice.below(6) + if job < 64 { 0 } else { 2 };
        left[cell].push_back(job);
        morning.insert(&[(cell as u8, 2)]);
    }
    let mut cells = [0, 1, 2, 3, 4, 5, 6, 7];
    for _ in first..128 {
        dice.shuffle(&mut cells);
        morning.insert(&[0, 1, 2, 3].map(|place| (cells[place], 0)));
    }
    morning.accept(Call::Seal(1));
    (first..128).for_each(|job| morning.step(1, job, 0));
    met.ask_each(&morning, first..128);
    while left.iter().any(|jobs| !jobs.is_empty()) {
        let jobs = &mut left[dice.below(8)];
        // One, or all that are left of the cell.
        let many = if dice.percent(80) { jobs.len().min(1) } else { jobs.len() };
        for job in jobs.drain(..many) {
            morning.step(0, job, 0);
            morning.step(2, job, dice.percent(3) as u8);
            met.ask_each(&morning, (first..128).take(8));
        }
    }
}

#[test]
fn settled_in_any_order() {
    let (count, seed) = (setting("BATCHES", 160).div_ceil(8), setting("SEED", 1));
    let mut dice = Dice::new(seed, 184);
    let mut met = Met::default();
    (0..count).for_each(|_| in_any_order(&mut dice, &mut met));
    println!("{} guesses of {count} batches of seed {seed}, whose jobs were settled in any order.", met.asked);
    met.sets.print();
}
