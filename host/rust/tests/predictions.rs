//! Predicted heights (R23, R46). Batches are worked by random lists of calls (`second_hand::lists`) in three hands at once, with
//! predictions that are right, wrong or either, some of them known beforehand by the rule that all report by. After every call
//! each job is asked for and held against both of the second hand's engines and the ledger (`second_hand::ledger`), with R185 and
//! R188; every guess that is started is held against R187. Pairs of lists whose jobs differ in predictions alone end alike
//! (R176). Which modes and marks are taken is tried one by one. BATCHES=COUNT and PAIRS=COUNT set how many, SEED=NUMBER which;
//! it prints what was met (`cargo test --test predictions -- --nocapture`), each case named in `second_hand::predictions` and
//! here.

mod hands;
mod met;
mod morning;
mod setting;
#[allow(dead_code)] // Calls that only tests/damaged.rs makes.
mod theirs;

use met::{add, print};
use morning::Morning;
use second_hand::former::falls;
use second_hand::lists::{Call, Manner};
use second_hand::plans::Dice;
use second_hand::predictions::Watch;
use second_hand::{kinds, record};
use setting::setting;
use sorghemi::raw::JobAnswer;
use sorghemi::{Batch, Report};
use theirs::read_job;

impl Morning {
    fn step(&mut self, number: u8, job: usize, mark: u8) -> u8 {
        self.make(&Call::Step { number, job, values: [7; 4], mark })
    }

    fn jobs(&self) -> Vec<JobAnswer> {
        (0..self.ledger.jobs.len()).map(|job| self.hands.both.ask_job(job)).collect()
    }

    fn cells(&self) -> Vec<i32> {
        (0..self.record().cell_count.into()).map(|cell| self.hands.both.ask_cell(cell).height).collect()
    }

    /// R171 and R173 to R175, as the library is asked.
    fn claim(&self) {
        let settled: Vec<(u8, u8)> = self.jobs().iter().map(|job| (job.committed, job.wrote)).collect();
        self.ledger.claim(&self.cells(), &settled);
    }
}

/// Where a prediction other than 0 may stand in a job that is asked for. Each has to come up.
const HELD: [&str; 5] = ["with mode 0", "with mode 1", "with mode 2", "with mode 3", "in a place not in use"];

/// Which of HELD come up.
fn held_met(job: &record::Job) -> [bool; HELD.len()] {
    let mut met = [false; HELD.len()];
    for place in (0..4).filter(|&place| job.predicted[place] != 0) {
        let in_use = place < job.arity.into();
        met[if in_use { job.accesses[place].1.into() } else { 4 }] = true;
    }
    met
}

/// What was met: of predictions, of jobs asked for, and how often R185, R187 and R188 applied.
#[derive(Default)]
struct Met {
    watch: Watch,
    held: [u64; HELD.len()],
    stands: u64,
    handed: u64,
    at_once: u64,
}

impl Met {
    /// Each job as the library tells it: held as given (R3, R72), and its guess judged as the other engine and the ledger have
    /// it. R185, of jobs that predict nothing.
    fn ask(&mut self, morning: &Morning) {
        let (jobs, falls) = (morning.jobs(), falls(&morning.hands.third));
        let batch = Batch::from_record(morning.hands.both.ours).unwrap();
        for (number, due) in morning.ledger.judged().into_iter().enumerate() {
            let (answer, line) = (&jobs[number], &morning.ledger.jobs[number]);
            assert_eq!(read_job(&answer.job), line.job, "R72: job {number}");
            assert_eq!(batch.job(number).unwrap().job, answer.job);
            assert_eq!(answer.validity, due, "R45: job {number} of {:?}", morning.ledger);
            assert_eq!(morning.hands.third.ask_guess(number as u32), Ok(due.into()));
            add(&mut self.held, held_met(&line.job));
            let open = line.guess.is_some() && line.counted.is_none() && morning.ledger.is_ready(number);
            if open && !line.job.predicts() && !falls[number].at_all() {
                assert_eq!(answer.validity, 2, "R185: job {number} of {:?}", morning.ledger);
                self.stands += 1;
            }
        }
    }

    /// R187, of what the library has just handed to the job's guess.
    fn started(&mut self, morning: &Morning, job: usize) {
        let handed = morning.hands.both.ask_job(job).handed;
        for (place, predicted) in morning.ledger.predicted(job).into_iter().enumerate() {
            if let Some(predicted) = predicted {
                assert_eq!(handed[place], predicted, "R187: job {job} of {:?}", morning.ledger);
                self.handed += 1;
            }
        }
    }

    /// R188, of each job as it stands, in all hands.
    fn guess_at_once(&mut self, Morning { hands, ledger }: &Morning) {
        for job in 0..ledger.jobs.len() {
            if let Some(due) = ledger.guessed_at_once(job) {
                let answer = hands.both.clone().step(1, job, Report::default());
                assert_eq!(answer, (0, due), "R188: job {job} of {ledger:?}");
                assert_eq!(hands.third.clone().start_guess(job as u32), Ok(due), "R188: job {job} of {ledger:?}");
                self.at_once += 1;
            }
        }
    }

    /// A list of calls.
    fn work(&mut self, dice: &mut Dice, manner: &Manner) {
        let mut morning = Morning::open(&manner.heights);
        self.watch.begin();
        for _ in 0..manner.calls() {
            let call = manner.call(dice, morning.record());
            let before = morning.record().clone();
            let refusal = morning.make(&call);
            self.watch.after(&before, &call, refusal, morning.record());
            match call {
                Call::Step { number: 1, job, .. } if refusal == 0 => self.started(&morning, job),
                _ => {}
            }
            self.guess_at_once(&morning);
            self.ask(&morning);
        }
        morning.claim();
    }
}

/// R46, R72, R185, R187, R188.
#[test]
fn batches() {
    let (count, seed) = (setting("BATCHES", 1200), setting("SEED", 1));
    let mut dice = Dice::new(seed, 46);
    let mut met = Met::default();
    for _ in 0..count {
        let manner = Manner::predicting(&mut dice);
        met.work(&mut dice, &manner);
    }
    println!("{count} batches of seed {seed}: every answer and record the second hand's, twice over, and the ledger's.");
    println!("R185 applied {} times, R187 {}, R188 {}. Met:", met.stands, met.handed, met.at_once);
    met.watch.lines().iter().for_each(|(what, times)| println!("  {what}: {times}"));
    println!("Jobs asked for, with a prediction that is not 0:");
    print(&HELD, &met.held);
    assert!(met.stands > 0 && met.handed > 0 && met.at_once > 0, "a rule never applied");
    assert!(met.watch.lines().iter().all(|&(_, times)| times > 0), "something never came up: {:?}", met.watch.lines());
    assert!(met.held.iter().all(|&times| times > 0), "no prediction was held so: {:?}", met.held);
}

/// What may be met of a pair of lists. Each has to come up.
const PAIRED: [&str; 9] = [
    "another prediction with mode 3",
    "another prediction where none is looked at",
    "another access in a place not in use",
    "guessing on in both",
    "guessing on in one only",
    "a job that came in before the seal in one only",
    "a guess kept in one list and thrown away in the other",
    "guesses with predictions kept in one list, in the other some and all of them thrown away",
    "a mark of 1",
];

/// How many of the guesses that were handed a prediction are kept and thrown away.
fn became(morning: &Morning) -> [usize; 2] {
    let count = |is: &dyn Fn(&JobAnswer) -> bool| {
        let jobs = morning.jobs();
        jobs.iter().filter(|job| read_job(&job.job).predicts() && is(job)).count()
    };
    [count(&|job| job.committed == 2), count(&|job| job.phase == 3)]
}

/// Which of PAIRED come up.
fn pair_met(one: &Morning, other: &Morning) -> [bool; PAIRED.len()] {
    let both = || one.ledger.jobs.iter().zip(&other.ledger.jobs);
    let predicted = |looked_at: bool| {
        let differs = |a: &record::Job, b: &record::Job, place: usize| {
            let is_looked_at = place < a.arity.into() && a.accesses[place].1 == 3;
            is_looked_at == looked_at && a.predicted[place] != b.predicted[place]
        };
        both().any(|(a, b)| (0..4).any(|place| differs(&a.job, &b.job, place)))
    };
    let guessing = [one, other].map(|morning| morning.ledger.sealed == Some(1));
    let fates = |morning: &Morning, job: usize| (morning.record().committed[job] == 2, morning.record().phase[job] == 3);
    let either = |job: usize| {
        let [(kept, gone), (kept_there, gone_there)] = [fates(one, job), fates(other, job)];
        kept && gone_there || kept_there && gone
    };
    let [[kept, gone], [kept_there, gone_there]] = [became(one), became(other)];
    [
        predicted(true),
        predicted(false),
        both().any(|(a, b)| a.job.accesses != b.job.accesses),
        guessing == [true, true],
        guessing[0] != guessing[1],
        both().any(|(a, b)| a.added != b.added),
        (0..one.ledger.jobs.len()).any(either),
        kept > 0 && kept_there == 0 && gone_there > 0 || kept_there > 0 && kept == 0 && gone > 0,
        one.jobs().iter().any(|job| job.wrote == 1),
    ]
}

/// The list worked to its end.
fn worked_out(dice: &mut Dice, manner: &Manner) -> Morning {
    let mut morning = Morning::open(&manner.heights);
    while !manner.is_done(morning.record()) {
        let call = manner.call(dice, morning.record());
        morning.make(&call);
    }
    morning.claim();
    morning
}

/// R176, as the library is asked: jobs that differ in predictions, and in places not in use, count as the same.
#[test]
fn pairs() {
    let (count, seed) = (setting("PAIRS", 600), setting("SEED", 1));
    let mut dice = Dice::new(seed, 176);
    let mut met = [0; PAIRED.len()];
    for _ in 0..count {
        let [one, other] = Manner::predicting_pair(&mut dice).map(|manner| worked_out(&mut dice, &manner));
        let marks = |morning: &Morning| morning.jobs().iter().map(|job| job.wrote).collect::<Vec<u8>>();
        assert_eq!(one.cells(), other.cells(), "R176: the cells of {:?} and {:?}", one.ledger, other.ledger);
        assert_eq!(marks(&one), marks(&other), "R176: the marks of {:?} and {:?}", one.ledger, other.ledger);
        add(&mut met, pair_met(&one, &other));
    }
    println!("{count} pairs of lists of seed {seed}: both end with the same cells and marks.");
    print(&PAIRED, &met);
    assert!(met.iter().all(|&times| times > 0), "something never came up: {met:?}");
}

/// A job on the first cells, with predictions in all places, and in those not in use what would matter there.
fn job_of(kind: u8, modes: &[u8]) -> record::Job {
    let mut accesses = [(0, 3), (1, 2), (2, 3), (3, 2)];
    accesses.iter_mut().zip(modes).for_each(|(access, &mode)| access.1 = mode);
    record::Job { kind, arity: modes.len() as u8, accesses, parameter: 5, predicted: [11, -12, i32::MIN, i32::MAX] }
}

/// What inserting the job is answered in all hands, before the seal and after it. Where it is taken, it is held as given.
fn inserted(job: record::Job) -> u8 {
    let [before, after] = [false, true].map(|sealed| {
        let mut morning = Morning::open(&[1, 2, 3, 4]);
        if sealed {
            morning.make(&Call::Seal(1));
        }
        let answer = morning.make(&Call::Insert(job));
        let held: Vec<record::Job> = morning.jobs().iter().map(|answer| read_job(&answer.job)).collect();
        assert_eq!(held, if answer == 0 { vec![job] } else { vec![] });
        answer
    });
    assert_eq!(before, after, "R6: {job:?}");
    before
}

/// R106, R108: every mode in every place of an outside job, and of the other kinds beside their own modes.
#[test]
fn modes() {
    let (mut taken, mut no_mode, mut no_kind) = ([0; 4], [0; 2], [0; 7]);
    for kind in 0..7u8 {
        let own = kinds::modes(kind.into()).map_or(vec![0; 4], |modes| modes.iter().map(|&mode| mode as u8).collect());
        for (place, mode) in (0..own.len()).flat_map(|place| (0..=255).map(move |mode| (place, mode))) {
            let mut modes = own.clone();
            modes[place] = mode;
            let due = match mode {
                4.. => 6,
                _ if kind == 0 || modes == own => 0,
                _ => 8,
            };
            assert_eq!(inserted(job_of(kind, &modes)), due, "kind {kind} with {modes:?}");
            taken[place] += (mode == 3 && due == 0) as u32;
            no_mode[(mode > 4) as usize] += (due == 6) as u32;
            no_kind[usize::from(kind)] += (mode == 3 && due == 8) as u32;
        }
    }
    println!("Inserts: mode 3 taken in each place {taken:?}; refused with 6 for mode 4 and for those above {no_mode:?};");
    println!("refused with 8 for mode 3, by kind {no_kind:?}.");
    assert!(taken == [1; 4] && no_mode.iter().chain(&no_kind[1..]).all(|&times| times > 0) && no_kind[0] == 0);
}

/// Every list of one to four modes.
fn all_modes() -> impl Iterator<Item = Vec<u8>> {
    (1..=4).flat_map(|length| {
        (0..4u32.pow(length)).map(move |number| (0..length).map(|place| (number >> (2 * place) & 3) as u8).collect())
    })
}

/// R116: mark 1 of an own run and of a guess, with each list of modes.
#[test]
fn marks() {
    let mut answers = [[0; 2]; 2];
    for modes in all_modes() {
        let mut morning = Morning::open(&[1, 2, 3, 4]);
        // The first maybe-writes all cells, so that the second can be guessed, and both may have their run out.
        for job in [job_of(0, &[2; 4]), job_of(0, &modes)] {
            assert_eq!(morning.make(&Call::Insert(job)), 0);
        }
        morning.make(&Call::Seal(1));
        assert_eq!(morning.step(1, 1, 0), 0);
        let due = if modes.contains(&2) { 0 } else { 16 };
        assert_eq!(morning.step(3, 1, 1), due, "the guess with {modes:?}");
        assert_eq!((morning.step(0, 0, 0), morning.step(2, 0, 1)), (0, 0));
        assert_eq!((morning.step(0, 1, 0), morning.step(2, 1, 1)), (0, due), "the own run with {modes:?}");
        morning.claim();
        if modes.contains(&3) {
            let others = modes.iter().any(|&mode| mode != 3);
            answers[(due == 16) as usize][others as usize] += 1;
        }
    }
    println!(
        "Mark 1, of modes with a 3: taken {:?}, refused with 16 {:?}; with 3 alone, and with others.",
        answers[0], answers[1]
    );
    assert_eq!(answers[0][0], 0);
    assert!(answers[0][1] > 0 && answers[1][0] == 4 && answers[1][1] > 0);
}
