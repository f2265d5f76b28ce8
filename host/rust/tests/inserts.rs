//! Jobs that come in while the batch runs (R6): lists of calls that insert anywhere (`second_hand::lists`), worked in three hands
//! at once and held against the ledger (`second_hand::ledger`), with R179 and R181 of jobs that come in; pairs of lists that
//! insert the same jobs at different moments (R176); and inserts exchanged with other calls (R180). BATCHES=COUNT and PAIRS=COUNT
//! set how many, SEED=NUMBER which; it prints what was met (`cargo test --test inserts -- --nocapture`).

mod hands;
mod met;
mod setting;
#[allow(dead_code)] // Calls that only tests/damaged.rs makes.
mod theirs;

use hands::Hands;
use met::{add, print};
use second_hand::ledger::{Guess, Ledger, Line};
use second_hand::lists::{sound_job, worth_a_look, Answer, Call, Manner};
use second_hand::plans::Dice;
use second_hand::record;
use setting::setting;
use sorghemi::raw::JobAnswer;
use sorghemi::Report;
use std::collections::BTreeMap;

/// A batch on its way: in all hands, and by what the calls alone say. In which order its jobs were settled, and how often it was
/// finished and gained a job.
struct Morning {
    hands: Hands,
    ledger: Ledger,
    order: Vec<usize>,
    gained: u32,
}

impl Morning {
    fn open(heights: &[i32]) -> Morning {
        Morning { hands: Hands::open(heights), ledger: Ledger::open(heights), order: Vec::new(), gained: 0 }
    }

    fn record(&self) -> &record::Record {
        &self.hands.both.theirs
    }

    /// R8, by the ledger.
    fn finished(&self) -> bool {
        self.ledger.sealed.is_some() && self.ledger.all_settled()
    }

    fn make(&mut self, call: &Call) -> Answer {
        let finished = self.finished();
        let answer = self.hands.make(call);
        self.ledger.enter(call, answer);
        match *call {
            Call::Insert(_) if answer.0 == 0 => self.gained += finished as u32,
            Call::Step { number: 2 | 4, job, .. } if answer.0 == 0 => self.order.push(job),
            _ => {}
        }
        answer
    }

    /// Progress is the same in all hands, and R8's by the ledger.
    fn progress(&self) {
        let (asked, third) = (self.hands.both.ask_batch(), &self.hands.third);
        let told = (asked.refusal, asked.job_count.into(), asked.finished);
        assert_eq!(told, (0, third.job_count(), third.finished()));
        assert_eq!((told.1 as usize, told.2), (self.ledger.jobs.len(), self.finished()));
    }

    /// What the chooser names, the same in all hands; none where it is refused.
    fn chosen(&self) -> Option<(u8, usize)> {
        let ours = self.hands.both.choose();
        let third = self.hands.third.choose().map(|named| (named.step, named.job, named.chain));
        let named = (ours.step.into(), ours.job.into(), ours.chain.into());
        assert_eq!(if ours.refusal == 0 { Ok(named) } else { Err(ours.refusal.into()) }, third);
        (ours.refusal == 0).then_some((ours.step, ours.job.into()))
    }

    /// R63, R172: while a job of a sealed batch is not settled, the step that the chooser names is accepted, or a report on one
    /// of the runs that are out by the ledger.
    fn can_go_on(&self) {
        let chosen = self.chosen();
        if self.ledger.sealed.is_none() || self.finished() {
            assert_eq!(chosen, None);
            return;
        }
        let due = |(job, line): (usize, &Line)| match line {
            Line { counted: Some(_), .. } => None,
            Line { own: Some(_), .. } => Some((2, job)),
            Line { guess: Some(Guess { report: None, .. }), .. } => Some((3, job)),
            _ => None,
        };
        let (number, job) = chosen.or_else(|| self.ledger.jobs.iter().enumerate().find_map(due)).expect("R172: nothing is due");
        assert_eq!(self.hands.both.clone().step(number, job, Report::default()).0, 0, "R172: step {number} of job {job}");
    }

    fn cells(&self) -> Vec<i32> {
        (0..self.record().cell_count.into()).map(|cell| self.hands.both.ask_cell(cell).height).collect()
    }

    fn jobs(&self) -> Vec<JobAnswer> {
        (0..self.ledger.jobs.len()).map(|job| self.hands.both.ask_job(job)).collect()
    }

    /// R171 and R173 to R175, as the library is asked; and R45, as the ledger judges guesses.
    fn claim(&self) {
        let jobs = self.jobs();
        let settled: Vec<(u8, u8)> = jobs.iter().map(|job| (job.committed, job.wrote)).collect();
        self.ledger.claim(&self.cells(), &settled);
        assert_eq!(jobs.iter().map(|job| job.validity).collect::<Vec<u8>>(), self.ledger.judged(), "R45: {:?}", self.ledger);
    }

    /// R179, as the library is asked: one job more, not settled and without a run; all else is as it was.
    fn has_gained(&self, job: &record::Job, cells: &[i32], jobs: &[JobAnswer]) {
        let mut now = self.jobs();
        let JobAnswer { refusal, committed, wrote, running, phase, validity, handed, reported, .. } = now.pop().unwrap();
        assert_eq!([refusal, committed, wrote, running, phase, validity], [0; 6]);
        assert_eq!((handed, reported), ([0; 4], [0; 4]));
        // What the library says of the job is what the record has.
        assert_eq!(self.record().jobs[now.len()], *job);
        assert!(self.cells() == cells && now == jobs, "R179: {job:?} changed more than its place");
        assert!(!self.hands.both.ask_batch().finished);
    }

    /// R181: start own of the last job is accepted, and handed what its cells hold.
    fn starts_the_last(&self) {
        let job = self.ledger.jobs.len() - 1;
        let held = self.ledger.jobs[job].job;
        let height = |place: usize| self.hands.both.ask_cell(held.accesses[place].0.into()).height;
        let present = [0, 1, 2, 3].map(|place| if place < held.arity.into() { height(place) } else { 0 });
        assert_eq!(self.hands.both.clone().step(0, job, Report::default()), (0, present), "R181: job {job}");
    }
}

/// What may be met of an insert. Each has to come up.
const INSERTED: [&str; 17] = [
    "accepted before sealing",
    "accepted after sealing",
    "accepted into a sealed batch without jobs",
    "accepted into a finished batch with jobs",
    "accepted into a finished batch, the third time or later",
    "accepted with an own run out",
    "accepted with a guess out",
    "accepted with a guess stored, its job not settled",
    "accepted with a fallen guess",
    "accepted after sealing as the 128th job",
    "accepted after sealing with a predicted write",
    "refused after sealing with 3",
    "refused after sealing with 4",
    "refused after sealing with 5",
    "refused after sealing with 6",
    "refused after sealing with 7",
    "refused after sealing with 8",
];

/// Which of INSERTED come up, by how the batch stood before, and how often it had been finished and gained a job.
fn insert_met(before: &record::Record, job: &record::Job, gained: u32, refusal: u8) -> [bool; INSERTED.len()] {
    let (sealed, jobs, finished) = (before.sealed == 1, before.job_count.into(), before.ask_batch().finished);
    let late = refusal == 0 && sealed;
    let some = |is: &dyn Fn(usize) -> bool| late && (0..jobs).any(is);
    let refused = |number: u8| sealed && refusal == number;
    [
        refusal == 0 && !sealed,
        late,
        late && jobs == 0,
        late && jobs > 0 && finished,
        late && finished && gained >= 2,
        some(&|job| before.running[job] == 1),
        some(&|job| before.phase[job] == 1),
        some(&|job| before.phase[job] == 2 && before.committed[job] == 0),
        some(&|job| before.ask_job(job).validity == 3),
        late && jobs == 127,
        late && job.predicts(),
        refused(3),
        refused(4),
        refused(5),
        refused(6),
        refused(7),
        refused(8),
    ]
}

/// What may be met of a job that came in after the seal. Each has to come up.
const ADDED: [&str; 12] = [
    "settled by its own run",
    "settled by its guess",
    "settled by its own run with mark 1",
    "settled by its guess with mark 1",
    "a guess that took from a guess",
    "a guess that took from the guess of another such job",
    "a guess that looked past a job",
    "a guess that looked past another such job",
    "a guess thrown away",
    "a guess handed a prediction",
    "a guess handed a prediction kept",
    "four steps made",
];

/// Which of ADDED come up with an accepted step on such a job.
fn step_met(ledger: &Ledger, after: &record::Record, number: u8, job: usize) -> [bool; ADDED.len()] {
    let (run, jobs) = (&after.runs[job], &ledger.jobs);
    let took = |is: &dyn Fn(usize) -> bool| number == 1 && run.sources.iter().any(|&from| from > 0 && is(from as usize - 1));
    let past = |is: &dyn Fn(usize) -> bool| number == 1 && (0..job).any(|other| run.bypassed >> other & 1 == 1 && is(other));
    [
        number == 2,
        number == 4,
        number == 2 && run.wrote == 1,
        number == 4 && run.wrote == 1,
        took(&|_| true),
        took(&|from| jobs[from].added),
        past(&|_| true),
        past(&|other| jobs[other].added),
        number == 0 && after.phase[job] == 3,
        number == 1 && jobs[job].job.predicts(),
        number == 4 && jobs[job].job.predicts(),
        jobs[job].steps == 4,
    ]
}

/// How many calls were made and claims tried, and what was met.
#[derive(Default)]
struct Met {
    calls: u64,
    claims: u64,
    inserted: [u64; INSERTED.len()],
    added: [u64; ADDED.len()],
    sealed_again: u64,
}

impl Met {
    /// Inserts the job; if the moment is worth a look, R179 and R181 are tried.
    fn insert(&mut self, morning: &mut Morning, job: &record::Job, look: bool) {
        let (cells, jobs) = if look { (morning.cells(), morning.jobs()) } else { Default::default() };
        let (before, finished, gained) = (morning.record().clone(), morning.finished(), morning.gained);
        let (refusal, _) = morning.make(&Call::Insert(*job));
        add(&mut self.inserted, insert_met(&before, job, gained, refusal));
        if look && refusal == 0 {
            morning.has_gained(job, &cells, &jobs);
        }
        if finished && refusal == 0 {
            morning.starts_the_last();
        }
    }

    fn seal(&mut self, morning: &mut Morning, guessing: u8) {
        let sealed = morning.ledger.sealed.is_some();
        let (refusal, _) = morning.make(&Call::Seal(guessing));
        assert_eq!(refusal == 2, sealed, "R102");
        self.sealed_again += sealed as u64;
    }

    /// Makes the call, and tries what is claimed after it.
    fn call(&mut self, morning: &mut Morning, call: &Call, look: bool) {
        match *call {
            Call::Insert(job) => self.insert(morning, &job, look),
            Call::Seal(guessing) => self.seal(morning, guessing),
            Call::Step { number, job, .. } => {
                if morning.make(call).0 == 0 && morning.ledger.jobs[job].added {
                    add(&mut self.added, step_met(&morning.ledger, morning.record(), number, job));
                }
            }
        }
        morning.progress();
        if look {
            morning.can_go_on();
            morning.claim();
            self.claims += 1;
        }
        self.calls += 1;
    }
}

/// R170 to R175, R179, R181.
#[test]
fn batches() {
    let (count, seed) = (setting("BATCHES", 250), setting("SEED", 1));
    let mut dice = Dice::new(seed, 170);
    let mut met = Met::default();
    for _ in 0..count {
        let manner = Manner::any(&mut dice);
        let mut morning = Morning::open(&manner.heights);
        for _ in 0..manner.calls() {
            let call = manner.call(&mut dice, morning.record());
            let look = worth_a_look(&mut dice, morning.record());
            met.call(&mut morning, &call, look);
        }
        morning.claim();
    }
    println!("{} calls on {count} batches of seed {seed}: every answer and record the second hand's,", met.calls);
    println!("what the ledger claims tried after {} of them. Inserts:", met.claims);
    print(&INSERTED, &met.inserted);
    println!("Jobs that came in after the seal:");
    print(&ADDED, &met.added);
    println!("Second seals refused with 2: {}", met.sealed_again);
    assert!(met.inserted.iter().all(|&times| times > 0), "an insert never came up: {:?}", met.inserted);
    assert!(met.added.iter().all(|&times| times > 0), "something never came up: {:?}", met.added);
    assert!(met.sealed_again > 0, "no second seal");
}

/// What may be met of a pair of lists. Each has to come up.
const PAIRED: [&str; 13] = [
    "the second inserts some jobs after it seals",
    "the second inserts all jobs after it seals",
    "the second is finished on the way, and gains a job",
    "guessing off in both",
    "guessing on in the first only",
    "guessing on in the second only",
    "guessing on in both",
    "jobs settled in another order",
    "a job settled by its own run in one, by its guess in the other",
    "a job that came in after the seal settled by its guess",
    "a guess thrown away",
    "a mark of 1",
    "128 jobs",
];

/// Which of PAIRED come up.
fn pair_met(one: &Morning, other: &Morning) -> [bool; PAIRED.len()] {
    let guessing = [one, other].map(|morning| morning.ledger.sealed == Some(1));
    let by_guess = |line: &Line| line.counted.is_some_and(|counted| counted.by_guess);
    let (lines, late) = (&other.ledger.jobs, other.ledger.jobs.iter().filter(|line| line.added).count());
    let thrown_away = |morning: &Morning| morning.hands.both.ask_tally().tally.discarded > 0;
    [
        late > 0 && late < lines.len(),
        late > 0 && late == lines.len(),
        other.gained > 0,
        guessing == [false, false],
        guessing == [true, false],
        guessing == [false, true],
        guessing == [true, true],
        one.order != other.order,
        one.ledger.jobs.iter().zip(lines).any(|(line, same)| by_guess(line) != by_guess(same)),
        lines.iter().any(|line| line.added && by_guess(line)),
        thrown_away(one) || thrown_away(other),
        lines.iter().any(|line| line.counted.is_some_and(|counted| counted.report.mark == 1)),
        lines.len() == 128,
    ]
}

/// The list worked to its end.
fn worked_out(dice: &mut Dice, manner: &Manner) -> Morning {
    let mut morning = Morning::open(&manner.heights);
    while !manner.is_done(morning.record()) {
        let call = manner.call(dice, morning.record());
        morning.make(&call);
    }
    morning.progress();
    morning.claim();
    morning
}

/// R176, as the library is asked.
#[test]
fn pairs() {
    let (count, seed) = (setting("PAIRS", 200), setting("SEED", 1));
    let mut dice = Dice::new(seed, 176);
    let mut met = [0; PAIRED.len()];
    for _ in 0..count {
        let [one, other] = Manner::pair(&mut dice).map(|manner| worked_out(&mut dice, &manner));
        let marks = |morning: &Morning| morning.jobs().iter().map(|job| job.wrote).collect::<Vec<u8>>();
        assert_eq!(one.cells(), other.cells(), "R176: the cells of {:?}", one.ledger);
        assert_eq!(marks(&one), marks(&other), "R176: the marks of {:?}", one.ledger);
        add(&mut met, pair_met(&one, &other));
    }
    println!("{count} pairs of lists of seed {seed}: both end with the same cells and marks.");
    print(&PAIRED, &met);
    assert!(met.iter().all(|&times| times > 0), "something never came up: {met:?}");
}

const CALLS: [&str; 6] = ["step 0", "step 1", "step 2", "step 3", "step 4", "seal"];

/// R180: the call before the insert of the job and just after it, in all hands; gives back its answer.
fn exchanged(hands: &Hands, job: record::Job, call: &Call) -> u8 {
    let insert = Call::Insert(job);
    let (mut first, mut last) = (hands.clone(), hands.clone());
    let (answer, inserted) = (first.make(call), first.make(&insert));
    assert_eq!((last.make(&insert), last.make(call)), (inserted, answer), "{call:?} after {insert:?}");
    assert_eq!(inserted.0, 0, "{insert:?}");
    assert!(first.both.ours == last.both.ours, "{call:?} before and after {insert:?}");
    assert!(first.both.theirs == last.both.theirs && first.third == last.third);
    answer.0
}

/// The place in CALLS of a call of which R180 speaks: a seal, or a step on a job that is there.
fn place_of(call: &Call, jobs: usize) -> Option<usize> {
    match *call {
        Call::Insert(_) => None,
        Call::Seal(_) => Some(5),
        Call::Step { number, job, .. } => (job < jobs).then_some(number.into()),
    }
}

/// R180, before the calls of as many lists.
#[test]
fn exchanges() {
    let (count, seed) = (setting("BATCHES", 250), setting("SEED", 1));
    let mut dice = Dice::new(seed, 180);
    let mut met: BTreeMap<(&str, u8), u64> = BTreeMap::new();
    for _ in 0..count {
        let manner = Manner::any(&mut dice);
        let mut hands = Hands::open(&manner.heights);
        for _ in 0..manner.calls() {
            let (call, jobs) = (manner.call(&mut dice, &hands.both.theirs), hands.both.theirs.job_count.into());
            let job = sound_job(&mut dice, manner.heights.len());
            if let Some(place) = place_of(&call, jobs).filter(|_| jobs < 128 && worth_a_look(&mut dice, &hands.both.theirs)) {
                *met.entry((CALLS[place], exchanged(&hands, job, &call))).or_default() += 1;
            }
            hands.make(&call);
        }
    }
    println!(
        "{} exchanges on {count} batches of seed {seed}: the same answers and records. By call and answer:",
        met.values().sum::<u64>()
    );
    met.iter().for_each(|((call, answer), times)| println!("  {call} {answer}: {times}"));
    assert!(CALLS.iter().all(|call| met.contains_key(&(*call, 0))), "a call was never accepted: {met:?}");
    let refused = |number: u8| met.keys().any(|&(_, answer)| answer == number);
    assert!([2, 9, 10, 12, 13, 14, 15, 16, 17, 18].into_iter().all(refused), "a refusal never came up: {met:?}");
}
