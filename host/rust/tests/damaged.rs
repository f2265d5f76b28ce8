//! Damaged records: bytes of valid records are changed at random, every entry is called on what comes out (and on the valid
//! ones), and each answer and the record after it are held against the second hand's (`second_hand::record`); what the chooser
//! names also against the rules' words (`second_hand::picks`). The same on records in form whose jobs are in any state and were
//! handed anything; and asking guesses that looked past any jobs. Anything stands in places of jobs that are not in use, and in a
//! list of jobs past those that are in it.
//! DAMAGED=COUNT sets how many records, SEED=NUMBER which; it prints what was met (`cargo test --test damaged -- --nocapture`).

mod damage;
mod met;
mod sets;
mod setting;
#[allow(dead_code)] // Forms of a list that only tests/lists.rs needs.
mod theirs;

use damage::{
    any_sets, any_states, any_turn, damaged, place, place_of_a_guess, present, valid_record, worked_record, Random, EDGES,
};
use met::{add, print};
use second_hand::choosing::Watch;
use second_hand::joblists::{any_list, any_place};
use second_hand::picks::{pick, Field};
use second_hand::plans::Dice;
use second_hand::record::JobList;
use second_hand::turns::any_lent;
use sets::Sets;
use setting::setting;
use sorghemi::raw::{sorghemi_step_by_value, JobAnswer, JobSet, TallyAnswer};
use sorghemi::{Job, Mode, Record, Report};
use std::collections::BTreeMap;
use theirs::{read_tally, Both};

/// A job for the step: mostly one in the state for it, if there is one, and half of the time one on which it is allowed, if a
/// few tries find it; else any, and sometimes a number that no job has.
fn job_for(number: u8, record: &Record, random: &mut Random) -> usize {
    let jobs = record.job_count.clamp(1, 128) as usize;
    let fits = |&j: &usize| match number {
        0 => record.committed[j] == 0 && record.running[j] == 0,
        1 => record.committed[j] == 0 && record.running[j] == 0 && record.phase[j] == 0,
        2 => record.running[j] == 1,
        3 => record.phase[j] == 1,
        _ => record.committed[j] == 0 && record.phase[j] == 2,
    };
    let fitting: Vec<usize> = (0..jobs).filter(fits).collect();
    if fitting.is_empty() || random.one_in(4) {
        return random.around(jobs);
    }
    let allowed = |job| unsafe { sorghemi_step_by_value(*record, number, job, Report::default()) }.refusal == 0;
    let tries = if random.one_in(2) { 1 } else { 8 };
    let mut job = fitting[random.below(fitting.len())];
    for _ in 1..tries {
        if allowed(job) {
            break;
        }
        job = fitting[random.below(fitting.len())];
    }
    job
}

/// Turns, by the number that they are given.
const TURNS: [&str; 4] = ["turn, own run reported", "turn, guess reported", "turn, no report", "turn, another number"];
const TURN_NUMBERS: [u8; 3] = [2, 3, 255];

const STEPS: [&str; 6] = ["step 0", "step 1", "step 2", "step 3", "step 4", "step 5"];

/// What may be met of jobs with four accesses. Each has to come up.
const FOUR: [&str; 11] = [
    "step 0 accepted",
    "step 1 accepted",
    "step 2 accepted",
    "step 3 accepted",
    "step 4 accepted",
    "mark 1 accepted, the only maybe-write being the fourth access",
    "a write in the fourth place changed its cell",
    "a maybe-write in the fourth place changed its cell",
    "the value for the fourth place was taken from a guess",
    "a predicted write in the fourth place changed its cell",
    "the prediction for the fourth place was handed out",
];

/// What may be met of modes and predictions in records that were written into. Each has to come up.
const PREDICTED: [&str; 6] = [
    "in form, another prediction with mode 3",
    "in form, another prediction with another mode, or in a place not in use",
    "in form, a mode that has become 3",
    "out of form for a mode alone that has become 3, with a kind of 1 to 6",
    "out of form for a mode alone that has become 4",
    "out of form for a mode alone that has become more than 4",
];

/// Which of PREDICTED come up where the first record has become the second, which is in form or not.
fn predicted_met(valid: &Record, record: &Record, in_form: bool) -> [bool; PREDICTED.len()] {
    let mut met = [false; PREDICTED.len()];
    for job in 0..valid.job_count as usize {
        let (was, is) = (&valid.jobs[job], &record.jobs[job]);
        for place in 0..4 {
            let (mode, old, in_use) = (is.accesses[place].mode, was.accesses[place].mode, place < was.arity as usize);
            if is.predicted[place] != was.predicted[place] {
                met[if in_use && mode == 3 { 0 } else { 1 }] |= in_form;
            }
            if !in_use || mode == old {
                continue;
            }
            let mut back = *record;
            back.jobs[job].accesses[place].mode = old;
            let alone = !in_form && Both::of(&back).ask_batch().refusal == 0;
            met[2] |= in_form && mode == 3;
            met[3] |= alone && mode == 3;
            met[4] |= alone && mode == 4;
            met[5] |= alone && mode > 4;
        }
    }
    met
}

/// How a guess is judged, by R45's numbers. Each has to come up of jobs that are not settled, and of others the first alone.
const JUDGED: [&str; 4] = ["no guess to judge", "not yet to be judged", "stands", "fallen"];

/// What may be met of a guess that is out or stored. Each has to come up in records with jobs in any state.
const HANDED: [&str; 9] = [
    "not yet to be judged, handed what is there",
    "not yet to be judged, handed another height",
    "the job settled, handed what is there",
    "the job settled, handed another height",
    "stands, not 0 in a place not in use",
    "stands, the own run out too",
    "fallen, the first of four heights alone being wrong",
    "fallen, the last of four heights alone being wrong",
    "fallen, a height differing in the highest bit alone",
];

/// Which of HANDED come up with what asking the job answered.
fn handed_met(answer: &JobAnswer, present: [i32; 4]) -> [bool; HANDED.len()] {
    let live = answer.phase == 1 || answer.phase == 2;
    let (arity, settled) = (answer.job.arity as usize, answer.committed != 0);
    let wrong: Vec<usize> = (0..arity).filter(|&place| answer.handed[place] != present[place]).collect();
    let right = wrong.is_empty();
    let highest = |&place: &usize| answer.handed[place] ^ present[place] == i32::MIN;
    let judged = |number: u8| live && answer.validity == number;
    [
        judged(1) && right,
        judged(1) && !right,
        live && settled && right,
        live && settled && !right,
        judged(2) && answer.handed[arity..] != [0; 4][arity..],
        judged(2) && answer.running == 1,
        judged(3) && arity == 4 && wrong == [0],
        judged(3) && arity == 4 && wrong == [3],
        judged(3) && wrong.iter().any(highest),
    ]
}

/// What may be met of the tally of a record that somebody wrote into, and that is still in form. Each has to come up.
const TALLIES: [&str; 3] = ["out of balance", "in balance, a guess started", "in balance, none started"];

/// How often each entry gave each answer, what was met of choices, of jobs with four accesses and of predictions, how guesses
/// were judged: of jobs that are not settled, and of settled ones; what they had been handed; and what was met of tallies.
#[derive(Default)]
struct Met {
    watch: Watch,
    answers: BTreeMap<(&'static str, u8), u64>,
    four: [u64; FOUR.len()],
    predicted: [u64; PREDICTED.len()],
    judged: [[u64; 2]; JUDGED.len()],
    handed: [u64; HANDED.len()],
    tallies: [u64; TALLIES.len()],
}

impl Met {
    fn answer(&mut self, entry: &'static str, answer: u8) {
        *self.answers.entry((entry, answer)).or_default() += 1;
    }

    /// Asks both hands for a choice. Of a sealed record in form it is that of the rules' words, by what the library accepts on
    /// copies. What is met is counted where there are few jobs, for it takes long.
    fn choose(&mut self, both: &Both) {
        let choice = both.choose();
        self.answer("choose", choice.refusal);
        if choice.refusal == 0 || choice.refusal == 19 {
            let accepts = |step, job| unsafe { sorghemi_step_by_value(both.ours, step, job, Report::default()) }.refusal == 0;
            let field = Field::of(&both.theirs, accepts);
            let answer = (choice.refusal, choice.step, choice.job, choice.chain);
            assert_eq!(answer, pick(&both.theirs, field.as_ref()), "R60 to R62: {field:?} of {:?}", both.ours);
            if both.ours.job_count < 40 {
                self.watch.chose(&both.theirs, field.as_ref());
            }
        }
    }

    /// A wrong reading of the rules would have been seen, of settled jobs too.
    fn choices_came_up(&self) {
        let lines = self.watch.wrong_lines();
        assert!(lines.iter().all(|&(_, times)| times > 0), "a wrong reading was never seen: {lines:?}");
        assert!(self.watch.through_settled > 0, "no chain went through a settled job");
    }

    /// Asks both hands for the job.
    fn ask_job(&mut self, both: &Both, job: usize) {
        let answer = both.ask_job(job);
        self.answer("ask job", answer.refusal);
        if answer.refusal == 0 {
            self.judged[answer.validity as usize][(answer.committed != 0) as usize] += 1;
            add(&mut self.handed, handed_met(&answer, present(&both.ours, job)));
        }
    }

    /// Asks both hands for the tally.
    fn ask_tally(&mut self, both: &Both) -> TallyAnswer {
        let answer = both.ask_tally();
        self.answer("ask tally", answer.refusal);
        answer
    }

    /// Asks both hands for the guesses of some jobs.
    fn ask_speculations(&mut self, both: &Both, jobs: impl IntoIterator<Item = usize>) {
        jobs.into_iter().for_each(|job| self.answer("ask speculation", both.ask_speculation(job).refusal));
    }

    /// The tally of a record that somebody wrote into: what came up of TALLIES, by its place there.
    fn made_up(&mut self, answer: TallyAnswer) {
        if answer.refusal == 0 {
            let balanced = read_tally(&answer.tally).in_balance();
            self.tallies[if !balanced { 0 } else { 1 + (answer.tally.started == 0) as usize }] += 1;
        }
    }

    /// Makes the step in both hands; what it answers and leaves is the same in both, so what is counted of it holds of both.
    fn step(&mut self, entry: &'static str, both: &mut Both, number: u8, job: usize, report: Report) {
        let before = both.ours;
        let (answer, _) = both.step(number, job, report);
        self.answer(entry, answer);
        if answer == 0 && before.jobs[job].arity == 4 {
            self.step_of_four(&before, &both.ours, number, job, report);
        }
    }

    /// An accepted step on a job with four accesses: what came up of FOUR, by its place there.
    fn step_of_four(&mut self, before: &Record, after: &Record, number: u8, job: usize, report: Report) {
        let accesses = before.jobs[job].accesses;
        let maybe = accesses.map(|access| access.mode == Mode::MaybeWrite as u8);
        let cell = accesses[3].cell as usize;
        let changed = before.cells[cell] != after.cells[cell];
        let reports = number == 2 || number == 3;
        let met = [
            (true, number as usize),
            (reports && report.wrote == 1 && maybe == [false, false, false, true], 5),
            (changed && accesses[3].mode == Mode::Write as u8, 6),
            (changed && maybe[3], 7),
            (number == 1 && after.runs[job].sources[3] != 0, 8),
            (changed && accesses[3].mode == Mode::PredictedWrite as u8, 9),
            (number == 1 && accesses[3].mode == Mode::PredictedWrite as u8, 10),
        ];
        for &(_, what) in met.iter().filter(|(did, _)| *did) {
            self.four[what] += 1;
        }
    }

    /// Inserts the job on a copy of the record; where a sealed one takes it, a run of it is started.
    fn insert(&mut self, record: &Record, job: Job, random: &mut Random) {
        let sealed = record.sealed != 0;
        let mut both = Both::of(record);
        let answer = both.insert(job);
        self.answer(if sealed { "insert, sealed" } else { "insert, not sealed" }, answer);
        if sealed && answer == 0 {
            let number = random.below(2) as u8;
            self.step("a start of the added job", &mut both, number, record.job_count as usize, Report::default());
        }
    }

    /// Inserts lists of jobs on copies of the record (R25): an empty one, one for as many jobs as there is room for, and one as for
    /// an empty batch. The dice are their own, so that what comes after does not depend on how many these are.
    fn insert_all(&mut self, record: &Record, random: &Random) {
        let mut dice = Dice::new(random.0, 25);
        let (cells, jobs) = (record.cell_count.clamp(1, 64) as usize, record.job_count.min(128) as usize);
        let none = JobList::of(&[], || any_place(&mut dice, cells));
        for list in [none, any_list(&mut dice, cells, 128 - jobs), any_list(&mut dice, cells, 128)] {
            let mut both = Both::of(record);
            let answer = both.insert_all(&list);
            assert!(both.ours == *record || answer.refusal == 0, "R81: {list:?} changed {record:?}");
            self.answer(if list.count == 0 { "insert all, none" } else { "insert all" }, answer.refusal);
            if answer.refusal == 0 && both.ours.sealed == 1 && list.count > 0 {
                // The last of the list is asked for and started.
                let (last, number) = (both.ours.job_count as usize - 1, dice.below(2) as u8);
                both.ask_job(last);
                self.answer("a start of the last of a list", both.step(number, last, Report::default()).0);
            }
        }
    }

    /// Makes turns (R64) on copies of the record. The dice are their own, as those of lists are.
    fn turn(&mut self, record: &Record, random: &Random) {
        let mut dice = Dice::new(random.0, 64);
        for _ in 0..3 {
            let mut both = Both::of(record);
            let (turn, lent) = (any_turn(&mut dice, &both.theirs), any_lent(&mut dice));
            let (answer, _) = both.turn(&turn, &lent);
            assert!(both.ours == *record || answer.refusal == 0, "R81: {turn:?} changed {record:?}");
            self.answer(TURNS[TURN_NUMBERS.iter().position(|&number| number == turn.number).unwrap_or(3)], answer.refusal);
        }
    }

    /// R66: turns have to be accepted and refused with each number that they can be.
    fn turns_came_up(&self, out_of_form: bool) {
        let refusals: [&[u8]; 4] = [&[0, 10, 11, 13, 16], &[0, 10, 11, 13, 16], &[0, 10], &[21]];
        for (entry, refusals) in TURNS.into_iter().zip(refusals) {
            for &refusal in refusals.iter().chain(out_of_form.then_some(&32)) {
                assert!(self.answers.contains_key(&(entry, refusal)), "never answered {refusal}: {entry}");
            }
        }
    }

    /// R6, R25: jobs have to be taken before sealing and after it, and runs of the latter started; and so have lists.
    fn inserts_came_up(&self) {
        let lists = ["insert all, none", "insert all", "a start of the last of a list"];
        for entry in ["insert, not sealed", "insert, sealed", "a start of the added job"].into_iter().chain(lists) {
            assert!(self.answers.contains_key(&(entry, 0)), "never accepted: {entry}");
        }
        for refusal in 3..9 {
            assert!(self.answers.contains_key(&("insert all", refusal)), "no list refused with {refusal}");
        }
    }

    /// R45: a settled job has no guess to judge.
    fn judged_each_way(&self) {
        assert!(self.judged.iter().all(|times| times[0] > 0), "no guess was judged so: {:?}", self.judged);
        assert!(self.judged[1..].iter().all(|times| times[1] == 0), "R45: {:?}", self.judged);
    }

    fn print_answers(&self) {
        println!("Answers met:");
        for ((entry, answer), times) in &self.answers {
            println!("  {entry} {answer}: {times}");
        }
    }

    fn print(&self) {
        self.print_answers();
        println!("Choices with fewer than 40 jobs: {}", self.watch.choices);
        self.watch.choice_lines().iter().for_each(|(what, times)| println!("  {what}: {times}"));
        println!("  named: its chain would be shorter without settled jobs: {}", self.watch.through_settled);
        println!("Of jobs with four accesses:");
        print(&FOUR, &self.four);
        println!("Records that were written into:");
        print(&PREDICTED, &self.predicted);
        println!("Guesses of jobs not settled, and of settled ones:");
        for (what, times) in JUDGED.iter().zip(self.judged) {
            println!("  {what}: {} and {}", times[0], times[1]);
        }
        println!("Guesses out or stored:");
        print(&HANDED, &self.handed);
        println!("Tallies of records in form that were written into:");
        print(&TALLIES, &self.tallies);
    }
}

/// Calls every entry on the record, each on a copy of its own, and then some steps one after the other. Gives back what asking
/// the record's tally answered.
fn try_every_entry(record: &Record, random: &mut Random, met: &mut Met) -> TallyAnswer {
    let cells = record.cell_count.clamp(1, 64) as usize;
    let jobs = record.job_count.clamp(1, 128) as usize;
    let mut both = Both::of(record);
    met.choose(&both);
    let asked = both.ask_batch();
    let held = if asked.refusal == 0 { record.job_count as usize } else { 0 };
    met.answer("ask batch", asked.refusal);
    let tally = met.ask_tally(&both);
    met.answer("ask cell", both.ask_cell(random.around(cells)).refusal);
    met.ask_job(&both, random.around(jobs));
    met.answer("copy out", both.copy_out(random.around(cells + 4), random.around(4)));
    met.insert(record, random.job(cells), random);
    met.insert_all(record, random);
    met.turn(record, random);
    met.answer("seal", Both::of(record).seal(random.below(3) as u8));
    for number in 0..6 {
        let job = job_for(number, record, random);
        met.step(STEPS[number as usize], &mut Both::of(record), number, job, random.report());
    }
    for _ in 0..4 {
        let number = random.below(5) as u8;
        let job = job_for(number, &both.ours, random);
        met.step("a further step", &mut both, number, job, random.report());
    }
    met.ask_tally(&both);
    met.choose(&both);
    // Every job, on the record and on what the steps have left of it.
    for both in [Both::of(record), both] {
        (0..held).for_each(|job| met.ask_job(&both, job));
        met.ask_speculations(&both, 0..held);
        met.ask_speculations(&both, about_the_limits(record, random));
    }
    tally
}

/// Numbers that a job may just have, or just not have, and some at random. The generator is copied, so that what comes after
/// does not depend on how many these are.
fn about_the_limits(record: &Record, random: &Random) -> [usize; 13] {
    let (held, mut random) = (record.job_count as usize, Random(random.0));
    let any = [(); 3].map(|()| random.around(300));
    [0, held.wrapping_sub(1), held, held + 1, 127, 128, 255, 256, 1 << 32, usize::MAX, any[0], any[1], any[2]]
}

/// How many records, and the seed.
fn settings() -> (u64, u64) {
    (setting("DAMAGED", 2000), setting("SEED", 1))
}

#[test]
fn damaged_records_are_refused_or_answered_soundly() {
    let (count, seed) = settings();
    let mut random = Random(seed.wrapping_mul(0x9e3779b97f4a7c15) | 1);
    let mut met = Met::default();
    let mut valid = valid_record(&mut random);
    for n in 0..count {
        if n % 4 == 0 {
            valid = valid_record(&mut random);
            let whole = try_every_entry(&valid, &mut random, &mut met);
            assert!(whole.refusal == 0 && read_tally(&whole.tally).in_balance(), "R177: {whole:?}");
        }
        let record = damaged(&valid, &mut random, place);
        let answer = try_every_entry(&record, &mut random, &mut met);
        add(&mut met.predicted, predicted_met(&valid, &record, answer.refusal == 0));
        met.made_up(answer);
    }
    println!(
        "{count} damaged records of seed {seed}, and a quarter as many whole ones: every answer and record the second hand's."
    );
    met.print();
    let of = |entry, answer| met.answers.get(&(entry, answer)).copied().unwrap_or(0);
    for entry in ["ask batch", "ask tally"] {
        assert!(of(entry, 32) > count / 10 && of(entry, 0) > count / 10, "both sorts of records have to come up");
    }
    met.turns_came_up(true);
    met.inserts_came_up();
    met.choices_came_up();
    assert!(met.four.iter().all(|&times| times > 0), "something never came up with four accesses: {:?}", met.four);
    assert!(met.predicted.iter().all(|&times| times > 0), "no mode or prediction was so: {:?}", met.predicted);
    met.judged_each_way();
    assert!(met.tallies.iter().all(|&times| times > 0), "no tally was so: {:?}", met.tallies);
}

/// R93. A quarter as many as of damaged ones, for all of these are in form.
#[test]
fn jobs_in_any_state_are_answered_soundly() {
    let (count, seed) = settings();
    let mut random = Random(seed.wrapping_mul(0x9e3779b97f4a7c15) | 1);
    let mut met = Met::default();
    for _ in 0..count.div_ceil(4) {
        let valid = valid_record(&mut random);
        let answer = try_every_entry(&any_states(&valid, &mut random), &mut random, &mut met);
        met.made_up(answer);
    }
    println!("{} records of seed {seed} with jobs in any state: every answer and record the second hand's.", count.div_ceil(4));
    met.print();
    assert_eq!(met.answers.get(&("ask batch", 32)), None, "all are in form");
    assert_eq!(met.answers.get(&("ask tally", 32)), None, "all are in form");
    met.turns_came_up(false);
    met.inserts_came_up();
    met.choices_came_up();
    met.judged_each_way();
    assert!(met.handed.iter().all(|&times| times > 0), "no guess was handed so: {:?}", met.handed);
    assert!(met.tallies.iter().all(|&times| times > 0), "no tally was so: {:?}", met.tallies);
}

/// How a job may stand that has looked past some by what its run says. Each has to come up of jobs below 64 and of others.
const PAST: [&str; 5] = [
    "the guess never started",
    "the guess thrown away",
    "out or stored, the job not settled",
    "out or stored, the job settled by its own run",
    "out or stored, the job settled by its guess",
];

/// What was met of guesses in records in form.
#[derive(Default)]
struct Guesses {
    past: [[u64; PAST.len()]; 2],
    edges: [u64; EDGES.len()],
    sets: Sets,
}

impl Guesses {
    fn count(&mut self, record: &Record, job: usize) {
        let JobSet { low, high } = record.runs[job].bypassed;
        let set = u128::from(low) | u128::from(high) << 64;
        let (phase, committed) = (record.phase[job], record.committed[job] as usize);
        let live = phase == 1 || phase == 2;
        let place = if live { 2 + committed } else { (phase == 3) as usize };
        self.past[(job >= 64) as usize][place] += (set != 0) as u64;
        if live {
            add(&mut self.edges, EDGES.map(|(_, edge)| edge == set));
            let mut jobs: Vec<usize> = (0..128).filter(|other| set >> other & 1 == 1).collect();
            let past = jobs.clone();
            jobs.retain(|&other| record.committed[other] == 0);
            self.sets.count(&past, &jobs);
        }
    }

    fn print(&self) {
        println!("Jobs that have looked past some, below 64 and others:");
        for (what, (below, others)) in PAST.iter().zip(self.past[0].iter().zip(self.past[1])) {
            println!("  {what}: {below} and {others}");
        }
        println!("Looked past by a guess:");
        print(&EDGES.map(|(what, _)| what), &self.edges);
        self.sets.print();
    }

    fn came_up(&self) {
        assert!(self.past.iter().flatten().all(|&times| times > 0), "no job stood so: {:?}", self.past);
        assert!(self.edges.iter().all(|&times| times > 0), "such a set was never looked past: {:?}", self.edges);
        self.sets.came_up();
    }
}

/// R78, R79: on records of many jobs with any jobs looked past, as they are and damaged. A quarter as many as of damaged ones.
#[test]
fn guesses_that_looked_past_any_jobs() {
    let (count, seed) = settings();
    let mut random = Random(seed.wrapping_mul(0x9e3779b97f4a7c15) | 1);
    let (mut met, mut guesses) = (Met::default(), Guesses::default());
    for _ in 0..count.div_ceil(4) {
        let jobs = [1, 24, 63, 64, 65, 100, 127, 128, 128, 128][random.below(10)];
        let valid = worked_record(&[0; 6], jobs, &mut random);
        let any = any_sets(&valid, &mut random);
        for record in [valid, any, damaged(&any, &mut random, place_of_a_guess)] {
            let both = Both::of(&record);
            met.ask_speculations(&both, about_the_limits(&record, &random));
            if both.ask_batch().refusal == 0 {
                (0..record.job_count as usize).for_each(|job| guesses.count(&record, job));
                met.ask_speculations(&both, 0..record.job_count as usize);
            }
        }
    }
    println!(
        "{} times three records of seed {seed} with any jobs looked past: every answer the second hand's.",
        count.div_ceil(4)
    );
    met.print_answers();
    guesses.print();
    for answer in [0, 11, 32] {
        assert!(met.answers.contains_key(&("ask speculation", answer)), "never answered {answer}");
    }
    guesses.came_up();
}
