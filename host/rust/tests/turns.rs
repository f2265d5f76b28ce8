//! The turn (R64 to R66). Batches are worked by random lists of calls (`second_hand::lists`) in three hands at once, and between
//! these calls turns are made (`second_hand::turns`): on copies of the batch, or so that it goes on with them; with reports right
//! and wrong, numbers that there are and that there are not, and limits from 0 to the largest. What the library answers, the 16
//! places of the lent list, in which anything stood before, and the whole record are the second hand's twice over and those of
//! the same calls one by one through the library; a refused turn leaves record and list as they were; and the ledger
//! (`second_hand::ledger`) enters an accepted one as its report and its steps (R161). The same on records that somebody wrote
//! into, and on such with anything where R91 names nothing. Batches that turns alone bring to their end have the heights and marks of the
//! jobs run in order. And the cases that the rules name, one by one. BATCHES=COUNT and DAMAGED=COUNT set how many, SEED=NUMBER
//! which; it prints what was met (`cargo test --test turns -- --nocapture`), each case named here and in `second_hand::turns`.

#[allow(dead_code)] // What only tests/damaged.rs needs.
mod damage;
#[allow(dead_code)] // Lists of jobs.
mod hands;
#[allow(dead_code)] // Lists of jobs.
mod lent;
mod met;
#[allow(dead_code)] // Calls that only others make.
mod morning;
mod setting;
#[allow(dead_code)] // Calls that only others make.
mod theirs;

use damage::{any_sets, any_states, any_turn, damaged, place, place_of_a_guess, valid_record, worked_record, Random};
use hands::Hands;
use lent::{damage_one, named_by_r91, Lent, LentRecord};
use met::{add, print};
use morning::Morning;
use second_hand::engine::{self, Access};
use second_hand::lists::{reported, worth_a_look, Call, Manner};
use second_hand::plans::Dice;
use second_hand::record::{self, Job, Taken, Turned};
use second_hand::turns::{any_lent, any_limit, List, Made, Turn, Watch, NO_REPORT};
use setting::setting;
use sorghemi::raw::{self, sorghemi_ask_cell, sorghemi_choose, sorghemi_step, sorghemi_step_by_value, sorghemi_turn};
use sorghemi::{Record, Report};
use std::collections::BTreeMap;
use std::mem::{offset_of, size_of};
use theirs::Both;

fn turned(refusal: u8, count: u8) -> Turned {
    Turned { refusal, count }
}

/// R64 by its words: the same calls through the library, on a copy. What is answered, the list and the record after it. That there
/// is no such number, or no report before the seal, no single call tells: 32 and 10 are those of the chooser.
fn one_by_one(record: &Record, turn: &Turn, lent: &List) -> (Turned, List, Record) {
    let mut copy = *record;
    let named = |record: &Record| unsafe { sorghemi_choose(*record) };
    let step = |record: &mut Record, number, job, report| unsafe { sorghemi_step(record, number, job, report) };
    let refusal = match turn.number {
        2 | 3 => step(&mut copy, turn.number, turn.job, Report { values: turn.values, wrote: turn.mark }).refusal,
        NO_REPORT => Some(named(record).refusal).filter(|&refusal| refusal != 19).unwrap_or(0),
        _ if named(record).refusal == 32 => 32,
        _ => 21,
    };
    if refusal != 0 {
        return (turned(refusal, 0), *lent, *record);
    }
    let (mut list, mut count) = (List::default(), 0);
    while count < turn.limit && count < 16 {
        let choice = named(&copy);
        if choice.refusal == 19 {
            break;
        }
        let handed = step(&mut copy, choice.step, choice.job.into(), Report::default());
        assert_eq!((choice.refusal, handed.refusal), (0, 0), "R63: {record:?}");
        list[count] = Taken { step: choice.step, job: choice.job, handed: handed.values };
        count += 1;
    }
    (turned(0, count as u8), list, copy)
}

/// R65: no step 4, 0 or 1 is allowed on any job, as the library answers each of them.
fn none_is_allowed(record: &Record) -> bool {
    let refused = |step, job| unsafe { sorghemi_step_by_value(*record, step, job, Report::default()) }.refusal != 0;
    (0..record.job_count.into()).all(|job| [4, 0, 1].into_iter().all(|step| refused(step, job)))
}

/// What holds of every turn, with the record before it.
fn hold(before: &Record, after: &Record, turn: &Turn, lent: &List, (answer, list): (Turned, List), look: bool) {
    let (due, due_list, due_record) = one_by_one(before, turn, lent);
    assert_eq!((answer, list), (due, due_list), "single calls of {turn:?}");
    assert!(after.to_bytes() == due_record.to_bytes(), "single calls of {turn:?} left another record");
    let count = usize::from(answer.count);
    if answer.refusal != 0 {
        assert!(after.to_bytes() == before.to_bytes() && list == *lent && count == 0, "R66: {turn:?}");
    } else {
        assert!(list[count..].iter().all(|place| *place == Taken::default()), "R65: {turn:?}");
        if look && count < turn.limit && count < 16 {
            assert!(none_is_allowed(after), "R65: {turn:?}");
        }
    }
}

impl Hands {
    /// Makes the turn in all hands, and by single calls on a copy: all answer the same, tell the same steps and leave the same
    /// record.
    fn take(&mut self, turn: &Turn, dice: &mut Dice, watch: &mut Watch) -> (Turned, List) {
        let (before, theirs, third) = (self.both.ours, self.both.theirs.clone(), self.third.clone());
        let (lent, look) = (any_lent(dice), worth_a_look(dice, &self.both.theirs));
        let (answer, list) = self.turn(turn, &lent);
        hold(&before, &self.both.ours, turn, &lent, (answer, list), look);
        assert!(answer.refusal == 0 || self.third == third, "R66: {turn:?}");
        let (lent, list) = (&lent, &list);
        // Full lists are rare, and are always looked at.
        let read = look || answer.count == 16;
        watch.made(&Made { before: &theirs, turn, lent, turned: answer, list, after: &self.both.theirs }, read);
        (answer, *list)
    }

    /// The steps that are told.
    fn steps(&mut self, turn: &Turn) -> (Turned, Vec<Taken>) {
        let (answer, list) = self.take(turn, &mut Dice::new(turn.limit as u64, 65), &mut Watch::default());
        (answer, list[..usize::from(answer.count)].to_vec())
    }
}

impl Morning {
    /// Makes the turn and enters it.
    fn take(&mut self, turn: &Turn, dice: &mut Dice, watch: &mut Watch) {
        let (answer, list) = self.hands.take(turn, dice, watch);
        self.ledger.enter_turn(turn, answer.refusal, &list[..usize::from(answer.count)]);
    }

    /// R171 and R173 to R175, as the library is asked; and R45 and R183, which depend on the order in which a turn's steps are
    /// entered. Gives back how many jobs are settled.
    fn claim(&self) -> usize {
        let (both, jobs) = (&self.hands.both, 0..self.ledger.jobs.len());
        let cells: Vec<i32> = (0..both.theirs.cell_count.into()).map(|cell| both.ask_cell(cell).height).collect();
        let asked: Vec<raw::JobAnswer> = jobs.clone().map(|job| both.ask_job(job)).collect();
        let settled: Vec<(u8, u8)> = asked.iter().map(|job| (job.committed, job.wrote)).collect();
        self.ledger.claim(&cells, &settled);
        assert_eq!(asked.iter().map(|job| job.validity).collect::<Vec<u8>>(), self.ledger.judged(), "R45");
        for job in jobs {
            assert_eq!(both.ask_speculation(job), theirs::told((0, self.ledger.told(job))), "R183");
        }
        settled.iter().filter(|(committed, _)| *committed != 0).count()
    }
}

/// A list of calls with turns between them. Gives back how many jobs were settled.
fn work(dice: &mut Dice, manner: &Manner, watch: &mut Watch) -> usize {
    let mut morning = Morning::open(&manner.heights);
    let share = manner.share_of_turns(dice);
    for _ in 0..manner.turns() {
        if manner.is_done(morning.record()) && dice.percent(30) {
            break;
        }
        if dice.percent(5) {
            let turn = manner.turn(dice, morning.record());
            morning.hands.clone().take(&turn, dice, watch);
        }
        // Before the seal mostly calls.
        let share = if morning.record().sealed == 0 { share / 10 } else { share };
        if dice.percent(share) {
            let turn = manner.turn(dice, morning.record());
            morning.take(&turn, dice, watch);
            if watch.turns % 10 == 0 {
                morning.claim();
            }
        } else {
            let call = manner.call(dice, morning.record());
            morning.make(&call);
        }
    }
    morning.claim()
}

/// R64 to R66, R161.
#[test]
fn batches() {
    let (count, seed) = (setting("BATCHES", 300), setting("SEED", 1));
    let (mut dice, mut watch, mut settled) = (Dice::new(seed, 64), Watch::default(), 0);
    for _ in 0..count {
        let manner = Manner::turning(&mut dice);
        settled += work(&mut dice, &manner, &mut watch);
    }
    println!(
        "{} turns with {} steps in {count} batches of seed {seed}, of whose jobs {settled} were",
        watch.turns, watch.steps
    );
    println!("settled: every answer, list and record the second hand's twice over, and that of single calls.");
    println!("Other readings were tried on {} of them. Met:", watch.read);
    let lines = watch.lines();
    lines.iter().for_each(|(what, times)| println!("  {what}: {times}"));
    assert!(lines.iter().all(|&(_, times)| times > 0), "something never came up: {lines:?}");
}

// Records that somebody wrote into.

/// What may be met of turns on records that somebody wrote into. Each has to come up.
const WRITTEN: [&str; 14] = [
    "a step 4 was taken",
    "a step 0 was taken",
    "a step 1 was taken",
    "16 steps",
    "no step, limit 0",
    "no step, though the limit allows one",
    "as many steps as the limit says, and more are allowed",
    "a report, and then a step 4",
    "the report of a job that was settled before",
    "a step 4 of a job whose own run was out",
    "a step 0 of a job whose guess was thrown away before",
    "a step 0 threw a guess away",
    "a step 1 looked past a job or took from one",
    "out of form, with a report that would be taken if it were not",
];

/// Which of WRITTEN come up.
fn written_met(both: &Both, turn: &Turn, (answer, list): (Turned, List), after: &Both) -> [bool; WRITTEN.len()] {
    let (before, taken) = (&both.theirs, &list[..usize::from(answer.count)]);
    let any = |step: u8, is: &dyn Fn(usize) -> bool| taken.iter().any(|one| one.step == step && is(one.job.into()));
    let (accepted, count) = (answer.refusal == 0, taken.len());
    let reports = accepted && turn.number != NO_REPORT;
    let run = |job: usize| after.theirs.runs[job];
    let out = |column: &[u8; 128]| turn.job < usize::from(before.job_count).min(128) && column[turn.job] == 1;
    let would = turn.number == 2 && out(&before.running) || turn.number == 3 && out(&before.phase);
    [
        any(4, &|_| true),
        any(0, &|_| true),
        any(1, &|_| true),
        count == 16,
        accepted && turn.limit == 0,
        accepted && turn.limit > 0 && count == 0,
        count > 0 && count == turn.limit && after.theirs.choose().0 == 0,
        reports && any(4, &|_| true),
        reports && before.committed[turn.job.min(127)] != 0,
        any(4, &|job| before.running[job] == 1),
        any(0, &|job| before.phase[job] == 3),
        any(0, &|job| before.phase[job] == 1 || before.phase[job] == 2),
        any(1, &|job| run(job).bypassed != 0 || run(job).sources != [0; 4]),
        answer.refusal == 32 && turn.mark == 0 && would,
    ]
}

/// How often each number of a turn was answered with each refusal (all others than 2, 3 and 255 under 0), and WRITTEN.
#[derive(Default)]
struct Written {
    answers: BTreeMap<(u8, u8), u64>,
    met: [u64; WRITTEN.len()],
}

impl Written {
    /// Makes the turn in both hands, and by single calls.
    fn take(&mut self, both: &mut Both, dice: &mut Dice) {
        let (before, turn, lent) = (both.clone(), any_turn(dice, &both.theirs), any_lent(dice));
        let answer = both.turn(&turn, &lent);
        hold(&before.ours, &both.ours, &turn, &lent, answer, worth_a_look(dice, &both.theirs));
        let number = if [2, 3, NO_REPORT].contains(&turn.number) { turn.number } else { 0 };
        *self.answers.entry((number, answer.0.refusal)).or_default() += 1;
        add(&mut self.met, written_met(&before, &turn, answer, both));
        let in_form = answer.0.refusal != 32;
        assert_eq!(in_form, before.theirs.in_form());
        if in_form {
            let (before, after, (turned, list)) = (&before.theirs, &both.theirs, answer);
            Made { before, turn: &turn, lent: &lent, turned, list: &list, after }.holds();
        }
    }

    /// Turns on copies of the record, and some one after the other.
    fn try_turns(&mut self, record: &Record, dice: &mut Dice) {
        let mut both = Both::of(record);
        (0..3).for_each(|_| self.take(&mut both.clone(), dice));
        (0..5).for_each(|_| self.take(&mut both, dice));
    }

    fn print(&self) {
        for ((number, refusal), times) in &self.answers {
            println!("  number {number}, answered {refusal}: {times}");
        }
        print(&WRITTEN, &self.met);
    }

    fn came_up(&self) {
        let refusals: [(u8, &[u8]); 4] =
            [(2, &[0, 10, 11, 13, 16, 32]), (3, &[0, 10, 11, 13, 16, 32]), (NO_REPORT, &[0, 10, 32]), (0, &[21, 32])];
        for (number, due) in refusals {
            let met = self.answers.keys().filter(|key| key.0 == number).map(|key| key.1);
            assert_eq!(met.collect::<Vec<u8>>(), due, "answers of number {number}");
        }
        assert!(self.met.iter().all(|&times| times > 0), "something never came up: {:?}", self.met);
    }
}

/// As tests/damaged.rs makes them: valid records, damaged ones, such with jobs in any state or with any jobs looked past, and
/// these damaged too.
#[test]
fn records_that_somebody_wrote_into() {
    let (count, seed) = (setting("DAMAGED", 1200), setting("SEED", 1));
    let mut random = Random(seed.wrapping_mul(0x9e3779b97f4a7c15) | 1);
    let (mut dice, mut written) = (Dice::new(seed, 91), Written::default());
    for _ in 0..count.div_ceil(6) {
        let valid = valid_record(&mut random);
        let states = any_states(&valid, &mut random);
        let jobs = [1, 24, 40, 64, 100, 128][random.below(6)];
        let cells = [6, 20, 64][random.below(3)];
        let sets = any_sets(&worked_record(&[0; 64][..cells], jobs, &mut random), &mut random);
        let records = [
            valid,
            damaged(&valid, &mut random, place),
            states,
            damaged(&states, &mut random, place),
            sets,
            damaged(&sets, &mut random, place_of_a_guess),
        ];
        records.iter().for_each(|record| written.try_turns(record, &mut dice));
    }
    let turns: u64 = written.answers.values().sum();
    println!("{turns} turns on {} records of seed {seed} that somebody wrote into: every answer,", 6 * count.div_ceil(6));
    println!("list and record the second hand's, and that of single calls. Met:");
    written.print();
    written.came_up();
}

type LentSteps = Lent<{ size_of::<raw::StepList>() }>;

/// A list as it lies in memory (R95), read field by field: number at 0, job at 1, four values from 4 on, 20 bytes each.
fn steps_in(bytes: &[u8]) -> List {
    let mut places = bytes.chunks(20);
    [(); 16].map(|()| {
        let place = places.next().unwrap();
        let value = |at: usize| i32::from_le_bytes([place[at], place[at + 1], place[at + 2], place[at + 3]]);
        Taken { step: place[0], job: place[1], handed: [4, 8, 12, 16].map(value) }
    })
}

/// Makes the turn where both lie so; nothing around them is touched.
fn turn_lent(record: &mut LentRecord, turn: &Turn, list: &mut LentSteps) -> Turned {
    let (mut theirs, mut due) = (record::Record::from_bytes(&record.bytes), steps_in(&list.bytes));
    let around = ([record.before, record.after], [list.before, list.after]);
    let &Turn { number, job, values, mark, limit } = turn;
    let report = Report { values, wrote: mark };
    let (lent, steps) = (record.bytes.as_mut_ptr().cast(), list.bytes.as_mut_ptr().cast());
    let answer = unsafe { sorghemi_turn(lent, number, job, report, limit, steps) };
    let answer_due = turn.on_record(&mut theirs, &mut due);
    assert_eq!(turned(answer.refusal, answer.count), answer_due, "{turn:?}");
    assert_eq!(steps_in(&list.bytes), due, "{turn:?}");
    assert!(record::Record::from_bytes(&record.bytes) == theirs, "{turn:?} left another record");
    assert!(around == ([record.before, record.after], [list.before, list.after]), "more than was lent was touched");
    answer_due
}

/// R92: records with anything where R91 names nothing, bytes between fields too, and then out of form in one thing alone. They,
/// and the lists, are any bytes that lie anywhere.
#[test]
fn any_bytes() {
    let (count, seed) = (setting("BATCHES", 300), setting("SEED", 1));
    let (mut dice, mut random) = (Dice::new(seed, 92), Random(seed.wrapping_mul(0x9e3779b97f4a7c15) | 1));
    let (mut accepted, mut steps, mut refused, mut out_of_form) = (0, 0, 0, 0);
    for _ in 0..count {
        let valid = Both::of(&valid_record(&mut random)).theirs;
        let mut record = named_by_r91(&valid, &mut dice);
        for _ in 0..6 {
            let (turn, mut list) = (any_turn(&mut dice, &record::Record::from_bytes(&record.bytes)), LentSteps::any(&mut dice));
            let answer = turn_lent(&mut record, &turn, &mut list);
            assert_ne!(answer.refusal, 32);
            accepted += u64::from(answer.refusal == 0);
            refused += u64::from(answer.refusal != 0);
            steps += u64::from(answer.count);
        }
        damage_one(&mut record, &mut dice);
        for number in [0, 2, 3, 4, NO_REPORT] {
            let turn = Turn { number, ..any_turn(&mut dice, &record::Record::from_bytes(&record.bytes)) };
            assert_eq!(turn_lent(&mut record, &turn, &mut LentSteps::any(&mut dice)), turned(32, 0));
            out_of_form += 1;
        }
    }
    println!("{count} records of seed {seed} with anything where R91 names nothing: {accepted} turns accepted, with {steps}");
    println!("steps, {refused} refused; and {out_of_form} refused with 32, the record out of form in one thing.");
    assert!(accepted > count && steps > count && refused > 0);
}

// Batches that turns alone bring to their end.

/// R165, with what each job reports by one rule of what it is handed: the jobs run one after the other. Heights and marks.
fn in_order(heights: &[i32], jobs: &[engine::Job]) -> (Vec<i32>, Vec<u8>) {
    let mut cells = heights.to_vec();
    let run = |job: &engine::Job| {
        let mut handed = [0; 4];
        for (value, access) in handed.iter_mut().zip(&job.accesses) {
            *value = cells[access.cell as usize];
        }
        let report = reported(job, handed);
        let written = |access: &Access| [1, 3].contains(&access.mode) || access.mode == 2 && report.mark == 1;
        for (value, access) in report.values.into_iter().zip(&job.accesses).filter(|(_, access)| written(access)) {
            cells[access.cell as usize] = value;
        }
        report.mark as u8
    };
    let marks = jobs.iter().map(run).collect();
    (cells, marks)
}

/// What may be met of a batch that turns alone bring to its end. Each has to come up.
const ENDED: [&str; 12] = [
    "guessing off",
    "guessing on, and all guesses kept",
    "guessing on, some kept and some thrown away",
    "a report of a guess that was thrown away, refused with 13",
    "no jobs",
    "128 jobs",
    "every turn with limit 1",
    "every turn with limit 16",
    "by one worker",
    "by four workers or more",
    "a cell changed",
    "a job settled with mark 1",
];

/// Works the batch to its end: each turn reports one of the runs that are out, or none where none is out or a worker comes in, and
/// takes what the limit allows. Gives back how many turns it took, and whether one was refused for a guess that was thrown away.
fn drive(hands: &mut Hands, dice: &mut Dice, workers: usize, limit: Option<usize>, watch: &mut Watch) -> (u64, bool) {
    let (mut out, mut turns, mut late): (Vec<(u8, usize, [i32; 4])>, _, _) = (Vec::new(), 0, false);
    while !hands.both.ask_batch().finished {
        let reports = !out.is_empty() && (out.len() >= workers || hands.both.theirs.choose().0 == 19 || dice.percent(60));
        let limit = limit.unwrap_or_else(|| any_limit(dice));
        let turn = match reports {
            false => Turn::without(limit.max(1)),
            true => {
                let (number, job, handed) = out.swap_remove(dice.below(out.len()));
                let engine::Report { values, mark } = reported(hands.third.job(job as u32).unwrap(), handed);
                Turn { number, job, values, mark: mark as u8, limit }
            }
        };
        let before = hands.both.theirs.clone();
        let (answer, list) = hands.take(&turn, dice, watch);
        if answer.refusal != 0 {
            // Only where its own run has taken the place of the guess.
            assert!((answer.refusal, turn.number, before.phase[turn.job]) == (13, 3, 3), "{answer:?} of {turn:?}");
            late = true;
        }
        let starts = list[..usize::from(answer.count)].iter().filter(|taken| taken.step != 4);
        out.extend(starts.map(|taken| (taken.step + 2, usize::from(taken.job), taken.handed)));
        turns += 1;
        assert!(turns < 3000, "the batch does not end");
    }
    (turns, late)
}

#[test]
fn to_the_end_by_turns_alone() {
    let (count, seed) = (setting("BATCHES", 300).div_ceil(2), setting("SEED", 1));
    let (mut dice, mut watch, mut met) = (Dice::new(seed, 176), Watch::default(), [0; ENDED.len()]);
    let (mut turns, mut jobs_settled) = (0, 0);
    for number in 0..count {
        // A few are full, a few without jobs.
        let full = number % 40 == 0;
        let manner = if full { Manner::full(&mut dice) } else { Manner::turning(&mut dice) };
        let count = if number % 25 == 1 { 0 } else { manner.jobs().len().min(if full { 128 } else { 45 }) };
        let (workers, limit) = (dice.pick(&[1, 2, 4, 16, 200]), dice.pick(&[None, None, Some(1), Some(2), Some(16)]));
        let mut hands = Hands::open(&manner.heights);
        manner.jobs()[..count].iter().for_each(|&job| assert_eq!(hands.make(&Call::Insert(job)).0, 0));
        let jobs: Vec<engine::Job> = (0..count).map(|job| hands.third.job(job as u32).unwrap().clone()).collect();
        let (cells, marks) = in_order(&manner.heights, &jobs);
        let guessing = u8::from(dice.percent(80));
        hands.make(&Call::Seal(guessing));
        let (took, late) = drive(&mut hands, &mut dice, workers, limit, &mut watch);
        // R173 to R175, R176.
        let height = |cell| unsafe { sorghemi_ask_cell(hands.both.ours, cell) }.height;
        assert_eq!((0..cells.len()).map(height).collect::<Vec<i32>>(), cells, "the heights of the jobs run in order");
        assert_eq!((0..count).map(|job| hands.both.ask_job(job).wrote).collect::<Vec<u8>>(), marks, "and their marks");
        let tally = hands.both.ask_tally().tally;
        add(
            &mut met,
            [
                guessing == 0 && count > 0,
                tally.kept > 0 && tally.discarded == 0,
                tally.kept > 0 && tally.discarded > 0,
                late,
                count == 0,
                count == 128,
                limit == Some(1) && count > 3,
                limit == Some(16) && count > 20,
                workers == 1 && count > 3,
                workers >= 4 && count > 3,
                cells != manner.heights,
                marks.contains(&1),
            ],
        );
        turns += took;
        jobs_settled += count;
    }
    println!("{count} batches of seed {seed} with {jobs_settled} jobs brought to their end by {turns} turns alone, with the");
    println!("heights and marks of the jobs run in order. Met:");
    print(&ENDED, &met);
    assert!(met.iter().all(|&times| times > 0), "something never came up: {met:?}");
}

// The cases that the rules name.

fn job(kind: u8, parameter: i32, accesses: &[(u8, u8)]) -> Job {
    let mut job = Job { kind, parameter, arity: accesses.len() as u8, ..Job::default() };
    job.accesses[..accesses.len()].copy_from_slice(accesses);
    job
}

fn shift(cell: u8, by: i32) -> Job {
    job(2, by, &[(cell, 1)])
}

fn floor(cell: u8) -> Job {
    job(4, 1400, &[(cell, 2)])
}

fn taken(step: u8, job: u8, first: i32) -> Taken {
    Taken { step, job, handed: [first, 0, 0, 0] }
}

fn report(number: u8, job: usize, value: i32, limit: usize) -> Turn {
    Turn { number, job, values: [value; 4], mark: 0, limit }
}

/// A batch of these cells and jobs, sealed with this switch.
fn sealed(heights: &[i32], jobs: &[Job], guessing: u8) -> Hands {
    let mut hands = Hands::open(heights);
    jobs.iter().for_each(|&job| assert_eq!(hands.make(&Call::Insert(job)).0, 0));
    assert_eq!(hands.make(&Call::Seal(guessing)).0, 0);
    hands
}

/// P8's batch: the last report settles the guess in the same turn.
#[test]
fn p8_in_turns() {
    let mut hands = sealed(&[1500, 1480], &[floor(0), shift(0, 20)], 1);
    assert_eq!(hands.steps(&Turn::without(9)), (turned(0, 2), vec![taken(0, 0, 1500), taken(1, 1, 1500)]));
    assert_eq!(hands.steps(&report(3, 1, 1520, 9)), (turned(0, 0), vec![]));
    assert_eq!(hands.steps(&report(2, 0, 1500, 9)), (turned(0, 1), vec![taken(4, 1, 0)]));
    assert!(hands.both.ask_batch().finished);
    assert_eq!([0, 1].map(|cell| hands.both.ask_cell(cell).height), [1520, 1480]);
}

/// P20: the order in which the chooser names them, and job 1 once job 0 is settled.
#[test]
fn p20_in_turns() {
    let mean = job(5, 0, &[(0, 1), (1, 0), (2, 0)]);
    let spike = job(3, 1000, &[(3, 2), (4, 0)]);
    let jobs = [mean, shift(1, 5), spike, floor(5), floor(6)];
    let mut hands = sealed(&[1500; 7], &jobs, 0);
    let (answer, steps) = hands.steps(&Turn::without(16));
    assert_eq!(
        (answer, steps.iter().map(|one| (one.step, one.job)).collect()),
        (turned(0, 4), vec![(0, 3), (0, 4), (0, 2), (0, 0)])
    );
    assert_eq!(
        steps.iter().map(|one| one.handed.iter().filter(|&&value| value == 1500).count()).collect::<Vec<_>>(),
        [1, 1, 2, 3]
    );
    assert_eq!(hands.steps(&Turn::without(16)), (turned(0, 0), vec![]));
    assert_eq!(hands.steps(&report(2, 0, 1500, 16)), (turned(0, 1), vec![taken(0, 1, 1500)]));
}

/// Limits 0, 1, 15, 16, 17 and huge ones, with 20 jobs that do not wait for each other.
#[test]
fn limits() {
    let jobs: Vec<Job> = (0..20).map(|cell| shift(cell, 1)).collect();
    let opened = sealed(&[1500; 20], &jobs, 1);
    let large = [255, 256, 257, 1 << 16, 1 << 31, 1 << 32, (1 << 32) + 1, usize::MAX / 2, usize::MAX / 2 + 1, usize::MAX];
    for limit in (0..20).chain(large) {
        let due: Vec<Taken> = (0..limit.min(16) as u8).map(|job| taken(0, job, 1500)).collect();
        assert_eq!(opened.clone().steps(&Turn::without(limit)), (turned(0, due.len() as u8), due));
    }
    let mut hands = opened;
    assert_eq!([16, 16, 16].map(|limit| hands.steps(&Turn::without(limit)).0.count), [16, 4, 0]);
}

/// 128 jobs are started by eight turns, and nothing by a ninth.
#[test]
fn as_many_jobs_as_there_can_be() {
    let readers: Vec<Job> = (0..128).map(|number| job(0, 0, &[(number % 64, 0)])).collect();
    let mut hands = sealed(&[7; 64], &readers, 1);
    for turn in 0..8 {
        let due: Vec<Taken> = (16 * turn..16 * turn + 16).map(|job| taken(0, job, 7)).collect();
        assert_eq!(hands.steps(&Turn::without(usize::MAX)), (turned(0, 16), due));
    }
    assert_eq!(hands.steps(&Turn::without(1)), (turned(0, 0), vec![]));
    assert_eq!(hands.steps(&report(2, 127, 7, 1)), (turned(0, 0), vec![]));
}

/// One report settles 16 guesses, and the next turn the others.
#[test]
fn sixteen_settled() {
    let jobs: Vec<Job> = [floor(0)].into_iter().chain((0..20).map(|_| shift(0, 1))).collect();
    let mut hands = sealed(&[1500], &jobs, 1);
    assert_eq!(hands.steps(&Turn::without(2)).1, [taken(0, 0, 1500), taken(1, 1, 1500)]);
    for job in 1..20 {
        let height = 1500 + job as i32;
        assert_eq!(hands.steps(&report(3, job, height, 5)), (turned(0, 1), vec![taken(1, job as u8 + 1, height)]));
    }
    assert_eq!(hands.steps(&report(3, 20, 1520, 5)), (turned(0, 0), vec![]));
    let settles = |jobs: std::ops::Range<u8>| jobs.map(|job| taken(4, job, 0)).collect::<Vec<Taken>>();
    assert_eq!(hands.steps(&report(2, 0, 1500, 100)), (turned(0, 16), settles(1..17)));
    assert_eq!(hands.both.ask_cell(0).height, 1516);
    assert_eq!(hands.steps(&Turn::without(100)), (turned(0, 4), settles(17..21)));
    assert_eq!(hands.both.ask_cell(0).height, 1520);
}

/// Steps of each number in one turn.
#[test]
fn all_steps_in_one_turn() {
    let jobs = [floor(0), shift(0, 5), shift(0, 5), floor(0), shift(0, 5)];
    let mut hands = sealed(&[1500], &jobs, 1);
    assert_eq!(hands.steps(&Turn::without(2)).1, [taken(0, 0, 1500), taken(1, 1, 1500)]);
    assert_eq!(hands.steps(&report(3, 1, 1505, 1)).1, [taken(1, 2, 1505)]);
    assert_eq!(hands.steps(&report(3, 2, 1510, 0)).1, []);
    let due = [taken(4, 1, 0), taken(4, 2, 0), taken(0, 3, 1510), taken(1, 4, 1510)];
    assert_eq!(hands.steps(&report(2, 0, 1500, 16)).1, due);
}

/// R66: each number, before the seal, after it, and with a run out; 32 before all.
#[test]
fn numbers() {
    let mut unsealed = Hands::open(&[1500]);
    unsealed.make(&Call::Insert(floor(0)));
    let idle = sealed(&[1500], &[floor(0)], 1);
    let mut out = idle.clone();
    assert_eq!(out.steps(&Turn::without(1)).0, turned(0, 1));
    let mut broken = idle.both.ours;
    broken.phase[0] = 4;
    for number in 0..=255 {
        let due = match number {
            2 => [10, 13, 0],
            3 => [10, 13, 13],
            NO_REPORT => [10, 0, 0],
            _ => [21, 21, 21],
        };
        for limit in [0, 1, usize::MAX] {
            let turn = report(number, 0, 1500, limit);
            let answered = [&unsealed, &idle, &out].map(|hands| hands.clone().steps(&turn).0.refusal);
            assert_eq!(answered, due, "{turn:?}");
            assert_eq!(Both::of(&broken).turn(&turn, &[taken(7, 7, 7); 16]), (turned(32, 0), [taken(7, 7, 7); 16]));
        }
    }
}

/// R64: without a report job and report are not looked at.
#[test]
fn what_is_not_looked_at() {
    let opened = sealed(&[1500], &[floor(0)], 1);
    for job in [0, 1, 127, 128, 255, 256, 1 << 32, usize::MAX] {
        for mark in 0..=255 {
            let turn = Turn { job, mark, ..Turn::without(4) };
            assert_eq!(opened.clone().steps(&turn), (turned(0, 1), vec![taken(0, 0, 1500)]));
        }
    }
}

/// R66: as the report is refused, 10, 11, 13 and 16, though steps are allowed.
#[test]
fn refused_reports() {
    let mut hands = sealed(&[1500, 1480], &[shift(0, 5), floor(0), shift(1, 5)], 1);
    assert_eq!(hands.steps(&Turn::without(1)).1, [taken(0, 0, 1500)]);
    for limit in [0, 1, 16] {
        for job in [3, 127, 128, 255, 256, 1 << 32, usize::MAX] {
            assert_eq!([2, 3].map(|number| hands.steps(&report(number, job, 0, limit)).0), [turned(11, 0); 2]);
        }
        assert_eq!(hands.steps(&report(3, 0, 0, limit)).0, turned(13, 0));
        assert_eq!(hands.steps(&report(2, 1, 0, limit)).0, turned(13, 0));
        for mark in 1..=255 {
            assert_eq!(hands.steps(&Turn { mark, ..report(2, 0, 0, limit) }).0, turned(16, 0));
        }
    }
    // The run is still out, and the step still allowed.
    assert_eq!(hands.steps(&report(2, 0, 1505, 1)).0, turned(0, 1));
}

/// R66: that none is named is no refusal: with no jobs, with all out, and with all settled; and a job that comes in is started.
#[test]
fn no_step() {
    let mut hands = sealed(&[1500], &[], 1);
    assert_eq!(hands.steps(&Turn::without(16)).0, turned(0, 0));
    hands.make(&Call::Insert(shift(0, 5)));
    assert_eq!(hands.steps(&Turn::without(16)).0, turned(0, 1));
    assert_eq!(hands.steps(&Turn::without(16)).0, turned(0, 0));
    assert_eq!(hands.steps(&report(2, 0, 1505, 16)).0, turned(0, 0));
    assert!(hands.both.ask_batch().finished);
}

/// With limit 0 the report is taken and nothing else.
#[test]
fn a_report_alone() {
    let mut hands = sealed(&[1500], &[shift(0, 5), shift(0, 5)], 1);
    hands.steps(&Turn::without(1));
    assert_eq!(hands.steps(&report(2, 0, 1505, 0)).0, turned(0, 0));
    assert_eq!(hands.both.ask_cell(0).height, 1505);
    assert_eq!(hands.steps(&Turn::without(1)), (turned(0, 1), vec![taken(0, 1, 1505)]));
}

/// The structs lie in memory as the header has them.
#[test]
fn in_memory() {
    assert_eq!([size_of::<raw::Taken>(), size_of::<raw::StepList>(), size_of::<raw::Turned>()], [20, 320, 2]);
    assert_eq!([offset_of!(raw::Taken, step), offset_of!(raw::Taken, job), offset_of!(raw::Taken, handed)], [0, 1, 4]);
    assert_eq!([offset_of!(raw::StepList, taken), offset_of!(raw::Turned, refusal), offset_of!(raw::Turned, count)], [0, 0, 1]);
}
