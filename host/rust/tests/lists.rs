//! Inserting a list of jobs in one call (R25). Batches are worked by random lists of calls (`second_hand::lists`) in three hands
//! at once, and between these calls lists of 0 to 140 jobs are inserted, some of which are refused (`second_hand::joblists`): on
//! copies of the batch, or so that it goes on with them. What the library answers and the whole record after it are the second
//! hand's twice over, the wrapper's, and those of single inserts through the library; a refused list leaves the record as it was;
//! and the ledger (`second_hand::ledger`) enters an accepted one as the inserts of its jobs (R161). What R91 does not name of a
//! record, what stands in a list past its count and between all fields, is anything, and nothing around the two is touched. And
//! the cases that the rule names, one by one. BATCHES=COUNT sets how many batches, SEED=NUMBER which; it prints what was met
//! (`cargo test --test lists -- --nocapture`), each case named in `second_hand::joblists`.

mod hands;
mod lent;
#[allow(dead_code)] // Calls that only others make.
mod morning;
mod setting;
#[allow(dead_code)] // Calls that only tests/damaged.rs makes.
mod theirs;

use hands::Hands;
use lent::{damage_one, named_by_r91, Lent, LentRecord};
use morning::Morning;
use second_hand::joblists::{any_list, any_place, Watch};
use second_hand::lists::{sound_job, Call, Manner};
use second_hand::plans::Dice;
use second_hand::record::{self, Inserted, Job, JobList};
use setting::setting;
use sorghemi::raw::{self, sorghemi_insert, sorghemi_insert_all};
use sorghemi::{Batch, Record, Refusal, RefusedJob, Report};
use std::mem::{offset_of, size_of};
use theirs::{given_job, given_list, Both};

const ACCEPTED: Inserted = Inserted { refusal: 0, at: 0 };

fn refused(refusal: u8, at: u8) -> Inserted {
    Inserted { refusal, at }
}

/// R25 by its words: the jobs one after the other through the library, on a copy. What is answered, and the record after it. A
/// job without a place, of which only the count speaks, stands as one without accesses.
fn one_by_one(record: &Record, list: &JobList) -> (Inserted, Record) {
    let mut copy = *record;
    for place in 0..list.count {
        let job = list.jobs.get(place).copied().unwrap_or_default();
        let answer = unsafe { sorghemi_insert(copy, given_job(&job)) };
        match answer.refusal {
            0 => copy = answer.batch,
            32 => return (refused(32, 0), *record),
            refusal => return (refused(refusal, place as u8), *record),
        }
    }
    (ACCEPTED, copy)
}

/// The same through the wrapper, which has a slice for the list. Of a count far too large it gets 129 jobs.
fn by_wrapper(record: &Record, list: &JobList) -> (Inserted, Record) {
    let held = usize::from(record.job_count);
    let mut batch = Batch::from_record(*record).unwrap();
    let no_place = Job::default();
    let places = list.jobs.iter().chain([&no_place; 12]);
    let jobs: Vec<sorghemi::Job> = places.take(if list.count > 140 { 129 } else { list.count }).map(given_job).collect();
    let answer = match batch.insert_all(&jobs) {
        Ok(numbers) => {
            assert_eq!(numbers, held..held + list.count);
            ACCEPTED
        }
        Err(RefusedJob { at, refusal }) => refused(refusal.number(), at as u8),
    };
    (answer, *batch.record())
}

impl Hands {
    /// Inserts the list in all hands, and by single inserts and through the wrapper on copies: all answer the same and leave the
    /// same record, which is as it was where the list is refused.
    fn insert(&mut self, list: &JobList) -> Inserted {
        let (due, after) = one_by_one(&self.both.ours, list);
        let (bytes, third) = (self.both.ours.to_bytes(), self.third.clone());
        let (wrapped, left) = by_wrapper(&self.both.ours, list);
        assert_eq!(wrapped, due, "the wrapper of {list:?}");
        assert!(left.to_bytes() == after.to_bytes(), "the wrapper left another record of {list:?}");
        let answer = self.insert_all(list);
        assert_eq!(answer, due, "single inserts of {list:?}");
        assert!(self.both.ours.to_bytes() == after.to_bytes(), "single inserts of {list:?} left another record");
        if answer.refusal != 0 || list.count == 0 {
            assert!(self.both.ours.to_bytes() == bytes && self.third == third, "R81: {list:?} changed the record");
        }
        answer
    }

    fn insert_jobs(&mut self, jobs: &[Job]) -> Inserted {
        self.insert(&JobList::of(jobs, no_accesses))
    }

    fn room(&self) -> usize {
        128 - usize::from(self.both.theirs.job_count)
    }

    /// Whether the batch is finished, as all hands say.
    fn finished(&self) -> bool {
        let finished = self.both.ask_batch().finished;
        assert_eq!(finished, self.third.finished());
        finished
    }
}

impl Morning {
    /// Inserts the list, and enters it. R8: the batch is then not finished.
    fn insert(&mut self, list: &JobList, watch: &mut Watch) {
        let before = self.record().clone();
        let answer = self.hands.insert(list);
        self.ledger.enter_list(list.named(), answer.refusal);
        watch.inserted(&before, list, answer);
        let finished = if answer.refusal == 0 && list.count > 0 { false } else { before.ask_batch().finished };
        assert_eq!(self.hands.finished(), finished, "R8");
        assert_eq!(usize::from(self.record().job_count), self.ledger.jobs.len(), "R161");
    }

    /// R171 and R173 to R175, as the library is asked; gives back how many jobs are settled.
    fn claim(&self) -> usize {
        let both = &self.hands.both;
        let cells: Vec<i32> = (0..both.theirs.cell_count.into()).map(|cell| both.ask_cell(cell).height).collect();
        let jobs = (0..self.ledger.jobs.len()).map(|job| both.ask_job(job));
        let settled: Vec<(u8, u8)> = jobs.map(|job| (job.committed, job.wrote)).collect();
        self.ledger.claim(&cells, &settled);
        settled.iter().filter(|(committed, _)| *committed != 0).count()
    }
}

/// A list of calls, with lists of jobs between them. Some batches begin with so many jobs, in one list, that they are nearly full.
/// Gives back how many jobs were settled.
fn work(dice: &mut Dice, manner: &Manner, watch: &mut Watch) -> usize {
    let cells = manner.heights.len();
    let mut morning = Morning::open(&manner.heights);
    let mut hands = morning.hands.clone();
    let (before, list) = (hands.both.theirs.clone(), any_list(dice, cells, 128));
    watch.inserted(&before, &list, hands.insert(&list));
    if dice.percent(30) {
        let count = 128 - dice.pick(&[0, 1, 2, 3, 5, 30, 127]);
        let jobs: Vec<Job> = (0..count).map(|_| sound_job(dice, cells)).collect();
        morning.insert(&JobList::of(&jobs, || any_place(dice, cells)), watch);
    }
    for _ in 0..manner.calls().min(150) {
        if dice.percent(6) {
            let (mut hands, before) = (morning.hands.clone(), morning.record().clone());
            let list = any_list(dice, cells, hands.room());
            watch.inserted(&before, &list, hands.insert(&list));
        }
        if dice.percent(2) {
            // Not one that fills the batch each time.
            let list = any_list(dice, cells, morning.hands.room().min(6));
            morning.insert(&list, watch);
        }
        let call = manner.call(dice, morning.record());
        morning.make(&call);
    }
    morning.claim()
}

/// R25, R161.
#[test]
fn batches() {
    let (count, seed) = (setting("BATCHES", 400), setting("SEED", 1));
    let (mut dice, mut watch, mut settled) = (Dice::new(seed, 25), Watch::default(), 0);
    for _ in 0..count {
        let manner = Manner::any(&mut dice);
        settled += work(&mut dice, &manner, &mut watch);
    }
    println!(
        "{} lists of jobs into {count} batches of seed {seed}, of whose jobs {settled} were settled: every answer and",
        watch.lists
    );
    println!("record the second hand's twice over, and that of single inserts. Met:");
    let lines = watch.lines();
    lines.iter().for_each(|(what, times)| println!("  {what}: {times}"));
    assert!(lines.iter().all(|&(_, times)| times > 0), "something never came up: {lines:?}");
}

// Records and lists with anything where nothing is to be looked at.

type LentList = Lent<{ size_of::<raw::JobList>() }>;

/// The count and the jobs that it speaks of, and anything else.
fn lent_list(list: &JobList, dice: &mut Dice) -> LentList {
    let mut lent = LentList::any(dice);
    lent.put(offset_of!(raw::JobList, count), &list.count.to_le_bytes());
    for (place, job) in list.named().iter().enumerate() {
        lent.put_job(offset_of!(raw::JobList, jobs) + place * size_of::<sorghemi::Job>(), job, true);
    }
    lent
}

/// Inserts the list where both lie so, and holds the answer against the second hand's; nothing but the record is touched.
fn insert_lent(record: &mut LentRecord, list: &LentList) -> Inserted {
    let mut theirs = record::Record::from_bytes(&record.bytes);
    let (around, lent) = ([record.before, record.after], list.all());
    let read = |bytes: &[u8]| unsafe { bytes.as_ptr().cast::<raw::JobList>().read() };
    let theirs_list = theirs::read_list(&read(&list.bytes));
    let answer = unsafe { sorghemi_insert_all(record.bytes.as_mut_ptr().cast(), list.bytes.as_ptr().cast()) };
    let due = theirs.insert_list(&theirs_list);
    assert_eq!((answer.refusal, answer.at), (due.refusal, due.at), "{theirs_list:?}");
    assert!(record::Record::from_bytes(&record.bytes) == theirs, "{theirs_list:?} left another record");
    assert!(list.all() == lent && [record.before, record.after] == around, "more than the record was touched");
    due
}

/// Answers go by what R91 names and by the jobs of the list alone, and an accepted list changes just the places that it takes and
/// the number of jobs (R92, R94). A batch in form stays so.
#[test]
fn anything_else_is_not_looked_at() {
    let (count, seed) = (setting("BATCHES", 400), setting("SEED", 1));
    let mut dice = Dice::new(seed, 92);
    for _ in 0..count {
        let manner = Manner::any(&mut dice);
        let (cells, mut hands) = (manner.heights.len(), Hands::open(&manner.heights));
        let held = dice.pick(&[0, 1, 20, 100, 120, 126, 127, 128]);
        hands.insert_jobs(&(0..held).map(|_| sound_job(&mut dice, cells)).collect::<Vec<Job>>());
        for _ in 0..dice.below(30) {
            let call = manner.call(&mut dice, &hands.both.theirs);
            hands.make(&call);
        }
        let before = hands.both.theirs.clone();
        let list = any_list(&mut dice, cells, hands.room());
        let answer = hands.insert(&list);
        for _ in 0..3 {
            let (mut lent, lent_list) = (named_by_r91(&before, &mut dice), lent_list(&list, &mut dice));
            let bytes = lent.bytes;
            assert_eq!(insert_lent(&mut lent, &lent_list), answer, "{list:?}");
            let mut due = record::Record::from_bytes(&bytes);
            if answer.refusal == 0 {
                for (job, place) in list.named().iter().zip(usize::from(due.job_count)..) {
                    (due.jobs[place], due.runs[place]) = (*job, record::Run::default());
                    (due.committed[place], due.running[place], due.phase[place]) = (0, 0, 0);
                }
                due.job_count += list.count as u8;
            }
            assert!(record::Record::from_bytes(&lent.bytes) == due && due.in_form());
            // And damaged in what R91 does name.
            out_of_form(&mut lent, &lent_list, &mut dice);
        }
    }
    println!("{count} batches of seed {seed}, each three times with anything where R91 names nothing, and then three times");
    println!("out of form: every answer and record the second hand's.");
}

/// Damages the record in one thing that R91 names: 32 and place 0, whatever the list, an empty one and one far too long too.
fn out_of_form(lent: &mut LentRecord, list: &LentList, dice: &mut Dice) {
    damage_one(lent, dice);
    let mut other = LentList::any(dice);
    for count in [0, 1, 128, usize::MAX] {
        other.put(offset_of!(raw::JobList, count), &count.to_le_bytes());
        assert_eq!(insert_lent(lent, &other), refused(32, 0));
    }
    assert_eq!(insert_lent(lent, list), refused(32, 0));
}

// The cases that the rule names.

/// Refused with 4.
fn no_accesses() -> Job {
    Job::default()
}

/// Refused with 5 where there are two cells.
fn no_such_cell() -> Job {
    Job { arity: 1, accesses: [(2, 1), (0, 0), (0, 0), (0, 0)], ..Job::default() }
}

/// Refused with 8.
fn no_such_kind() -> Job {
    Job { kind: 7, ..shifts(1)[0] }
}

/// Shifts of cell 0, each by another distance.
fn shifts(count: usize) -> Vec<Job> {
    (1..=count as i32)
        .map(|parameter| Job { kind: 2, arity: 1, accesses: [(0, 1); 4], parameter, predicted: [parameter; 4] })
        .collect()
}

/// A batch of two cells that holds so many jobs, inserted one by one.
fn holding(count: usize) -> Hands {
    let mut hands = Hands::open(&[1500, 1480]);
    shifts(count).into_iter().for_each(|job| assert_eq!(hands.make(&Call::Insert(job)).0, 0));
    hands
}

fn seal(hands: &mut Hands) {
    assert_eq!(hands.make(&Call::Seal(1)).0, 0);
}

/// The jobs as the library holds them.
fn held(hands: &Hands) -> Vec<Job> {
    let jobs = 0..hands.both.ask_batch().job_count.into();
    jobs.map(|job| theirs::read_job(&hands.both.ask_job(job).job)).collect()
}

#[test]
fn an_empty_list() {
    for count in [0, 1, 127, 128] {
        let mut hands = holding(count);
        assert_eq!(hands.insert_jobs(&[]), ACCEPTED);
        assert_eq!(held(&hands), shifts(count));
    }
    // A finished batch stays so (R8).
    let mut hands = holding(0);
    seal(&mut hands);
    assert_eq!(hands.insert_jobs(&[]), ACCEPTED);
    assert!(hands.finished());
}

#[test]
fn a_list_of_one() {
    let mut hands = holding(3);
    assert_eq!(hands.insert_jobs(&shifts(1)), ACCEPTED);
    assert_eq!(held(&hands), [shifts(3), shifts(1)].concat());
    for (job, number) in [(no_accesses(), 4), (no_such_cell(), 5), (no_such_kind(), 8)] {
        assert_eq!(hands.insert_jobs(&[job]), refused(number, 0));
    }
}

#[test]
fn a_list_that_fills_the_batch() {
    for count in [1, 5, 64, 127] {
        let mut hands = holding(count);
        assert_eq!(hands.insert_jobs(&shifts(128 - count)), ACCEPTED);
        assert_eq!(held(&hands), [shifts(count), shifts(128 - count)].concat());
        assert_eq!(hands.both.insert(given_job(&shifts(1)[0])), 3);
    }
}

#[test]
fn one_job_too_many() {
    for count in [1, 5, 64, 127, 128] {
        let (mut hands, room) = (holding(count), 128 - count);
        assert_eq!(hands.insert_jobs(&shifts(room + 1)), refused(3, room as u8));
        assert_eq!(hands.insert_jobs(&shifts(room + 12)), refused(3, room as u8));
        assert_eq!(held(&hands), shifts(count));
    }
}

#[test]
fn a_list_of_128_into_an_empty_batch() {
    let mut hands = holding(0);
    assert_eq!(hands.insert_jobs(&shifts(128)), ACCEPTED);
    assert_eq!(held(&hands), shifts(128));
}

#[test]
fn a_list_of_129_into_an_empty_batch() {
    assert_eq!(holding(0).insert_jobs(&shifts(129)), refused(3, 128));
}

/// Its last job is ill-formed too: still 3. Where the one before it is, that one's number.
#[test]
fn a_list_of_129_whose_last_is_ill_formed() {
    let (mut hands, mut jobs) = (holding(0), shifts(129));
    jobs[128] = no_accesses();
    assert_eq!(hands.insert_jobs(&jobs), refused(3, 128));
    jobs[127] = no_such_kind();
    assert_eq!(hands.insert_jobs(&jobs), refused(8, 127));
    // With a job held the last place of the list is the one that finds no room.
    assert_eq!(holding(1).insert_jobs(&jobs), refused(3, 127));
}

#[test]
fn the_first_refused_job_decides() {
    let (mut hands, mut jobs) = (holding(2), shifts(5));
    (jobs[2], jobs[4]) = (no_such_cell(), no_accesses());
    assert_eq!(hands.insert_jobs(&jobs), refused(5, 2));
    (jobs[2], jobs[4]) = (no_accesses(), no_such_cell());
    assert_eq!(hands.insert_jobs(&jobs), refused(4, 2));
    jobs[0] = no_such_kind();
    assert_eq!(hands.insert_jobs(&jobs), refused(8, 0));
}

#[test]
fn a_refused_job_before_the_room_ends() {
    let (mut hands, mut jobs) = (holding(125), shifts(6));
    jobs[2] = no_such_kind();
    assert_eq!(hands.insert_jobs(&jobs), refused(8, 2));
    (jobs[2], jobs[3]) = (jobs[0], no_such_kind());
    assert_eq!(hands.insert_jobs(&jobs), refused(3, 3));
    (jobs[3], jobs[4]) = (jobs[0], no_such_kind());
    assert_eq!(hands.insert_jobs(&jobs), refused(3, 3));
}

/// And the good ones are accepted after it, one by one.
#[test]
fn a_refused_list_changes_nothing() {
    for sealed in [false, true] {
        let (mut hands, mut jobs) = (holding(2), shifts(5));
        if sealed {
            seal(&mut hands);
        }
        jobs[3] = no_such_cell();
        assert_eq!(hands.insert_jobs(&jobs), refused(5, 3));
        assert_eq!(held(&hands), shifts(2));
        let good = [jobs[0], jobs[1], jobs[2], jobs[4]];
        good.iter().for_each(|job| assert_eq!(hands.make(&Call::Insert(*job)).0, 0));
        assert_eq!(held(&hands), [shifts(2), good.to_vec()].concat());
        assert_eq!(hands.both.insert(given_job(&jobs[3])), 5);
    }
}

/// R6, R8: the batch is unfinished again, and its new jobs run.
#[test]
fn a_list_into_a_finished_batch() {
    let (mut hands, mut height) = (holding(0), 1500);
    seal(&mut hands);
    for settled in [0, 3, 6] {
        assert!(hands.finished());
        assert_eq!(hands.insert_jobs(&[shifts(1)[0], no_accesses()]), refused(4, 1));
        assert!(hands.finished());
        assert_eq!(hands.insert_jobs(&shifts(3)), ACCEPTED);
        assert!(!hands.finished());
        let named = hands.both.choose();
        assert_eq!((named.refusal, named.step, usize::from(named.job), named.chain), (0, 0, settled, 3));
        for job in settled..settled + 3 {
            assert!(!hands.finished());
            let step = |number, value| Call::Step { number, job, values: [value; 4], mark: 0 };
            assert_eq!(hands.make(&step(0, 0)), (0, [height, 0, 0, 0]));
            height += 5;
            assert_eq!(hands.make(&step(2, height)).0, 0);
        }
    }
    assert!(hands.finished());
    assert_eq!(hands.both.ask_cell(0).height, 1545);
}

/// While runs are out: they are not disturbed, and their reports are taken after it.
#[test]
fn a_list_while_runs_are_out() {
    let mut hands = holding(2);
    seal(&mut hands);
    let floor = Job { kind: 4, arity: 1, accesses: [(1, 2); 4], parameter: 1400, predicted: [0; 4] };
    let shift = Job { accesses: [(1, 1); 4], ..shifts(1)[0] };
    assert_eq!(hands.insert_jobs(&[floor, shift]), ACCEPTED);
    assert_eq!(hands.both.step(0, 0, Report::default()), (0, [1500, 0, 0, 0]));
    assert_eq!(hands.both.step(0, 2, Report::default()), (0, [1480, 0, 0, 0]));
    assert_eq!(hands.both.step(1, 3, Report::default()), (0, [1480, 0, 0, 0]));
    let mut both: Both = hands.both;
    assert_eq!(both.insert_all(&JobList::of(&[floor; 4], no_accesses)), ACCEPTED);
    assert_eq!(both.insert_all(&JobList::of(&[floor, no_such_cell()], no_accesses)), refused(5, 1));
    assert_eq!(both.step(3, 3, Report::of(&[1500])).0, 0);
    assert_eq!(both.step(2, 2, Report::of(&[1480])).0, 0);
    assert_eq!(both.step(4, 3, Report::default()).0, 0);
    assert_eq!(both.step(0, 4, Report::default()), (0, [1500, 0, 0, 0]));
}

/// They are answered: 3 where the room ends, or what a job before that is refused with.
#[test]
fn counts_that_are_far_too_large() {
    let half = usize::MAX / 2;
    for count in [129, 255, 256, 258, 1 << 16, 1 << 32, (1 << 32) + 2, half, half + 1, usize::MAX - 1, usize::MAX] {
        for already in [0, 1, 126, 127, 128] {
            let (mut hands, room) = (holding(already), 128 - already);
            let mut list = JobList { count, jobs: shifts(128) };
            assert_eq!(hands.insert(&list), refused(3, room as u8));
            if room > 0 {
                list.jobs[room - 1] = no_such_kind();
                assert_eq!(hands.insert(&list), refused(8, room as u8 - 1));
            }
        }
    }
}

/// What stands past the count is not looked at: sound jobs, refused ones and any bytes.
#[test]
fn places_past_the_count() {
    let mut dice = Dice::new(1, 128);
    for count in [0, 1, 2, 60, 127] {
        for already in [0, 1, 70, 128] {
            let (opened, jobs) = (holding(already), shifts(count));
            let mut due = opened.clone();
            let answer = due.insert_jobs(&jobs);
            for _ in 0..10 {
                let mut hands = opened.clone();
                let list = JobList::of(&jobs, || any_place(&mut dice, 2));
                assert_eq!(hands.insert(&list), answer);
                assert!(hands.both.ours == due.both.ours);
                let mut lent = LentRecord::any(&mut dice);
                lent.bytes = opened.both.ours.to_bytes();
                assert_eq!(insert_lent(&mut lent, &lent_list(&list, &mut dice)), answer);
                assert!(Record::from_bytes(&lent.bytes) == due.both.ours);
            }
        }
    }
}

/// In words: which job it was, and why.
#[test]
fn a_refused_job_is_told() {
    let refused = RefusedJob { at: 2, refusal: Refusal::NO_SUCH_CELL };
    assert_eq!(refused.to_string(), format!("job 2 of the list: {}", Refusal::NO_SUCH_CELL));
    assert_eq!(Refusal::from(refused), Refusal::NO_SUCH_CELL);
}

/// R3, R6: held as given, with predictions and places not in use.
#[test]
fn jobs_are_held_as_given() {
    let odd = Job {
        kind: 0,
        arity: 1,
        accesses: [(1, 3), (255, 255), (1, 3), (0, 9)],
        parameter: i32::MIN,
        predicted: [i32::MAX, i32::MIN, -1, 1],
    };
    let (mut hands, jobs) = (holding(1), [odd, shifts(1)[0], odd]);
    assert_eq!(hands.insert_jobs(&jobs), ACCEPTED);
    assert_eq!(held(&hands), [shifts(1), jobs.to_vec()].concat());
    // As the library has it in its own form.
    assert_eq!(given_list(&JobList::of(&jobs, no_accesses)).jobs[2], hands.both.ours.jobs[3]);
}
