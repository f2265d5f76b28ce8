//! Tallies: each number on states made by hand, the edges of refusal 32, a morning
//! step by step, totals about their limit, kept shares, and R177 and R178 on random
//! lists of calls.

use std::collections::BTreeSet;

use second_hand::engine::Batch;
use second_hand::lists::{Call, Manner};
use second_hand::plans::Dice;
use second_hand::record::{Job, Record};
use second_hand::tally::{total, Tally};

const MOST: u32 = 4_294_967_295;

fn tally(numbers: [u32; 5]) -> Tally {
    Tally::of_numbers(numbers)
}

fn job(kind: u8, parameter: i32, cell: u8, mode: u8) -> Job {
    let accesses = [(cell, mode), (0, 0), (0, 0), (0, 0)];
    Job {
        kind,
        parameter,
        arity: 1,
        accesses,
        ..Job::default()
    }
}

/// A batch of so many jobs that only read, sealed with guessing on.
fn readers(jobs: usize) -> Record {
    let mut record = Record::open(&[0, 0]).unwrap();
    for _ in 0..jobs {
        assert_eq!(record.insert(job(0, 0, 0, 0)), 0);
    }
    assert_eq!(record.seal(1), 0);
    record
}

/// The tally of a record in form, as five numbers; asking changes nothing (R70).
fn asked(record: &Record) -> [u32; 5] {
    let before = record.clone();
    let (refusal, tally) = record.ask_tally();
    assert_eq!(refusal, 0);
    assert_eq!(*record, before);
    tally.numbers()
}

// ---------------------------------------------------------------------------
// R75: the numbers on states made by hand

/// What one job adds to started, kept, thrown away and the rest: by how it is
/// settled (0 to 2), and by the state of its guess (0 to 3).
const ADDS: [[[u32; 4]; 4]; 3] = [
    [[0, 0, 0, 0], [1, 0, 0, 1], [1, 0, 0, 1], [1, 0, 1, 0]],
    [[0, 0, 0, 0], [1, 0, 0, 0], [1, 0, 0, 0], [1, 0, 1, 0]],
    [[0, 1, 0, 0], [1, 1, 0, 0], [1, 1, 0, 0], [1, 1, 1, 0]],
];

/// Each state in any place; nothing else of the record plays a part, and those that
/// no list of calls leads to are counted all the same.
#[test]
fn one_job_in_each_state() {
    let full = readers(128);
    for (committed, row) in ADDS.iter().enumerate() {
        for (phase, &[started, kept, thrown_away, rest]) in row.iter().enumerate() {
            for place in [0, 1, 63, 64, 127] {
                for number in 0..16u8 {
                    let mut record = full.clone();
                    record.committed[place] = committed as u8;
                    record.phase[place] = phase as u8;
                    record.running[place] = number % 2;
                    record.runs[place].wrote = number / 2 % 2;
                    record.sealed = number / 4 % 2;
                    record.speculating = number / 8;
                    assert_eq!(asked(&record), [128, started, kept, thrown_away, rest]);
                }
            }
        }
    }
}

/// The twelve states, the first of one job, the next of two, up to twelve: so each
/// number is another, and 42 + 24 + 5 are more than were started.
#[test]
fn many_jobs_in_many_states() {
    let mut record = readers(78);
    let states = (0..12).flat_map(|state| vec![state; usize::from(state) + 1]);
    for (place, state) in states.enumerate() {
        (record.committed[place], record.phase[place]) = (state / 4, state % 4);
    }
    assert_eq!(asked(&record), [78, 63, 42, 24, 5]);
    assert!(!record.ask_tally().1.in_balance());
    // The other way round it is the same.
    record.committed[..78].reverse();
    record.phase[..78].reverse();
    assert_eq!(asked(&record), [78, 63, 42, 24, 5]);
}

/// A guess that has fallen is thrown away only when the own run starts.
#[test]
fn a_fallen_guess_is_of_the_rest() {
    let mut record = readers(3);
    for phase in [1, 2] {
        record.phase[1] = phase;
        for (handed, validity) in [(record.cells[0], 2), (record.cells[0] + 1, 3)] {
            record.runs[1].handed[0] = handed;
            assert_eq!(record.ask_job(1).validity, validity);
            assert_eq!(asked(&record), [3, 1, 0, 0, 1]);
        }
    }
}

/// R92: places past the number of jobs are not looked at.
#[test]
fn places_not_in_use() {
    for jobs in [0, 1, 64, 127] {
        let mut record = readers(jobs);
        for place in jobs..128 {
            record.jobs[place].arity = 99;
            record.runs[place].bypassed = u128::MAX;
            record.committed[place] = [2, 0, 255][place % 3];
            record.phase[place] = [3, 1, 255][place % 3];
        }
        assert_eq!(asked(&record), [jobs as u32, 0, 0, 0, 0]);
    }
}

// ---------------------------------------------------------------------------
// R75 on the way

/// A step that is accepted; the tally after it is this, and in balance.
fn then(record: &mut Record, number: u8, job: usize, mark: u8, due: [u32; 5]) {
    assert_eq!(record.step(number, job, [5; 4], mark).0, 0);
    assert_eq!(asked(record), due);
    assert!(record.ask_tally().1.in_balance());
}

/// Two cells, and jobs 0 floor, 1 shift, 2 shift on the first, 3 set on the second.
#[test]
fn a_morning() {
    let mut record = Record::open(&[1500, 1480]).unwrap();
    assert_eq!(asked(&record), [0; 5]);
    let jobs = [
        job(4, 1400, 0, 2),
        job(2, 20, 0, 1),
        job(2, 20, 0, 1),
        job(1, 7, 1, 1),
    ];
    for (number, job) in jobs.into_iter().enumerate() {
        assert_eq!(record.insert(job), 0);
        assert_eq!(asked(&record), [number as u32 + 1, 0, 0, 0, 0]);
    }
    assert_eq!(record.seal(1), 0);
    assert_eq!(asked(&record), [4, 0, 0, 0, 0]);
    then(&mut record, 0, 0, 0, [4, 0, 0, 0, 0]);
    then(&mut record, 1, 1, 0, [4, 1, 0, 0, 1]);
    then(&mut record, 3, 1, 0, [4, 1, 0, 0, 1]);
    then(&mut record, 1, 2, 0, [4, 2, 0, 0, 2]);
    let mut marked = record.clone();
    // The floor changed nothing: one guess after the other is kept.
    then(&mut record, 2, 0, 0, [4, 2, 0, 0, 2]);
    then(&mut record, 4, 1, 0, [4, 2, 1, 0, 1]);
    then(&mut record, 3, 2, 0, [4, 2, 1, 0, 1]);
    then(&mut record, 4, 2, 0, [4, 2, 2, 0, 0]);
    then(&mut record, 0, 3, 0, [4, 2, 2, 0, 0]);
    then(&mut record, 2, 3, 0, [4, 2, 2, 0, 0]);
    assert!(record.ask_batch().finished);
    // It wrote: the first has fallen, and goes as its job's own run starts. That gives
    // what the guess had given, so the second is kept.
    then(&mut marked, 2, 0, 1, [4, 2, 0, 0, 2]);
    then(&mut marked, 0, 1, 0, [4, 2, 0, 1, 1]);
    then(&mut marked, 2, 1, 0, [4, 2, 0, 1, 1]);
    then(&mut marked, 3, 2, 0, [4, 2, 0, 1, 1]);
    then(&mut marked, 4, 2, 0, [4, 2, 1, 1, 0]);
}

// ---------------------------------------------------------------------------
// R132 at the edges of R91

/// With the first number in the field the tally is this, with the second it is
/// refused.
fn edge<T>(
    record: &Record,
    field: impl Fn(&mut Record) -> &mut T,
    last: T,
    due: [u32; 5],
    past: T,
) {
    let mut changed = record.clone();
    *field(&mut changed) = last;
    assert_eq!(asked(&changed), due);
    *field(&mut changed) = past;
    let before = changed.clone();
    // R81: zeros beside the refusal.
    assert_eq!(changed.ask_tally(), (32, Tally::default()));
    assert_eq!(changed, before);
}

#[test]
fn edges_of_the_batch() {
    let full = readers(128);
    let due = [128, 0, 0, 0, 0];
    edge(&full, |r| &mut r.job_count, 128, due, 129);
    edge(&full, |r| &mut r.job_count, 0, [0; 5], 255);
    edge(&full, |r| &mut r.cell_count, 1, due, 0);
    edge(&full, |r| &mut r.cell_count, 64, due, 65);
    edge(&full, |r| &mut r.sealed, 0, due, 2);
    edge(&full, |r| &mut r.speculating, 0, due, 2);
}

#[test]
fn edges_of_a_job() {
    let full = readers(128);
    let due = [128, 0, 0, 0, 0];
    for j in [0, 64, 127usize] {
        // The last number of each state is the one that is counted.
        edge(&full, |r| &mut r.committed[j], 2, [128, 0, 1, 0, 0], 3);
        edge(&full, |r| &mut r.phase[j], 3, [128, 1, 0, 1, 0], 4);
        edge(&full, |r| &mut r.running[j], 1, due, 2);
        edge(&full, |r| &mut r.runs[j].wrote, 1, due, 2);
        // Jobs taken from and looked past, where no guess was ever started too.
        let own = j as u8;
        edge(&full, |r| &mut r.runs[j].sources[3], own, due, own + 1);
        let before = (1 << j) - 1;
        edge(&full, |r| &mut r.runs[j].bypassed, before, due, 1 << j);
        // What inserting refuses with 4 to 8; the second access has cell 0 too.
        edge(&full, |r| &mut r.jobs[j].arity, 1, due, 0);
        edge(&full, |r| &mut r.jobs[j].arity, 1, due, 5);
        edge(&full, |r| &mut r.jobs[j].accesses[0].0, 1, due, 2);
        edge(&full, |r| &mut r.jobs[j].accesses[0].1, 3, due, 4);
        edge(&full, |r| &mut r.jobs[j].arity, 1, due, 2);
        edge(&full, |r| &mut r.jobs[j].kind, 0, due, 7);
    }
}

/// R92: parameters, predictions, heights and values may be any numbers.
#[test]
fn any_numbers_that_form_does_not_name() {
    let mut record = readers(3);
    record.cells = [i32::MIN; 64];
    for place in 0..3 {
        record.jobs[place].parameter = i32::MAX;
        record.jobs[place].predicted = [i32::MIN, i32::MAX, -1, 0];
        record.jobs[place].accesses[3] = (255, 255);
        record.runs[place].handed = [i32::MIN; 4];
        record.runs[place].reported = [i32::MAX; 4];
        record.phase[place] = 2;
    }
    assert_eq!(asked(&record), [3, 3, 0, 0, 3]);
}

// ---------------------------------------------------------------------------
// R76, R123: totals

/// A tally with this number in one of its five places, and this in the others.
fn with(place: usize, number: u32, others: u32) -> Tally {
    let mut numbers = [others; 5];
    numbers[place] = number;
    tally(numbers)
}

/// R123, R81.
fn too_large() -> (u8, Tally) {
    (23, tally([0; 5]))
}

#[test]
fn a_total_is_five_sums() {
    assert_eq!(total(&[]), (0, tally([0; 5])));
    let one = tally([5, 4, 3, 2, 1]);
    assert_eq!(total(&[one]), (0, one));
    let other = tally([10, 20, 30, 40, 50]);
    assert_eq!(total(&[one, other]), (0, tally([15, 24, 33, 42, 51])));
    assert_eq!(
        total(&[one; 1000]),
        (0, tally([5000, 4000, 3000, 2000, 1000]))
    );
    // One that no batch gave, alone and at the limit in all.
    let most = tally([MOST; 5]);
    assert_eq!(total(&[most]), (0, most));
    assert_eq!(total(&[tally([0; 5]), most, tally([0; 5])]), (0, most));
    assert_eq!(total(&[most, most]), too_large());
}

/// At the limit and past it in each of the five numbers by itself.
#[test]
fn the_limit_of_each_number() {
    for place in 0..5 {
        let only = |number| with(place, number, 1);
        let at_limit = |others| (0, with(place, MOST, others));
        assert_eq!(total(&[only(MOST - 1), only(1)]), at_limit(2));
        assert_eq!(total(&[only(MOST), only(0)]), at_limit(2));
        assert_eq!(total(&[only(1 << 31), only((1 << 31) - 1)]), at_limit(2));
        assert_eq!(total(&[only(1_431_655_765); 3]), at_limit(3));
        assert_eq!(total(&[only(MOST), only(1)]), too_large());
        assert_eq!(total(&[only(1), only(MOST)]), too_large());
        // Sums of which 32 bits would hold 0, and the limit once more.
        assert_eq!(total(&[only(1 << 31), only(1 << 31)]), too_large());
        assert_eq!(
            total(&[only(MOST), only(1 << 31), only(1 << 31)]),
            too_large()
        );
        assert_eq!(total(&[only(MOST); 5000]), too_large());
        // Passed early and late, with zeros after it.
        let mut list = vec![tally([0; 5]); 3000];
        list[0] = only(MOST);
        assert_eq!(total(&list), at_limit(1));
        for late in [1, 1500, 2999] {
            let mut list = list.clone();
            list[late] = only(1);
            assert_eq!(total(&list), too_large());
        }
    }
}

/// Random lists: the sums once more one by one in 32 bits, the list in another
/// order, and its two parts first.
#[test]
fn random_totals() {
    let mut dice = Dice::new(1, 76);
    let mut met = [0u64; 2];
    for _ in 0..4000 {
        let length = dice.below(6);
        let mostly_small = dice.percent(50);
        let mut one = |_| {
            if mostly_small && dice.percent(80) {
                dice.below(300) as u32
            } else {
                dice.number()
            }
        };
        let mut list: Vec<Tally> = (0..length).map(|_| tally([0; 5].map(&mut one))).collect();
        let answer = total(&list);
        let sum = |place: usize| {
            let mut numbers = list.iter().map(|tally| tally.numbers()[place]);
            numbers.try_fold(0u32, |sum, number| sum.checked_add(number))
        };
        let sums = [0, 1, 2, 3, 4].map(sum);
        if sums.contains(&None) {
            assert_eq!(answer, too_large());
        } else {
            assert_eq!(answer, (0, tally(sums.map(Option::unwrap))));
        }
        met[usize::from(answer.0 != 0)] += 1;
        let parts = [total(&list[..length / 2]), total(&list[length / 2..])];
        if answer.0 == 0 {
            assert_eq!(total(&parts.map(|part| part.1)), answer);
        }
        list.reverse();
        assert_eq!(total(&list), answer);
        dice.shuffle(&mut list);
        assert_eq!(total(&list), answer);
    }
    println!("random totals, accepted and refused: {met:?}");
    assert!(met.iter().all(|&times| times > 500), "{met:?}");
}

// ---------------------------------------------------------------------------
// R77: kept shares

fn share(kept: u32, started: u32) -> Option<u64> {
    tally([9, started, kept, 9, 9]).kept_share()
}

#[test]
fn shares() {
    assert_eq!(share(2, 3), Some(666));
    assert_eq!(share(1, 3), Some(333));
    assert_eq!(share(1, 2), Some(500));
    assert_eq!(share(3, 3), Some(1000));
    assert_eq!(share(0, 3), Some(0));
    assert_eq!(share(1, 1000), Some(1));
    assert_eq!(share(1, 1001), Some(0));
    assert_eq!(share(1999, 2000), Some(999));
    assert_eq!(share(1, MOST), Some(0));
    assert_eq!(share(MOST - 1, MOST), Some(999));
    assert_eq!(share(MOST, MOST), Some(1000));
    // 1000 times this is just past 32 bits.
    assert_eq!(share(4_294_968, 4_294_968), Some(1000));
    assert_eq!(share(4_294_968, 1), Some(4_294_968_000));
    // More kept than started.
    assert_eq!(share(4, 3), Some(1333));
    assert_eq!(share(MOST, 1), Some(4_294_967_295_000));
    assert_eq!(share(MOST, 2), Some(2_147_483_647_500));
    assert_eq!(share(MOST, MOST - 1), Some(1000));
    // Absent where none was started, and only there.
    assert_eq!(share(0, 0), None);
    assert_eq!(share(3, 0), None);
    assert_eq!(share(MOST, 0), None);
    assert_eq!(share(0, 1), Some(0));
}

/// R77 the other way round: so many thousandths were kept, and one more not. The
/// other numbers play no part.
#[test]
fn random_shares() {
    let mut dice = Dice::new(1, 77);
    for _ in 0..100_000 {
        let mut one = tally([0; 5].map(|_: u32| dice.number()));
        if dice.percent(30) {
            one.started = one.kept.saturating_add(dice.below(3) as u32);
        }
        let kept = u128::from(one.kept) * 1000;
        match one.kept_share().map(u128::from) {
            None => assert_eq!(one.started, 0),
            Some(thousandths) => {
                let started = u128::from(one.started);
                assert!(thousandths * started <= kept && kept < (thousandths + 1) * started);
            }
        }
        assert_eq!(share(one.kept, one.started), one.kept_share());
    }
}

// ---------------------------------------------------------------------------
// R177, R178

/// The number of jobs plays no part, and the three together may be more than 32
/// bits say.
#[test]
fn balance() {
    assert!(tally([0; 5]).in_balance());
    assert!(tally([0, 6, 1, 2, 3]).in_balance());
    assert!(tally([9, MOST, MOST, 0, 0]).in_balance());
    assert!(!tally([9, 5, 1, 2, 3]).in_balance());
    assert!(!tally([9, 7, 1, 2, 3]).in_balance());
    assert!(!tally([9, 0, 1 << 31, 1 << 31, 0]).in_balance());
    assert!(!tally([9, MOST - 1, MOST, 0, MOST]).in_balance());
}

/// What the accepted calls alone say of the guesses (R162); no state is read.
#[derive(Default)]
struct Ledger {
    jobs: u32,
    guessed: BTreeSet<usize>,
    kept: BTreeSet<usize>,
    struck_out: BTreeSet<usize>,
}

impl Ledger {
    fn enter(&mut self, call: &Call) {
        match *call {
            Call::Insert(_) => self.jobs += 1,
            Call::Step { number: 1, job, .. } => assert!(self.guessed.insert(job)),
            Call::Step { number: 4, job, .. } => assert!(self.kept.insert(job)),
            Call::Step { number: 0, job, .. } if self.guessed.contains(&job) => {
                assert!(self.struck_out.insert(job));
            }
            _ => {}
        }
    }

    fn tally(&self) -> Tally {
        let gone = |job: &&usize| self.kept.contains(job) || self.struck_out.contains(job);
        Tally {
            jobs: self.jobs,
            started: self.guessed.len() as u32,
            kept: self.kept.len() as u32,
            thrown_away: self.struck_out.len() as u32,
            rest: self.guessed.iter().filter(|job| !gone(job)).count() as u32,
        }
    }
}

/// What has to come up in the random lists, after some call.
const MET: [&str; 7] = [
    "not sealed, with jobs",
    "sealed, no guess started",
    "all kept",
    "all thrown away",
    "all still out or stored",
    "some kept, some thrown away, some still out or stored",
    "finished, some kept and some thrown away",
];

fn met(record: &Record, tally: Tally) -> [bool; MET.len()] {
    let [jobs, started, kept, thrown_away, rest] = tally.numbers();
    let sealed = record.sealed == 1;
    [
        !sealed && jobs > 0,
        sealed && jobs > 0 && started == 0,
        started > 0 && kept == started,
        started > 0 && thrown_away == started,
        started > 0 && rest == started,
        kept > 0 && thrown_away > 0 && rest > 0,
        record.ask_batch().finished && kept > 0 && thrown_away > 0,
    ]
}

/// One list: R177 after every call, and the record's count, the engine's and the
/// ledger's are the same. Gives back the tallies.
fn one_list(dice: &mut Dice, times: &mut [u64; MET.len()]) -> Vec<Tally> {
    let manner = Manner::any(dice);
    let mut record = Record::open(&manner.heights).unwrap();
    let mut batch = Batch::open(&manner.heights).unwrap();
    let mut ledger = Ledger::default();
    let mut taken = Vec::new();
    for _ in 0..manner.calls() {
        let call = manner.call(dice, &record);
        let answer = call.on_record(&mut record);
        assert_eq!(call.on_batch(&mut batch), answer, "{call:?}");
        if answer.0 == 0 {
            ledger.enter(&call);
        }
        let tally = ledger.tally();
        assert_eq!(record.ask_tally(), (0, tally), "after {call:?}");
        assert_eq!(batch.tally(), tally, "after {call:?}");
        assert!(tally.in_balance(), "{tally:?} after {call:?}");
        for (sum, did) in times.iter_mut().zip(met(&record, tally)) {
            *sum += u64::from(did);
        }
        taken.push(tally);
    }
    taken
}

/// R178: the totals of all tallies of many lists, and of fewer and fewer of them.
#[test]
fn random_lists() {
    let mut dice = Dice::new(1, 177);
    let mut times = [0; MET.len()];
    let mut taken = Vec::new();
    for _ in 0..200 {
        taken.extend(one_list(&mut dice, &mut times));
    }
    for (what, times) in MET.iter().zip(times) {
        println!("after a call, {what}: {times}");
    }
    assert!(times.iter().all(|&times| times > 0), "{times:?}");
    while !taken.is_empty() {
        let (refusal, sum) = total(&taken);
        assert!(refusal == 0 && sum.in_balance(), "{sum:?}");
        assert!(sum.kept_share().unwrap_or(0) <= 1000);
        dice.shuffle(&mut taken);
        taken.truncate(taken.len() - taken.len().div_ceil(20));
    }
}
