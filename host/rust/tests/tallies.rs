//! Tallies, each answer held against the second hand's: those of batches worked by random lists of calls (`second_hand::lists`),
//! asked for on the way; lists of tallies, added up; and kept shares (`second_hand::tally`). BATCHES=COUNT, LISTS=COUNT and
//! SHARES=COUNT set how many, SEED=NUMBER which; it prints what was met (`cargo test --test tallies -- --nocapture`).

mod hands;
mod met;
mod setting;
#[allow(dead_code)] // Calls that only tests/damaged.rs makes.
mod theirs;

use hands::Hands;
use met::{add, print};
use second_hand::lists::Manner;
use second_hand::plans::Dice;
use second_hand::{record, tally};
use setting::setting;
use sorghemi::raw::{sorghemi_kept_share, sorghemi_total, TallyAnswer};
use sorghemi::{Batch, Refusal, Tally};
use theirs::read_tally;

/// What may be met of a batch whose tally is asked for. Each has to come up.
const ASKED: [&str; 12] = [
    "not sealed, no jobs",
    "not sealed, with jobs",
    "sealed, no jobs",
    "guessing off, with jobs",
    "128 jobs",
    "finished, no guess started",
    "finished, guesses kept and thrown away",
    "guesses out, stored, kept and thrown away at once",
    "a guess out that has fallen",
    "a guess stored that has fallen, its job not settled",
    "a guess thrown away, the own run out",
    "a guess thrown away, the job settled",
];

/// What may have become of a guess. Each has to come up with each kind, and with jobs that predict.
const BECAME: [&str; 4] = ["out", "stored, the job not settled", "kept", "thrown away"];

/// How many tallies were asked for, what was met of ASKED, and of BECAME by kind and of jobs that predict.
#[derive(Default)]
struct Asked {
    times: u64,
    met: [u64; ASKED.len()],
    became: [[u64; BECAME.len()]; 7],
    predicted: [u64; BECAME.len()],
}

impl Asked {
    /// The tally in all three hands, and by the wrapper. R177: it is in balance.
    fn ask(&mut self, Hands { both, third }: &Hands) -> Tally {
        let answer = both.ask_tally();
        let theirs = read_tally(&answer.tally);
        assert_eq!((answer.refusal, theirs), (0, third.tally()), "the tally of {:?}", both.ours);
        assert!(theirs.in_balance(), "{theirs:?} of {:?}", both.ours);
        let batch = Batch::from_record(both.ours).unwrap();
        assert_eq!(batch.tally(), answer.tally);
        assert!(*batch.record() == both.ours, "the record after Batch::tally");
        self.count(&both.theirs);
        answer.tally
    }

    fn count(&mut self, record: &record::Record) {
        let mut here = [0; BECAME.len()];
        let mut met = [false; ASKED.len()];
        for job in 0..record.job_count as usize {
            let (committed, running, phase) = (record.committed[job], record.running[job], record.phase[job]);
            let became = match (committed, phase) {
                (_, 0) => continue,
                (2, _) => 2,
                (_, 3) => 3,
                _ => phase as usize - 1,
            };
            here[became] += 1;
            self.became[record.jobs[job].kind as usize][became] += 1;
            self.predicted[became] += record.jobs[job].predicts() as u64;
            met[8] |= became == 0 && record.ask_job(job).validity == 3;
            met[9] |= became == 1 && record.ask_job(job).validity == 3;
            met[10] |= became == 3 && running == 1;
            met[11] |= became == 3 && committed == 1;
        }
        let (sealed, jobs, finished) = (record.sealed == 1, record.job_count, record.ask_batch().finished);
        met[0] = !sealed && jobs == 0;
        met[1] = !sealed && jobs > 0;
        met[2] = sealed && jobs == 0;
        met[3] = sealed && jobs > 0 && record.speculating == 0;
        met[4] = jobs == 128;
        met[5] = finished && jobs > 0 && here == [0; 4];
        met[6] = finished && here[2] > 0 && here[3] > 0;
        met[7] = here.iter().all(|&guesses| guesses > 0);
        self.times += 1;
        add(&mut self.met, met);
    }
}

/// A batch worked by a random list of calls, and its tallies: after the opening, some on the way, and at the end.
fn worked(dice: &mut Dice, asked: &mut Asked) -> Vec<Tally> {
    let manner = Manner::any(dice);
    let often = dice.pick(&[3, 10, 30]);
    let mut hands = Hands::open(&manner.heights);
    let mut taken = vec![asked.ask(&hands)];
    for left in (0..manner.calls()).rev() {
        let call = manner.call(dice, &hands.both.theirs);
        hands.make(&call);
        if left == 0 || dice.percent(often) {
            taken.push(asked.ask(&hands));
        }
    }
    taken
}

/// R75, R177.
#[test]
fn batches() {
    let (count, seed) = (setting("BATCHES", 400), setting("SEED", 1));
    let mut dice = Dice::new(seed, 75);
    let mut asked = Asked::default();
    for _ in 0..count {
        worked(&mut dice, &mut asked);
    }
    println!("{} tallies of {count} batches of seed {seed}: every one the second hand's, and in balance.", asked.times);
    print(&ASKED, &asked.met);
    println!("  guesses by kind, {}:", BECAME.join("; "));
    asked.became.iter().enumerate().for_each(|(kind, times)| println!("    kind {kind}: {times:?}"));
    println!("    handed a prediction: {:?}", asked.predicted);
    assert!(asked.met.iter().all(|&times| times > 0), "something never came up: {:?}", asked.met);
    assert!(asked.became.iter().flatten().all(|&times| times > 0), "no guess became that: {:?}", asked.became);
    assert!(asked.predicted.iter().all(|&times| times > 0), "no guess with a prediction became that: {:?}", asked.predicted);
}

/// The most that a number of a tally can be (R123).
const MOST: u64 = u32::MAX as u64;

/// A tally's numbers in the order of R75.
const NUMBERS: [&str; 5] = ["jobs", "started", "kept", "thrown away", "rest"];

fn tally_of([jobs, started, kept, discarded, pending]: [u32; 5]) -> Tally {
    Tally { jobs, started, kept, discarded, pending }
}

/// The list's total from the library, the second hand and the wrapper. It is lent between two tallies that are not; these and
/// all that is lent stay as they are.
fn added(list: &[Tally]) -> TallyAnswer {
    let before = [&[tally_of([u32::MAX; 5])], list, &[tally_of([u32::MAX; 5])]].concat();
    let mut lent = before.clone();
    let ours = unsafe { sorghemi_total(lent[1..].as_mut_ptr(), list.len()) };
    assert!(lent == before, "the lent list has changed: {list:?}");
    let theirs = tally::total(&list.iter().map(read_tally).collect::<Vec<_>>());
    assert_eq!((ours.refusal, read_tally(&ours.tally)), theirs, "the total of {list:?}");
    let wrapped = Tally::total(list).map_err(Refusal::number);
    assert_eq!(wrapped, if ours.refusal == 0 { Ok(ours.tally) } else { Err(ours.refusal) });
    ours
}

/// What a number may add up to over a list: four sums that are accepted, and four that are not. Of the latter 32 bits would
/// hold 0, 1, MOST and 0.
const SUMS: [u64; 8] = [0, 1000, MOST - 1, MOST, MOST + 1, MOST + 2, 2 * MOST + 1, 2 * MOST + 2];

/// So many numbers of 32 bits that add up to the sum, or come as near to it as so many can.
fn parts(dice: &mut Dice, sum: u64, count: usize) -> Vec<u32> {
    let mut left = sum.min(count as u64 * MOST);
    let mut parts = Vec::new();
    for after in (0..count as u64).rev() {
        // What those after it cannot hold has to be here.
        let (least, most) = (left.saturating_sub(after * MOST), left.min(MOST));
        let (any, half) = (dice.range(least as i64, most as i64) as u64, (left / 2).clamp(least, most));
        let part = dice.pick(&[least, most, any, half]);
        left -= part;
        parts.push(part as u32);
    }
    dice.shuffle(&mut parts);
    parts
}

/// A list whose numbers add up to SUMS: all to the same, or one to any and the others to such as are accepted.
fn aimed(dice: &mut Dice, length: usize) -> Vec<Tally> {
    let same = dice.percent(30).then(|| dice.pick(&SUMS));
    let one = dice.below(5);
    let columns: [Vec<u32>; 5] = std::array::from_fn(|place| {
        let sum = dice.pick(if place == one { &SUMS } else { &SUMS[..4] });
        parts(dice, same.unwrap_or(sum), length)
    });
    (0..length).map(|row| tally_of([0, 1, 2, 3, 4].map(|place| columns[place][row]))).collect()
}

/// A list that is at the limit in one number from its first tally on, and passes it late or not at all; else all are zeros.
fn late(dice: &mut Dice, length: usize) -> Vec<Tally> {
    let mut rows = vec![[0; 5]; length];
    let place = dice.below(5);
    if length > 1 {
        rows[0][place] = u32::MAX;
        rows[length - 1 - dice.below(length / 4 + 1)][place] = dice.pick(&[0, 1, 1, u32::MAX]);
    }
    rows.into_iter().map(tally_of).collect()
}

/// What may be met of a list. Each has to come up, and for each number each of LIMITS.
const ADDED: [&str; 14] = [
    "an empty list",
    "a list of one",
    "a list of 1000 or more, accepted",
    "a list of 1000 or more, refused",
    "tallies of batches only, a guess started",
    "tallies of batches and made-up ones, accepted",
    "tallies of batches and made-up ones, refused",
    "at the limit in all five numbers",
    "past the limit in all five numbers",
    "the limit passed by the last tally",
    "the limit passed late in 8 or more, then zeros",
    "past the limit, and 32 bits would hold zeros only",
    "two numbers about 2147483648, at the limit",
    "two numbers about 2147483648, past the limit",
];

const LIMITS: [&str; 4] = ["at the limit", "one past it", "past it alone", "one past it alone"];

#[derive(Default)]
struct Added {
    refused: [u64; 2],
    met: [u64; ADDED.len()],
    limits: [[u64; LIMITS.len()]; NUMBERS.len()],
}

impl Added {
    /// A list in which so many tallies are those of batches, and its answer.
    fn count(&mut self, list: &[Tally], of_batches: usize, answer: TallyAnswer) {
        // The sums, in how many tallies a number is about the middle of its range, and where the first sum passes the limit.
        let (mut sums, mut halves, mut passed_at) = ([0u64; 5], [0; 5], None);
        for (at, tally) in list.iter().enumerate() {
            for (place, number) in read_tally(tally).numbers().into_iter().enumerate() {
                sums[place] += u64::from(number);
                halves[place] += (number.abs_diff(1 << 31) < 4) as u32;
            }
            passed_at = passed_at.or((sums.iter().max() > Some(&MOST)).then_some(at));
        }
        assert_eq!(answer.refusal, if passed_at.is_some() { 23 } else { 0 }, "{list:?}");
        let (length, refused, mixed) = (list.len(), answer.refusal != 0, of_batches > 0 && of_batches < list.len());
        let late = passed_at.filter(|&at| length >= 8 && at >= length / 2 && at + 1 < length);
        let of_two_halves = |is: fn(u64) -> bool| (0..5).any(|place| halves[place] == 2 && is(sums[place]));
        let met = [
            length == 0,
            length == 1,
            length >= 1000 && !refused,
            length >= 1000 && refused,
            of_batches == length && answer.tally.started > 0,
            mixed && !refused,
            mixed && refused,
            sums == [MOST; 5],
            sums.iter().all(|&sum| sum > MOST),
            passed_at.is_some_and(|at| at + 1 == length),
            late.is_some_and(|at| list[at + 1..].iter().all(|&tally| tally == Tally::default())),
            refused && sums.iter().all(|&sum| sum as u32 == 0),
            !refused && of_two_halves(|sum| sum == MOST),
            of_two_halves(|sum| sum > MOST),
        ];
        self.refused[refused as usize] += 1;
        add(&mut self.met, met);
        self.count_limits(sums);
    }

    fn count_limits(&mut self, sums: [u64; 5]) {
        let past = sums.iter().filter(|&&sum| sum > MOST).count();
        for (times, sum) in self.limits.iter_mut().zip(sums) {
            let one_past = sum == MOST + 1;
            add(times, [sum == MOST && past == 0, one_past, sum > MOST && past == 1, one_past && past == 1]);
        }
    }
}

/// A list of tallies, and how many of them are those of batches.
fn any_list(dice: &mut Dice, taken: &[Tally]) -> (Vec<Tally>, usize) {
    let length = match dice.below(20) {
        0 => dice.below(2),
        1 => 1000 + dice.below(3000),
        2..=6 => dice.below(200),
        _ => dice.below(9),
    };
    let made_up = |dice: &mut Dice| tally_of([0; 5].map(|_: u32| dice.number()));
    match dice.below(8) {
        0 => ((0..length).map(|_| dice.pick(taken)).collect(), length),
        1 => {
            let mut list: Vec<Tally> = (0..length).map(|_| dice.pick(taken)).collect();
            let many = dice.below(3).min(length);
            list[..many].iter_mut().for_each(|tally| *tally = made_up(dice));
            dice.shuffle(&mut list);
            (list, length - many)
        }
        2 => ((0..length).map(|_| made_up(dice)).collect(), 0),
        3 => (late(dice, length), 0),
        _ => (aimed(dice, length), 0),
    }
}

/// R76, R123: any list; also from its end on, and shuffled. R178: of tallies of batches the total is in balance.
#[test]
fn lists() {
    let (count, seed) = (setting("LISTS", 4000), setting("SEED", 1));
    let mut dice = Dice::new(seed, 76);
    let taken: Vec<Tally> = (0..60).flat_map(|_| worked(&mut dice, &mut Asked::default())).collect();
    let mut met = Added::default();
    for _ in 0..count {
        let (mut list, of_batches) = any_list(&mut dice, &taken);
        let answer = added(&list);
        met.count(&list, of_batches, answer);
        if of_batches == list.len() {
            assert!(answer.refusal == 0 && read_tally(&answer.tally).in_balance(), "{answer:?} of {list:?}");
            assert!(shared(answer.tally).map_or(true, |share| share <= 1000), "{answer:?}");
        }
        list.reverse();
        assert_eq!(added(&list), answer, "from its end on: {list:?}");
        dice.shuffle(&mut list);
        assert_eq!(added(&list), answer, "shuffled: {list:?}");
    }
    let [accepted, refused] = met.refused;
    println!("{count} lists of seed {seed}, accepted {accepted}, refused {refused}: every total the second hand's.");
    print(&ADDED, &met.met);
    println!("  by number, {}:", LIMITS.join("; "));
    NUMBERS.iter().zip(met.limits).for_each(|(number, times)| println!("    {number}: {times:?}"));
    assert!(met.met.iter().all(|&times| times > 0), "something never came up: {:?}", met.met);
    assert!(met.limits.iter().flatten().all(|&times| times > 0), "a limit never came up: {:?}", met.limits);
}

/// What may be met of a kept share. Each has to come up.
const SHARED: [&str; 13] = [
    "absent, none kept",
    "absent, some kept",
    "0 thousandths, none kept",
    "0 thousandths, some kept",
    "not whole, rounded down",
    "just short of the next whole number",
    "whole, between 0 and 1000",
    "999 thousandths, all but one kept",
    "1000 thousandths, all kept",
    "1000 thousandths, more kept than started",
    "more than 1000 thousandths",
    "more thousandths than 32 bits say",
    "the most, 4294967295000",
];

/// The kept share from the library, the second hand and the wrapper. Where it is absent, 0 stands in its place.
fn shared(tally: Tally) -> Option<u64> {
    let ours = unsafe { sorghemi_kept_share(tally) };
    let theirs = read_tally(&tally).kept_share();
    assert_eq!((ours.present, ours.thousandths), (theirs.is_some(), theirs.unwrap_or(0)), "the share of {tally:?}");
    assert_eq!(tally.kept_share(), theirs, "the wrapper's share of {tally:?}");
    theirs
}

/// Which of SHARED come up, by their places there.
fn share_met(kept: u32, started: u32, share: Option<u64>) -> [bool; SHARED.len()] {
    let (all, some, thousand) = (u64::from(started), kept > 0, u64::from(kept) * 1000);
    let over = thousand.checked_rem(all);
    [
        share.is_none() && !some,
        share.is_none() && some,
        share == Some(0) && !some,
        share == Some(0) && some,
        over > Some(0),
        over > Some(0) && over == all.checked_sub(1),
        over == Some(0) && share > Some(0) && share < Some(1000),
        share == Some(999) && kept + 1 == started,
        share == Some(1000) && kept == started,
        share == Some(1000) && kept > started,
        share > Some(1000),
        share > Some(MOST),
        share == Some(4_294_967_295_000),
    ]
}

/// R77, of any numbers: the guesses started are often few, or about as many as are kept.
#[test]
fn shares() {
    let (count, seed) = (setting("SHARES", 500_000), setting("SEED", 1));
    let mut dice = Dice::new(seed, 77);
    let mut met = [0u64; SHARED.len()];
    for _ in 0..count {
        let mut tally = tally_of([0; 5].map(|_: u32| dice.number()));
        match dice.below(4) {
            0 => tally.started = dice.below(4) as u32,
            1 => tally.started = tally.kept.saturating_add(dice.below(3) as u32),
            2 => tally.started = tally.kept.saturating_sub(dice.below(3) as u32),
            _ => {}
        }
        let share = shared(tally);
        add(&mut met, share_met(tally.kept, tally.started, share));
    }
    println!("{count} kept shares of seed {seed}: every one the second hand's.");
    print(&SHARED, &met);
    assert!(met.iter().all(|&times| times > 0), "something never came up: {met:?}");
}
