//! The entries that take no record: a kind's result and the answer to a plan, each held against the second hand's
//! (`second_hand::kinds::ask_result`, `second_hand::answer_plan`). RESULTS=COUNT and PLANS=COUNT set how many random ones,
//! SEED=NUMBER which; it prints what was met (`cargo test --test entries -- --nocapture`).

mod setting;

use second_hand::plans::{self, Dice};
use second_hand::{answer_plan, kinds, ANSWER_PLACES};
use setting::setting;
use sorghemi::raw::{sorghemi_answer_plan, sorghemi_result};
use std::collections::BTreeMap;
use std::path::Path;

const LEAST: i64 = i32::MIN as i64;
const MOST: i64 = i32::MAX as i64;

/// A number of 32 signed bits: at or near an end of the range, near 0, near one that is given, or any.
fn number(dice: &mut Dice, given: i64) -> i32 {
    let number = match dice.below(6) {
        0 => dice.pick(&[LEAST, MOST]),
        1 => dice.pick(&[LEAST, 0, MOST]) + dice.range(-3, 3),
        2 => dice.range(-3000, 3000),
        3 | 4 => given + dice.range(-1, 1),
        _ => dice.range(LEAST, MOST),
    };
    number.clamp(LEAST, MOST) as i32
}

/// Where a kind's result turns. Each has to come up.
const TURNS: [&str; 17] = [
    "a shift held at the upper end",
    "a shift held at the lower end",
    "a shift to an end, not past it",
    "a spike as far away as p",
    "a spike one further than p",
    "a spike further than 32 bits say",
    "a floor at p",
    "a floor one below p",
    "a mean of an odd sum above 0",
    "a mean of an odd sum below 0",
    "a mean of a sum of 1",
    "a mean of a sum of -1",
    "a mean of the largest odd sum",
    "a mean of the least odd sum",
    "a mean of a sum above the range",
    "a mean of a sum below the range",
    "a pair of equal heights",
];

/// Which of TURNS come up, by their places there.
fn turns(kind: u8, p: i32, values: [i32; 4]) -> Vec<usize> {
    let [a, b, c, _] = values.map(i64::from);
    let p = i64::from(p);
    let (moved, distance, sum) = (a + p, (a - b).abs(), b + c);
    let met = match kind {
        2 => vec![(moved > MOST, 0), (moved < LEAST, 1), (moved == MOST || moved == LEAST, 2)],
        3 => vec![(distance == p, 3), (distance == p + 1, 4), (distance > MOST, 5)],
        4 => vec![(a == p, 6), (a == p - 1, 7)],
        5 => {
            let odd = sum % 2 != 0;
            vec![
                (odd && sum > 0, 8),
                (odd && sum < 0, 9),
                (sum == 1, 10),
                (sum == -1, 11),
                (sum == 2 * MOST - 1, 12),
                (sum == 2 * LEAST + 1, 13),
                (sum > MOST, 14),
                (sum < LEAST, 15),
            ]
        }
        6 => vec![(a == b, 16)],
        _ => vec![],
    };
    met.into_iter().filter(|&(did, _)| did).map(|(_, turn)| turn).collect()
}

/// R18: every kind from 0 to 255, mostly 0 to 7. A parameter is often about where the kind's result turns.
#[test]
fn results() {
    let (count, seed) = (setting("RESULTS", 500_000), setting("SEED", 1));
    let mut dice = Dice::new(seed, 18);
    // By kind: refused, and accepted with mark 0 and 1.
    let mut met = [[0u64; 3]; 256];
    let mut turned = [0u64; TURNS.len()];
    for _ in 0..count {
        let kind = if dice.percent(25) { dice.below(256) } else { dice.below(8) } as u8;
        let a = number(&mut dice, 0);
        let values = [a, number(&mut dice, a.into()), number(&mut dice, a.into()), number(&mut dice, 0)];
        let distance = (i64::from(a) - i64::from(values[1])).abs();
        let near = dice.pick(&[i64::from(a), distance, MOST - i64::from(a), LEAST - i64::from(a)]);
        let p = number(&mut dice, near);
        let ours = unsafe { sorghemi_result(kind, p, &values) };
        let (refusal, theirs) = kinds::ask_result(kind.into(), p, values);
        let answer = (u32::from(ours.refusal), ours.values, u32::from(ours.wrote));
        assert_eq!(answer, (refusal, theirs.values, theirs.mark), "kind {kind}, p {p}, of {values:?}");
        met[kind as usize][if refusal == 0 { 1 + ours.wrote as usize } else { 0 }] += 1;
        turns(kind, p, values).into_iter().for_each(|turn| turned[turn] += 1);
    }
    println!("{count} results of seed {seed}, every one the second hand's.");
    for (kind, [refused, mark_0, mark_1]) in met.iter().enumerate().take(8) {
        println!("  kind {kind}: refused {refused}, mark 0 {mark_0}, mark 1 {mark_1}");
    }
    println!("  kinds above 7: refused {}", met[8..].iter().map(|times| times[0]).sum::<u64>());
    TURNS.iter().zip(turned).for_each(|(turn, times)| println!("  {turn}: {times}"));
    for (kind, times) in met.iter().enumerate() {
        let may = [!(1..=6).contains(&kind), (1..=6).contains(&kind), [3, 4, 6].contains(&kind)];
        assert_eq!(times.map(|times| times > 0), may, "of kind {kind}: {times:?}");
    }
    assert!(turned.iter().all(|&times| times > 0), "a result never turned: {turned:?}");
}

/// Bytes after the lent buffer, which have to stay too.
const AFTER: usize = 64;

/// How often the answer to a plan was refused with each number (0 where it was not), and of the answers: how often each fault
/// came up, how often each answer to a step, and how long the longest was.
#[derive(Default)]
struct Met {
    refused: BTreeMap<u32, u64>,
    faults: BTreeMap<u32, u64>,
    steps: BTreeMap<u32, u64>,
    longest: usize,
}

impl Met {
    /// The plan in both hands, each with a buffer of so many places: what they answer, and all that stands in the buffer and
    /// after it, is the same. Gives the library's answer back.
    fn same(&mut self, plan: &[u8], places: usize) -> Vec<u8> {
        let before: Vec<u8> = (0..places + AFTER).map(|place| (place * 7 + place / 256) as u8).collect();
        let (mut ours, mut theirs) = (before.clone(), before);
        let answer = unsafe { sorghemi_answer_plan(plan.as_ptr(), plan.len(), ours.as_mut_ptr(), places) };
        let due = answer_plan(plan, &mut theirs[..places]);
        let shown = || format!("{places} places, {} bytes: {:?}", plan.len(), String::from_utf8_lossy(plan));
        assert_eq!((u32::from(answer.refusal), answer.length), due, "{}", shown());
        let differs = ours.iter().zip(&theirs).position(|(our, their)| our != their);
        assert_eq!(differs, None, "the first place that differs: {}", shown());
        *self.refused.entry(due.0).or_default() += 1;
        ours.truncate(answer.length);
        if due.0 == 0 {
            self.count(std::str::from_utf8(&ours).unwrap());
        }
        ours
    }

    /// An answer of R150 or R152.
    fn count(&mut self, answer: &str) {
        self.longest = self.longest.max(answer.len());
        let field = |line: &str, place: usize| line.split(' ').nth(place).unwrap().parse::<u32>().unwrap();
        let mut lines = answer.lines();
        if lines.next() == Some("fault line") {
            *self.faults.entry(field(lines.next().unwrap(), 0)).or_default() += 1;
            return;
        }
        for line in lines.take_while(|line| *line != "job how mark") {
            *self.steps.entry(field(line, 1)).or_default() += 1;
        }
    }
}

/// The plans and answers that are stored with the project, and the buffer's limit with each.
#[test]
fn stored_plans() {
    let mut met = Met::default();
    for folder in ["tests/plans", "examples"] {
        let folder = Path::new(env!("CARGO_MANIFEST_DIR")).join("../..").join(folder);
        let files = std::fs::read_dir(&folder).unwrap().map(|file| file.unwrap().path());
        for file in files.filter(|file| file.extension().is_some_and(|end| end == "plan")) {
            let plan = std::fs::read(&file).unwrap();
            let answer = std::fs::read(file.with_extension("answer")).unwrap();
            assert!(met.same(&plan, ANSWER_PLACES) == answer, "the stored answer to {file:?}");
            assert!(met.same(&plan, ANSWER_PLACES - 1).is_empty());
        }
    }
    let [taken, refused] = [0, 20].map(|number| met.refused[&number]);
    println!("{taken} stored plans: each answer as stored and the second hand's.");
    assert!(taken > 20 && taken == refused);
}

/// A plan with as many short steps as fit into so many bytes, all answered 11: no plan of that length has a much longer answer.
fn steps_only(length: usize) -> Vec<u8> {
    let mut plan = b"cell value\n0 1234\nkind p a b c\nguess\n0\nstep job\n".to_vec();
    while plan.len() + 4 <= length {
        plan.extend_from_slice(b"0 0\n");
    }
    plan
}

/// R140, R153: the plan's limit and the buffer's.
#[test]
fn limits() {
    let mut met = Met::default();
    for places in [ANSWER_PLACES, ANSWER_PLACES + 1, 2 * ANSWER_PLACES] {
        for filler in [b'\n', b'0', b' ', 0, 255] {
            assert_eq!(met.same(&vec![filler; 65_536], places), b"fault line\n21 1\n");
            assert_eq!(met.same(&vec![filler; 65_537], places), b"fault line\n22 0\n");
            assert_eq!(met.same(&vec![filler; 1 << 20], places), b"fault line\n22 0\n");
        }
        let mut plan = steps_only(65_536);
        assert_eq!((plan.len(), met.same(&plan, places).len()), (65_536, 81_903));
        plan.push(b'\n');
        assert_eq!(met.same(&plan, places), b"fault line\n22 0\n");
        assert_eq!(met.same(b"", places), b"fault line\n21 1\n");
    }
    for places in [0, 1, 81_903, ANSWER_PLACES - 1] {
        for plan in [steps_only(65_536), steps_only(65_537 + 4), steps_only(0), Vec::new()] {
            assert!(met.same(&plan, places).is_empty());
        }
    }
    assert_eq!(met.refused, BTreeMap::from([(0, 54), (20, 16)]));
}

/// Bytes that are hardly a plan: any, those that plans are written with, or such ones after a sound beginning.
fn noise(dice: &mut Dice) -> Vec<u8> {
    let length = if dice.percent(5) { 65_530 + dice.below(14) } else { dice.below(300) };
    let mut bytes = if dice.percent(50) { steps_only(0) } else { Vec::new() };
    let any = dice.percent(30);
    let byte = |dice: &mut Dice| if any { dice.below(256) as u8 } else { dice.pick(b"00112233445-\n\n\n   ") };
    bytes.extend((0..length).map(|_| byte(dice)));
    bytes
}

/// Random plans, a quarter as much noise, and one in eight with a buffer that is too short.
#[test]
fn random_plans() {
    let (count, seed) = (setting("PLANS", 4000), setting("SEED", 1));
    let mut dice = Dice::new(seed, 153);
    let mut met = Met::default();
    for index in 0..count {
        let plan = if index % 5 == 4 { noise(&mut dice) } else { plans::plan(seed, index) };
        let places = match dice.below(8) {
            0 => dice.pick(&[0, 1, 1000, ANSWER_PLACES - 1]),
            1..=4 => ANSWER_PLACES,
            _ => ANSWER_PLACES + dice.below(2000),
        };
        met.same(&plan, places);
    }
    println!("{count} plans of seed {seed}: every answer and buffer the second hand's.");
    println!("  refused: {:?}", met.refused);
    println!("  plans at fault with: {:?}", met.faults);
    println!("  steps answered: {:?}", met.steps);
    println!("  the longest answer: {} bytes", met.longest);
    let came_up = |numbers: &BTreeMap<u32, u64>| numbers.keys().copied().collect::<Vec<u32>>();
    assert_eq!(came_up(&met.refused), [0, 20]);
    assert_eq!(came_up(&met.faults), [1, 3, 4, 5, 7, 8, 9, 21, 22]);
    assert_eq!(came_up(&met.steps), [0, 11, 12, 13, 14, 15, 17, 18]);
}
