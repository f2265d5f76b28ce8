//! What the chooser names (R60 to R62), by heights that pass from job to job (R22, R24). Batches are worked by random lists of
//! calls (`second_hand::lists`) in three hands at once, the calls of the chooser and others by turns. Before every call (with 20
//! jobs or more before one in twenty) the library's choice is held against both of the second hand's engines and against the pick
//! by the rules' words (`second_hand::picks`), with what the library itself accepts on a copy as what is allowed. The library
//! does not give out the sort of a conflict, but it is seen in batches of two jobs: the second has to wait (R21) where it is not
//! 0, and the first has a chain of two where it is 1. BATCHES=COUNT sets how many lists, SEED=NUMBER which; it prints what was met
//! (`cargo test --test picks -- --nocapture`), each case named in `second_hand::choosing`, how the former chooser
//! (`second_hand::former`) would have had it, and what comes of the batches when either works them to their end.

mod hands;
mod met;
mod setting;
#[allow(dead_code)] // Calls that only tests/damaged.rs makes.
mod theirs;

use hands::Hands;
use met::{add, print};
use second_hand::choosing::Watch;
use second_hand::former::{worked_by_each_chooser, Came};
use second_hand::lists::{sound_job, worth_a_look, Call, Manner};
use second_hand::picks::{lengths, pick, small_jobs, sort, Answer, Field, LINK};
use second_hand::plans::Dice;
use second_hand::record::Job;
use setting::setting;
use sorghemi::raw::{sorghemi_choose, sorghemi_step_by_value};
use sorghemi::Report;

impl Hands {
    /// What the library's chooser answers.
    fn named(&self) -> Answer {
        let ours = unsafe { sorghemi_choose(self.both.ours) };
        (ours.refusal, ours.step, ours.job, ours.chain)
    }

    /// The same in all hands.
    fn chosen(&self) -> Answer {
        let ours = self.both.choose();
        let answer = (ours.refusal, ours.step, ours.job, ours.chain);
        let third = match self.third.choose() {
            Ok(named) => (0, named.step as u8, named.job as u8, named.chain as u8),
            Err(refusal) => (refusal as u8, 0, 0, 0),
        };
        assert_eq!(answer, third, "choose of {:?}", self.both.ours);
        answer
    }

    /// R60: what may be chosen from, as the library takes the steps on copies.
    fn field(&self) -> Option<Field> {
        let record = self.both.ours;
        let accepts = |step, job| unsafe { sorghemi_step_by_value(record, step, job, Report::default()) }.refusal == 0;
        Field::of(&self.both.theirs, accepts)
    }
}

/// What was met, and what came of the batches that were worked to their end, with guessing off and on, by either chooser.
#[derive(Default)]
struct Met {
    watch: Watch,
    unsealed: u64,
    ended: u64,
    came: [[Came; 2]; 2],
}

impl Met {
    fn choose(&mut self, hands: &Hands) {
        let record = &hands.both.theirs;
        if record.sealed == 0 {
            assert_eq!(hands.chosen(), (10, 0, 0, 0));
            self.unsealed += 1;
            return;
        }
        let field = hands.field();
        assert_eq!(hands.chosen(), pick(record, field.as_ref()), "R60 to R62: {field:?} of {:?}", hands.both.ours);
        self.watch.chose(record, field.as_ref());
        self.watch.against_former(&hands.third);
    }

    /// A list of calls, and its jobs worked to their end by either chooser.
    fn work(&mut self, dice: &mut Dice, manner: &Manner) {
        let mut hands = Hands::open(&manner.heights);
        for _ in 0..manner.calls() {
            if worth_a_look(dice, &hands.both.theirs) {
                self.choose(&hands);
            }
            let call = manner.call(dice, &hands.both.theirs);
            if let (Call::Insert(_), (0, _)) = (call, hands.make(&call)) {
                self.watch.inserted(&hands.both.theirs);
            }
        }
        self.choose(&hands);
        for (guessing, sums) in self.came.iter_mut().enumerate() {
            if let Some(came) = worked_by_each_chooser(&manner.sealed_with(guessing as u8)) {
                self.ended += guessing as u64;
                sums.iter_mut().zip(came).for_each(|(sum, more)| *sum += more);
            }
        }
    }

    fn print(&self) {
        println!("{} choices compared, and {} before the seal. Met:", self.watch.choices, self.unsealed);
        self.watch.lines().iter().for_each(|(what, times)| println!("  {what}: {times}"));
        println!("{} of the batches worked to their end by four workers, each run taking a turn:", self.ended);
        for (guessing, by_each) in ["off", "on"].iter().zip(self.came) {
            for (chooser, came) in ["the chooser", "the former chooser"].iter().zip(by_each) {
                let Came { started, kept, thrown_away, turns } = came;
                println!("  guessing {guessing}, {chooser}: {turns} turns; guesses {started}, kept {kept}, thrown away {thrown_away}");
            }
        }
    }
}

/// Of twenty lists one is any, sometimes of 128 jobs.
#[test]
fn batches() {
    let (count, seed) = (setting("BATCHES", 300), setting("SEED", 1));
    let mut dice = Dice::new(seed, 61);
    let mut met = Met::default();
    for list in 0..count {
        let manner = if list % 20 == 0 { Manner::any(&mut dice) } else { Manner::picking(&mut dice) };
        met.work(&mut dice, &manner);
    }
    println!("{count} batches of seed {seed}: every choice the second hand's twice over, and that of the rules' words.");
    met.print();
    let lines = met.watch.lines();
    assert!(met.unsealed > 0 && lines.iter().all(|&(_, times)| times > 0), "something never came up: {lines:?}");
    assert_eq!(met.watch.through_settled, 0, "a settled job in the chain of one that is not");
}

/// What may be met of a choice in a batch of 128 jobs. Each has to come up.
const FULL: [&str; 5] = [
    "none is named: 19",
    "job 127 is named",
    "a chain that would be shorter without job 127",
    "a chain of 32 jobs or more",
    "a chain of one job, of several allowed",
];

/// The choice, held against all hands and the rules' words; which of FULL come up.
fn look_at_full(hands: &Hands) -> [bool; FULL.len()] {
    let (record, field) = (&hands.both.theirs, hands.field());
    let answer = hands.chosen();
    assert_eq!(answer, pick(record, field.as_ref()), "R60 to R62: {field:?} of {:?}", hands.both.ours);
    let (refusal, _, job, chain) = answer;
    let mut without = record.clone();
    without.job_count = 127;
    let shorter = job < 127 && refusal == 0 && lengths(&without, LINK)[usize::from(job)] < chain;
    let several = field.is_some_and(|field| field.jobs.len() > 1);
    [refusal == 19, job == 127, shorter, chain >= 32, chain == 1 && several]
}

/// 128 jobs worked to their end, each run reported when there is nothing to start. The choice is looked at now and then, and where
/// the last jobs are left.
fn work_full(dice: &mut Dice, met: &mut [u64; FULL.len()]) {
    let cells = dice.pick(&[2, 8, 24, 64]);
    let mut hands = Hands::open(&vec![0; cells]);
    (0..128).for_each(|_| assert_eq!(hands.make(&Call::Insert(sound_job(dice, cells))).0, 0));
    hands.make(&Call::Seal(dice.below(2) as u8));
    let (mut out, mut settled) = (Vec::new(), 0);
    while settled < 128 {
        if settled > 120 || dice.percent(15) {
            add(met, look_at_full(&hands));
        }
        let (refusal, step, job, _) = hands.named();
        let (number, job) = match refusal {
            0 => (step, usize::from(job)),
            _ => out.swap_remove(dice.below(out.len())),
        };
        if number < 2 {
            out.push((number + 2, job));
        }
        // The report of a guess that was thrown away is refused (R113).
        let (answer, _) = hands.make(&Call::Step { number, job, values: [0; 4], mark: 0 });
        settled += (answer == 0 && (number == 2 || number == 4)) as usize;
    }
}

/// R60 to R62 with as many jobs as there can be.
#[test]
fn full_batches() {
    let (count, seed) = (setting("BATCHES", 300).div_ceil(25), setting("SEED", 1));
    let (mut dice, mut met) = (Dice::new(seed, 128), [0; FULL.len()]);
    (0..count).for_each(|_| work_full(&mut dice, &mut met));
    println!("Choices in {count} batches of 128 jobs, of seed {seed}:");
    print(&FULL, &met);
    assert!(met.iter().all(|&times| times > 0), "something never came up: {met:?}");
    // Each job writes what the one before it wrote.
    let mut hands = Hands::open(&[0]);
    let shift = Job { kind: 2, arity: 1, accesses: [(0, 1); 4], ..Job::default() };
    (0..128).for_each(|_| assert_eq!(hands.make(&Call::Insert(shift)).0, 0));
    hands.make(&Call::Seal(1));
    assert_eq!(hands.chosen(), (0, 0, 0, 128));
}

/// R24 of two jobs, as the library and the second hand's engines show it in a batch of these alone, and by the rule's words.
fn sort_seen(opened: &Hands, earlier: Job, later: Job, watch: &mut Watch) -> u8 {
    let mut hands = opened.clone();
    for call in [Call::Insert(earlier), Call::Insert(later), Call::Seal(0)] {
        assert_eq!(hands.make(&call).0, 0, "{call:?}");
    }
    watch.inserted(&hands.both.theirs);
    let (refusal, step, _, chain) = hands.chosen();
    assert_eq!((refusal, step), (0, 0));
    let waits = hands.make(&Call::Step { number: 0, job: 1, values: [0; 4], mark: 0 }).0;
    let seen = match (waits, chain) {
        (0, 1) => 0,
        (15, 2) => 1,
        (15, 1) => 2,
        other => panic!("{other:?} of {earlier:?} and {later:?}"),
    };
    assert_eq!(seen, sort(&earlier, &later), "R24: {earlier:?} and {later:?}");
    seen
}

/// How often each sort was seen, by the accesses of the job that has more.
type Sorts = [[u64; 3]; 4];

fn see(sorts: &mut Sorts, opened: &Hands, [earlier, later]: [Job; 2], watch: &mut Watch) {
    let most = earlier.arity.max(later.arity);
    let sort = sort_seen(opened, earlier, later, watch);
    sorts[usize::from(most) - 1][usize::from(sort)] += 1;
}

/// All pairs of small jobs, and all of the jobs of random lists, a tenth as many.
#[test]
fn sorts() {
    let (count, seed) = (setting("BATCHES", 300).div_ceil(10), setting("SEED", 1));
    let (mut dice, mut sorts, mut watch) = (Dice::new(seed, 24), Sorts::default(), Watch::default());
    let (opened, jobs) = (Hands::open(&[0; 3]), small_jobs());
    for &earlier in &jobs {
        jobs.iter().for_each(|&later| see(&mut sorts, &opened, [earlier, later], &mut watch));
    }
    for _ in 0..count {
        let manner = Manner::picking(&mut dice);
        let (opened, jobs) = (Hands::open(&manner.heights), manner.jobs());
        for (place, &later) in jobs.iter().enumerate() {
            jobs[..place].iter().for_each(|&earlier| see(&mut sorts, &opened, [earlier, later], &mut watch));
        }
    }
    println!("Sorts of all pairs of {} small jobs, and of the jobs of {count} lists of seed {seed}:", jobs.len());
    for (sorts, most) in sorts.iter().zip(1..) {
        println!("  one of {most} accesses, the other of as many or fewer, sorts 0, 1 and 2: {sorts:?}");
    }
    watch.pair_lines().iter().for_each(|(what, times)| println!("  {what}: {times}"));
    assert!(sorts.iter().flatten().all(|&times| times > 0), "a sort never came up: {sorts:?}");
    assert!(watch.pair_lines().iter().all(|&(_, times)| times > 0), "something never came up: {:?}", watch.pair_lines());
}
