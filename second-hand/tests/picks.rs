//! Sorts of conflict (R24), chains (R22) and the chooser (R60 to R62): named cases on both
//! engines, and random lists held to the picks by the rules' words.

mod worked;

use second_hand::choosing::Watch;
use second_hand::engine::{self, Access};
use second_hand::former::{choose_formerly, worked_by_each_chooser, Came};
use second_hand::lists::{worth_a_look, Call, Manner};
use second_hand::picks::{found, lengths, pick, small_jobs, sort, Answer, Field, Found, LINK};
use second_hand::plans::Dice;
use second_hand::record::{Job, Record};
use worked::Worked;

const READ: u8 = 0;
const WRITE: u8 = 1;
const MAYBE: u8 = 2;
const PREDICTED: u8 = 3;
const MODES: [u8; 4] = [READ, WRITE, MAYBE, PREDICTED];

/// An outside job with these accesses, and others in places not in use: they look like
/// writes of the first cells.
fn job(used: &[(u8, u8)]) -> Job {
    let mut accesses = [(0, WRITE), (1, WRITE), (2, MAYBE), (3, PREDICTED)];
    accesses[..used.len()].copy_from_slice(used);
    Job {
        arity: used.len() as u8,
        accesses,
        ..Job::default()
    }
}

impl Worked {
    /// Eight cells and these jobs, sealed.
    fn sealed(guessing: u8, jobs: &[&[(u8, u8)]]) -> Worked {
        let mut worked = Worked::open(&[0; 8]);
        jobs.iter().for_each(|used| worked.insert(used));
        assert_eq!(worked.make(&Call::Seal(guessing)).0, 0);
        worked
    }

    fn insert(&mut self, used: &[(u8, u8)]) {
        assert_eq!(self.make(&Call::Insert(job(used))).0, 0);
    }

    /// The step, with zeros and mark 0 in its report; it leaves the cells as they are.
    fn step(&mut self, number: u8, job: usize) -> u8 {
        let values = [0; 4];
        self.make(&Call::Step {
            number,
            job,
            values,
            mark: 0,
        })
        .0
    }

    fn steps(&mut self, steps: &[(u8, usize)]) {
        for &(number, job) in steps {
            assert_eq!(self.step(number, job), 0, "step {number} of job {job}");
        }
    }

    /// R60: what may be chosen from, the same by both.
    fn field(&self) -> Option<Field> {
        Field::of(&self.record, |number, job| {
            let answer = self.record.clone().step(number, job, [0; 4], 0).0;
            let other = self.batch.would_answer(number.into(), job as u32);
            assert_eq!(other, Some(answer.into()));
            answer == 0
        })
    }

    /// What the chooser answers, the same by both.
    fn chosen(&self) -> Answer {
        let answer = self.record.choose();
        let other = match self.batch.choose() {
            Ok(named) => (0, named.step as u8, named.job as u8, named.chain as u8),
            Err(refusal) => (refusal as u8, 0, 0, 0),
        };
        assert_eq!(answer, other);
        answer
    }

    /// It is this, and so it is by the rules' words.
    fn chooses(&self, step: u8, job: u8, chain: u8) {
        assert_eq!(self.chosen(), (0, step, job, chain));
        assert_eq!(pick(&self.record, self.field().as_ref()), self.chosen());
    }
}

// ---------------------------------------------------------------------------
// Sorts (R24)

fn plain(job: &Job) -> engine::Job {
    let used = job.accesses[..usize::from(job.arity)].iter();
    engine::Job {
        kind: 0,
        p: 0,
        accesses: used
            .map(|&(cell, mode)| Access::to(cell.into(), mode.into()))
            .collect(),
    }
}

/// The sort of the conflict of two jobs: as `engine` says, as is seen in both whether the
/// second is ready and how long the first one's chain is, and by the rule's words.
fn sort_of(earlier: &Job, later: &Job) -> u8 {
    let mut worked = Worked::open(&[0; 8]);
    for &job in [earlier, later] {
        assert_eq!(worked.make(&Call::Insert(job)).0, 0);
    }
    assert_eq!(worked.make(&Call::Seal(0)).0, 0);
    let sort = sort(earlier, later);
    assert_eq!(
        engine::conflict(&plain(earlier), &plain(later)),
        sort.into()
    );
    // With 0 either job may be named; its chain is 1.
    let (refusal, step, _, chain) = worked.chosen();
    assert_eq!(
        (refusal, step, chain),
        (0, 0, if sort == 1 { 2 } else { 1 })
    );
    assert_eq!(worked.step(0, 1), if sort == 0 { 0 } else { 15 });
    sort
}

fn sort_on(earlier: &[(u8, u8)], later: &[(u8, u8)]) -> u8 {
    sort_of(&job(earlier), &job(later))
}

#[test]
fn every_pair_of_modes_on_one_cell() {
    // The mode of the earlier job by rows, that of the later one by columns.
    let due = [[0, 2, 2, 2], [1, 1, 1, 1], [1, 1, 1, 1], [1, 1, 1, 1]];
    let sorts = MODES.map(|one| MODES.map(|other| sort_on(&[(4, one)], &[(4, other)])));
    assert_eq!(sorts, due);
    // On two cells there is none.
    let apart = MODES.map(|one| MODES.map(|other| sort_on(&[(4, one)], &[(5, other)])));
    assert_eq!(apart, [[0; 4]; 4]);
}

#[test]
fn both_sorts_found() {
    for earlier in [WRITE, MAYBE, PREDICTED] {
        for (later, other) in MODES.iter().flat_map(|&a| [1, 2, 3].map(|b| (a, b))) {
            // Cell 4 gives sort 1 and cell 5 sort 2, in any order of the accesses.
            let (one, two) = ([(4, earlier), (5, READ)], [(4, later), (5, other)]);
            let turned = |[a, b]: [(u8, u8); 2]| [b, a];
            for earlier in [one, turned(one)] {
                for later in [two, turned(two)] {
                    let both = found(&job(&earlier), &job(&later));
                    assert_eq!(
                        both,
                        Found {
                            one: true,
                            two: true
                        }
                    );
                    assert_eq!(sort_on(&earlier, &later), 1);
                }
            }
        }
    }
}

#[test]
fn the_two_exchanged() {
    for mode in [WRITE, MAYBE, PREDICTED] {
        assert_eq!(sort_on(&[(4, READ)], &[(4, mode)]), 2);
        assert_eq!(sort_on(&[(4, mode)], &[(4, READ)]), 1);
    }
    let (mean, shift) = ([(4, WRITE), (5, READ), (6, READ)], [(5, WRITE)]);
    assert_eq!((sort_on(&mean, &shift), sort_on(&shift, &mean)), (2, 1));
}

#[test]
fn places_not_in_use() {
    // In each place of either job, but for the first; what stands there before it reads
    // another cell.
    for place in 1..4 {
        for (used, unused) in MODES.iter().flat_map(|&a| MODES.map(|b| (a, b))) {
            let mut garbage = job(&[(5, READ), (6, READ), (7, READ)][..place]);
            garbage.accesses[place] = (4, unused);
            let other = job(&[(4, used)]);
            assert_eq!(sort_of(&garbage, &other), 0);
            assert_eq!(sort_of(&other, &garbage), 0);
            // In use it counts.
            garbage.arity += 1;
            let reads = used == READ && unused == READ;
            assert_eq!(sort_of(&garbage, &other) == 0, reads);
            assert_eq!(sort_of(&other, &garbage) == 0, reads);
        }
    }
}

#[test]
fn each_place_of_four() {
    let reads = |cells: [u8; 4]| cells.map(|cell| (cell, READ));
    for (place, other) in (0..4).flat_map(|a| (0..4).map(move |b| (a, b))) {
        for mode in [WRITE, MAYBE, PREDICTED] {
            let mut one = reads([0, 1, 2, 3]);
            let mut two = reads([4, 5, 6, 7]);
            one[place] = (3, mode);
            two[other].0 = 3;
            // No cell twice.
            if place != 3 {
                one[3].0 = place as u8;
            }
            assert_eq!(sort_on(&one, &two), 1, "{one:?} and {two:?}");
            assert_eq!(sort_on(&two, &one), 2, "{two:?} and {one:?}");
        }
    }
}

#[test]
fn all_pairs_of_small_jobs() {
    let jobs = small_jobs();
    let mut sorts = [0; 3];
    for (earlier, later) in jobs.iter().flat_map(|a| jobs.iter().map(move |b| (a, b))) {
        sorts[usize::from(sort_of(earlier, later))] += 1;
    }
    println!("{} jobs, pairs by sort: {sorts:?}", jobs.len());
    assert!(sorts.iter().all(|&times| times > 1000), "{sorts:?}");
}

// ---------------------------------------------------------------------------
// Chains (R22)

#[test]
fn a_chain_does_not_go_on_by_what_is_only_read() {
    // Job 1 takes a height from job 0; job 2 writes what job 1 reads.
    for mode in [WRITE, MAYBE, PREDICTED] {
        let worked = Worked::sealed(0, &[&[(4, mode)], &[(4, READ), (5, READ)], &[(5, mode)]]);
        worked.chooses(0, 0, 2);
        // If job 1 may write it, the chain goes on.
        let worked = Worked::sealed(0, &[&[(4, mode)], &[(4, READ), (5, mode)], &[(5, READ)]]);
        worked.chooses(0, 0, 3);
    }
    // All three read cell 4, and the last writes it.
    Worked::sealed(0, &[&[(4, READ)], &[(4, READ)], &[(4, WRITE)]]).chooses(0, 0, 1);
}

/// No list of calls leads there: a job is settled only after those that it has to wait for.
#[test]
fn a_settled_job_stands_in_a_chain() {
    let jobs: [&[(u8, u8)]; 4] = [
        &[(4, WRITE)],
        &[(4, WRITE), (5, READ)],
        &[(4, READ)],
        &[(5, WRITE)],
    ];
    for how in [1, 2] {
        let mut record = Worked::sealed(0, &jobs).record;
        for settled in [1, 2] {
            record.committed[settled] = how;
            assert_eq!(record.choose(), (0, 0, 0, 3));
        }
        // Job 3 no longer waits for job 1.
        record.committed[0] = how;
        assert_eq!(record.choose(), (0, 0, 3, 1));
    }
}

#[test]
fn a_job_that_comes_late_makes_chains_longer() {
    let mut worked = Worked::sealed(0, &[&[(4, WRITE), (5, READ)], &[(6, WRITE)]]);
    worked.chooses(0, 1, 1);
    // By sort 2 no chain grows.
    worked.insert(&[(5, WRITE)]);
    worked.chooses(0, 1, 1);
    // By sort 1 that of job 0 does, though only read.
    worked.insert(&[(4, READ)]);
    worked.chooses(0, 0, 2);
    // Job 3 may write nothing, so nothing goes on from it.
    worked.insert(&[(4, WRITE)]);
    worked.chooses(0, 0, 2);
    worked.insert(&[(4, MAYBE)]);
    worked.chooses(0, 0, 3);
    worked.steps(&[(0, 0), (2, 0), (0, 3)]);
    // Also of a job whose run is out, or that is settled: job 4 has job 5 behind it.
    worked.insert(&[(6, READ)]);
    worked.chooses(0, 1, 2);
}

/// The longest of all lists of jobs that are chains from the job on, one by one.
fn longest(record: &Record, job: usize) -> u32 {
    let later = job + 1..usize::from(record.job_count);
    let lists = 0..1u32 << later.len();
    let chain = |list: &u32| {
        let mut last = job;
        later
            .clone()
            .filter(|k| list >> (k - job - 1) & 1 == 1)
            .all(|next| {
                let linked = sort(&record.jobs[last], &record.jobs[next]) == 1;
                last = next;
                linked
            })
    };
    1 + lists.filter(chain).map(u32::count_ones).max().unwrap()
}

#[test]
fn lengths_are_those_of_the_longest_of_all_chains() {
    let mut dice = Dice::new(1, 22);
    let mut lengths_met = [0; 8];
    for _ in 0..600 {
        let manner = Manner::picking(&mut dice);
        let mut record = Record::open(&manner.heights).unwrap();
        for &job in manner.jobs().iter().take(11) {
            assert_eq!(record.insert(job), 0);
        }
        for (job, length) in lengths(&record, LINK).into_iter().enumerate() {
            assert_eq!(u32::from(length), longest(&record, job));
            lengths_met[usize::from(length).min(7)] += 1;
        }
    }
    println!("chains by length: {lengths_met:?}");
    assert!(
        lengths_met[1..].iter().all(|&times| times > 20),
        "{lengths_met:?}"
    );
}

// ---------------------------------------------------------------------------
// The chooser (R60 to R62)

/// A batch in which the first jobs, from job 1 on, are those on which the step is allowed.
/// Each reads cell 7 beside its own accesses, and job 0 maybe-writes it: while its run is
/// out, they can be guessed. Those behind them have to wait.
fn brought_to(step: u8, first: &[&[(u8, u8)]], behind: &[&[(u8, u8)]]) -> Worked {
    let mut worked = Worked::sealed(1, &[&[(7, MAYBE)]]);
    for used in first {
        worked.insert(&[used, &[(7, READ)][..]].concat());
    }
    behind.iter().for_each(|used| worked.insert(used));
    let jobs: Vec<usize> = (1..=first.len()).collect();
    worked.steps(&[(0, 0)]);
    if step == 4 {
        jobs.iter()
            .for_each(|&job| worked.steps(&[(1, job), (3, job)]));
    }
    if step != 1 {
        worked.steps(&[(2, 0)]);
    }
    assert_eq!(worked.field(), Some(Field { step, jobs }));
    worked
}

const STEPS: [u8; 3] = [4, 0, 1];

const ONE: &[(u8, u8)] = &[(6, WRITE)];
const SAME: &[(u8, u8)] = &[(5, WRITE)];
const TWO: &[(u8, u8)] = &[(0, WRITE), (1, READ)];
const THREE: &[(u8, u8)] = &[(2, WRITE), (3, READ), (4, READ)];

#[test]
fn a_tie_in_length_goes_to_the_fewest_accesses() {
    for step in STEPS {
        brought_to(step, &[TWO, ONE], &[]).chooses(step, 2, 1);
        brought_to(step, &[THREE, TWO], &[]).chooses(step, 2, 1);
        brought_to(step, &[TWO, THREE], &[]).chooses(step, 1, 1);
        brought_to(step, &[THREE, TWO, ONE], &[]).chooses(step, 3, 1);
        // Also where several are longer than the others.
        let behind: [&[(u8, u8)]; 2] = [&[(2, READ)], &[(0, READ)]];
        brought_to(step, &[ONE, THREE, TWO], &behind).chooses(step, 3, 2);
    }
}

#[test]
fn a_tie_in_both_goes_to_the_lowest_number() {
    for step in STEPS {
        brought_to(step, &[ONE, SAME], &[]).chooses(step, 1, 1);
        brought_to(step, &[SAME, ONE], &[]).chooses(step, 1, 1);
        brought_to(step, &[TWO, ONE, SAME], &[]).chooses(step, 2, 1);
        let behind: [&[(u8, u8)]; 2] = [&[(6, READ)], &[(5, READ)]];
        brought_to(step, &[TWO, SAME, ONE], &behind).chooses(step, 2, 2);
    }
}

#[test]
fn a_longer_chain_goes_before_fewer_accesses() {
    for step in STEPS {
        brought_to(step, &[ONE, THREE], &[&[(2, READ)]]).chooses(step, 2, 2);
        brought_to(step, &[THREE, ONE], &[&[(2, READ)]]).chooses(step, 1, 2);
        // By sort 2 it is no longer. The job behind can be guessed, and has more accesses.
        let mut worked = brought_to(step, &[ONE, TWO], &[]);
        worked.insert(&[(1, WRITE), (2, READ), (3, READ)]);
        worked.chooses(step, 1, 1);
    }
}

#[test]
fn a_job_that_is_not_allowed_does_not_count() {
    for step in STEPS {
        let mut worked = brought_to(step, &[TWO, ONE, SAME], &[]);
        for job in [2, 3] {
            worked.chooses(step, job, 1);
            worked.steps(&[(step, job.into())]);
        }
        worked.chooses(step, 1, 1);
    }
    // Job 1 has fewer accesses, and waits for job 0 by either sort.
    for mode in [READ, WRITE] {
        let worked = Worked::sealed(0, &[&[(4, mode), (5, READ)], &[(4, WRITE)]]);
        worked.chooses(0, 0, if mode == READ { 1 } else { 2 });
    }
}

/// Each step before the next, whatever the chains.
#[test]
fn the_order_of_the_steps() {
    let behind: [&[(u8, u8)]; 3] = [&[(2, WRITE)], &[(2, WRITE)], &[(2, READ)]];
    let mut worked = brought_to(4, &[ONE, THREE], &behind);
    worked.insert(&[(4, WRITE)]);
    worked.insert(SAME);
    worked.chooses(4, 2, 4);
    worked.steps(&[(4, 2)]);
    worked.chooses(4, 1, 1);
    worked.steps(&[(4, 1)]);
    worked.chooses(0, 3, 3);
    worked.steps(&[(0, 3)]);
    worked.chooses(0, 6, 1);
    worked.steps(&[(0, 6), (0, 7)]);
    // Job 4 would take from job 3, which has no guess, and job 5 from job 4.
    assert_eq!(worked.chosen(), (19, 0, 0, 0));
}

/// By the former rule links were of any conflict, and ties went to the lowest number.
#[test]
fn the_former_chooser() {
    let former = |worked: &Worked| {
        let named = choose_formerly(&worked.batch).unwrap();
        (named.step, named.job, named.chain)
    };
    let worked = Worked::sealed(0, &[&[(4, READ), (5, READ)], &[(6, WRITE)], &[(4, WRITE)]]);
    worked.chooses(0, 1, 1);
    assert_eq!(former(&worked), (0, 0, 2));
    for step in STEPS {
        let worked = brought_to(step, &[THREE, TWO, ONE, SAME], &[]);
        worked.chooses(step, 3, 1);
        assert_eq!(former(&worked), (step.into(), 1, 1));
    }
    let open = Worked::open(&[0]);
    assert_eq!(choose_formerly(&open.batch), Err(10));
    assert_eq!(choose_formerly(&Worked::sealed(1, &[]).batch), Err(19));
}

// ---------------------------------------------------------------------------
// Random lists

/// The chooser, as both answer and by the rules' words; what is met.
fn compare(worked: &Worked, watch: &mut Watch) {
    if worked.record.sealed == 0 {
        assert_eq!(worked.chosen(), (10, 0, 0, 0));
        return;
    }
    let field = worked.field();
    assert_eq!(pick(&worked.record, field.as_ref()), worked.chosen());
    watch.chose(&worked.record, field.as_ref());
    watch.against_former(&worked.batch);
}

#[test]
fn random_lists() {
    let mut dice = Dice::new(1, 61);
    let (mut watch, mut came) = (Watch::default(), [Came::default(); 2]);
    for list in 0..700 {
        let manner = match list % 20 {
            0 => Manner::any(&mut dice),
            _ => Manner::picking(&mut dice),
        };
        let mut worked = Worked::open(&manner.heights);
        for _ in 0..manner.calls() {
            if worth_a_look(&mut dice, &worked.record) {
                compare(&worked, &mut watch);
            }
            let call = manner.call(&mut dice, &worked.record);
            if let (Call::Insert(_), (0, _)) = (call, worked.make(&call)) {
                watch.inserted(&worked.record);
            }
        }
        if let Some(more) = worked_by_each_chooser(&manner.batch()) {
            came.iter_mut()
                .zip(more)
                .for_each(|(sum, more)| *sum += more);
        }
    }
    println!("{} choices:", watch.choices);
    for (what, times) in watch.lines() {
        println!("  {what}: {times}");
    }
    println!("by the chooser, and by the former one: {came:?}");
    let lines = watch.lines();
    assert!(lines.iter().all(|&(_, times)| times > 3), "{lines:?}");
    assert_eq!(watch.through_settled, 0);
}
