//! What is met as the chooser is asked (R60 to R62), of pairs of jobs (R24) and of jobs that
//! come in late, by how a record stands; and what the former chooser (`former`) would have
//! named. R numbers are the rules of docs/RULES.md.

use crate::engine::Batch;
use crate::former::choose_formerly;
use crate::picks::{
    found, lengths, otherwise, pick, sort, wrong_readings, Field, Found, ANY_SORT, LINK, NO_MAYBE,
    NO_PREDICTED, NO_SETTLED, WRONG,
};
use crate::record::{Job, Record};

/// What may be met of a choice: of the step, of how its job was found, and of the job's
/// chain.
const MET: [&str; 19] = [
    "none is named: 19",
    "step 4 is named",
    "step 0 is named",
    "step 1 is named",
    "step 4, of the longest chains not the lowest number, but the fewest accesses",
    "step 0, of the longest chains not the lowest number, but the fewest accesses",
    "step 1, of the longest chains not the lowest number, but the fewest accesses",
    "step 4, of several with the longest chain and the fewest accesses the lowest number",
    "step 0, of several with the longest chain and the fewest accesses the lowest number",
    "step 1, of several with the longest chain and the fewest accesses the lowest number",
    "step 4, a longer chain than that of a job with fewer accesses",
    "step 0, a longer chain than that of a job with fewer accesses",
    "step 1, a longer chain than that of a job with fewer accesses",
    "a job with as long a chain and fewer accesses is not allowed",
    "a job with a longer chain is not allowed",
    "a job of four accesses is named",
    "its chain would be longer with links of sort 2",
    "its chain would be shorter without links by predicted writes",
    "its chain would be shorter without links by maybe-writes",
];

/// Which of the first 16 of MET come up.
fn found_by(record: &Record, field: &Field) -> [bool; 16] {
    let (_, _, job, chain) = pick(record, Some(field));
    let (job, chains) = (usize::from(job), lengths(record, LINK));
    let accesses = |job: usize| record.jobs[job].arity;
    let fewer = |other: usize| accesses(other) < accesses(job);
    let longest = || field.jobs.iter().filter(|&&other| chains[other] == chain);
    let by_accesses = longest().next() != Some(&job);
    let by_number = longest()
        .filter(|&&other| accesses(other) == accesses(job))
        .count()
        > 1;
    let beaten = field
        .jobs
        .iter()
        .any(|&other| chains[other] < chain && fewer(other));
    let not_allowed = |is: &dyn Fn(usize) -> bool| {
        let mut others = (0..chains.len()).filter(|other| !field.jobs.contains(other));
        others.any(|other| record.committed[other] == 0 && is(other))
    };
    let step = |number: u8, did: bool| field.step == number && did;
    let of_each = |did: bool| [4, 0, 1].map(|number| step(number, did));
    let mut met = [false; 16];
    for (place, did) in [true, by_accesses, by_number, beaten]
        .into_iter()
        .enumerate()
    {
        met[1 + 3 * place..4 + 3 * place].copy_from_slice(&of_each(did));
    }
    met[13] = not_allowed(&|other| chains[other] == chain && fewer(other));
    met[14] = not_allowed(&|other| chains[other] > chain);
    met[15] = accesses(job) == 4;
    met
}

/// Which of the last three of MET come up.
fn chain_met(record: &Record, field: &Field) -> [bool; 3] {
    let (_, _, job, chain) = pick(record, Some(field));
    let other = |link| lengths(record, link)[usize::from(job)];
    [
        other(ANY_SORT) > chain,
        other(NO_PREDICTED) < chain,
        other(NO_MAYBE) < chain,
    ]
}

/// What the former chooser may have named.
const FORMER: [&str; 3] = [
    "another job",
    "the same job with another chain length",
    "the same",
];

/// What may be met of an earlier and a later job.
const PAIRS: [&str; 12] = [
    "sort 0",
    "sort 1",
    "sort 2",
    "sort 0, though both read a cell",
    "sort 1, where 2 is found too",
    "sort 1, by maybe-writes alone",
    "sort 1, by predicted writes alone",
    "sort 2, by a write",
    "sort 2, by a maybe-write",
    "sort 2, by a predicted write",
    "another sort with the two exchanged",
    "another sort if places not in use counted",
];

/// Which of PAIRS come up.
fn pair_met(earlier: &Job, later: &Job) -> [bool; PAIRS.len()] {
    let number = sort(earlier, later);
    let both = earlier.used().iter().flat_map(|&(cell, mode)| {
        let theirs = later.access_to(cell);
        theirs.map(|(_, their_mode)| (mode, their_mode))
    });
    let modes: Vec<(u8, u8)> = both.collect();
    let by = |own: u8| modes.iter().all(|&(mode, _)| mode == own || mode == 0);
    let overtakes = |own: u8| modes.iter().any(|&(_, mode)| mode == own);
    let all_used = |job: &Job| Job { arity: 4, ..*job };
    [
        number == 0,
        number == 1,
        number == 2,
        number == 0 && !modes.is_empty(),
        found(earlier, later)
            == Found {
                one: true,
                two: true,
            },
        number == 1 && by(2),
        number == 1 && by(3),
        number == 2 && overtakes(1),
        number == 2 && overtakes(2),
        number == 2 && overtakes(3),
        sort(later, earlier) != number,
        sort(&all_used(earlier), &all_used(later)) != number,
    ]
}

/// What may be met of a job that comes in after the seal.
const LATE: [&str; 3] = [
    "a chain has become longer",
    "its conflicts are of sort 2 alone, and none has",
    "it has no conflict",
];

/// How often each was met.
#[derive(Default)]
pub struct Watch {
    pub choices: u64,
    /// Choices with a chain that would be shorter without settled jobs: none where calls
    /// have led.
    pub through_settled: u64,
    met: [u64; MET.len()],
    wrong: [u64; WRONG],
    former: [u64; FORMER.len()],
    pairs: [u64; PAIRS.len()],
    late: [u64; LATE.len()],
}

fn add<const COUNT: usize>(times: &mut [u64], met: [bool; COUNT]) {
    times
        .iter_mut()
        .zip(met)
        .for_each(|(times, did)| *times += u64::from(did));
}

impl Watch {
    /// The chooser was asked of a sealed batch.
    pub fn chose(&mut self, record: &Record, field: Option<&Field>) {
        self.choices += 1;
        let Some(field) = field else {
            self.met[0] += 1;
            return;
        };
        add(&mut self.met[..16], found_by(record, field));
        add(&mut self.met[16..], chain_met(record, field));
        add(&mut self.wrong, otherwise(record, field));
        let (_, _, job, chain) = pick(record, Some(field));
        let without = lengths(record, NO_SETTLED)[usize::from(job)];
        self.through_settled += u64::from(without < chain);
    }

    /// The same batch, with the former chooser. Panics unless that names the same step, or is
    /// refused alike.
    pub fn against_former(&mut self, batch: &Batch) {
        let (now, former) = (batch.choose(), choose_formerly(batch));
        assert_eq!(now.map(|named| named.step), former.map(|named| named.step));
        if let (Ok(now), Ok(former)) = (now, former) {
            let place = match now.job == former.job {
                false => 0,
                true if now.chain != former.chain => 1,
                true => 2,
            };
            self.former[place] += 1;
        }
    }

    /// The last job came in. Panics unless only links of sort 1 have made chains longer (R22).
    pub fn inserted(&mut self, record: &Record) {
        let last = usize::from(record.job_count) - 1;
        let (before, job) = (&record.jobs[..last], &record.jobs[last]);
        before
            .iter()
            .for_each(|earlier| add(&mut self.pairs, pair_met(earlier, job)));
        if record.sealed == 0 {
            return;
        }
        let mut without = record.clone();
        without.job_count -= 1;
        let longer = lengths(record, LINK)[..last] != lengths(&without, LINK);
        let sorts = |number: u8| before.iter().any(|earlier| sort(earlier, job) == number);
        assert!(sorts(1) || !longer, "R22: {job:?} made a chain longer");
        let two_alone = sorts(2) && !sorts(1);
        add(&mut self.late, [longer, two_alone, !sorts(1) && !sorts(2)]);
    }

    /// Choices that a wrong reading answers otherwise: each line with how often.
    pub fn wrong_lines(&self) -> Vec<(String, u64)> {
        lines("answered otherwise", &wrong_readings(), &self.wrong)
    }

    /// What was met of choices, with those lines.
    pub fn choice_lines(&self) -> Vec<(String, u64)> {
        [lines("named", &MET, &self.met), self.wrong_lines()].concat()
    }

    /// What was met of pairs of jobs.
    pub fn pair_lines(&self) -> Vec<(String, u64)> {
        lines("a pair of jobs", &PAIRS, &self.pairs)
    }

    /// What was met of all.
    pub fn lines(&self) -> Vec<(String, u64)> {
        let former = lines("by the former chooser", &FORMER, &self.former);
        let late = lines("a job after the seal", &LATE, &self.late);
        [self.choice_lines(), former, self.pair_lines(), late].concat()
    }
}

fn lines(part: &str, names: &[&str], times: &[u64]) -> Vec<(String, u64)> {
    let each = names.iter().zip(times);
    each.map(|(name, times)| (format!("{part}: {name}"), *times))
        .collect()
}
