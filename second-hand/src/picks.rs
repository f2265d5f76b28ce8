//! Picks by the words of the rules (R20 to R24, R60 to R62), from the jobs as a record has
//! them and from what the steps themselves answer; and by wrong readings of them. Slow, for
//! comparisons alone: no engine uses it. R numbers are the rules of docs/RULES.md.

use crate::record::{Job, Record};

/// R62: refusal, step, job, chain.
pub type Answer = (u8, u8, u8, u8);

// ---------------------------------------------------------------------------
// Sorts and chains

/// What R24 looks for in an earlier and a later job.
#[derive(Clone, Copy, PartialEq, Eq, Debug, Default)]
pub struct Found {
    /// A cell of the later one that the earlier one may write.
    pub one: bool,
    /// A cell that the later one may write and the earlier one reads.
    pub two: bool,
}

pub fn found(earlier: &Job, later: &Job) -> Found {
    let may_write = |mode: u8| mode == 1 || mode == 2 || mode == 3;
    let mut found = Found::default();
    for place in 0..usize::from(earlier.arity) {
        for other in 0..usize::from(later.arity) {
            let ((cell, mode), (same, theirs)) = (earlier.accesses[place], later.accesses[other]);
            if cell == same {
                found.one |= may_write(mode);
                found.two |= mode == 0 && may_write(theirs);
            }
        }
    }
    found
}

/// R24.
pub fn sort(earlier: &Job, later: &Job) -> u8 {
    match found(earlier, later) {
        Found { one: true, .. } => 1,
        Found { two: true, .. } => 2,
        _ => 0,
    }
}

/// All outside jobs of one and two accesses on three cells. What stands in their places not
/// in use looks like writes of two of these cells.
pub fn small_jobs() -> Vec<Job> {
    let modes = [0, 1, 2, 3];
    let accesses = || (0..3).flat_map(|cell| modes.map(|mode| (cell, mode)));
    let two = accesses().flat_map(|one| accesses().map(move |other| [one, other]));
    let apart = two.filter(|[one, other]| one.0 != other.0);
    let used = accesses().map(|one| (1, [one, (0, 1)]));
    let job = |(arity, [one, other]): (u8, [(u8, u8); 2])| Job {
        arity,
        accesses: [one, other, (1, 2), (0, 3)],
        ..Job::default()
    };
    used.chain(apart.map(|two| (2, two))).map(job).collect()
}

/// Whether a chain may go on from the earlier job to the later one.
pub type Link = fn(&Record, usize, usize) -> bool;

/// R22's link.
pub const LINK: Link = |record, earlier, later| sort_in(record, earlier, later) == 1;

fn sort_in(record: &Record, earlier: usize, later: usize) -> u8 {
    sort(&record.jobs[earlier], &record.jobs[later])
}

/// R22: the length of the longest chain from each job on.
pub fn lengths(record: &Record, link: Link) -> Vec<u8> {
    let mut known = vec![None; usize::from(record.job_count)];
    for job in 0..known.len() {
        length(record, link, job, &mut known);
    }
    known.into_iter().flatten().collect()
}

/// One more than the longest chain from any job on that this one has a link to.
fn length(record: &Record, link: Link, job: usize, known: &mut [Option<u8>]) -> u8 {
    if let Some(length) = known[job] {
        return length;
    }
    let next = (job + 1..known.len()).filter(|&later| link(record, job, later));
    let longest = next.map(|later| length(record, link, later, known)).max();
    known[job] = Some(1 + longest.unwrap_or(0));
    1 + longest.unwrap_or(0)
}

// ---------------------------------------------------------------------------
// The pick

/// R60: the step to name, and all jobs on which it is allowed; there is at least one.
#[derive(Clone, PartialEq, Eq, Debug)]
pub struct Field {
    pub step: u8,
    pub jobs: Vec<usize>,
}

impl Field {
    /// None where no step 4, 0 or 1 is allowed (R119). What is allowed, the caller says: it
    /// tries the step on a copy.
    pub fn of(record: &Record, mut allowed: impl FnMut(u8, usize) -> bool) -> Option<Field> {
        [4, 0, 1].into_iter().find_map(|step| {
            let held = 0..usize::from(record.job_count);
            let jobs: Vec<usize> = held.filter(|&job| allowed(step, job)).collect();
            (!jobs.is_empty()).then_some(Field { step, jobs })
        })
    }

    fn candidates(&self, record: &Record, link: Link) -> Vec<Candidate> {
        let chains = lengths(record, link);
        let candidate = |&job: &usize| Candidate {
            job,
            chain: chains[job],
            accesses: record.jobs[job].arity,
        };
        self.jobs.iter().map(candidate).collect()
    }

    /// The one that goes before all others.
    fn pick(&self, record: &Record, link: Link, before: Before) -> Answer {
        let all = self.candidates(record, link);
        let is_first =
            |one: &&Candidate| all.iter().all(|other| *one == other || before(one, other));
        let named = all.iter().find(is_first).unwrap();
        (0, self.step, named.job as u8, named.chain)
    }
}

/// A job on which the step is allowed.
#[derive(Clone, Copy, PartialEq, Eq, Debug)]
struct Candidate {
    job: usize,
    chain: u8,
    accesses: u8,
}

/// Whether the first of two is named rather than the second.
type Before = fn(&Candidate, &Candidate) -> bool;

/// R61.
const BEFORE: Before = |one, other| {
    if one.chain != other.chain {
        one.chain > other.chain
    } else if one.accesses != other.accesses {
        one.accesses < other.accesses
    } else {
        one.job < other.job
    }
};

/// R60 to R62: what the chooser is to answer of a sealed batch.
pub fn pick(record: &Record, field: Option<&Field>) -> Answer {
    match field {
        None => (19, 0, 0, 0),
        Some(field) => field.pick(record, LINK, BEFORE),
    }
}

// ---------------------------------------------------------------------------
// Wrong readings

/// The job with accesses of this mode made reads.
fn without(job: &Job, mode: u8) -> Job {
    let read = |(cell, own)| (cell, if own == mode { 0 } else { own });
    Job {
        accesses: job.accesses.map(read),
        ..*job
    }
}

/// Whether the sort would be 1 if the earlier one's accesses of this mode were reads.
fn linked_without(record: &Record, earlier: usize, later: usize, mode: u8) -> bool {
    sort(&without(&record.jobs[earlier], mode), &record.jobs[later]) == 1
}

/// Whether it would be 1 if both had as many accesses in use as this says.
fn linked_with(record: &Record, earlier: usize, later: usize, arity: fn(u8) -> u8) -> bool {
    let [earlier, later] = [earlier, later].map(|job| Job {
        arity: arity(record.jobs[job].arity),
        ..record.jobs[job]
    });
    sort(&earlier, &later) == 1
}

/// R22 with links of sort 2 too.
pub const ANY_SORT: Link = |record, earlier, later| sort_in(record, earlier, later) != 0;

/// R22 with maybe-writes that are none.
pub const NO_MAYBE: Link = |record, earlier, later| linked_without(record, earlier, later, 2);

/// R22 with predicted writes that are none.
pub const NO_PREDICTED: Link = |record, earlier, later| linked_without(record, earlier, later, 3);

/// R22 with settled jobs left out. Only in records to which no list of calls leads is this
/// seen: elsewhere a job that has a link to a settled one is settled itself (R21).
pub const NO_SETTLED: Link =
    |record, earlier, later| record.committed[later] == 0 && LINK(record, earlier, later);

/// R24 with sort 2 found first.
const TWO_FIRST: Link = |record, earlier, later| {
    let Found { one, two } = found(&record.jobs[earlier], &record.jobs[later]);
    one && !two
};

/// Wrong readings of R22 and R24.
const WRONG_LINKS: [(&str, Link); 10] = [
    ("links of sort 2 too", ANY_SORT),
    ("links of sort 2 alone", |r, a, b| sort_in(r, a, b) == 2),
    ("the earlier and the later exchanged", |r, a, b| {
        sort_in(r, b, a) == 1
    }),
    ("sort 2 found first", TWO_FIRST),
    ("writes not counted", |r, a, b| linked_without(r, a, b, 1)),
    ("maybe-writes not counted", NO_MAYBE),
    ("predicted writes not counted", NO_PREDICTED),
    ("the first access alone", |r, a, b| {
        linked_with(r, a, b, |_| 1)
    }),
    ("the fourth access left out", |r, a, b| {
        linked_with(r, a, b, |arity| arity.min(3))
    }),
    ("places not in use too", |r, a, b| {
        linked_with(r, a, b, |_| 4)
    }),
];

/// Wrong readings of R61.
const WRONG_TIES: [(&str, Before); 4] = [
    ("ties by the lowest number at once", |a, b| {
        (b.chain, a.job) < (a.chain, b.job)
    }),
    ("ties by the most accesses", |a, b| {
        (b.chain, b.accesses, a.job) < (a.chain, a.accesses, b.job)
    }),
    ("ties by the highest number", |a, b| {
        (b.chain, a.accesses, b.job) < (a.chain, b.accesses, a.job)
    }),
    ("the fewest accesses before the chain", |a, b| {
        (a.accesses, b.chain, a.job) < (b.accesses, a.chain, b.job)
    }),
];

/// How many wrong readings there are. Each has to answer otherwise now and then, or a
/// chooser that goes by it would not be seen.
pub const WRONG: usize = WRONG_LINKS.len() + WRONG_TIES.len();

/// What each of them is.
pub fn wrong_readings() -> [&'static str; WRONG] {
    let names = WRONG_LINKS.map(|(name, _)| name);
    let ties = WRONG_TIES.map(|(name, _)| name);
    std::array::from_fn(|place| *names.iter().chain(&ties).nth(place).unwrap())
}

/// Which of them answer otherwise than the rules.
pub fn otherwise(record: &Record, field: &Field) -> [bool; WRONG] {
    let right = pick(record, Some(field));
    let links = WRONG_LINKS.map(|(_, link)| field.pick(record, link, BEFORE));
    let ties = WRONG_TIES.map(|(_, before)| field.pick(record, LINK, before));
    std::array::from_fn(|place| links.iter().chain(&ties).nth(place) != Some(&right))
}
