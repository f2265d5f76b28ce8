//! What is met of predictions (R46), by how a record stands before a call and after it. R
//! numbers are the rules of docs/RULES.md.

use crate::lists::Call;
use crate::record::{Job, Record};

/// Of an own run of a job that predicts, when it is started.
const OWN: [&str; 4] = [
    "an own run is handed another height than was predicted",
    "an own run is handed what was predicted",
    "a guess that was handed a prediction is thrown away, out",
    "a guess that was handed a prediction is thrown away, stored",
];

/// Of a guess when it is started; but for the last two it is handed a prediction.
const STARTED: [&str; 9] = [
    "a guess is started, all cells predicted",
    "a guess is started, all cells predicted, and with mode 1 it would be 15",
    "a guess is started, some cells predicted",
    "a guess is started, some cells predicted, and with mode 1 it would be 15",
    "a guess is started, and with mode 1 it would have taken another height from a report",
    "a guess looks past a job for another cell, and not one that maybe-writes a predicted cell",
    "a guess looks past a job for another cell that maybe-writes a predicted cell too",
    "a guess takes a report from a predicted writer, another height than was predicted there",
    "a guess takes a report from a predicted writer, the height that was predicted there",
];

/// Of a guess that is not started.
const REFUSED: [&str; 5] = [
    "start guess gives 14, all cells predicted",
    "start guess gives 15, some cells predicted, for another cell",
    "start guess gives 15 at a predicted writer whose guess was never started",
    "start guess gives 15 at a predicted writer whose guess is out",
    "start guess gives 15 at a predicted writer whose guess is thrown away",
];

/// Of a report, of the own run or of the guess, with this mark.
const REPORTED: [&str; 4] = [
    "mark 1 gives 16, mode 3 alone",
    "mark 1 gives 16, modes 1 and 3 alone",
    "mark 1 is taken, modes 2 and 3",
    "mark 0 is taken, modes 2 and 3",
];

/// Of a guess that was handed a prediction, when it is first judged.
const JUDGED: [&str; 12] = [
    "stands, all cells predicted",
    "stands, some cells predicted",
    "has fallen, all cells predicted, every prediction wrong",
    "has fallen, of several predictions some right and some wrong, the other heights right",
    "has fallen, the predictions right, another height wrong",
    "has fallen, every prediction wrong, the other heights right",
    "has fallen, a prediction wrong and another height too",
    "has fallen by a prediction that differs in the highest bit alone",
    "has fallen by a prediction that differs in the sign alone",
    "has fallen by a prediction of the height that was there at the start",
    "stands by a prediction of another height than was there at the start",
    "is out when it is first judged, a prediction wrong",
];

/// Of a guess by which its job is settled; in the last two its job need not predict.
const KEPT: [&str; 6] = [
    "kept, all cells predicted",
    "kept, some cells predicted",
    "kept with mark 1, handed a prediction",
    "kept, and at its start it would have been 15 with mode 1",
    "kept, taken from a predicted writer whose guess was kept",
    "kept, taken from a predicted writer whose guess was thrown away",
];

/// What is remembered of a job's guess.
#[derive(Clone, Copy, Default)]
struct Seen {
    /// The places whose prediction was the height that was there at the start.
    there: [bool; 4],
    /// With mode 1 for mode 3 its start would have been refused with 15.
    would_wait: bool,
    judged: bool,
}

/// How often each was met, in all batches that were watched.
#[derive(Default)]
pub struct Watch {
    own: [u64; OWN.len()],
    started: [u64; STARTED.len()],
    refused: [u64; REFUSED.len()],
    reported: [u64; REPORTED.len()],
    judged: [u64; JUDGED.len()],
    kept: [u64; KEPT.len()],
    jobs: Vec<Seen>,
}

impl Watch {
    /// Another batch begins.
    pub fn begin(&mut self) {
        self.jobs.clear();
    }

    /// Looks at a call that was answered so.
    pub fn after(&mut self, before: &Record, call: &Call, refusal: u8, after: &Record) {
        self.jobs
            .resize(usize::from(after.job_count), Seen::default());
        let Call::Step {
            number, job, mark, ..
        } = *call
        else {
            return;
        };
        match (number, refusal) {
            (0, 0) => add(&mut self.own, own_met(before, after, job)),
            (1, 0) => self.start(before, after, job),
            (1, _) => add(&mut self.refused, refused_met(before, refusal, job)),
            (2 | 3, 0 | 16) => add(&mut self.reported, reported_met(before, refusal, job, mark)),
            (4, 0) => add(&mut self.kept, kept_met(after, job, self.jobs[job])),
            _ => {}
        }
        // By these alone jobs become ready.
        if (number == 2 || number == 4) && refusal == 0 {
            (0..self.jobs.len()).for_each(|job| self.judge(after, job));
        }
    }

    fn start(&mut self, before: &Record, after: &Record, job: usize) {
        let held = &after.jobs[job];
        let is_there = |place: usize| height(before, held, place) == held.predicted[place];
        let (predicted, _) = places(held);
        self.jobs[job] = Seen {
            there: [0, 1, 2, 3].map(|place| predicted.contains(&place) && is_there(place)),
            would_wait: with_mode_1(before, job).0 == 15,
            judged: false,
        };
        add(&mut self.started, started_met(before, after, job));
    }

    /// A guess that was handed a prediction, the first time that it stands or has fallen.
    fn judge(&mut self, record: &Record, job: usize) {
        let validity = record.ask_job(job).validity;
        if validity >= 2 && record.jobs[job].predicts() && !self.jobs[job].judged {
            self.jobs[job].judged = true;
            add(
                &mut self.judged,
                judged_met(record, job, self.jobs[job].there),
            );
        }
    }

    /// Each by its name, with how often it was met.
    pub fn lines(&self) -> Vec<(&'static str, u64)> {
        let groups: [(&[&'static str], &[u64]); 6] = [
            (&OWN, &self.own),
            (&STARTED, &self.started),
            (&REFUSED, &self.refused),
            (&REPORTED, &self.reported),
            (&JUDGED, &self.judged),
            (&KEPT, &self.kept),
        ];
        let lines = groups
            .into_iter()
            .flat_map(|(names, times)| names.iter().zip(times));
        lines.map(|(name, times)| (*name, *times)).collect()
    }
}

fn add<const COUNT: usize>(times: &mut [u64; COUNT], met: [bool; COUNT]) {
    times
        .iter_mut()
        .zip(met)
        .for_each(|(times, did)| *times += u64::from(did));
}

/// The places in use with mode 3, and the others in use.
fn places(job: &Job) -> (Vec<usize>, Vec<usize>) {
    (0..usize::from(job.arity)).partition(|&place| job.accesses[place].1 == 3)
}

/// What the cell of the job's place holds.
fn height(record: &Record, job: &Job, place: usize) -> i32 {
    record.cells[usize::from(job.accesses[place].0)]
}

/// The answer to start guess if the job had mode 1 for mode 3, and the record after it.
fn with_mode_1(record: &Record, job: usize) -> (u8, Record) {
    let mut record = record.clone();
    for access in &mut record.jobs[job].accesses {
        if access.1 == 3 {
            access.1 = 1;
        }
    }
    let (answer, _) = record.step(1, job, [0; 4], 0);
    (answer, record)
}

fn own_met(before: &Record, after: &Record, job: usize) -> [bool; OWN.len()] {
    let (held, handed) = (&after.jobs[job], &after.runs[job].handed);
    let (predicted, _) = places(held);
    let was_right = |place: &usize| handed[*place] == held.predicted[*place];
    let some = !predicted.is_empty();
    [
        !predicted.iter().all(was_right),
        some && predicted.iter().all(was_right),
        some && before.phase[job] == 1,
        some && before.phase[job] == 2,
    ]
}

fn started_met(before: &Record, after: &Record, job: usize) -> [bool; STARTED.len()] {
    let (held, run) = (&after.jobs[job], &after.runs[job]);
    let (predicted, others) = places(held);
    let (all, some) = (
        others.is_empty(),
        !predicted.is_empty() && !others.is_empty(),
    );
    let (answer, plain) = with_mode_1(before, job);
    let other_taken = |&place: &usize| {
        let plain = &plain.runs[job];
        plain.sources[place] > 0 && plain.handed[place] != run.handed[place]
    };
    let [left, past] = maybe_writers(after, job, &predicted);
    let took = |same: bool| {
        others
            .iter()
            .any(|&place| took_predicted(after, job, place) == Some(same))
    };
    [
        all,
        all && answer == 15,
        some,
        some && answer == 15,
        answer == 0 && predicted.iter().any(other_taken),
        left && run.bypassed != 0,
        past,
        took(false),
        took(true),
    ]
}

/// Whether there are open jobs that maybe-write a cell of these places and that the guess
/// did not look past, and whether some that it did.
fn maybe_writers(record: &Record, job: usize, places: &[usize]) -> [bool; 2] {
    let (held, run) = (&record.jobs[job], &record.runs[job]);
    let mut met = [false; 2];
    for other in (0..job).filter(|&other| record.committed[other] == 0) {
        let access = |place: usize| record.jobs[other].access_to(held.accesses[place].0);
        let maybe = |&place: &usize| matches!(access(place), Some((_, 2)));
        if places.iter().any(maybe) {
            met[(run.bypassed >> other & 1) as usize] = true;
        }
    }
    met
}

/// Where the guess took the value for the place from a predicted writer: whether that had
/// been predicted there.
fn took_predicted(record: &Record, job: usize, place: usize) -> Option<bool> {
    let run = &record.runs[job];
    let source = usize::from(run.sources[place].checked_sub(1)?);
    let (there, mode) = record.jobs[source].access_to(record.jobs[job].accesses[place].0)?;
    (mode == 3).then(|| record.jobs[source].predicted[there] == run.handed[place])
}

fn refused_met(record: &Record, refusal: u8, job: usize) -> [bool; REFUSED.len()] {
    let Some(held) = record.jobs[..usize::from(record.job_count)].get(job) else {
        return Default::default();
    };
    let (predicted, others) = places(held);
    // The last open writer of the cell, where it is a predicted one.
    let writer = |&place: &usize| {
        let access = |other: usize| record.jobs[other].access_to(held.accesses[place].0);
        let is_open = |&other: &usize| record.committed[other] == 0;
        let writes = |&other: &usize| matches!(access(other), Some((_, 1 | 3)));
        let last = (0..job).rev().filter(is_open).find(writes)?;
        matches!(access(last), Some((_, 3))).then_some(last)
    };
    let at = |phase: u8| {
        let mut writers = others.iter().filter_map(writer);
        refusal == 15 && writers.any(|other| record.phase[other] == phase)
    };
    [
        refusal == 14 && others.is_empty(),
        refusal == 15 && !predicted.is_empty(),
        at(0),
        at(1),
        at(3),
    ]
}

fn reported_met(record: &Record, refusal: u8, job: usize, mark: u8) -> [bool; REPORTED.len()] {
    let has = |mode: u8| {
        record.jobs[job]
            .used()
            .iter()
            .any(|access| access.1 == mode)
    };
    let (reads, writes, maybe, predicted) = (has(0), has(1), has(2), has(3));
    let refused = refusal == 16 && mark == 1 && predicted && !reads;
    [
        refused && !writes,
        refused && writes,
        refusal == 0 && mark == 1 && predicted,
        refusal == 0 && mark == 0 && maybe && predicted,
    ]
}

fn judged_met(record: &Record, job: usize, there: [bool; 4]) -> [bool; JUDGED.len()] {
    let (held, run) = (&record.jobs[job], &record.runs[job]);
    let (predicted, others) = places(held);
    let right = |place: &usize| height(record, held, *place) == run.handed[*place];
    let wrong = |place: &usize| !right(place);
    let by = |differ: fn(i32, i32) -> bool| {
        let differs = |&place: &usize| differ(height(record, held, place), run.handed[place]);
        predicted.iter().any(|place| wrong(place) && differs(place))
    };
    let (foretold, none) = (predicted.iter().all(right), predicted.iter().all(wrong));
    let (rest, all) = (others.iter().all(right), others.is_empty());
    [
        foretold && all,
        foretold && rest && !all,
        none && all,
        !foretold && !none && rest,
        foretold && !rest,
        none && rest && !all,
        !foretold && !rest,
        by(|now, handed| now ^ handed == i32::MIN),
        by(|now, handed| now == handed.wrapping_neg()),
        predicted.iter().any(|place| wrong(place) && there[*place]),
        foretold && rest && predicted.iter().any(|&place| !there[place]),
        !foretold && record.phase[job] == 1,
    ]
}

fn kept_met(record: &Record, job: usize, seen: Seen) -> [bool; KEPT.len()] {
    let (predicted, others) = places(&record.jobs[job]);
    let predicts = !predicted.is_empty();
    // What became of the guess of a predicted writer that it took from.
    let took = |phase: u8| {
        let from = |&place: &usize| record.runs[job].sources[place].checked_sub(1);
        let mut taken = others
            .iter()
            .filter(|&&place| took_predicted(record, job, place).is_some());
        taken.any(|place| from(place).is_some_and(|k| record.phase[usize::from(k)] == phase))
    };
    [
        others.is_empty(),
        predicts && !others.is_empty(),
        predicts && record.runs[job].wrote == 1,
        predicts && seen.would_wait,
        took(2),
        took(3),
    ]
}
