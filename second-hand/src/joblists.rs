//! Random lists of jobs to be inserted in one call (R25), in which jobs are refused at
//! chosen places; what is met as they are inserted; and wrong readings of the rule, each of
//! which has to answer otherwise now and then. R numbers are the rules of docs/RULES.md.

use crate::engine::Batch;
use crate::kinds;
use crate::lists::{plain, sound_job};
use crate::plans::Dice;
use crate::record::{Inserted, Job, JobList, Record};

/// R2: as many jobs a batch holds; and as many places a list has.
const FULL: usize = 128;

impl JobList {
    /// The list of these jobs, as far as there are places for them. In the others stands
    /// what is given for them.
    pub fn of(jobs: &[Job], mut others: impl FnMut() -> Job) -> JobList {
        let mut places = jobs.to_vec();
        places.resize_with(places.len().max(FULL), &mut others);
        places.truncate(FULL);
        JobList {
            count: jobs.len(),
            jobs: places,
        }
    }

    /// The jobs of the list that have places.
    pub fn named(&self) -> &[Job] {
        &self.jobs[..self.count.min(FULL)]
    }

    /// Inserts the list into a batch of `engine`. There a job that the count speaks of and
    /// that has no place stands as one without accesses. More than one such job would come
    /// after a refused one.
    pub fn on_batch(&self, batch: &mut Batch) -> Inserted {
        let no_place = (self.count > FULL).then(Job::default);
        let jobs: Vec<_> = self.named().iter().chain(&no_place).map(plain).collect();
        match batch.insert_list(&jobs) {
            Ok(()) => Inserted::default(),
            Err((refusal, place)) => Inserted {
                refusal: refusal as u8,
                at: place as u8,
            },
        }
    }
}

// ---------------------------------------------------------------------------
// Refused jobs

/// A job that inserting into a batch of so many cells refuses with just this number of 4 to
/// 8, if there is room for it. Often something is wrong with it that has a higher number.
pub fn refused_job(dice: &mut Dice, cells: usize, number: u8) -> Job {
    let mut job = match number {
        8 => wrong_kind(dice, cells),
        _ => sound_job(dice, cells),
    };
    if number < 8 && dice.percent(30) {
        job.kind = dice.pick(&[0, 1, 5, 7, 255]);
    }
    if number == 7 {
        job.arity = dice.range(2, 4) as u8;
        for access in &mut job.accesses {
            *access = (dice.below(cells) as u8, dice.below(4) as u8);
        }
        let [one, other] = two_of(dice, usize::from(job.arity));
        job.accesses[one].0 = job.accesses[other].0;
    }
    let place = dice.below(usize::from(job.arity));
    match number {
        4 => job.arity = dice.pick(&[0, 0, 5, 6, 255]),
        5 => job.accesses[place].0 = dice.pick(&[cells, cells, cells + 1, 64, 255]) as u8,
        6 => job.accesses[place].1 = dice.pick(&[4, 4, 5, 128, 255]),
        _ => {}
    }
    if (number == 4 || number == 5) && dice.percent(30) {
        // A mode too: 6.
        job.accesses[0].1 = 9;
    }
    job
}

/// Two places below this number, which is at least 2.
fn two_of(dice: &mut Dice, count: usize) -> [usize; 2] {
    let one = dice.below(count);
    [one, (one + 1 + dice.below(count - 1)) % count]
}

/// A job on cells apart from each other, with modes that there are, and a kind that does
/// not have these; or with no kind.
fn wrong_kind(dice: &mut Dice, cells: usize) -> Job {
    let mut job = sound_job(dice, cells);
    match dice.below(3) {
        0 => job.kind = dice.pick(&[7, 8, 128, 255]),
        1 => job.kind = dice.range(1, 6) as u8,
        _ => job.accesses[usize::from(job.arity) - 1].1 = dice.below(4) as u8,
    }
    let modes = || job.accesses[..usize::from(job.arity)].iter();
    let given: Vec<u32> = modes().map(|&(_, mode)| u32::from(mode)).collect();
    match kinds::modes(u32::from(job.kind)) {
        None if job.kind == 0 => wrong_kind(dice, cells),
        Some(wanted) if given == wanted => wrong_kind(dice, cells),
        _ => job,
    }
}

/// What stands in a place that is not to be looked at: zeros, any bytes at all, a job
/// that is refused, or a sound one.
pub fn any_place(dice: &mut Dice, cells: usize) -> Job {
    let mut byte = || dice.below(256) as u8;
    let bytes = Job {
        kind: byte(),
        arity: byte(),
        accesses: [(); 4].map(|()| (byte(), byte())),
        parameter: byte().into(),
        predicted: [(); 4].map(|()| i32::from(byte()) - 128),
    };
    match dice.below(4) {
        0 => Job::default(),
        1 => bytes,
        2 => {
            let number = dice.range(4, 8) as u8;
            refused_job(dice, cells, number)
        }
        _ => sound_job(dice, cells),
    }
}

// ---------------------------------------------------------------------------
// Lists

/// A list of 0 to 140 jobs for a batch of so many cells that has room for so many jobs,
/// often for just as many or for one less. Half of the lists have jobs that are refused: at
/// the first place, the last, the middle, where the room ends, or at any. A few say that
/// they have far more jobs.
pub fn any_list(dice: &mut Dice, cells: usize, room: usize) -> JobList {
    if dice.percent(4) {
        return long_list(dice, cells);
    }
    let count = match dice.below(12) {
        0 => 0,
        1 => 1,
        2 | 3 => room,
        4 => room + 1,
        5 => room.saturating_sub(1),
        6 => dice.pick(&[FULL - 1, FULL, FULL + 1, 140]),
        7 => dice.below(141),
        _ => dice.below(9),
    };
    let mut jobs: Vec<Job> = (0..count).map(|_| sound_job(dice, cells)).collect();
    for place in refused_places(dice, count, room) {
        let number = dice.range(4, 8) as u8;
        jobs[place] = refused_job(dice, cells, number);
    }
    JobList::of(&jobs, || any_place(dice, cells))
}

/// Where a list of so many jobs is to have refused ones.
fn refused_places(dice: &mut Dice, count: usize, room: usize) -> Vec<usize> {
    if count == 0 {
        return Vec::new();
    }
    let mut places = match dice.below(12) {
        0 => vec![0],
        1 => vec![count - 1],
        2 => vec![count / 2],
        3 => vec![dice.below(count)],
        4 => vec![(room + dice.below(3)).saturating_sub(1)],
        5 => (0..dice.range(2, 5)).map(|_| dice.below(count)).collect(),
        6 => vec![0, count / 2, count - 1],
        _ => Vec::new(),
    };
    places.retain(|&place| place < count);
    places
}

/// A list that says that it has more jobs than 140. All places hold sound jobs, or anything
/// but for some at the beginning.
fn long_list(dice: &mut Dice, cells: usize) -> JobList {
    let sound = match dice.below(4) {
        0 => dice.below(9),
        1 => dice.below(FULL),
        _ => FULL,
    };
    let jobs: Vec<Job> = (0..sound).map(|_| sound_job(dice, cells)).collect();
    let few = dice.below(9);
    let count = dice.pick(&[
        usize::MAX,
        usize::MAX - 1,
        usize::MAX / 2 + 1,
        (1 << 32) + few,
        (1 << 16) + few,
        256 + few,
        255,
    ]);
    JobList {
        count,
        ..JobList::of(&jobs, || any_place(dice, cells))
    }
}

// ---------------------------------------------------------------------------
// What is met

/// With which of 4 to 8 each of these jobs is refused by itself, 0 with none.
fn faults(record: &Record, jobs: &[Job]) -> Vec<u8> {
    let fault = |job: &Job| job.refusal(record.cell_count);
    jobs.iter().map(fault).collect()
}

fn room(record: &Record) -> usize {
    FULL - usize::from(record.job_count)
}

/// What may be met of a list that is accepted.
const ACCEPTED: [&str; 18] = [
    "no jobs",
    "one job",
    "2 to 20 jobs",
    "21 to 127 jobs",
    "128 jobs",
    "the batch is full then, and had jobs before",
    "one place is left then",
    "no jobs, the batch full",
    "before the seal",
    "after the seal",
    "with an own run out",
    "with a guess out",
    "with a guess stored, its job not settled",
    "with a fallen guess",
    "into a finished batch with jobs",
    "into a sealed batch without jobs",
    "with a predicted write",
    "what stands past the count would be refused",
];

/// Which of ACCEPTED come up, by how the batch stood before.
fn accepted_met(record: &Record, list: &JobList) -> [bool; ACCEPTED.len()] {
    let (count, held) = (list.count, usize::from(record.job_count));
    let (some, sealed) = (count > 0, record.sealed == 1);
    let left = room(record) - count;
    let any = |is: &dyn Fn(usize) -> bool| some && (0..held).any(is);
    let finished = some && record.ask_batch().finished;
    let past = &list.jobs[count..];
    [
        count == 0,
        count == 1,
        count > 1 && count <= 20,
        count > 20 && count < FULL,
        count == FULL,
        some && held > 0 && left == 0,
        some && left == 1,
        !some && left == 0,
        some && !sealed,
        some && sealed,
        any(&|job| record.running[job] == 1),
        any(&|job| record.phase[job] == 1),
        any(&|job| record.phase[job] == 2 && record.committed[job] == 0),
        any(&|job| record.ask_job(job).validity == 3),
        finished && held > 0,
        finished && held == 0,
        list.named().iter().any(Job::predicts),
        past.iter().any(|job| job.refusal(record.cell_count) != 0),
    ]
}

/// What may be met of a list that is refused.
const REFUSED: [&str; 16] = [
    "before the seal",
    "after the seal",
    "with an own run out",
    "with a guess out or stored",
    "into a finished batch",
    "4 to 8, a later job having a lower number",
    "4 to 8, a later job having a higher number",
    "4 to 8 just before the room ends, the list being too long",
    "4 to 8 before that, the list being too long",
    "4 to 8 at place 127",
    "3, that job having another fault too",
    "3, a later job having another fault",
    "3 at place 127",
    "3 at place 128",
    "3, the count being more than 140",
    "4 to 8, the count being more than 140",
];

/// Which of REFUSED come up.
fn refused_met(record: &Record, list: &JobList, answer: Inserted) -> [bool; REFUSED.len()] {
    let (at, faults) = (usize::from(answer.at), faults(record, list.named()));
    let (full, sealed) = (answer.refusal == 3, record.sealed == 1);
    let held = 0..usize::from(record.job_count);
    let fault = faults.get(at).copied().unwrap_or(0);
    let mut later = faults.iter().skip(at + 1).filter(|&&fault| fault != 0);
    let too_long = list.count > room(record);
    [
        !sealed,
        sealed,
        held.clone().any(|job| record.running[job] == 1),
        held.clone()
            .any(|job| record.phase[job] == 1 || record.phase[job] == 2),
        record.ask_batch().finished,
        !full && later.clone().any(|&other| other < fault),
        !full && later.clone().any(|&other| other > fault),
        !full && too_long && at + 1 == room(record),
        !full && too_long && at + 1 < room(record),
        !full && at == 127,
        full && fault != 0,
        full && later.next().is_some(),
        full && at == 127,
        full && at == 128,
        full && list.count > 140,
        !full && list.count > 140,
    ]
}

/// Where in its list a refused job may stand.
const PLACES: [&str; 4] = [
    "the only job",
    "the first of several",
    "between",
    "the last of several",
];

fn place_met(list: &JobList, at: u8) -> usize {
    let at = usize::from(at);
    match list.count {
        1 => 0,
        _ if at == 0 => 1,
        count if at + 1 == count => 3,
        _ => 2,
    }
}

// ---------------------------------------------------------------------------
// Wrong readings

/// A wrong reading of R25, on a record in form.
type Reading = fn(&Record, &JobList) -> Inserted;

/// R25's answer, if the list had so many jobs and the batch room for so many.
fn read_with(record: &Record, list: &JobList, count: usize, room: usize) -> Inserted {
    let faults = faults(record, &list.jobs[..count.min(FULL)]);
    let first = faults.iter().position(|&fault| fault != 0);
    match first {
        Some(place) if place < room => refused(faults[place], place),
        _ if count > room => refused(3, room),
        _ => Inserted::default(),
    }
}

fn refused(refusal: u8, place: usize) -> Inserted {
    Inserted {
        refusal,
        at: place as u8,
    }
}

/// R25's answer, which a reading may change.
fn read(record: &Record, list: &JobList) -> Inserted {
    read_with(record, list, list.count, room(record))
}

/// The number and the place of each job that is refused by itself or finds no room. Of 129
/// jobs one at least finds none.
fn all_refused(record: &Record, list: &JobList) -> Vec<(u8, usize)> {
    let (faults, room) = (faults(record, list.named()), room(record));
    let number = |place: usize| match place >= room {
        true => 3,
        false => faults[place],
    };
    let places = 0..list.count.min(FULL + 1);
    let numbered = places.map(|place| (number(place), place));
    numbered.filter(|&(number, _)| number != 0).collect()
}

const READINGS: [(&str, Reading); 17] = [
    ("the last refused job", |record, list| {
        let last = all_refused(record, list).last().copied();
        last.map_or(Inserted::default(), |(number, place)| {
            refused(number, place)
        })
    }),
    ("the lowest number of all", |record, list| {
        let lowest = all_refused(record, list).into_iter().min();
        lowest.map_or(Inserted::default(), |(number, place)| {
            refused(number, place)
        })
    }),
    (
        "3 before all, where the list is too long",
        |record, list| match list.count > room(record) {
            true => refused(3, room(record)),
            false => read(record, list),
        },
    ),
    ("3 after all others", |record, list| {
        match read_with(record, list, list.count, FULL) {
            Inserted { refusal: 0 | 3, .. } => read(record, list),
            other => other,
        }
    }),
    ("3 at place 0", |record, list| match read(record, list) {
        Inserted { refusal: 3, .. } => refused(3, 0),
        other => other,
    }),
    ("3 at the last place", |record, list| {
        match read(record, list) {
            Inserted { refusal: 3, .. } => refused(3, list.count - 1),
            other => other,
        }
    }),
    (
        "3 only where the batch was full before",
        |record, list| match room(record) {
            0 => read(record, list),
            _ => read_with(record, list, list.count, usize::MAX),
        },
    ),
    ("places counted from 1", |record, list| {
        match read(record, list) {
            Inserted { refusal: 0, .. } => Inserted::default(),
            Inserted { refusal, at } => refused(refusal, usize::from(at) + 1),
        }
    }),
    (
        "places counted as jobs of the batch",
        |record, list| match read(record, list) {
            Inserted { refusal: 0, .. } => Inserted::default(),
            Inserted { refusal, at } => refused(refusal, usize::from(at + record.job_count)),
        },
    ),
    ("the place not told", |record, list| {
        refused(read(record, list).refusal, 0)
    }),
    ("the first job left out", |record, list| {
        let jobs = list.jobs.iter().skip(1).chain(&list.jobs[..1]);
        let rest = JobList {
            count: list.count.saturating_sub(1),
            jobs: jobs.copied().collect(),
        };
        match read(record, &rest) {
            Inserted { refusal: 0, .. } => Inserted::default(),
            Inserted { refusal, at } => refused(refusal, usize::from(at) + 1),
        }
    }),
    ("the last job left out", |record, list| {
        read_with(record, list, list.count.saturating_sub(1), room(record))
    }),
    ("all places, whatever the count", |record, list| {
        read_with(record, list, FULL, room(record))
    }),
    ("no more jobs than there are places", |record, list| {
        read_with(record, list, list.count.min(FULL), room(record))
    }),
    ("the count cut to 8 bits", |record, list| {
        read_with(record, list, list.count % (1 << 8), room(record))
    }),
    ("the count cut to 32 bits", |record, list| {
        read_with(record, list, list.count % (1 << 32), room(record))
    }),
    (
        "a count with its highest bit taken for none",
        |record, list| {
            let count = (list.count as isize).max(0) as usize;
            read_with(record, list, count, room(record))
        },
    ),
];

/// How often each was met.
#[derive(Default)]
pub struct Watch {
    pub lists: u64,
    accepted: [u64; ACCEPTED.len()],
    refused: [u64; REFUSED.len()],
    /// By refusal, 3 to 8, and place.
    places: [[u64; PLACES.len()]; 6],
    otherwise: [u64; READINGS.len()],
}

fn add(times: &mut [u64], met: &[bool]) {
    times
        .iter_mut()
        .zip(met)
        .for_each(|(times, &did)| *times += u64::from(did));
}

impl Watch {
    /// A list was inserted into a batch that stood so, in form, and this was answered.
    pub fn inserted(&mut self, before: &Record, list: &JobList, answer: Inserted) {
        self.lists += 1;
        if answer.refusal == 0 {
            add(&mut self.accepted, &accepted_met(before, list));
        } else {
            add(&mut self.refused, &refused_met(before, list, answer));
            let place = place_met(list, answer.at);
            self.places[usize::from(answer.refusal) - 3][place] += 1;
        }
        let otherwise = READINGS.map(|(_, reading)| reading(before, list) != answer);
        add(&mut self.otherwise, &otherwise);
    }

    /// What was met, each line with how often. None may stay at 0.
    pub fn lines(&self) -> Vec<(String, u64)> {
        let line = |part: &str, name: &&str, times: &u64| (format!("{part}: {name}"), *times);
        let each = |part: &'static str, names: &[&str], times: &[u64]| {
            let named = names.iter().zip(times);
            named
                .map(|(name, times)| line(part, name, times))
                .collect::<Vec<_>>()
        };
        let mut lines = each("accepted", &ACCEPTED, &self.accepted);
        lines.extend(each("refused", &REFUSED, &self.refused));
        for (number, times) in (3..).zip(&self.places) {
            let named = each("", &PLACES, times);
            let with =
                |(name, times): (String, u64)| (format!("refused with {number}{name}"), times);
            lines.extend(named.into_iter().map(with));
        }
        let names = READINGS.map(|(name, _)| name);
        lines.extend(each("read otherwise", &names, &self.otherwise));
        lines
    }
}
