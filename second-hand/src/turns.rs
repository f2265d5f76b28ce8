//! Random turns (R64 to R66), with reports right and wrong and limits of any size; what is
//! met as they are made; and wrong readings of the rules, each of which has to answer
//! otherwise now and then. R numbers are the rules of docs/RULES.md.

use crate::engine::{Batch, Report};
use crate::lists::{Call, Manner};
use crate::plans::Dice;
use crate::record::{Record, Taken, Turned, PLACES};

/// The lent list.
pub type List = [Taken; PLACES];

/// R64: the number of a turn without a report.
pub const NO_REPORT: u8 = 255;

/// What a turn is given, but for the list.
#[derive(Clone, Copy, Debug)]
pub struct Turn {
    pub number: u8,
    pub job: usize,
    pub values: [i32; 4],
    pub mark: u8,
    pub limit: usize,
}

impl Turn {
    /// Without a report. What stands in its place is what no report has.
    pub fn without(limit: usize) -> Turn {
        Turn {
            number: NO_REPORT,
            job: usize::MAX,
            values: [-1; 4],
            mark: 99,
            limit,
        }
    }

    /// The report as a call of its own (R161).
    pub fn report(&self) -> Option<Call> {
        let Turn {
            number,
            job,
            values,
            mark,
            ..
        } = *self;
        let step = Call::Step {
            number,
            job,
            values,
            mark,
        };
        (number == 2 || number == 3).then_some(step)
    }

    /// Makes the turn on a record.
    pub fn on_record(&self, record: &mut Record, list: &mut List) -> Turned {
        let Turn {
            number,
            job,
            values,
            mark,
            limit,
        } = *self;
        record.turn(number, job, values, mark, limit, list)
    }

    /// Makes the turn on a batch of `engine`, where it is given no list: this one becomes
    /// what it tells.
    pub fn on_batch(&self, batch: &mut Batch, list: &mut List) -> Turned {
        // There a job's number has 32 bits; no job has one that is cut short.
        let job = u32::try_from(self.job).unwrap_or(u32::MAX);
        let report = Report {
            values: self.values,
            mark: self.mark.into(),
        };
        match batch.turn(self.number.into(), job, report, self.limit) {
            Err(refusal) => Turned {
                refusal: refusal as u8,
                count: 0,
            },
            Ok(taken) => {
                *list = List::default();
                for (place, taken) in list.iter_mut().zip(&taken) {
                    *place = Taken {
                        step: taken.step as u8,
                        job: taken.job as u8,
                        handed: taken.handed,
                    };
                }
                Turned {
                    refusal: 0,
                    count: taken.len() as u8,
                }
            }
        }
    }
}

impl Taken {
    /// The step as a call of its own (R161).
    pub fn step_call(&self) -> Call {
        Call::Step {
            number: self.step,
            job: self.job.into(),
            values: [0; 4],
            mark: 0,
        }
    }
}

// ---------------------------------------------------------------------------
// Random turns

/// A list that is lent: anything stands in it, sometimes what looks like steps.
pub fn any_lent(dice: &mut Dice) -> List {
    let (steps, jobs) = dice.pick(&[(5, 4), (256, 256)]);
    [(); PLACES].map(|()| Taken {
        step: dice.below(steps) as u8,
        job: dice.below(jobs) as u8,
        handed: [(); 4].map(|()| dice.number() as i32),
    })
}

/// A limit: mostly about the edges, sometimes far too large.
pub fn any_limit(dice: &mut Dice) -> usize {
    let few = dice.below(9);
    let large = [
        255,
        256 + few,
        (1 << 16) + few,
        (1 << 31) + few,
        (1 << 32) + few,
        usize::MAX / 2 + 1 + few,
        usize::MAX - few,
        usize::MAX,
    ];
    match dice.below(8) {
        0 => dice.pick(&large),
        1 => dice.below(20),
        2 => dice.pick(&[15, 15, 16, 16, 17]),
        _ => dice.pick(&[0, 0, 1, 1, 1, 2, 2, 3, 8]),
    }
}

/// A number that no job has, or only where its high bits are cut off.
fn no_job(dice: &mut Dice, record: &Record) -> usize {
    let (held, few) = (usize::from(record.job_count), dice.below(5));
    let near = [held, held, held + 1, 127, 128, 255];
    let far = [256 + few, (1 << 32) + few, usize::MAX - few, usize::MAX];
    match dice.percent(50) {
        true => dice.pick(&near),
        false => dice.pick(&far),
    }
}

/// A turn for a record, in form or not: mostly with the report of a run that is out, of
/// which is told what is given; sometimes of another job, with another mark, or with
/// a number that there is not. With patience no own run is reported while a guess is out
/// or can be started.
pub fn any_turn(
    dice: &mut Dice,
    record: &Record,
    patient: bool,
    report: impl Fn(&mut Dice, usize) -> Report,
) -> Turn {
    let held = usize::from(record.job_count.min(128));
    let own = (0..held).filter(|&job| record.running[job] == 1);
    let guess = (0..held).filter(|&job| record.phase[job] == 1);
    let mut out: Vec<(u8, usize)> = guess.map(|job| (3, job)).collect();
    if !patient || (out.is_empty() && record.choose().0 != 0) {
        out.extend(own.map(|job| (2, job)));
    }
    let any_byte = dice.below(256) as u8;
    let (number, job) = match dice.below(20) {
        0 => {
            let number = dice.pick(&[0, 1, 4, 5, 6, 128, 254, any_byte]);
            (number, dice.below(held + 1))
        }
        1 => (dice.pick(&[2, 3]), no_job(dice, record)),
        2 => (dice.pick(&[2, 3]), dice.below(held + 1)),
        3 => (NO_REPORT, no_job(dice, record)),
        4 | 5 => (NO_REPORT, dice.below(held + 1)),
        // Nothing is out: nothing to report.
        _ if out.is_empty() && dice.percent(80) => (NO_REPORT, dice.below(held + 1)),
        _ if out.is_empty() => (dice.pick(&[2, 3]), dice.below(held + 1)),
        _ => dice.pick(&out),
    };
    let Report { values, mark } = report(dice, job);
    let mark = match dice.below(16) {
        0 => dice.pick(&[2, 3, 255, any_byte]),
        1 => 1,
        _ => mark as u8,
    };
    // Where there are many jobs, more often such that lists become full.
    let limit = match held >= 14 && dice.percent(30) {
        true => dice.pick(&[15, 16, 17, 40, usize::MAX]),
        false => any_limit(dice),
    };
    Turn {
        number,
        job,
        values,
        mark,
        limit,
    }
}

impl Manner {
    /// A turn for a batch that is worked in this manner.
    pub fn turn(&self, dice: &mut Dice, record: &Record) -> Turn {
        let patient = dice.percent(self.patience);
        any_turn(dice, record, patient, |dice, job| {
            self.report(dice, record, job)
        })
    }

    /// As many calls as most such batches need, inserts and turns counted.
    pub fn turns(&self) -> usize {
        self.calls().min(self.jobs().len() + 150)
    }

    /// Of a hundred calls so many are turns, in this list.
    pub fn share_of_turns(&self, dice: &mut Dice) -> usize {
        match self.patience {
            0 => dice.pick(&[10, 50, 95]),
            _ => 98,
        }
    }

    /// A manner for turns: some of each.
    pub fn turning(dice: &mut Dice) -> Manner {
        match dice.below(8) {
            0 => Manner::any(dice),
            1 | 2 => Manner::few_heights(dice),
            3 => Manner::picking(dice),
            4 => Manner::predicting(dice),
            5 => Manner::rows(dice),
            _ => Manner::wide(dice),
        }
    }
}

// ---------------------------------------------------------------------------
// What is met

/// A turn that was made: how the record stood, in form, what was lent, and what came of it.
#[derive(Clone, Copy)]
pub struct Made<'a> {
    pub before: &'a Record,
    pub turn: &'a Turn,
    pub lent: &'a List,
    pub turned: Turned,
    pub list: &'a List,
    pub after: &'a Record,
}

impl Made<'_> {
    /// The steps that were taken.
    pub fn taken(&self) -> &[Taken] {
        &self.list[..usize::from(self.turned.count)]
    }

    /// What follows from R60 and R64 of the steps of any turn: 4 comes before 0 and 0 before
    /// 1, for neither start makes way for a step before it; so no job stands there twice.
    /// R65: where the limit did not end it, no such step is allowed any more.
    pub fn holds(&self) {
        let order = |taken: &Taken| [1, 2, 9, 9, 0][usize::from(taken.step)];
        let ranks: Vec<i32> = self.taken().iter().map(order).collect();
        assert!(
            ranks.windows(2).all(|two| two[0] <= two[1]),
            "R60: {ranks:?}"
        );
        let mut jobs: Vec<u8> = self.taken().iter().map(|taken| taken.job).collect();
        jobs.sort();
        assert!(jobs.windows(2).all(|two| two[0] < two[1]), "{jobs:?}");
        let count = self.taken().len();
        if self.turned.refusal == 0 && count < self.turn.limit && count < PLACES {
            let held = usize::from(self.after.job_count);
            let allowed = |step, job| self.after.clone().step(step, job, [0; 4], 0).0 == 0;
            let any = |step| (0..held).any(|job| allowed(step, job));
            assert!(![4, 0, 1].into_iter().any(any), "R65");
        }
    }
}

/// What may be met of a turn that is accepted.
const ACCEPTED: [&str; 46] = [
    "with an own run's report",
    "with a guess's report",
    "without a report",
    "limit 0, with a report",
    "limit 0, without one, though a step is allowed",
    "no step though the limit allows one, with a report",
    "no step though the limit allows one, without one",
    "as many steps as the limit says, fewer than 16, and more are allowed",
    "as many steps as the limit says, fewer than 16, and no more are allowed",
    "fewer steps than the limit says, at least one",
    "limit 1, one step",
    "limit 15, 15 steps",
    "limit 16, 16 steps",
    "limit above 16, 16 steps, and more are allowed",
    "limit above 16, 16 steps, and no more are allowed",
    "limit above 255, some steps",
    "limit above 32 bits, some steps",
    "without a report, the job's number one that no job has",
    "without a report, the mark one that is refused",
    "a step 4 in the list",
    "a step 0 in the list",
    "a step 1 in the list",
    "steps 4 and 0",
    "steps 0 and 1",
    "steps 4, 0 and 1",
    "two steps 4 or more",
    "16 steps 4",
    "16 starts",
    "three starts or more",
    "an own run's report, and then a step 4",
    "an own run's report, and then a step 4 that was not allowed before it",
    "a guess's report, and then step 4 of that job",
    "a guess's report, and then start own of that job: it had fallen",
    "a guess's report, and then a guess that takes from it",
    "an own run's report, and then start own of a job whose guess it made fall",
    "start own of a job that a step 4 of the same list made ready",
    "a guess that starts from a height that a step 4 of the same list wrote",
    "a step 4 after one that made its job ready",
    "a prediction handed out",
    "values in all four places handed out",
    "job 64 or a later one",
    "job 127",
    "the batch is finished by it",
    "the batch was finished before",
    "no jobs",
    "guessing off, a step 0",
];

/// Which of ACCEPTED come up.
fn accepted_met(made: &Made) -> [bool; ACCEPTED.len()] {
    let Made {
        before,
        turn,
        after,
        ..
    } = *made;
    let (taken, count, limit) = (made.taken(), made.taken().len(), turn.limit);
    let (own, guess) = (turn.number == 2, turn.number == 3);
    let none = turn.number == NO_REPORT;
    let more = after.choose().0 == 0;
    let steps = |number: u8| taken.iter().filter(|taken| taken.step == number).count();
    let [own_starts, guesses, settles] = [0, 1, 4].map(|number| steps(number) > 0);
    let of = |number: u8, job: usize| {
        let is = |taken: &Taken| taken.step == number && usize::from(taken.job) == job;
        taken.iter().any(is)
    };
    // As the record stood when the report was in.
    let mut reported = before.clone();
    if let Some(report) = turn.report() {
        report.on_record(&mut reported);
    }
    let allowed = |step: u8, job: u8| reported.clone().step(step, job.into(), [0; 4], 0).0 == 0;
    let was = |step: u8, job: u8| before.clone().step(step, job.into(), [0; 4], 0).0 == 0;
    let newly = |step: u8| {
        taken
            .iter()
            .any(|t| t.step == step && !allowed(step, t.job))
    };
    let by_report = |step: u8| {
        let is = |t: &Taken| t.step == step && allowed(step, t.job) && !was(step, t.job);
        taken.iter().any(is)
    };
    let fell = |t: &Taken| {
        let judged = |record: &Record| record.ask_job(t.job.into()).validity;
        t.step == 0 && judged(before) != 3 && judged(&reported) == 3
    };
    let source = |t: &Taken| {
        let sources = after.runs[usize::from(t.job)].sources;
        t.step == 1 && sources.iter().any(|&s| usize::from(s) == turn.job + 1)
    };
    let written = |t: &Taken| {
        let job = &after.jobs[usize::from(t.job)];
        let run = &after.runs[usize::from(t.job)];
        let mut used = job.used().iter().enumerate();
        t.step == 1
            && used.any(|(place, &(cell, mode))| {
                let cell = usize::from(cell);
                let changed = reported.cells[cell] != after.cells[cell];
                mode != 3 && run.sources[place] == 0 && changed
            })
    };
    let four = |t: &Taken| t.step != 4 && after.jobs[usize::from(t.job)].arity == 4;
    let predicts = |t: &Taken| t.step == 1 && after.jobs[usize::from(t.job)].predicts();
    let held = usize::from(before.job_count);
    let finished = |record: &Record| record.ask_batch().finished;
    [
        own,
        guess,
        none,
        limit == 0 && !none,
        limit == 0 && none && more,
        count == 0 && limit > 0 && !none,
        count == 0 && limit > 0 && none,
        count == limit && count > 0 && count < PLACES && more,
        count == limit && count > 0 && count < PLACES && !more,
        count > 0 && count < limit && count < PLACES,
        count == 1 && limit == 1,
        count == 15 && limit == 15,
        count == 16 && limit == 16,
        count == 16 && limit > 16 && more,
        count == 16 && limit > 16 && !more,
        count > 0 && limit > 255,
        count > 0 && limit > u32::MAX as usize,
        none && turn.job >= held,
        none && turn.mark > 1,
        settles,
        own_starts,
        guesses,
        settles && own_starts,
        own_starts && guesses,
        settles && own_starts && guesses,
        steps(4) >= 2,
        steps(4) == 16,
        steps(0) + steps(1) == 16,
        steps(0) + steps(1) >= 3,
        own && settles,
        own && by_report(4),
        guess && of(4, turn.job),
        guess && of(0, turn.job),
        guess && taken.iter().any(source),
        own && taken.iter().any(fell),
        newly(0),
        taken.iter().any(written),
        newly(4),
        taken.iter().any(predicts),
        taken.iter().any(four),
        taken.iter().any(|taken| taken.job >= 64),
        taken.iter().any(|taken| taken.job == 127),
        !finished(before) && finished(after),
        finished(before),
        held == 0,
        own_starts && before.speculating == 0,
    ]
}

/// What may be met of a turn that is refused. (32 is of records out of form.)
const REFUSED: [&str; 16] = [
    "an own run's report, with 10",
    "an own run's report, with 11",
    "an own run's report, with 13",
    "an own run's report, with 16",
    "a guess's report, with 10",
    "a guess's report, with 11",
    "a guess's report, with 13",
    "a guess's report, with 16",
    "no report, with 10",
    "no report, with 10, limit 0",
    "21, the number being one of a step",
    "21, the number being none",
    "21 before the seal",
    "21, limit 0",
    "with a step 4, 0 or 1 allowed",
    "an own run's report, with 13, the guess being out",
];

/// Which of REFUSED come up.
fn refused_met(made: &Made) -> [bool; REFUSED.len()] {
    let Made {
        before,
        turn,
        turned,
        ..
    } = *made;
    let with = |number: u8, refusal: u8| turn.number == number && turned.refusal == refusal;
    let bad = turned.refusal == 21;
    let held = turn.job < usize::from(before.job_count);
    [
        with(2, 10),
        with(2, 11),
        with(2, 13),
        with(2, 16),
        with(3, 10),
        with(3, 11),
        with(3, 13),
        with(3, 16),
        with(NO_REPORT, 10),
        with(NO_REPORT, 10) && turn.limit == 0,
        bad && turn.number <= 4,
        bad && turn.number > 4,
        bad && before.sealed == 0,
        bad && turn.limit == 0,
        before.choose().0 == 0,
        with(2, 13) && held && before.phase[turn.job.min(127)] == 1,
    ]
}

// ---------------------------------------------------------------------------
// Wrong readings

#[derive(Clone, Copy, PartialEq, Eq, Debug)]
enum Wrong {
    // Of the limit.
    ZeroIsNone,
    AtLeastOne,
    OneMore,
    OneLess,
    AtMost15,
    PastTheList,
    CountsTheReport,
    CountsStarts,
    Cut8,
    Cut32,
    Signed,
    Above16Refused,
    // Of the steps.
    FirstNumberOnly,
    AllowedAtFirst,
    OneStart,
    NoGuesses,
    NoSettling,
    ReportLast,
    // Of what is told.
    SettlingNotListed,
    SettlingStored,
    SettlingHanded,
    GuessesZeros,
    PlacesKept,
    Reversed,
    FromTheLast,
    JobsFromOne,
    ReportCounted,
    ListOnRefusal,
    // Of refusals.
    NoneIsRefused,
    EndIsRefused,
    UnsealedAccepted,
    UnsealedAcceptedLimit0,
    LooksAtJob,
    LooksAtMark,
    LowestNumber,
    AnyStep,
    OthersAreNone,
    RefusedReportPassed,
    ReportUndone,
    EitherReport,
    JobCut8,
    JobCut32,
}

use Wrong::*;

const WRONG: [(&str, Wrong); 42] = [
    ("limit 0 as no limit", ZeroIsNone),
    ("at least one step", AtLeastOne),
    ("one step more than the limit", OneMore),
    ("one step less", OneLess),
    ("15 steps at most", AtMost15),
    ("steps that find no place in the list", PastTheList),
    ("the report counts for the limit", CountsTheReport),
    ("starts alone count for the limit", CountsStarts),
    ("the limit cut to 8 bits", Cut8),
    ("the limit cut to 32 bits", Cut32),
    ("a limit with its highest bit taken for 0", Signed),
    ("a limit above 16 refused", Above16Refused),
    ("steps of the first number alone", FirstNumberOnly),
    ("steps alone that the report allowed", AllowedAtFirst),
    ("nothing after the first start", OneStart),
    ("no guesses", NoGuesses),
    ("no settling", NoSettling),
    ("the report after the steps", ReportLast),
    ("steps 4 not listed", SettlingNotListed),
    ("steps 4 with what is stored", SettlingStored),
    ("steps 4 with what was handed", SettlingHanded),
    ("steps 1 with zeros", GuessesZeros),
    ("the places after the steps kept", PlacesKept),
    ("the last step first", Reversed),
    ("the steps at the end of the list", FromTheLast),
    ("jobs counted from 1", JobsFromOne),
    ("the report counted", ReportCounted),
    ("zeros in the list of a refused turn", ListOnRefusal),
    ("19 where no step is taken", NoneIsRefused),
    ("19 where the chooser ends it", EndIsRefused),
    ("no report, accepted before the seal", UnsealedAccepted),
    ("the same with limit 0 alone", UnsealedAcceptedLimit0),
    ("no report, and yet 11", LooksAtJob),
    ("no report, and yet 16", LooksAtMark),
    ("10 before 21", LowestNumber),
    ("any step in the report's place", AnyStep),
    ("any other number as no report", OthersAreNone),
    ("a refused report passed over", RefusedReportPassed),
    ("the report undone where no step follows", ReportUndone),
    ("either report, as the run is out", EitherReport),
    ("the job cut to 8 bits", JobCut8),
    ("the job cut to 32 bits", JobCut32),
];

/// What a reading makes of a turn.
type Outcome = (Turned, List, Record);

/// R64 to R66 on a record in form, read wrongly in one thing.
fn read(wrong: Wrong, made: &Made) -> Outcome {
    let (mut record, mut list) = (made.before.clone(), *made.lent);
    let Turn {
        mut number,
        mut job,
        values,
        mark,
        limit,
    } = *made.turn;
    let is = |one: Wrong| wrong == one;
    let refused = |refusal: u8| {
        let list = match is(ListOnRefusal) {
            true => List::default(),
            false => *made.lent,
        };
        (Turned { refusal, count: 0 }, list, made.before.clone())
    };
    let (unsealed, held) = (record.sealed == 0, usize::from(record.job_count));
    match wrong {
        JobCut8 => job %= 1 << 8,
        JobCut32 => job %= 1 << 32,
        EitherReport if (number == 2 || number == 3) && job < held => {
            number = if record.running[job] == 1 { 2 } else { 3 };
        }
        _ => {}
    }
    let reports = number == 2 || number == 3 || (is(AnyStep) && number <= 4);
    let refusal = match number {
        _ if is(Above16Refused) && limit > 16 => 21,
        _ if reports && is(ReportLast) => record.clone().step(number, job, values, mark).0,
        _ if reports => record.step(number, job, values, mark).0,
        255 if unsealed && is(UnsealedAccepted) => 0,
        255 if unsealed && is(UnsealedAcceptedLimit0) && limit == 0 => 0,
        255 if unsealed => 10,
        255 if is(LooksAtJob) && job >= held => 11,
        255 if is(LooksAtMark) && mark > 1 => 16,
        255 => 0,
        _ if is(OthersAreNone) => 10 * u8::from(unsealed),
        _ if is(LowestNumber) && unsealed => 10,
        _ => 21,
    };
    let passed = is(RefusedReportPassed) && reports && !unsealed;
    if refusal != 0 && !passed {
        return refused(refusal);
    }
    let limit = match wrong {
        ZeroIsNone if limit == 0 => 16,
        AtLeastOne => limit.max(1),
        OneMore => limit.saturating_add(1),
        OneLess => limit.saturating_sub(1),
        AtMost15 => limit.min(15),
        CountsTheReport if reports => limit.saturating_sub(1),
        Cut8 => limit % (1 << 8),
        Cut32 => limit % (1 << 32),
        Signed => (limit as isize).max(0) as usize,
        _ => limit,
    };
    let most = if is(PastTheList) { 200 } else { 16 };
    let at_first = record.clone();
    let (mut taken, mut counted, mut ended) = (Vec::<Taken>::new(), 0, false);
    while counted < limit && taken.len() < most {
        let (refusal, step, job, _) = record.choose();
        let first = taken.first().map_or(step, |taken| taken.step);
        let allowed = || at_first.clone().step(step, job.into(), [0; 4], 0).0 == 0;
        ended = match wrong {
            _ if refusal != 0 => true,
            FirstNumberOnly => step != first,
            AllowedAtFirst => !allowed(),
            OneStart => taken.iter().any(|taken| taken.step != 4),
            NoGuesses => step == 1,
            NoSettling => step == 4,
            _ => false,
        };
        if ended {
            break;
        }
        let run = record.runs[usize::from(job)];
        let (_, handed) = record.step(step, job.into(), [0; 4], 0);
        let handed = match (wrong, step) {
            (SettlingStored, 4) => run.reported,
            (SettlingHanded, 4) => run.handed,
            (GuessesZeros, 1) => [0; 4],
            _ => handed,
        };
        counted += usize::from(!(is(CountsStarts) && step == 4));
        taken.push(Taken {
            step,
            job: job + u8::from(is(JobsFromOne)),
            handed,
        });
    }
    if ended && (is(EndIsRefused) || (is(NoneIsRefused) && taken.is_empty())) {
        return refused(19);
    }
    match wrong {
        ReportLast if reports => {
            record.step(number, job, values, mark);
        }
        ReportUndone if taken.is_empty() => record = made.before.clone(),
        SettlingNotListed => taken.retain(|taken| taken.step != 4),
        Reversed => taken.reverse(),
        _ => {}
    }
    if !is(PlacesKept) {
        list = List::default();
    }
    let from = match is(FromTheLast) {
        true => PLACES.saturating_sub(taken.len()),
        false => 0,
    };
    let places = list[from..].iter_mut();
    places
        .zip(&taken)
        .for_each(|(place, taken)| *place = *taken);
    let more = u8::from(is(ReportCounted) && reports);
    let count = taken.len() as u8 + more;
    (Turned { refusal: 0, count }, list, record)
}

/// How often each was met.
pub struct Watch {
    pub turns: u64,
    pub steps: u64,
    accepted: [u64; ACCEPTED.len()],
    refused: [u64; REFUSED.len()],
    /// Accepted turns by how many steps they took.
    counts: [u64; PLACES + 1],
    /// Turns that the readings were tried on, and those that each answers otherwise.
    pub read: u64,
    otherwise: [u64; WRONG.len()],
}

impl Default for Watch {
    fn default() -> Watch {
        Watch {
            turns: 0,
            steps: 0,
            accepted: [0; ACCEPTED.len()],
            refused: [0; REFUSED.len()],
            counts: [0; PLACES + 1],
            read: 0,
            otherwise: [0; WRONG.len()],
        }
    }
}

fn add(times: &mut [u64], met: &[bool]) {
    times
        .iter_mut()
        .zip(met)
        .for_each(|(times, &did)| *times += u64::from(did));
}

impl Watch {
    /// A turn was made on a record in form. The wrong readings are tried where that does not
    /// take long.
    pub fn made(&mut self, made: &Made, try_readings: bool) {
        made.holds();
        self.turns += 1;
        self.steps += u64::from(made.turned.count);
        if made.turned.refusal == 0 {
            add(&mut self.accepted, &accepted_met(made));
            self.counts[usize::from(made.turned.count)] += 1;
        } else {
            add(&mut self.refused, &refused_met(made));
        }
        if try_readings {
            self.read += 1;
            let right = (made.turned, made.list, made.after);
            let otherwise = WRONG.map(|(_, wrong)| {
                let (turned, list, after) = read(wrong, made);
                (turned, &list, &after) != right
            });
            add(&mut self.otherwise, &otherwise);
        }
    }

    /// What was met, each line with how often. None may stay at 0.
    pub fn lines(&self) -> Vec<(String, u64)> {
        let each = |part: &str, names: &[&str], times: &[u64]| {
            let named = names.iter().zip(times);
            let line = |(name, times): (&&str, &u64)| (format!("{part}: {name}"), *times);
            named.map(line).collect::<Vec<_>>()
        };
        let mut lines = each("accepted", &ACCEPTED, &self.accepted);
        let counts = self.counts.iter().enumerate();
        lines.extend(counts.map(|(count, times)| (format!("accepted: {count} steps"), *times)));
        lines.extend(each("refused", &REFUSED, &self.refused));
        let names = WRONG.map(|(name, _)| name);
        lines.extend(each("read otherwise", &names, &self.otherwise));
        lines
    }
}
