//! What is met as guesses are judged (R43 to R45), by watching a batch that is worked;
//! how the former rule (`former`) would have had it, too. R numbers are the rules of
//! docs/RULES.md.

use crate::engine::{Batch, Guess, GuessState, MAYBE, REPORT_OWN, SETTLE, START_GUESS};
use crate::former::{falls, is_marked, Fell};

/// What may be met of a guess, each at most once of one guess; what is met of guesses that
/// were handed a prediction is in `predictions`. Where another height was there before the
/// job was ready, only guesses that took from none are meant: the others are handed what is
/// not there yet.
pub const MET: [&str; 23] = [
    "stands, as by the former rule",
    "stands though a job looked past has mark 1, all such with the heights that were there",
    "stands though a job looked past has mark 1, with some of the heights that were there",
    "stands though a job looked past has mark 1, with other heights that are gone again or do not matter",
    "stands though a guess that it took from has fallen by the former rule or is thrown away",
    "stands though both",
    "has fallen, by the former rule for a mark",
    "has fallen, by the former rule for a guess that it took from",
    "has fallen, by the former rule for both",
    "has fallen, one of several heights being wrong, the first",
    "has fallen, one of several heights being wrong, the last",
    "has fallen, one of four heights being wrong, the last",
    "has fallen by a height that differs in the highest bit alone",
    "has fallen by a height that differs in the sign alone",
    "was started from a fallen guess's report",
    "was started from a fallen guess's report, and stands",
    "was started from a fallen guess's report, and has fallen",
    "took from a guess that was thrown away, and stands",
    "took from a guess that was thrown away, and has fallen",
    "is not yet judged though another height is there than was handed",
    "stands though another height had been there before",
    "has fallen, another height having been there before",
    "is out when it is first judged",
];

/// The places in MET that say how a guess stands that had fallen by the former rule:
/// by a job looked past (three lines), by what it took, and by both.
pub const KEPT_NOW: std::ops::Range<usize> = 1..6;

/// What is remembered of a job.
#[derive(Clone, Default)]
struct Seen {
    /// How its guess was judged first, once it was ready.
    judged: Option<u32>,
    /// The guess took from one that had fallen.
    from_fallen: bool,
    /// Another height was there than it was handed, while the job was not ready.
    differed: bool,
    /// Where it is settled with mark 1: whether some maybe-written heights were those
    /// that were there, and whether some were not.
    wrote: [bool; 2],
}

pub struct Watch {
    cells: Vec<i32>,
    jobs: Vec<Seen>,
    /// How many guesses have met each of MET.
    pub met: [u64; MET.len()],
}

impl Watch {
    pub fn of(batch: &Batch) -> Watch {
        Watch {
            cells: batch.cells(),
            jobs: Vec::new(),
            met: [0; MET.len()],
        }
    }

    /// Looks at the batch after an accepted step. Only starts of guesses and the two
    /// steps that settle are of interest: by these alone jobs become ready.
    pub fn after(&mut self, batch: &Batch, step: u32, job: usize) {
        let held = batch.job_count() as usize;
        self.jobs.resize_with(held, Seen::default);
        match step {
            START_GUESS => {
                let guess = batch.guess(job as u32).unwrap();
                let mut sources = guess.taken_from.iter();
                let fallen = sources.any(|&k| batch.ask_guess(k as u32) == Ok(3));
                self.jobs[job].from_fallen = fallen;
                self.met[14] += u64::from(fallen);
            }
            REPORT_OWN | SETTLE => {
                self.settled(batch, job);
                let falls = falls(batch);
                (0..held).for_each(|job| self.look(batch, job, falls[job]));
            }
            _ => {}
        }
    }

    /// What a job that has just been settled wrote.
    fn settled(&mut self, batch: &Batch, job: usize) {
        let now = batch.cells();
        if is_marked(batch, job) {
            for access in &batch.job(job as u32).unwrap().accesses {
                let cell = access.cell as usize;
                if access.mode == MAYBE {
                    let changed = now[cell] != self.cells[cell];
                    self.jobs[job].wrote[usize::from(changed)] = true;
                }
            }
        }
        self.cells = now;
    }

    /// Panics unless R185 holds, and a guess that has been judged stays what it is
    /// (R44) while its job is not settled.
    fn look(&mut self, batch: &Batch, job: usize, fell: Fell) {
        let judged = batch.ask_guess(job as u32).unwrap();
        let predicts = batch.job(job as u32).unwrap().predicts();
        let seen = &mut self.jobs[job];
        match judged {
            0 => {}
            1 if predicts => {}
            1 => {
                let guess = batch.guess(job as u32).unwrap();
                let other = guess.taken_from.is_empty() && !wrong(batch, job).is_empty();
                self.met[19] += u64::from(other && !seen.differed);
                seen.differed |= other;
            }
            _ if seen.judged.is_some() => assert_eq!(seen.judged, Some(judged), "R44, job {job}"),
            _ => {
                seen.judged = Some(judged);
                if !predicts {
                    assert!(judged == 2 || fell.at_all(), "R185, job {job}");
                    self.count(batch, job, judged == 2, fell);
                }
            }
        }
    }

    /// What is met of a guess when it is first judged.
    fn count(&mut self, batch: &Batch, job: usize, stands: bool, fell: Fell) {
        let guess = batch.guess(job as u32).unwrap();
        let place = match (stands, fell.past, fell.source) {
            (true, false, false) => 0,
            (true, true, false) => self.past_marks(batch, guess),
            (true, false, true) => 4,
            (true, true, true) => 5,
            (false, true, false) => 6,
            (false, false, true) => 7,
            (false, _, _) => 8,
        };
        self.met[place] += 1;
        let places = batch.job(job as u32).unwrap().accesses.len();
        let (wrong, seen) = (wrong(batch, job), &self.jobs[job]);
        let only = |place: usize| wrong.len() == 1 && wrong[0].0 == place && places > 1;
        let by = |differ: fn(i32, i32) -> bool| wrong.iter().any(|&(_, a, b)| differ(a, b));
        let gone = guess.taken_from.iter().any(|&k| is_thrown_away(batch, k));
        for (place, did) in [
            (9, only(0)),
            (10, only(places - 1)),
            (11, places == 4 && only(3)),
            (12, by(|a, b| a ^ b == i32::MIN)),
            (13, by(|a, b| a == b.wrapping_neg())),
            (15, seen.from_fallen && stands),
            (16, seen.from_fallen && !stands),
            (17, gone && stands),
            (18, gone && !stands),
            (20, seen.differed && stands),
            (21, seen.differed && !stands),
            (22, guess.state == GuessState::Out),
        ] {
            self.met[place] += u64::from(did);
        }
    }

    /// Which of the lines 1 to 3 of MET is met by what the jobs with mark 1 wrote that
    /// the guess looked past.
    fn past_marks(&self, batch: &Batch, guess: &Guess) -> usize {
        let marked = guess.looked_past.iter().filter(|&&k| is_marked(batch, k));
        let wrote: Vec<[bool; 2]> = marked.map(|&k| self.jobs[k].wrote).collect();
        if wrote.iter().all(|&[_, changed]| !changed) {
            1
        } else if wrote.contains(&[true, true]) {
            2
        } else {
            3
        }
    }
}

fn is_thrown_away(batch: &Batch, job: usize) -> bool {
    let guess = batch.guess(job as u32);
    guess.is_some_and(|guess| guess.state == GuessState::ThrownAway)
}

/// The places where the job's guess was handed another height than is there now, with
/// both heights.
fn wrong(batch: &Batch, job: usize) -> Vec<(usize, i32, i32)> {
    let handed = batch.guess_handed(job as u32).unwrap();
    let accesses = batch.job(job as u32).unwrap().accesses.iter().enumerate();
    let both = accesses.map(|(place, access)| {
        let now = batch.ask_cell(access.cell).unwrap();
        (place, handed[place], now)
    });
    both.filter(|(_, handed, now)| handed != now).collect()
}
