//! What a run leaves in each job's row.

use crate::trace::{Event, Outcome, Settled, Trace};
use crate::words;
use sorghemi::{Committed, JobState, Step};

pub struct Rows {
    pub jobs: Vec<Row>,
    /// Steps on jobs that are not there, and the number of the refusal.
    pub strays: Vec<(usize, u8)>,
}

/// Steps are counted from 0 here.
#[derive(Default)]
pub struct Row {
    pub number: usize,
    /// The job in words.
    pub name: String,
    /// How it was settled, in short.
    pub end: String,
    /// What became of its guess, in short.
    pub guess_end: String,
    /// What came of it, in a sentence.
    pub told: String,
    /// The own run: from its start to its report, if there was one.
    pub own: Option<(usize, Option<usize>)>,
    pub guess: Option<Guess>,
    /// When it was settled, and the mark.
    pub settled: Option<(usize, bool)>,
    /// Refused steps with their numbers.
    pub refused: Vec<(usize, u8)>,
    /// Steps in which a guess below fell by a job above, so that the line between them crosses the row.
    pub crossed: Vec<usize>,
}

pub struct Guess {
    pub from: usize,
    pub reported: Option<usize>,
    /// When it fell, and which jobs wrote other heights than it was handed.
    pub fell: Option<(usize, Vec<usize>)>,
    /// When it was settled or thrown away.
    pub end: Option<usize>,
    pub fate: Fate,
}

#[derive(Clone, Copy, Debug, PartialEq, Eq)]
pub enum Fate {
    /// Its job was settled by it.
    Kept,
    /// It fell.
    Lost,
    /// Neither, up to the end.
    Open,
}

pub fn of(trace: &Trace) -> Rows {
    let jobs =
        trace.jobs.iter().enumerate().map(|(number, state)| Row { number, name: words::job(&state.job), ..Row::default() });
    let mut rows = Rows { jobs: jobs.collect(), strays: Vec::new() };
    for (step, event) in trace.events.iter().enumerate() {
        enter(&mut rows, step, event);
    }
    cross(&mut rows.jobs);
    for (row, state) in rows.jobs.iter_mut().zip(&trace.jobs) {
        row.end = end(state);
        row.guess_end = guess_end(row.guess.as_ref());
        row.told = told(row, state);
    }
    rows
}

fn enter(rows: &mut Rows, step: usize, event: &Event) {
    let Some(row) = rows.jobs.get_mut(event.line.job) else {
        if let Outcome::Refused(refusal, _) = event.outcome {
            rows.strays.push((step, refusal.number()));
        }
        return;
    };
    match &event.outcome {
        Outcome::Refused(refusal, _) => row.refused.push((step, refusal.number())),
        Outcome::Started(_) if event.line.step == Step::StartOwn => {
            row.own = Some((step, None));
            if let Some(guess) = &mut row.guess {
                guess.end = Some(step);
            }
        }
        Outcome::Started(_) => row.guess = Some(Guess { from: step, reported: None, fell: None, end: None, fate: Fate::Open }),
        Outcome::Stored(..) => {
            if let Some(guess) = &mut row.guess {
                guess.reported = Some(step);
            }
        }
        Outcome::Settled(settled) => {
            settle(row, step, event.line.step, settled);
            fall(rows, step, settled);
        }
    }
}

fn settle(row: &mut Row, step: usize, by: Step, settled: &Settled) {
    row.settled = Some((step, settled.mark));
    match (&mut row.own, &mut row.guess) {
        (Some((_, to)), _) if by == Step::ReportOwn => *to = Some(step),
        (_, Some(guess)) => {
            guess.end = Some(step);
            guess.fate = Fate::Kept;
        }
        _ => {}
    }
}

fn fall(rows: &mut Rows, step: usize, settled: &Settled) {
    for fall in &settled.falls {
        if let Some(guess) = rows.jobs.get_mut(fall.job).and_then(|row| row.guess.as_mut()) {
            guess.fell = Some((step, fall.by()));
            guess.fate = Fate::Lost;
        }
    }
}

impl Row {
    /// When its guess fell, and which job that came from; of several the first.
    pub fn fell(&self) -> Option<(usize, usize)> {
        let (step, by) = self.guess.as_ref()?.fell.as_ref()?;
        Some((*step, *by.first()?))
    }
}

fn cross(rows: &mut [Row]) {
    let falls: Vec<(usize, usize, usize)> =
        rows.iter().filter_map(|row| row.fell().map(|(step, by)| (step, by, row.number))).collect();
    for (step, by, number) in falls {
        for row in rows.iter_mut().take(number).skip(by + 1) {
            row.crossed.push(step);
        }
    }
}

fn end(state: &JobState) -> String {
    match state.committed {
        Committed::ByOwnRun => format!("own run, mark {}", u8::from(state.wrote)),
        Committed::BySpeculation => format!("guess, mark {}", u8::from(state.wrote)),
        Committed::NotYet => "not settled".to_owned(),
    }
}

fn guess_end(guess: Option<&Guess>) -> String {
    match guess.map(|guess| (guess.fate, &guess.fell)) {
        None => String::new(),
        Some((Fate::Kept, _)) => "kept".to_owned(),
        Some((_, Some((step, by)))) => format!("fell in step {} by {}", step + 1, words::jobs(by)),
        Some(_) => "open".to_owned(),
    }
}

fn told(row: &Row, state: &JobState) -> String {
    let mut text = format!("Job {}, {}: ", row.number, row.name);
    if let Some(guess) = &row.guess {
        text += &format!("guess started in step {}", guess.from + 1);
        if let Some(step) = guess.reported {
            text += &format!(", reported in step {}", step + 1);
        }
        if let Some((step, by)) = &guess.fell {
            text += &format!(", fallen in step {} by {}", step + 1, words::jobs(by));
        }
        text += "; ";
    }
    if let Some((from, _)) = row.own {
        text += &format!("own run started in step {}; ", from + 1);
    }
    text += &words::settled(state);
    if let Some((step, _)) = row.settled {
        text += &format!(", in step {}", step + 1);
    }
    text + "."
}

#[cfg(test)]
mod tests {
    use super::*;
    use crate::{plan, trace};

    #[test]
    fn a_fall_is_shown_with_the_jobs_that_wrote() {
        // The mean is guessed past two floor tests. The second is settled last, and the line comes from the first.
        let plan = |second| {
            let jobs = format!("4 1400 0 - -\n4 {second} 1 - -\n5 0 2 0 1\n");
            format!("cell value\n0 1390\n1 1390\n2 0\nkind p a b c\n{jobs}guess\n1\nstep job\n0 0\n0 1\n1 2\n2 0\n2 1\n")
        };
        for (second, by) in [("1400", "jobs 0 and 1"), ("1300", "job 0")] {
            let rows = of(&trace::of(&plan::sound(plan(second).as_bytes())).unwrap()).jobs;
            assert_eq!((rows[2].fell(), rows[1].crossed.as_slice()), (Some((4, 0)), [4].as_slice()));
            assert_eq!(rows[2].guess_end, format!("fell in step 5 by {by}"));
            assert!(rows[2].told.contains(&format!(", fallen in step 5 by {by}; ")), "{}", rows[2].told);
        }
    }
}
