//! A sound plan's steps, tried one by one on a batch, and what came of each. What it tells is held against the library's
//! answer to the whole plan before anyone sees it.

use crate::dependence::{self, Dependences};
use crate::plan::{self, Contradiction, Plan, Sound, StepLine};
use crate::why::{self, Why};
use sorghemi::{Batch, Committed, JobState, Phase, Refusal, Report, Step, Tally, Validity};
use std::fmt::Write;

/// The whole run of a plan.
pub struct Trace {
    pub events: Vec<Event>,
    /// How each job stands at the end.
    pub jobs: Vec<JobState>,
    /// The heights at the end.
    pub heights: Vec<i32>,
    /// What became of the guesses.
    pub tally: Tally,
    pub dependences: Dependences,
}

/// A step that was tried.
pub struct Event {
    pub line: StepLine,
    pub outcome: Outcome,
}

impl Event {
    pub fn is_refused(&self) -> bool {
        matches!(self.outcome, Outcome::Refused(..))
    }
}

pub enum Outcome {
    /// An own run or a guess was started.
    Started(Started),
    /// The report on a guess was stored, with its mark: how the job stands then.
    Stored(JobState, bool),
    /// The job was settled, by its own run or by its guess.
    Settled(Settled),
    Refused(Refusal, Why),
}

/// A cell and a height.
#[derive(Clone, Copy)]
pub struct Value {
    pub cell: u8,
    pub height: i32,
}

pub struct Started {
    pub handed: Vec<Value>,
    /// The jobs that a guess looked past.
    pub past: Vec<usize>,
    /// The cells whose values a guess took from another, and whose guess that is.
    pub took: Vec<(u8, usize)>,
    /// Whether the job's guess was thrown away for it.
    pub threw_away: bool,
}

pub struct Settled {
    pub mark: bool,
    /// The cells whose heights are other ones now.
    pub changes: Vec<Change>,
    /// The guesses that have fallen now that their jobs are ready, in the order of their jobs.
    pub falls: Vec<Fall>,
    /// The jobs that are ready now, and whose guesses stand.
    pub stand: Vec<usize>,
}

/// A cell, its height before and after.
pub type Change = (usize, i32, i32);

/// A job whose guess fell, and for which cells it was handed other heights than they hold (R44).
pub struct Fall {
    pub job: usize,
    pub differences: Vec<Difference>,
}

/// A cell that holds another height than a guess was handed for it.
#[derive(Clone, Copy, Debug, PartialEq, Eq)]
pub struct Difference {
    pub cell: u8,
    pub handed: i32,
    pub holds: i32,
    /// The job that wrote what it holds.
    pub by: usize,
}

/// Tries every step of the plan.
pub fn of(sound: &Sound) -> Result<Trace, Contradiction> {
    let plan = &sound.plan;
    let dependences = dependence::of(plan)?;
    let mut batch = plan.batch()?;
    let mut events: Vec<Event> = Vec::new();
    for &line in &plan.steps {
        let outcome = tried(&mut batch, line, &dependences, &events)?;
        events.push(Event { line, outcome });
    }
    let jobs = (0..plan.jobs.len()).map(|job| batch.job(job)).collect::<Result<Vec<JobState>, Refusal>>()?;
    let trace = Trace { events, jobs, heights: batch.cells(), tally: batch.tally(), dependences };
    if trace.answer().as_bytes() != sound.answer {
        return Err(Contradiction("the steps, tried one by one, were answered otherwise than the plan".to_owned()));
    }
    Ok(trace)
}

/// What a worker reports of the run that the job holds (R151). Without such a run the step is refused, whatever is reported.
fn report(batch: &Batch, line: StepLine) -> Result<Report, Contradiction> {
    match (line.step, batch.job(line.job)) {
        (Step::ReportOwn | Step::ReportSpeculation, Ok(state)) => Ok(state.job.result(state.handed)?),
        _ => Ok(Report::default()),
    }
}

fn tried(batch: &mut Batch, line: StepLine, links: &Dependences, events: &[Event]) -> Result<Outcome, Contradiction> {
    let report = report(batch, line)?;
    let before = batch.clone();
    if let Err(refusal) = batch.step(line.step, line.job, report) {
        return Ok(Outcome::Refused(refusal, why::of(&before, line, refusal, links, events)?));
    }
    Ok(match line.step {
        Step::StartOwn | Step::StartSpeculation => Outcome::Started(started(&before, batch, line.job)?),
        Step::ReportSpeculation => Outcome::Stored(batch.job(line.job)?, run(batch, line.job)?.wrote == 1),
        Step::ReportOwn | Step::Commit => Outcome::Settled(settled(&before, batch, line.job, events)?),
    })
}

fn run(batch: &Batch, job: usize) -> Result<&sorghemi::Run, Contradiction> {
    batch.record().runs.get(job).ok_or_else(|| Contradiction("a job has no run".to_owned()))
}

/// Values in the order of the job's cells.
pub fn values(state: &JobState, heights: [i32; 4]) -> Vec<Value> {
    plan::cells(&state.job).zip(heights).map(|(cell, height)| Value { cell, height }).collect()
}

fn started(before: &Batch, after: &Batch, job: usize) -> Result<Started, Contradiction> {
    let state = after.job(job)?;
    let run = run(after, job)?;
    let set = u128::from(run.bypassed.high) << 64 | u128::from(run.bypassed.low);
    let took = plan::cells(&state.job).zip(run.sources).filter(|(_, source)| *source > 0);
    Ok(Started {
        handed: values(&state, state.handed),
        past: (0..job).filter(|earlier| set >> earlier & 1 == 1).collect(),
        took: took.map(|(cell, source)| (cell, usize::from(source) - 1)).collect(),
        threw_away: state.phase == Phase::Discarded && before.job(job)?.phase != Phase::Discarded,
    })
}

fn settled(before: &Batch, after: &Batch, job: usize, events: &[Event]) -> Result<Settled, Contradiction> {
    let heights = before.cells().into_iter().zip(after.cells()).enumerate();
    let changes: Vec<Change> =
        heights.filter(|(_, (old, new))| old != new).map(|(cell, (old, new))| (cell, old, new)).collect();
    let mut course = course(events);
    course.push((job, &changes));
    let mut falls = Vec::new();
    let mut stand = Vec::new();
    for other in job + 1..after.record().job_count.into() {
        let (old, new) = (before.job(other)?.validity, after.job(other)?.validity);
        if old != new && new == Validity::Invalid {
            falls.push(Fall { job: other, differences: differences(after, other, &course)? });
        }
        if old != new && new == Validity::Valid {
            stand.push(other);
        }
    }
    Ok(Settled { mark: after.job(job)?.wrote, changes, falls, stand })
}

/// The jobs that were settled up to now, in turn, with what each changed.
fn course(events: &[Event]) -> Vec<(usize, &[Change])> {
    let settled = events.iter().filter_map(|event| match &event.outcome {
        Outcome::Settled(settled) => Some((event.line.job, settled.changes.as_slice())),
        _ => None,
    });
    settled.collect()
}

/// The cells that hold other heights than the job's guess, which has fallen, was handed.
fn differences(batch: &Batch, job: usize, course: &[(usize, &[Change])]) -> Result<Vec<Difference>, Contradiction> {
    let state = batch.job(job)?;
    let mut differences = Vec::new();
    for (Value { cell, height: handed }, source) in values(&state, state.handed).into_iter().zip(run(batch, job)?.sources) {
        let holds = batch.cell(cell.into())?;
        if holds != handed {
            differences.push(Difference { cell, handed, holds, by: writer(course, cell, source)? });
        }
    }
    if differences.is_empty() {
        return Err(Contradiction(format!("the guess of job {job} fell for no reason that was found")));
    }
    Ok(differences)
}

/// The last job that changed the cell; or the one whose guess the value was taken from, which wrote the cell too, where none
/// has changed it since.
fn writer(course: &[(usize, &[Change])], cell: u8, source: u8) -> Result<usize, Contradiction> {
    let wrote = |job: usize, changes: &[Change]| {
        usize::from(source) == job + 1 || changes.iter().any(|(changed, ..)| *changed == cell.into())
    };
    let last = course.iter().rev().find(|(job, changes)| wrote(*job, changes));
    last.map(|(job, _)| *job).ok_or_else(|| Contradiction(format!("cell {cell} holds what no job wrote")))
}

impl Fall {
    /// The jobs that wrote the other heights, each once, in their order.
    pub fn by(&self) -> Vec<usize> {
        let mut jobs: Vec<usize> = self.differences.iter().map(|difference| difference.by).collect();
        jobs.sort_unstable();
        jobs.dedup();
        jobs
    }
}

impl Trace {
    /// The answer that these steps give, in the form in which the library answers the plan (R152).
    fn answer(&self) -> String {
        let mut text = "step answer\n".to_owned();
        for event in &self.events {
            let number = match event.outcome {
                Outcome::Refused(refusal, _) => refusal.number(),
                _ => 0,
            };
            let _ = writeln!(text, "{} {number}", event.line.step.number());
        }
        text += "job how mark\n";
        for (number, job) in self.jobs.iter().enumerate() {
            let _ = writeln!(text, "{number} {} {}", job.committed.number(), u8::from(job.wrote));
        }
        text += "cell value\n";
        for (cell, height) in self.heights.iter().enumerate() {
            let _ = writeln!(text, "{cell} {height}");
        }
        text
    }

    /// How many jobs are settled in this way.
    pub fn settled(&self, how: Committed) -> usize {
        self.jobs.iter().filter(|job| job.committed == how).count()
    }

    pub fn refused(&self) -> usize {
        self.events.iter().filter(|event| event.is_refused()).count()
    }

    /// How many guesses fell.
    pub fn fallen(&self) -> usize {
        let falls = |event: &Event| if let Outcome::Settled(settled) = &event.outcome { settled.falls.len() } else { 0 };
        self.events.iter().map(falls).sum()
    }
}

/// The step in which the job's guess fell, counted from 1, and why; of the events up to now.
pub fn fall_of(events: &[Event], job: usize) -> Option<(usize, &Fall)> {
    events.iter().enumerate().find_map(|(place, event)| {
        let Outcome::Settled(settled) = &event.outcome else { return None };
        Some((place + 1, settled.falls.iter().find(|fall| fall.job == job)?))
    })
}

impl Plan {
    /// The line of the plan on which a step stands, by its place among the steps.
    pub fn line_of(&self, place: usize) -> usize {
        self.lines_before_steps + place + 1
    }
}

#[cfg(test)]
mod tests {
    use super::*;

    fn thursday() -> Sound {
        plan::sound(include_bytes!("../../../examples/thursday.plan"))
    }

    /// The steps in which guesses are judged, counted from 1: why some fall, and the jobs whose guesses stand.
    fn judged(plan: &[u8]) -> Vec<(usize, Vec<Vec<Difference>>, Vec<usize>)> {
        let events = of(&plan::sound(plan)).unwrap().events.into_iter().zip(1..);
        let judged = events.filter_map(|(event, step)| match event.outcome {
            Outcome::Settled(Settled { falls, stand, .. }) if !falls.is_empty() || !stand.is_empty() => {
                Some((step, falls.into_iter().map(|fall| fall.differences).collect(), stand))
            }
            _ => None,
        });
        judged.collect()
    }

    /// A floor test that raises 1390 to 1400, a spike test beside a cell, and a shift that is guessed past both.
    fn two_tests(limit: i32, beside: i32) -> Vec<u8> {
        let jobs = format!("4 1400 0 - -\n3 {limit} 0 1 -\n2 20 0 - -\n");
        let steps = "step job\n1 2\n3 2\n0 0\n2 0\n0 1\n2 1\n";
        format!("cell value\n0 1390\n1 {beside}\nkind p a b c\n{jobs}guess\n1\n{steps}").into()
    }

    /// A floor test that raises 1390 to 1400, this job on the cell, and a shift, guessed on the guess of that job. That guess
    /// falls, and the job's own run takes its place.
    fn source_thrown_away(job: &str) -> Vec<u8> {
        let steps = "step job\n1 1\n3 1\n1 2\n3 2\n0 0\n2 0\n0 1\n2 1\n";
        format!("cell value\n0 1390\nkind p a b c\n4 1400 0 - -\n{job} 0 - -\n2 20 0 - -\nguess\n1\n{steps}").into()
    }

    #[test]
    fn an_answer_that_differs_anywhere_is_told() {
        assert!(of(&thursday()).is_ok());
        for place in 0..thursday().answer.len() {
            let mut sound = thursday();
            sound.answer[place] ^= 1;
            assert!(of(&sound).is_err(), "byte {place}");
        }
    }

    #[test]
    fn a_fall_has_its_step_and_its_cause() {
        let trace = of(&thursday()).unwrap();
        let (step, fall) = fall_of(&trace.events, 1).unwrap();
        assert_eq!((step, fall.by()), (4, vec![0]));
        assert_eq!(fall.differences, [Difference { cell: 0, handed: 2900, holds: 1500, by: 0 }]);
        assert!(fall_of(&trace.events, 0).is_none());
        assert_eq!((trace.fallen(), trace.refused(), trace.settled(Committed::ByOwnRun)), (1, 1, 2));
    }

    #[test]
    fn a_guess_is_judged_once_its_job_is_ready() {
        // In step 4 the height is another one already; in step 6 the spike test writes one more, nothing, or the same again.
        let fallen = |holds, by| vec![(6, vec![vec![Difference { cell: 0, handed: 1390, holds, by }]], vec![])];
        assert_eq!(judged(&two_tests(5, 1394)), fallen(1394, 1));
        assert_eq!(judged(&two_tests(5, 1395)), fallen(1400, 0));
        assert_eq!(judged(&two_tests(-1, 1400)), fallen(1400, 0));
    }

    #[test]
    fn a_guess_stands_where_the_height_is_what_it_was() {
        // Both tests write, and the second brings the height back.
        let back = two_tests(5, 1390);
        // A spike test of a limit below 0 writes always, here the height that is there.
        let same = b"cell value\n0 1500\n1 1500\nkind p a b c\n3 -1 0 1 -\n2 20 0 - -\nguess\n1\nstep job\n1 1\n0 0\n2 0\n";
        for (plan, step, guess) in [(back.as_slice(), 6, 2), (same, 3, 1)] {
            assert_eq!(judged(plan), [(step, vec![], vec![guess])]);
            assert!(of(&plan::sound(plan)).unwrap().jobs[..guess].iter().all(|job| job.wrote));
        }
    }

    #[test]
    fn a_guess_that_took_from_one_thrown_away_is_judged_by_the_height() {
        let source = (6, vec![vec![Difference { cell: 0, handed: 1390, holds: 1400, by: 0 }]], vec![]);
        assert_eq!(judged(&source_thrown_away("1 1500")), [source.clone(), (8, vec![], vec![2])]);
        let fallen = |handed, holds| (8, vec![vec![Difference { cell: 0, handed, holds, by: 1 }]], vec![]);
        assert_eq!(judged(&source_thrown_away("2 10")), [source.clone(), fallen(1400, 1410)]);
        assert_eq!(judged(&source_thrown_away("2 0")), [source, fallen(1390, 1400)]);
    }

    #[test]
    fn a_height_that_was_written_and_is_the_former_one_has_its_writer() {
        // The mean would be 1495, and is 1500 as its cell was.
        let plan =
            b"cell value\n0 1390\n1 1600\n2 1500\nkind p a b c\n4 1400 0 - -\n5 0 2 0 1\n2 20 2 - -\nguess\n1\nstep job\n\
1 1\n3 1\n1 2\n0 0\n2 0\n0 1\n2 1\n";
        let fallen = |cell, handed, holds, by| vec![vec![Difference { cell, handed, holds, by }]];
        assert_eq!(judged(plan), [(5, fallen(0, 1390, 1400, 0), vec![]), (7, fallen(2, 1495, 1500, 1), vec![])]);
    }

    #[test]
    fn jobs_that_wrote_other_heights_are_named_once() {
        let wrote = |by| Difference { cell: 0, handed: 0, holds: 1, by };
        assert_eq!(Fall { job: 9, differences: [3, 1, 3].map(wrote).to_vec() }.by(), [1, 3]);
    }
}
