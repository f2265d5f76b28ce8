//! Why a step was refused, in the state that the batch was in. The number is the library's; so is all that the words tell.

use crate::dependence::Dependences;
use crate::plan::{self, Contradiction, StepLine};
use crate::trace::{self, Difference, Event, Fall};
use crate::words;
use sorghemi::{Batch, JobState, Phase, Refusal, Step};

/// The reason in words, beginning with a small letter and without a full stop.
pub struct Why(pub String);

/// A job that a guess would have to take from, and that has no stored guess.
struct Lacking {
    cell: u8,
    job: usize,
    state: JobState,
}

pub fn of(
    batch: &Batch,
    line: StepLine,
    refusal: Refusal,
    links: &Dependences,
    events: &[Event],
) -> Result<Why, Contradiction> {
    let StepLine { step, job } = line;
    let count = usize::from(batch.record().job_count);
    if refusal == Refusal::NO_SUCH_JOB {
        return Ok(Why(no_such_job(job, count)));
    }
    let state = batch.job(job)?;
    let text = match (refusal, step) {
        (Refusal::GUESSING_OFF, _) => "guessing is off in this plan".to_owned(),
        (Refusal::WRONG_STATE, _) => wrong_state(step, job, &state),
        (Refusal::JOB_READY, _) => format!("job {job} is ready and needs no guess; start its own run"),
        (Refusal::MUST_WAIT, Step::StartSpeculation) => lacks(job, &lacking(batch, job)?),
        (Refusal::MUST_WAIT, _) => waits(job, &open_before(batch, job, links)?),
        (Refusal::GUESS_STANDS, _) => stands(job, state.phase),
        (Refusal::GUESS_FALLEN, _) => fallen(job, events),
        _ => refusal.meaning().to_owned(),
    };
    Ok(Why(text))
}

fn no_such_job(job: usize, count: usize) -> String {
    match count {
        0 => format!("there is no job {job}; the plan has none"),
        1 => format!("there is no job {job}; the plan has job 0 alone"),
        _ => format!("there is no job {job}; the plan has jobs 0 to {}", count - 1),
    }
}

fn wrong_state(step: Step, job: usize, state: &JobState) -> String {
    let settled = state.committed.is_settled();
    let guess = guess_state(state.phase);
    match step {
        Step::ReportSpeculation => format!("the guess of job {job} is not out; it {guess}"),
        Step::ReportOwn if settled => format!("the own run of job {job} is not out; the job is settled"),
        Step::ReportOwn if state.phase == Phase::Out => format!("the own run of job {job} is not out; its guess is"),
        Step::ReportOwn => format!("the own run of job {job} is not out; it was not started"),
        _ if settled => format!("job {job} is settled already"),
        Step::Commit => format!("the guess of job {job} has no stored report; it {guess}"),
        _ if state.running => format!("the own run of job {job} is out already"),
        _ => format!("the guess of job {job} {guess}, and a job has one guess, ever"),
    }
}

/// What became of a guess, to follow "it".
fn guess_state(phase: Phase) -> &'static str {
    match phase {
        Phase::NeverStarted => "was never started",
        Phase::Out => "is out",
        Phase::Stored => "is reported already",
        Phase::Discarded => "was thrown away",
    }
}

fn waits(job: usize, open: &[usize]) -> String {
    format!("job {job} is not ready; it waits for {}, which {} not settled", words::jobs(open), words::be(open.len()))
}

/// The earlier jobs that the job waits for.
fn open_before(batch: &Batch, job: usize, links: &Dependences) -> Result<Vec<usize>, Contradiction> {
    let mut open = Vec::new();
    for (earlier, _) in links.before(job) {
        if !batch.job(earlier)?.committed.is_settled() {
            open.push(earlier);
        }
    }
    Ok(open)
}

/// The jobs without a stored guess that a guess of the job would take from now (R41). The library tells from which it would
/// take, on a copy of the record in which each job before it has one.
fn lacking(batch: &Batch, job: usize) -> Result<Vec<Lacking>, Contradiction> {
    let mut record = *batch.record();
    for phase in record.phase.iter_mut().take(job) {
        *phase = Phase::Stored.number();
    }
    let mut copy = Batch::from_record(record)?;
    copy.start_speculation(job)?;
    let sources = copy.record().runs.get(job).map_or([0; 4], |run| run.sources);
    let mut lacking = Vec::new();
    for (cell, source) in plan::cells(&batch.job(job)?.job).zip(sources).filter(|(_, source)| *source > 0) {
        let job = usize::from(source) - 1;
        let state = batch.job(job)?;
        if state.phase != Phase::Stored {
            lacking.push(Lacking { cell, job, state });
        }
    }
    Ok(lacking)
}

fn lacks(job: usize, lacking: &[Lacking]) -> String {
    let told: Vec<String> = lacking
        .iter()
        .map(|Lacking { cell, job, state }| {
            let state = match state.phase {
                Phase::Out => "is not reported",
                _ if state.running => "is none: its own run is out",
                phase => guess_state(phase),
            };
            format!("cell {cell} from the guess of job {job}, which {state}")
        })
        .collect();
    format!("a guess of job {job} would have to take {}", words::list(&told))
}

fn stands(job: usize, phase: Phase) -> String {
    let stands = format!("the guess of job {job} stands: it was handed the heights that its cells hold");
    match phase {
        Phase::Out => format!("{stands}; report it, and then settle it"),
        _ => format!("{stands}; settle it"),
    }
}

fn fallen(job: usize, events: &[Event]) -> String {
    match trace::fall_of(events, job) {
        Some((step, fall)) => format!("the guess of job {job} fell in step {step}: {}; start its own run", cause_of(fall)),
        None => format!("the guess of job {job} has fallen; start its own run"),
    }
}

/// Why a guess fell, to follow "the guess fell:".
pub fn cause_of(fall: &Fall) -> String {
    let told: Vec<String> = fall
        .differences
        .iter()
        .map(|Difference { cell, handed, holds, by }| format!("{handed} for cell {cell}, where job {by} has written {holds}"))
        .collect();
    format!("it was handed {}", told.join(", and "))
}

#[cfg(test)]
mod tests {
    use super::*;
    use crate::trace::Outcome;

    /// What the refused steps of a plan are told.
    fn refused(plan: &[u8]) -> Vec<String> {
        let trace = trace::of(&plan::sound(plan)).unwrap();
        let told = trace.events.into_iter().filter_map(|event| match event.outcome {
            Outcome::Refused(refusal, Why(why)) => Some(format!("{}: {why}", refusal.number())),
            _ => None,
        });
        told.collect()
    }

    #[test]
    fn a_guess_waits_for_stored_guesses_alone() {
        // A mean takes from two shifts. The first one's guess is stored and fallen; the second one's is none, out, stored.
        let plan =
            b"cell value\n0 1390\n1 1500\n2 0\nkind p a b c\n4 1400 0 - -\n2 20 0 - -\n4 1400 1 - -\n2 20 1 - -\n5 0 2 0 1\n\
guess\n1\nstep job\n0 0\n1 1\n1 4\n3 1\n2 0\n1 4\n1 3\n1 4\n3 3\n1 4\n";
        let first = "cell 0 from the guess of job 1, which is not reported";
        let second = "cell 1 from the guess of job 3, which";
        let take = "15: a guess of job 4 would have to take";
        let expected = [
            format!("{take} {first} and {second} was never started"),
            format!("{take} {second} was never started"),
            format!("{take} {second} is not reported"),
        ];
        assert_eq!(refused(plan), expected);
    }

    #[test]
    fn an_own_run_in_a_guess_s_place_is_told() {
        let plan = b"cell value\n0 1390\nkind p a b c\n4 1400 0 - -\n2 20 0 - -\n2 5 0 - -\nguess\n1\nstep job\n\
1 1\n3 1\n0 0\n2 0\n0 1\n1 2\n";
        let expected =
            "15: a guess of job 2 would have to take cell 0 from the guess of job 1, which is none: its own run is out";
        assert_eq!(refused(plan), [expected]);
    }

    #[test]
    fn a_guess_that_stands_is_to_be_settled() {
        let plan = b"cell value\n0 1500\nkind p a b c\n4 1400 0 - -\n2 20 0 - -\nguess\n1\nstep job\n\
1 1\n0 0\n2 0\n0 1\n3 1\n0 1\n";
        let stands = "17: the guess of job 1 stands: it was handed the heights that its cells hold;";
        assert_eq!(refused(plan), ["report it, and then settle it", "settle it"].map(|end| format!("{stands} {end}")));
    }

    #[test]
    fn all_cells_that_hold_other_heights_are_told() {
        let plan = b"cell value\n0 1390\n1 2900\n2 1500\n3 0\nkind p a b c\n4 1400 0 - -\n3 1000 1 2 -\n5 0 3 0 1\nguess\n1\n\
step job\n0 0\n0 1\n1 2\n3 2\n2 0\n2 1\n4 2\n";
        let cells = "1390 for cell 0, where job 0 has written 1400, and 2900 for cell 1, where job 1 has written 1500";
        assert_eq!(refused(plan), [format!("18: the guess of job 2 fell in step 6: it was handed {cells}; start its own run")]);
    }
}
