//! Steps for a plan: workers that take what the chooser names, on a batch of the library's.

use crate::plan::{self, Contradiction, Plan, Reading, StepLine};
use sorghemi::{Batch, Refusal, Step, Validity};
use std::collections::VecDeque;

/// The plan with steps for so many workers in the place of its own.
pub fn planned(text: &[u8], plan: &Plan, workers: usize) -> Result<Vec<u8>, Contradiction> {
    let head = text.split_inclusive(|&byte| byte == b'\n').take(plan.lines_before_steps);
    let mut whole = head.collect::<Vec<&[u8]>>().concat();
    let steps = steps(plan, workers)?;
    for StepLine { step, job } in &steps {
        whole.extend(format!("{} {job}\n", step.number()).bytes());
    }
    hold(&whole, plan, &steps)?;
    Ok(whole)
}

/// The whole plan has to be sound, with all its steps accepted and all jobs settled.
fn hold(whole: &[u8], plan: &Plan, steps: &[StepLine]) -> Result<(), Contradiction> {
    let Reading::Sound(sound) = plan::read(whole)? else {
        return Err(Contradiction("the plan with its steps is not sound".to_owned()));
    };
    let text = String::from_utf8_lossy(&sound.answer).into_owned();
    let mut lines = text.lines().skip(1);
    let accepted = lines.by_ref().take(steps.len()).all(|line| line.ends_with(" 0"));
    let settled = lines.skip(1).take(plan.jobs.len()).all(|line| line.split(' ').nth(1).is_some_and(|how| how != "0"));
    if !accepted || !settled {
        return Err(Contradiction("a step of the plan is refused, or a job is not settled".to_owned()));
    }
    Ok(())
}

/// A run that a worker has.
#[derive(Clone, Copy)]
struct Run {
    job: usize,
    guess: bool,
}

/// The steps, until all jobs are settled. Every run takes as long as any other, so the oldest is reported first.
fn steps(plan: &Plan, workers: usize) -> Result<Vec<StepLine>, Contradiction> {
    let mut batch = plan.batch()?;
    let mut out: VecDeque<Run> = VecDeque::new();
    let mut steps = Vec::new();
    while !batch.finished() {
        // A worker drops a guess that has fallen, and is free.
        out.retain(|run| !run.guess || batch.job(run.job).is_ok_and(|state| state.validity != Validity::Invalid));
        let line = match chosen(&batch, out.len() < workers)? {
            Some(line) => {
                start(&mut batch, &mut out, line)?;
                line
            }
            None => report(&mut batch, &mut out)?,
        };
        steps.push(line);
    }
    Ok(steps)
}

/// What the chooser names, if it can be done now: settling needs no worker, a start needs one that is free.
fn chosen(batch: &Batch, free: bool) -> Result<Option<StepLine>, Contradiction> {
    match batch.choose() {
        Ok(choice) if free || choice.step == Step::Commit => Ok(Some(StepLine { step: choice.step, job: choice.job })),
        Ok(_) | Err(Refusal::NOTHING_TO_START) => Ok(None),
        Err(other) => Err(other.into()),
    }
}

fn start(batch: &mut Batch, out: &mut VecDeque<Run>, line: StepLine) -> Result<(), Contradiction> {
    match line.step {
        Step::Commit => batch.commit(line.job)?,
        step => {
            batch.step(step, line.job, Default::default())?;
            out.push_back(Run { job: line.job, guess: step == Step::StartSpeculation });
        }
    }
    Ok(())
}

/// The oldest run is reported.
fn report(batch: &mut Batch, out: &mut VecDeque<Run>) -> Result<StepLine, Contradiction> {
    let Run { job, guess } =
        out.pop_front().ok_or_else(|| Contradiction("no run is out, and none is to be started".to_owned()))?;
    let state = batch.job(job)?;
    let step = if guess { Step::ReportSpeculation } else { Step::ReportOwn };
    batch.step(step, job, state.job.result(state.handed)?)?;
    Ok(StepLine { step, job })
}

#[cfg(test)]
mod tests {
    use super::*;

    const DATA: &[u8] = b"cell value\n0 2900\n1 1500\nkind p a b c\n3 1000 0 1 -\n2 20 0 - -\n4 1400 1 - -\nguess\n1\n";

    fn with(data: &[u8], workers: usize) -> String {
        let (Reading::Sound(sound), text) = plan::read_without_steps(data).unwrap() else { panic!("sound") };
        let whole = planned(&text, &sound.plan, workers).unwrap();
        String::from_utf8(whole).unwrap()
    }

    fn steps_with(data: &[u8], workers: usize) -> String {
        with(data, workers).rsplit_once("step job\n").unwrap().1.to_owned()
    }

    #[test]
    fn one_worker_guesses_nothing() {
        assert_eq!(steps_with(DATA, 1), "0 0\n2 0\n0 1\n2 1\n0 2\n2 2\n");
    }

    #[test]
    fn a_fallen_guess_is_dropped() {
        // The spike test is out, both others wait for it and are guessed; it writes, so the shift's guess falls unreported.
        assert_eq!(steps_with(DATA, 9), "0 0\n1 1\n1 2\n2 0\n0 1\n3 2\n4 2\n2 1\n");
    }

    #[test]
    fn a_worker_with_a_fallen_guess_is_free_at_once() {
        // Settling the pair makes the shift's guess fall, and the second mean ready, whose chain is longer. The third worker has
        // the last mean; so the shift's own run can be started beside both only by the worker that had its guess.
        let data = b"cell value\n0 1500\n1 1500\n2 0\n3 0\n4 1390\n5 0\nkind p a b c\n\
5 0 2 0 1\n6 0 0 4 -\n2 20 0 - -\n5 0 3 2 4\n2 1 3 - -\n5 0 5 2 1\nguess\n1\n";
        assert_eq!(steps_with(data, 3), "0 0\n1 1\n1 2\n2 0\n0 5\n3 1\n4 1\n0 3\n0 2\n2 5\n2 3\n0 4\n2 2\n2 4\n");
    }

    #[test]
    fn the_data_stays() {
        assert!(with(DATA, 2).as_bytes().starts_with(DATA));
    }
}
