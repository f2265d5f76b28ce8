//! A sound plan in words: what it has, what each step did, and how jobs and cells stand at the end.

use crate::plan::{Contradiction, Plan, Sound};
use crate::trace::{self, Event, Outcome, Settled, Started, Trace, Value};
use crate::why::{self, Why};
use crate::words;
use sorghemi::{Committed, JobState, Phase, Step, Validity};

pub fn explained(sound: &Sound) -> Result<String, Contradiction> {
    let plan = &sound.plan;
    let trace = trace::of(sound)?;
    let mut text = format!("{}\n{}\n\n", has(plan), came(plan, &trace));
    for (place, event) in trace.events.iter().enumerate() {
        text += &step(plan, place, event);
    }
    text += "\nThe jobs at the end:\n";
    for (number, state) in trace.jobs.iter().enumerate() {
        text += &format!("Job {number}, {}: {}.\n", words::job(&state.job), job_end(state));
    }
    text += "\nThe cells, in millimetres:\n";
    for (cell, (opening, end)) in plan.heights.iter().zip(&trace.heights).enumerate() {
        text += &format!("Cell {cell}: {opening} at the opening, {end} at the end.\n");
    }
    Ok(text)
}

pub fn has(plan: &Plan) -> String {
    let guessing = if plan.guessing { "on" } else { "off" };
    let cells = words::count(plan.heights.len(), "cell");
    let jobs = words::count(plan.jobs.len(), "job");
    format!("The plan is sound: {cells}, {jobs}, guessing {guessing}, {}.", words::count(plan.steps.len(), "step"))
}

pub fn came(plan: &Plan, trace: &Trace) -> String {
    let own = trace.settled(Committed::ByOwnRun);
    let guess = trace.settled(Committed::BySpeculation);
    let (jobs, fallen, refused) = (plan.jobs.len(), trace.fallen(), trace.refused());
    let all = if jobs == 1 { "1 job".to_owned() } else { format!("{jobs} jobs") };
    let settled = format!("Settled at the end: {} of {all}, {own} by an own run and {guess} by a guess.", own + guess);
    format!("{settled} Guesses fallen: {fallen}. Steps refused: {refused}.")
}

fn step(plan: &Plan, place: usize, event: &Event) -> String {
    let job = event.line.job;
    let what = plan.jobs.get(job).map_or(String::new(), |job| format!(", {}", words::job(job)));
    let (number, line) = (place + 1, plan.line_of(place));
    let head = format!("Step {number} (line {line}): {}, job {job}{what}\n", words::step(event.line.step));
    let told = match &event.outcome {
        Outcome::Started(started) => start(event.line.step, started),
        Outcome::Stored(state, mark) => stored(state, *mark),
        Outcome::Settled(settled) => settle(event.line.step, job, settled),
        Outcome::Refused(refusal, Why(why)) => format!("  Refused with {}: {why}.\n", refusal.number()),
    };
    head + &told
}

fn heights(values: &[Value]) -> String {
    let told: Vec<String> = values.iter().map(|value| format!("cell {} at {}", value.cell, value.height)).collect();
    words::list(&told)
}

fn start(step: Step, started: &Started) -> String {
    let mut text = format!("  Accepted: handed out {}.\n", heights(&started.handed));
    if started.threw_away {
        text += "  The job's guess, which had fallen, is thrown away.\n";
    }
    if !started.past.is_empty() {
        text += &format!("  It looks past {}, as if nothing were changed there.\n", words::jobs(&started.past));
    }
    for (cell, job) in &started.took {
        text += &format!("  It takes cell {cell} from the guess of job {job}.\n");
    }
    if step == Step::StartSpeculation && started.past.is_empty() && started.took.is_empty() {
        text += "  These are the present heights; only readers of its cells stand before it.\n";
    }
    text
}

/// Of a report the values that are others than those handed out.
fn changed(state: &JobState) -> String {
    let values = trace::values(state, state.reported).into_iter().zip(state.handed);
    let other: Vec<Value> = values.filter(|(value, handed)| value.height != *handed).map(|(value, _)| value).collect();
    if other.is_empty() {
        return "no change".to_owned();
    }
    heights(&other)
}

fn stored(state: &JobState, mark: bool) -> String {
    let mut text = format!("  Accepted: the report is stored: {}, mark {}.\n", changed(state), u8::from(mark));
    if state.validity == Validity::Invalid {
        text += "  The guess has fallen already, and will not be settled.\n";
    }
    text
}

fn settle(step: Step, job: usize, settled: &Settled) -> String {
    let how = if step == Step::Commit { "its guess" } else { "its own run" };
    let mut text = format!("  Accepted: job {job} is settled by {how}, mark {}.", u8::from(settled.mark));
    for (cell, old, new) in &settled.changes {
        text += &format!(" Cell {cell} goes from {old} to {new}.");
    }
    text += if settled.changes.is_empty() { " No height changes.\n" } else { "\n" };
    for fall in &settled.falls {
        text += &format!("  The guess of job {} has fallen: {}.\n", fall.job, why::cause_of(fall));
    }
    if !settled.stand.is_empty() {
        let (whose, verb) = if settled.stand.len() == 1 { ("guess", "stands") } else { ("guesses", "stand") };
        text += &format!("  The {whose} of {} {verb} from now on.\n", words::jobs(&settled.stand));
    }
    text
}

/// How a job stands at the end, with its values.
fn job_end(state: &JobState) -> String {
    let handed = heights(&trace::values(state, state.handed));
    let reported = changed(state);
    let how = match (state.committed, state.running, state.phase) {
        (Committed::ByOwnRun, ..) => "settled by its own run",
        (Committed::BySpeculation, ..) => "settled by its guess",
        (Committed::NotYet, true, _) => return format!("not settled; its own run is out, handed {handed}"),
        (Committed::NotYet, false, Phase::Out) => {
            return format!("not settled; its guess is out{}, handed {handed}", judged(state))
        }
        (Committed::NotYet, false, Phase::Stored) => {
            return format!("not settled; its guess is reported{}, handed {handed}, reported {reported}", judged(state))
        }
        (Committed::NotYet, false, _) => return "not settled; no run of it was started".to_owned(),
    };
    format!("{how}, mark {}; handed {handed}, reported {reported}", u8::from(state.wrote))
}

fn judged(state: &JobState) -> &'static str {
    match state.validity {
        Validity::Valid => " and stands",
        Validity::Invalid => " and has fallen",
        Validity::Undecided | Validity::NoRun => "",
    }
}

#[cfg(test)]
mod tests {
    use super::*;
    use crate::plan;

    #[test]
    fn only_a_report_on_a_fallen_guess_comes_too_late() {
        // When the second shift's guess is reported its height is another one already, but a floor test before it is open.
        let early = plan::sound(
            b"cell value\n0 1390\nkind p a b c\n4 1400 0 - -\n2 20 0 - -\n4 1400 0 - -\n2 20 0 - -\nguess\n1\nstep job\n\
1 1\n3 1\n1 3\n0 0\n2 0\n0 1\n2 1\n3 3\n0 2\n2 2\n",
        );
        let text = explained(&early).unwrap();
        assert!(!text.contains("has fallen already"), "{text}");
        let late = plan::sound(
            b"cell value\n0 1390\nkind p a b c\n4 1400 0 - -\n2 20 0 - -\nguess\n1\nstep job\n1 1\n0 0\n2 0\n3 1\n",
        );
        let fallen = "The guess of job 1 has fallen: it was handed 1390 for cell 0, where job 0 has written 1400.";
        let report =
            "Accepted: the report is stored: cell 0 at 1410, mark 0.\n  The guess has fallen already, and will not be settled.";
        let text = explained(&late).unwrap();
        assert!(text.contains(fallen) && text.contains(report), "{text}");
    }
}
