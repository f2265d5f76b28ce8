//! Jobs, steps and lists in the words of the rules.

use crate::dependence::Link;
use crate::plan;
use sorghemi::{Committed, Job, JobState, Kind, Step};

/// The kind's name, as docs/PLANS.md has it.
pub fn kind(job: &Job) -> &'static str {
    match job.named_kind() {
        Some(Kind::Set) => "set",
        Some(Kind::Shift) => "shift",
        Some(Kind::Spike) => "spike",
        Some(Kind::Floor) => "floor",
        Some(Kind::Mean) => "mean",
        Some(Kind::Pair) => "pair",
        Some(Kind::Outside) | None => "job",
    }
}

/// The job in words: "shift of cell 0 by 20".
pub fn job(job: &Job) -> String {
    let p = job.parameter;
    let cells: Vec<u8> = plan::cells(job).collect();
    match (job.named_kind(), cells.as_slice()) {
        (Some(Kind::Set), [a]) => format!("set of cell {a} to {p}"),
        (Some(Kind::Shift), [a]) => format!("shift of cell {a} by {p}"),
        (Some(Kind::Spike), [a, b]) => format!("spike test of cell {a} beside cell {b}, limit {p}"),
        (Some(Kind::Floor), [a]) => format!("floor test of cell {a} at {p}"),
        (Some(Kind::Mean), [a, b, c]) => format!("mean of cells {b} and {c} into cell {a}"),
        (Some(Kind::Pair), [a, b]) => format!("pair of cells {a} and {b}, the lower first"),
        _ => "job of another kind".to_owned(),
    }
}

pub fn step(step: Step) -> &'static str {
    match step {
        Step::StartOwn => "start own",
        Step::StartSpeculation => "start guess",
        Step::ReportOwn => "report own",
        Step::ReportSpeculation => "report guess",
        Step::Commit => "settle",
    }
}

/// How a job is settled, and its mark.
pub fn settled(state: &JobState) -> String {
    match state.committed {
        Committed::NotYet => "not settled".to_owned(),
        Committed::ByOwnRun => format!("settled by its own run, mark {}", u8::from(state.wrote)),
        Committed::BySpeculation => format!("settled by its guess, mark {}", u8::from(state.wrote)),
    }
}

/// What an arrow of this sort says of the job that it comes from.
pub fn link(link: Link) -> &'static str {
    match link {
        Link::Writes => "the earlier job writes a cell of the later one",
        Link::MaybeWrites => "the earlier job only maybe-writes it, so a guess can look past that job",
        Link::Reads => "the earlier job only reads a cell that the later one writes",
    }
}

/// "a", "a and b", "a, b and c".
pub fn list<T: ToString>(items: &[T]) -> String {
    let words: Vec<String> = items.iter().map(T::to_string).collect();
    match words.split_last() {
        None => "none".to_owned(),
        Some((last, [])) => last.clone(),
        Some((last, before)) => format!("{} and {last}", before.join(", ")),
    }
}

/// "job 3", "jobs 0, 2 and 3".
pub fn jobs(numbers: &[usize]) -> String {
    format!("{} {}", if numbers.len() == 1 { "job" } else { "jobs" }, list(numbers))
}

/// "1 cell", "2 cells", "no cells".
pub fn count(number: usize, thing: &str) -> String {
    match number {
        0 => format!("no {thing}s"),
        1 => format!("1 {thing}"),
        _ => format!("{number} {thing}s"),
    }
}

/// Whether one or several: "is", "are".
pub fn be(number: usize) -> &'static str {
    if number == 1 {
        "is"
    } else {
        "are"
    }
}

#[cfg(test)]
mod tests {
    use super::*;

    #[test]
    fn jobs_are_said_in_words() {
        assert_eq!(job(&Job::set(3, -5)), "set of cell 3 to -5");
        assert_eq!(job(&Job::shift(0, 20)), "shift of cell 0 by 20");
        assert_eq!(job(&Job::spike(0, 1, 1000)), "spike test of cell 0 beside cell 1, limit 1000");
        assert_eq!(job(&Job::floor(2, 1400)), "floor test of cell 2 at 1400");
        assert_eq!(job(&Job::mean(5, 0, 1)), "mean of cells 0 and 1 into cell 5");
        assert_eq!(job(&Job::pair(3, 4)), "pair of cells 3 and 4, the lower first");
    }

    #[test]
    fn lists_and_counts() {
        assert_eq!(list(&[7]), "7");
        assert_eq!(jobs(&[0, 2, 5]), "jobs 0, 2 and 5");
        assert_eq!(jobs(&[4]), "job 4");
        assert_eq!([0, 1, 2].map(|n| count(n, "cell")), ["no cells", "1 cell", "2 cells"]);
    }
}
