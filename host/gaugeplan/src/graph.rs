//! Which jobs wait for which, for Graphviz.

use crate::dependence::{Arrow, Link};
use crate::plan::{Contradiction, Sound};
use crate::trace;
use crate::words;
use sorghemi::{Committed, JobState};

const HEAD: &str = "\
// Which jobs wait for which: an arrow leads from the earlier to the later of two jobs that conflict.
// An arrow that a chain of others implies is left out.
digraph plan {
  graph [rankdir=TB, nodesep=0.3, ranksep=0.45, fontname=\"Helvetica,Arial,sans-serif\", fontsize=11, labelloc=b, labeljust=l];
  node [shape=box, margin=\"0.12,0.06\", fontname=\"Helvetica,Arial,sans-serif\", fontsize=11];
  edge [arrowsize=0.7];
";

pub fn drawn(sound: &Sound) -> Result<String, Contradiction> {
    let trace = trace::of(sound)?;
    let arrows = trace.dependences.reduced();
    let mut text = HEAD.to_owned();
    text += &format!("  label=\"{}\";\n", legend(&arrows, &trace.jobs));
    for (number, state) in trace.jobs.iter().enumerate() {
        text += &format!(
            "  job{number} [label=\"job {number}\\n{}\\n{}\"{}];\n",
            lines(state),
            words::settled(state),
            shape(state)
        );
    }
    for Arrow { earlier, later, link } in arrows {
        text += &format!("  job{earlier} -> job{later} [style={}];\n", style(link));
    }
    Ok(text + "}\n")
}

/// The job in words, on two lines where it has two parts.
fn lines(state: &JobState) -> String {
    words::job(&state.job).replacen(", ", ",\\n", 1)
}

/// How the job is settled after the plan's steps shows by the box too.
fn shape(state: &JobState) -> &'static str {
    match state.committed {
        Committed::ByOwnRun => "",
        Committed::BySpeculation => ", style=rounded, peripheries=2",
        Committed::NotYet => ", style=dashed",
    }
}

fn style(link: Link) -> &'static str {
    match link {
        Link::Writes => "solid",
        Link::MaybeWrites => "dashed",
        Link::Reads => "dotted",
    }
}

/// A line for each sort of arrow and of box that the graph has.
fn legend(arrows: &[Arrow], jobs: &[JobState]) -> String {
    let mut lines = vec!["An arrow leads to a job that waits; one that a chain of others implies is left out.".to_owned()];
    for link in [Link::Writes, Link::MaybeWrites, Link::Reads] {
        if arrows.iter().any(|arrow| arrow.link == link) {
            lines.push(format!("{}: {}.", style(link), words::link(link)));
        }
    }
    let boxes = [
        (Committed::ByOwnRun, "plain box: settled by its own run."),
        (Committed::BySpeculation, "double round box: settled by its guess."),
        (Committed::NotYet, "dashed box: not settled."),
    ];
    for (how, words) in boxes {
        if jobs.iter().any(|job| job.committed == how) {
            lines.push(words.to_owned());
        }
    }
    lines.into_iter().map(|line| line + "\\l").collect()
}
