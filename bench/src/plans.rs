//! How long the program takes for a plan, by the plan's length: it should grow
//! with the length and no faster.

use std::fmt::Write as _;
use std::io::Write as _;
use std::process::{Command, Stdio};
use std::time::Duration;

use crate::batch::Batch;
use crate::drive::Step;
use crate::measure::{nanoseconds, samples, Figure};
use crate::table;

/// A plan may not be longer (R122).
pub const MOST_BYTES: usize = 65536;
const LENGTHS: [usize; 5] = [4096, 8192, 16384, 32768, MOST_BYTES];
const TIME_FOR_A_LENGTH: Duration = Duration::from_millis(700);

/// A plan of at most that many bytes: the batch, then its driven steps, over and
/// over. From the second time on they are refused, and tried all the same.
pub fn plan(batch: &Batch, steps: &[Step], bytes: usize) -> String {
    let mut text = String::from("cell value\n");
    for (cell, height) in batch.heights.iter().enumerate() {
        writeln!(text, "{cell} {height}").unwrap();
    }
    text += "kind p a b c\n";
    for job in &batch.jobs {
        write!(text, "{} {}", job.kind, job.parameter).unwrap();
        for place in 0..3 {
            match job.used().get(place) {
                Some(access) => write!(text, " {}", access.cell).unwrap(),
                None => text += " -",
            }
        }
        text += "\n";
    }
    text += "guess\n1\nstep job\n";
    for step in steps.iter().cycle() {
        let line = format!("{} {}\n", step.number, step.job);
        if text.len() + line.len() > bytes {
            break;
        }
        text += &line;
    }
    text
}

fn answer(program: &str, plan: &str) -> Vec<u8> {
    let mut child = Command::new(program)
        .stdin(Stdio::piped())
        .stdout(Stdio::piped())
        .spawn()
        .expect("the program starts");
    let mut input = child.stdin.take().expect("its standard input");
    // It reads all before it writes, so writing all first cannot block both.
    input
        .write_all(plan.as_bytes())
        .expect("the plan is written");
    drop(input);
    child.wait_with_output().expect("an answer").stdout
}

pub fn print(program: &str, batch: &Batch, steps: &[Step]) {
    println!("\nThe program on a plan, in milliseconds: start, reading, steps and output");
    let line = |bytes: usize| {
        let plan = plan(batch, steps, bytes);
        let answered = String::from_utf8(answer(program, &plan)).expect("text");
        assert!(answered.starts_with("step answer\n"), "{answered}");
        let time = || nanoseconds(|| drop(answer(program, &plan))) / 1e6;
        let figure = Figure::of(&samples(TIME_FOR_A_LENGTH, time));
        let tried = answered.lines().take_while(|line| *line != "job how mark");
        vec![
            plan.len().to_string(),
            (tried.count() - 1).to_string(),
            format!("{:.1}", figure.median),
            format!("{:.1}", figure.best),
        ]
    };
    let lines: Vec<Vec<String>> = LENGTHS.into_iter().map(line).collect();
    table::print(&["bytes", "steps", "median", "best"], &lines);
}
