//! `bench [FILE [PROGRAM]]` measures the engines and prints the tables. The file
//! has rows measured by other programs: name, median and best nanoseconds for a
//! job, with tabs between. `bench --accesses` prints the batch for such programs.
//! The program is `gaugebatch`, to be timed on plans.

mod batch;
mod drive;
mod engine;
mod measure;
mod plain;
mod plans;
mod priced;
#[cfg(feature = "proved")]
mod proved;
mod second;
mod stack;
mod subject;
mod table;
#[cfg(feature = "proved")]
mod turns;
#[cfg(feature = "proved")]
mod ways;

use std::time::Duration;

use batch::{Batch, JOBS};
use drive::{Drive, CHOOSE, INSERT, INSERT_ALL, SEAL, TURN};
use measure::{nanoseconds, samples, Clock, Figure};
use stack::Stack;
use subject::{subjects, ways_with_fewer_calls, Subject, Way};

const SIZES: [usize; 4] = [16, 32, 64, 128];

/// The rows are sampled in turns, so that a busy spell of the machine does not
/// fall on one row alone.
const ROUNDS: usize = 10;
const TIME_FOR_A_TURN: Duration = Duration::from_millis(100);
const GROWTH_ROUNDS: usize = 3;

fn main() {
    let arguments: Vec<String> = std::env::args().skip(1).collect();
    match arguments.first().map(String::as_str) {
        Some("--accesses") => print_accesses(&Batch::of(JOBS)),
        Some(path) => print_tables(outside_rows(path)),
        None => print_tables(Vec::new()),
    }
    if let Some(program) = arguments.get(1) {
        let batch = Batch::of(JOBS);
        let drive = (subjects()[0].way.driven)(&batch);
        plans::print(program, &batch, &drive.steps);
    }
}

/// Cell count and job count, then for each job its number of accesses and, for
/// each of these, cell and mode.
fn print_accesses(batch: &Batch) {
    println!("{} {}", batch.heights.len(), batch.jobs.len());
    for job in &batch.jobs {
        let mut line = job.arity.to_string();
        for access in job.used() {
            line += &format!(" {} {}", access.cell, access.mode);
        }
        println!("{line}");
    }
}

struct Row {
    name: String,
    figure: Figure,
    /// The recorded steps, without choosing; else driven by the chooser, or no
    /// engine at all.
    replayed: bool,
}

fn outside_rows(path: &str) -> Vec<Row> {
    let text = std::fs::read_to_string(path).expect("the file of rows can be read");
    let row = |line: &str| {
        let mut fields = line.split('\t');
        let name = fields.next()?.to_string();
        let median = fields.next()?.parse().ok()?;
        let best = fields.next()?.parse().ok()?;
        Some(Row {
            name,
            figure: Figure { median, best },
            replayed: false,
        })
    };
    let rows = text.lines().map(|line| row(line).expect("a row in form"));
    rows.collect()
}

fn print_tables(outside: Vec<Row>) {
    let batch = Batch::of(JOBS);
    let subjects = subjects();
    let fewer_calls = ways_with_fewer_calls();
    let ways: Vec<Way> = subjects
        .iter()
        .map(|subject| subject.way)
        .chain(fewer_calls.clone())
        .collect();
    let expected = (ways[0].driven)(&batch);
    for way in &ways {
        assert!(way.is_right(&batch, &expected), "{}", way.name);
    }
    print_batch(&batch, &expected);
    print_costs(&batch, &ways, &subjects, &expected, outside);
    print_growth(&subjects);
    print_growth_of_fewer_calls(&fewer_calls);
    // A stack of its own, large enough to be painted.
    let painter = std::thread::Builder::new().stack_size(stack::THREAD_BYTES);
    let painting = painter.spawn(move || {
        print_stack(&batch, &subjects);
        #[cfg(feature = "proved")]
        print_other_stacks(&batch, &expected, &fewer_calls);
    });
    painting.expect("a thread").join().expect("the stack table");
}

fn print_batch(batch: &Batch, drive: &Drive) {
    println!(
        "The batch: {} jobs on {} cells",
        batch.jobs.len(),
        batch.heights.len()
    );
    println!(
        "  steps accepted {}, chooses {}",
        drive.steps.len(),
        drive.chosen.map_or(0, |chosen| chosen.times)
    );
    let counts: Vec<String> = (0..5)
        .map(|number| format!("{number}: {}", drive.steps_of(number)))
        .collect();
    println!("  steps by number {}", counts.join(", "));
    println!(
        "  guesses started {}, kept {}, discarded {}",
        drive.started,
        drive.kept,
        drive.discarded()
    );
}

/// Nanoseconds for a job: the batch opened, all jobs inserted, sealed, and
/// driven or replayed to its end. First the driven rows, then the replayed ones.
fn sample_engines(batch: &Batch, ways: &[Way], subjects: &[Subject], drive: &Drive) -> Vec<Row> {
    let jobs = batch.jobs.len() as f64;
    let mut driven = vec![Vec::new(); ways.len()];
    let mut replayed = vec![Vec::new(); subjects.len()];
    for _ in 0..ROUNDS {
        for (way, driven) in ways.iter().zip(&mut driven) {
            driven.extend(samples(TIME_FOR_A_TURN, || {
                nanoseconds(|| drop((way.driven)(batch))) / jobs
            }));
        }
        for (subject, replayed) in subjects.iter().zip(&mut replayed) {
            replayed.extend(samples(TIME_FOR_A_TURN, || {
                nanoseconds(|| (subject.replayed)(batch, &drive.steps)) / jobs
            }));
        }
    }
    let row = |way: &Way, samples: &[f64], replayed: bool| Row {
        name: way.name.to_string() + if replayed { ", replayed" } else { "" },
        figure: Figure::of(samples),
        replayed,
    };
    let driven = ways.iter().zip(&driven);
    let replayed = subjects.iter().zip(&replayed);
    driven
        .map(|(way, samples)| row(way, samples, false))
        .chain(replayed.map(|(subject, samples)| row(&subject.way, samples, true)))
        .collect()
}

/// The lowest median and the lowest best of the rows that such names begin.
fn fastest(rows: &[Row], begin: &str) -> Option<Figure> {
    let named = rows.iter().filter(|row| row.name.starts_with(begin));
    let figures = named.map(|row| row.figure);
    figures.reduce(|one, other| Figure {
        median: one.median.min(other.median),
        best: one.best.min(other.best),
    })
}

fn print_costs(
    batch: &Batch,
    ways: &[Way],
    subjects: &[Subject],
    drive: &Drive,
    outside: Vec<Row>,
) {
    let mut rows = sample_engines(batch, ways, subjects, drive);
    rows.extend(outside);
    // The plain engine is the first of the driven and of the replayed rows.
    let plain = |replayed: bool| {
        let mut alike = rows.iter().filter(|row| row.replayed == replayed);
        alike.next().map(|row| row.figure)
    };
    let openmp = fastest(&rows, "GNU OpenMP");
    let starpu = fastest(&rows, "StarPU");
    let line = |row: &Row| {
        vec![
            row.name.clone(),
            table::figure(Some(row.figure.median)),
            table::figure(Some(row.figure.best)),
            table::ratios(row.figure, plain(row.replayed)),
            table::ratios(row.figure, openmp),
            table::ratios(row.figure, starpu),
        ]
    };
    println!("\nOne job, all its calls, in nanoseconds; ratios of medians (in brackets of bests)");
    println!("(replayed: the same steps without choosing, to the plain engine replayed;");
    println!("to OpenMP and to StarPU: to the fastest row of each)");
    let header = ["", "median", "best", "to plain", "to OpenMP", "to StarPU"];
    table::print(&header, &rows.iter().map(line).collect::<Vec<_>>());
}

/// The calls that every engine has, in the order of the columns.
const COLUMNS: [usize; 8] = [INSERT, SEAL, CHOOSE, 0, 1, 2, 3, 4];
const CALL_NAMES: [&str; 8] = [
    "insert", "seal", "choose", "step 0", "step 1", "step 2", "step 3", "step 4",
];

/// For each size all repetitions, every call of the driven batch clocked.
fn clocks(way: &Way) -> [Vec<Clock>; SIZES.len()] {
    let batches = SIZES.map(Batch::of);
    let mut clocks: [Vec<Clock>; SIZES.len()] = Default::default();
    for _ in 0..GROWTH_ROUNDS {
        for (batch, clocks) in batches.iter().zip(&mut clocks) {
            samples(TIME_FOR_A_TURN, || {
                let mut clock = Clock::new();
                (way.clocked)(batch, &mut clock);
                clocks.push(clock);
                0.0
            });
        }
    }
    clocks
}

/// The median over all repetitions of the mean time of one call.
fn call_time(clocks: &[Clock], which: usize) -> Option<f64> {
    let means: Option<Vec<f64>> = clocks.iter().map(|clock| clock.mean(which)).collect();
    means.map(|means| Figure::of(&means).median)
}

fn print_growth(subjects: &[Subject]) {
    println!("\nOne call, mean nanoseconds over the driven batch, by the number of jobs");
    println!("(each call clocked by itself, the clock's own time taken off)");
    let mut lines = Vec::new();
    for Subject { way, .. } in subjects {
        let times = clocks(way).map(|clocks| COLUMNS.map(|which| call_time(&clocks, which)));
        for (jobs, times) in SIZES.iter().zip(&times) {
            let mut line = vec![way.name.to_string(), jobs.to_string()];
            line.extend(times.map(table::figure));
            lines.push(line);
        }
        let mut growth = vec![way.name.to_string(), "growth".to_string()];
        let first_and_last = times[0].iter().zip(&times[SIZES.len() - 1]);
        growth.extend(first_and_last.map(|(&first, &last)| table::ratio(last, first)));
        lines.push(growth);
    }
    let mut header = vec!["", "jobs"];
    header.extend(CALL_NAMES);
    table::print(&header, &lines);
    let times = SIZES[SIZES.len() - 1] / SIZES[0];
    println!("(growth: the last size's figure to the first's; the jobs grow by {times})");
}

/// The same of a list of jobs and of turns, one line for each way that has them.
fn print_growth_of_fewer_calls(ways: &[Way]) {
    let mut lines = Vec::new();
    for way in ways {
        let clocks = clocks(way);
        let last = &clocks[SIZES.len() - 1][0];
        let which = if last.calls(TURN) > 0 {
            TURN
        } else {
            INSERT_ALL
        };
        let mut line = vec![way.name.to_string(), last.calls(which).to_string()];
        let times = clocks.each_ref().map(|clocks| call_time(clocks, which));
        line.extend(times.map(table::figure));
        line.push(table::ratio(times[SIZES.len() - 1], times[0]));
        lines.push(line);
    }
    if lines.is_empty() {
        return;
    }
    println!("\nThe same of a whole list of jobs, and of a turn");
    println!("(calls: how many there are with {JOBS} jobs)");
    let sizes = SIZES.map(|jobs| jobs.to_string());
    let mut header = vec!["", "calls"];
    header.extend(sizes.iter().map(String::as_str));
    header.push("growth");
    table::print(&header, &lines);
}

fn print_stack(batch: &Batch, subjects: &[Subject]) {
    println!("\nBytes: the record, and the stack that the deepest call of each sort touches");
    let mut lines = Vec::new();
    for subject in subjects {
        let mut stack = Stack::new();
        (subject.way.stacked)(batch, &mut stack);
        let record = subject.record_bytes;
        let record = record.map_or("on the heap".into(), |bytes| bytes.to_string());
        let mut line = vec![subject.way.name.to_string(), record];
        line.extend(COLUMNS.map(|which| stack.deepest[which].to_string()));
        lines.push(line);
    }
    let mut header = vec!["", "record"];
    header.extend(CALL_NAMES);
    table::print(&header, &lines);
}

/// That of a turn is the deepest of all its limits.
#[cfg(feature = "proved")]
fn print_other_stacks(batch: &Batch, drive: &Drive, ways: &[Way]) {
    println!(
        "\nThe stack that the proved library's other calls touch; answer: the answer to a plan"
    );
    let mut stack = Stack::new();
    ways.iter().for_each(|way| (way.stacked)(batch, &mut stack));
    let plan = plans::plan(batch, &drive.steps, plans::MOST_BYTES);
    let mut calls = vec![("turn", stack.deepest[TURN])];
    calls.extend(proved::other_stacks(batch, &plan));
    let (names, bytes): (Vec<_>, Vec<_>) = calls.into_iter().unzip();
    table::print(&names, &[bytes.iter().map(usize::to_string).collect()]);
}
