//! A batch with several workers: one lock round the batch, and threads that take turns: each reports what it has done, and takes
//! what is to be done next, for itself and for those who are free. While they are at it, corrections come in.
//!
//!     cargo run --example threads -- 8
//!
//! How the threads get on decides which guesses are made, kept and thrown away, and never what the heights are at the end.
//! host/README.md has what a host with threads has to know; host/c/threads.c is the same in C.

use sorghemi::{Batch, Committed, Job, JobState, Phase, Refusal, RunReport, Step, Taken, Validity, MOST_STEPS};
use std::collections::VecDeque;
use std::fmt::Display;
use std::sync::atomic::{AtomicUsize, Ordering};
use std::sync::{Condvar, Mutex};
use std::thread;
use std::time::Duration;

/// Bytes of stack for a worker, enough for any call (host/README.md).
const STACK: usize = 256 * 1024;

/// What the threads share.
struct Morning {
    desk: Mutex<Desk>,
    /// Told whenever a turn has reported or taken a step, when a job has come in, and when the line is closed.
    changed: Condvar,
    /// How long a part of a check takes. A real check has work to do instead.
    pace: Duration,
    /// How many guesses were given up, and how many were reported too late.
    given_up: AtomicUsize,
    late: AtomicUsize,
    /// How many corrections met a finished batch, and how many one with a run out.
    met_finished: AtomicUsize,
    met_run_out: AtomicUsize,
}

/// What is under the lock.
struct Desk {
    batch: Batch,
    /// Runs that turns have started and that no worker has taken up yet.
    waiting: VecDeque<Taken>,
    /// How many workers have no run. They are never fewer than the runs that wait.
    free: usize,
    /// Whether more jobs may come in. While they may, a finished batch is no reason to leave.
    line_open: bool,
}

/// What each worker does until the batch is finished and no more jobs come in.
fn work(morning: &Morning) {
    let mut report = None; // on the run that this worker had
    let mut desk = morning.desk.lock().unwrap();
    loop {
        let more = take_turn(morning, &mut desk, report.take());
        if let Some(run) = desk.waiting.pop_front() {
            desk.free -= 1;
            let job = accepted(desk.batch.job(run.job)).job;
            drop(desk); // The others go on while this one checks.
            report = check(morning, run, job);
            desk = morning.desk.lock().unwrap();
            desk.free += 1;
        } else if !desk.line_open && desk.batch.finished() {
            return;
        } else if !more {
            // Nothing to start before another worker has reported or a job has come in.
            desk = morning.changed.wait(desk).unwrap();
        }
    }
}

/// Makes the report, and starts no more runs than there are workers free to do them. False where no step is allowed any more.
fn take_turn(morning: &Morning, desk: &mut Desk, report: Option<RunReport>) -> bool {
    let limit = desk.free - desk.waiting.len();
    let turn = match desk.batch.turn(report, limit) {
        // The guess was thrown away while this worker had it. That is no mistake, and nothing is lost.
        Err(Refusal::WRONG_STATE) if matches!(report, Some(RunReport::Speculation(..))) => {
            morning.late.fetch_add(1, Ordering::Relaxed);
            accepted(desk.batch.turn(None, limit))
        }
        turn => accepted(turn),
    };
    desk.waiting.extend(turn.runs());
    if report.is_some() || !turn.steps().is_empty() {
        morning.changed.notify_all();
    }
    turn.steps().len() == limit.min(MOST_STEPS)
}

/// What the call answered. A refusal here is a mistake of this program and ends it: a thread that only panicked would leave the
/// others waiting for its report, or for the line to be closed.
fn accepted<T, E: Display>(answer: Result<T, E>) -> T {
    answer.unwrap_or_else(|refusal| {
        eprintln!("{refusal}");
        std::process::exit(1)
    })
}

/// The check of the run's job, and the report on it. Nothing comes of a guess that is given up.
fn check(morning: &Morning, run: Taken, job: Job) -> Option<RunReport> {
    const PARTS: usize = 5;
    for _ in 0..PARTS {
        if run.step == Step::StartSpeculation && !is_of_use(morning, run.job) {
            morning.given_up.fetch_add(1, Ordering::Relaxed);
            return None;
        }
        thread::sleep(morning.pace);
    }
    run.reporting(accepted(job.result(run.handed)))
}

/// Whether the guess that a worker has may still be settled. It may not where it has fallen, or where the job's own run has taken
/// its place already.
fn is_of_use(morning: &Morning, job: usize) -> bool {
    let state = accepted(morning.desk.lock().unwrap().batch.job(job));
    matches!(state.validity, Validity::Undecided | Validity::Valid)
}

/// Six gauges. Of the tests some find something and some do not, so that guesses are kept and guesses are thrown away.
fn plan() -> Result<Batch, Refusal> {
    let mut batch = Batch::open(&[2900, 1500, 1480, 1720, 1390, 1610])?;
    batch
        .insert_all(&[
            Job::spike(0, 1, 1000),
            Job::shift(0, 20),
            Job::spike(2, 3, 1000),
            Job::shift(2, 20),
            Job::floor(4, 1400),
            Job::mean(5, 4, 2),
            Job::pair(0, 2),
            Job::floor(1, 1400),
            Job::shift(1, -15),
            Job::mean(3, 0, 1),
            Job::spike(5, 3, 30),
            Job::shift(5, 7),
        ])
        .map_err(|refused| refused.refusal)?;
    batch.seal(true)?;
    Ok(batch)
}

/// Corrections come in while the workers are at it, the last when all is done. Then the line is closed, whether all is done or not.
fn take_calls(morning: &Morning) {
    thread::sleep(morning.pace * 3);
    insert(morning, Job::shift(0, 5));
    thread::sleep(morning.pace * 60);
    insert(morning, Job::spike(1, 2, 30));
    wait_until_finished(morning);
    insert(morning, Job::shift(1, -10));
    thread::sleep(morning.pace * 12);
    close_line(morning);
}

fn insert(morning: &Morning, job: Job) {
    let mut desk = morning.desk.lock().unwrap();
    let run_out = states(&desk.batch).any(|state| state.running || state.phase == Phase::Out);
    morning.met_finished.fetch_add(usize::from(desk.batch.finished()), Ordering::Relaxed);
    morning.met_run_out.fetch_add(usize::from(run_out), Ordering::Relaxed);
    accepted(desk.batch.insert(job));
    morning.changed.notify_all(); // Those who wait may have something to start now.
}

fn wait_until_finished(morning: &Morning) {
    let desk = morning.desk.lock().unwrap();
    drop(morning.changed.wait_while(desk, |desk| !desk.batch.finished()).unwrap());
}

fn close_line(morning: &Morning) {
    morning.desk.lock().unwrap().line_open = false;
    morning.changed.notify_all(); // Those who wait may leave now.
}

/// How each job stands.
fn states(batch: &Batch) -> impl Iterator<Item = JobState> + '_ {
    (0..).map_while(|job| batch.job(job).ok())
}

/// How a morning ended.
pub struct End {
    pub heights: Vec<i32>,
    pub kept: usize,
    pub thrown_away: usize,
    /// Of those thrown away.
    pub given_up: usize,
    pub late: usize,
    /// Of the corrections.
    pub met_finished: usize,
    pub met_run_out: usize,
}

/// The batch run by so many workers, one at least, while corrections come in.
pub fn run(workers: usize, pace: Duration) -> Result<End, Refusal> {
    let morning = Morning {
        desk: Mutex::new(Desk { batch: plan()?, waiting: VecDeque::new(), free: workers, line_open: true }),
        changed: Condvar::new(),
        pace,
        given_up: AtomicUsize::new(0),
        late: AtomicUsize::new(0),
        met_finished: AtomicUsize::new(0),
        met_run_out: AtomicUsize::new(0),
    };
    thread::scope(|scope| {
        for _ in 0..workers {
            let worker = thread::Builder::new().stack_size(STACK);
            accepted(worker.spawn_scoped(scope, || work(&morning)));
        }
        take_calls(&morning);
    });
    let batch = morning.desk.into_inner().unwrap().batch;
    Ok(End {
        heights: batch.cells(),
        kept: states(&batch).filter(|state| state.committed == Committed::BySpeculation).count(),
        thrown_away: states(&batch).filter(|state| state.phase == Phase::Discarded).count(),
        given_up: morning.given_up.into_inner(),
        late: morning.late.into_inner(),
        met_finished: morning.met_finished.into_inner(),
        met_run_out: morning.met_run_out.into_inner(),
    })
}

#[allow(dead_code)] // the test that includes this file has a main of its own
fn main() -> Result<(), Box<dyn std::error::Error>> {
    let workers = std::env::args().nth(1).map_or(Ok(8), |text| text.parse())?;
    let end = run(workers.max(1), Duration::from_millis(2))?;
    println!("cells: {:?}", end.heights);
    println!("guesses kept {}, thrown away {}", end.kept, end.thrown_away);
    println!("of these given up early {}, reported too late {}", end.given_up, end.late);
    println!("corrections that met a finished batch {}, a run out {}", end.met_finished, end.met_run_out);
    Ok(())
}
