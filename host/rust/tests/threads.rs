//! The example with threads, many times over: whatever the threads do and whenever the corrections come in, the heights at the end
//! are the same.

#[path = "../examples/threads.rs"]
mod threads;

use std::sync::mpsc;
use std::time::Duration;

/// The example, which fails here where it would go on for ever: a worker that nobody wakes waits.
fn run(workers: usize, pace: Duration) -> threads::End {
    let (sender, receiver) = mpsc::channel();
    std::thread::spawn(move || sender.send(threads::run(workers, pace)));
    receiver.recv_timeout(Duration::from_secs(60)).expect("an end within a minute").unwrap()
}

#[test]
fn the_end_is_the_same_whatever_the_threads_do() {
    let mut seen = [0; 6];
    // The turns are worth something only if all that can become of a guess has come up, and if corrections have met a finished
    // batch and a run that was out. So they go on until that is so.
    for turn in 0..2000 {
        if turn >= 100 && seen.iter().all(|&times| times > 0) {
            break;
        }
        let pace = Duration::from_micros([0, 20, 100, 400][turn % 4]);
        let end = run(1 + turn % 9, pace);
        // Worked out from R12 to R17, one job after the other; host/c/threads.stdout has the same.
        assert_eq!(end.heights, [1505, 1510, 1520, 1493, 1400, 1500], "turn {turn}");
        let more = [end.kept, end.thrown_away, end.given_up, end.late, end.met_finished, end.met_run_out];
        seen.iter_mut().zip(more).for_each(|(sum, more)| *sum += more);
    }
    println!("guesses kept, thrown away, of these given up and reported too late; met finished, with a run out: {seen:?}");
    assert!(seen.iter().all(|&times| times > 0), "{seen:?}");
}

/// The page says how much stack is enough. The example's workers have no more; a plan's answer needs the most.
#[test]
fn a_plan_is_answered_in_256_kib() {
    let plan = std::fs::read(concat!(env!("CARGO_MANIFEST_DIR"), "/../../examples/worked.plan")).unwrap();
    let steps = b"0 0\n1 1\n3 1\n2 0\n4 1\n".repeat(3000);
    let plan = [plan, steps].concat();
    let worker = std::thread::Builder::new().stack_size(256 * 1024);
    let answered = worker.spawn(move || sorghemi::answer(&plan)).unwrap().join().unwrap();
    assert!(answered.starts_with(b"step answer\n0 0\n1 0\n3 0\n2 0\n4 0\n0 13\n"));
    assert!(answered.ends_with(b"job how mark\n0 1 0\n1 2 0\ncell value\n0 1520\n1 1480\n"));
}

/// The page shows the worker's loop; what it shows has to be what is run here.
#[test]
fn the_page_quotes_the_example() {
    let page = include_str!("../../README.md");
    let example = include_str!("../examples/threads.rs");
    let quoted = page.split("```rust\n").nth(1).and_then(|rest| rest.split("```").next()).unwrap();
    assert!(quoted.starts_with("fn work(") && quoted.ends_with("}\n"));
    assert!(example.contains(quoted), "host/README.md has another loop than the example");
}
