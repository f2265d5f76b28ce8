//! `gaugeplan`: plans for `gaugebatch`, run, explained in words, given their steps, drawn, and their guesses counted
//! (docs/GAUGEPLAN.md).
//!
//! All that is said of a plan comes from the proved library: what it answers to the plan as a whole, and how a batch stands
//! that is driven through the plan's steps.
#![cfg_attr(not(test), no_main)]
#![cfg_attr(test, allow(dead_code))] // Tests have a main of their own.

mod answer;
mod command;
mod dependence;
mod explain;
mod fault;
mod fields;
mod files;
mod graph;
mod picture;
mod plan;
mod schedule;
mod streams;
mod tally;
mod trace;
mod why;
mod words;

use answer::{contradicted, quiet, refused, Answer, FAILED, FAULTY};
use command::{Command, Request};
use plan::{Contradiction, Reading};
use std::ffi::OsString;

/// C's `main`, since Rust's own opens descriptors that are closed on /dev/null before the program could see them: a plan that
/// was never read would be an empty one, and an answer could vanish.
#[cfg(not(test))]
#[no_mangle]
pub extern "C" fn main(_count: std::ffi::c_int, _words: *const *const std::ffi::c_char) -> std::ffi::c_int {
    let words: Vec<OsString> = std::env::args_os().skip(1).collect();
    program(&words).into()
}

/// The program's status.
fn program(words: &[OsString]) -> u8 {
    streams::ignore_broken_pipes();
    ended(match command::read(words) {
        Err(message) => answer::failed(&message),
        Ok(Request::Help(text)) => quiet(text, 0),
        Ok(Request::Do(command)) => done(command),
        Ok(Request::Tally(names)) => tally::of_files(&names),
    })
}

/// The status, once all is written.
fn ended(answer: Answer) -> u8 {
    streams::write_message(answer.message.as_bytes());
    if answer.status == FAILED {
        return FAILED; // There is nothing to write.
    }
    match streams::write_output(&answer.output) {
        Ok(()) => answer.status,
        Err(reason) => ended(answer::failed(&format!("writing standard output failed: {reason}"))),
    }
}

fn done(command: Command) -> Answer {
    let input = match streams::read_input() {
        Ok(input) => input,
        Err(reason) => return answer::failed(&format!("reading standard input failed: {reason}")),
    };
    let answered = match command {
        Command::Steps(workers) => steps(&input, workers),
        _ => of_whole_plan(command, &input),
    };
    answered.unwrap_or_else(contradicted)
}

fn of_whole_plan(command: Command, input: &[u8]) -> Result<Answer, Contradiction> {
    Ok(match (command, plan::read(input)?) {
        (Command::Run, Reading::Sound(sound)) => quiet(sound.answer, 0),
        (Command::Run, Reading::Faulty(faulty)) => quiet(faulty.answer, FAULTY),
        (Command::Explain, Reading::Faulty(faulty)) => quiet(fault::explained(input, faulty.fault), FAULTY),
        (_, Reading::Faulty(faulty)) => refused(input, &faulty),
        (Command::Graph, Reading::Sound(sound)) => quiet(graph::drawn(&sound)?, 0),
        (Command::Picture, Reading::Sound(sound)) => quiet(picture::drawn(&sound)?, 0),
        (_, Reading::Sound(sound)) => quiet(explain::explained(&sound)?, 0),
    })
}

fn steps(input: &[u8], workers: usize) -> Result<Answer, Contradiction> {
    Ok(match plan::read_without_steps(input)? {
        (Reading::Faulty(faulty), _) => refused(input, &faulty),
        (Reading::Sound(sound), text) => quiet(schedule::planned(&text, &sound.plan, workers)?, 0),
    })
}
