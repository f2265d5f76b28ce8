//! The plain engine with a price added, one at a time: the record checked
//! before every call, or the record handed over and back by value.

use crate::batch::Job;
use crate::engine::Engine;
use crate::plain::Plain;

const OUT_OF_FORM: u8 = 32;

/// Every call first asks whether the record is in form.
pub struct Checked(Plain);

impl Engine for Checked {
    const RECORD_BYTES: Option<usize> = Plain::RECORD_BYTES;

    fn open(heights: &[i32]) -> Checked {
        Checked(Engine::open(heights))
    }

    fn insert(&mut self, job: &Job) -> u8 {
        if !self.0.is_in_form() {
            return OUT_OF_FORM;
        }
        Engine::insert(&mut self.0, job)
    }

    fn seal(&mut self, speculating: u8) -> u8 {
        if !self.0.is_in_form() {
            return OUT_OF_FORM;
        }
        Engine::seal(&mut self.0, speculating)
    }

    fn step(&mut self, number: u8, job: usize, values: [i32; 4], wrote: u8) -> (u8, [i32; 4]) {
        if !self.0.is_in_form() {
            return (OUT_OF_FORM, [0; 4]);
        }
        self.0.step(number, job, values, wrote)
    }

    fn choose(&self) -> Option<(u8, usize, u8)> {
        if !self.0.is_in_form() {
            return None;
        }
        Engine::choose(&self.0)
    }

    fn cell(&self, cell: usize) -> i32 {
        Engine::cell(&self.0, cell)
    }
}

/// Every call that may change the record takes it by value and hands it back.
pub struct ByValue(Plain);

// Not inlined: the copies are what is to be seen.

#[inline(never)]
fn insert(mut record: Plain, job: &Job) -> (Plain, u8) {
    let answer = Engine::insert(&mut record, job);
    (record, answer)
}

#[inline(never)]
fn seal(mut record: Plain, speculating: u8) -> (Plain, u8) {
    let answer = Engine::seal(&mut record, speculating);
    (record, answer)
}

#[inline(never)]
fn step(
    mut record: Plain,
    number: u8,
    job: usize,
    values: [i32; 4],
    wrote: u8,
) -> (Plain, (u8, [i32; 4])) {
    let answer = record.step(number, job, values, wrote);
    (record, answer)
}

impl Engine for ByValue {
    const RECORD_BYTES: Option<usize> = Plain::RECORD_BYTES;

    fn open(heights: &[i32]) -> ByValue {
        ByValue(Engine::open(heights))
    }

    fn insert(&mut self, job: &Job) -> u8 {
        let (record, answer) = insert(self.0, job);
        self.0 = record;
        answer
    }

    fn seal(&mut self, speculating: u8) -> u8 {
        let (record, answer) = seal(self.0, speculating);
        self.0 = record;
        answer
    }

    fn step(&mut self, number: u8, job: usize, values: [i32; 4], wrote: u8) -> (u8, [i32; 4]) {
        let (record, answer) = step(self.0, number, job, values, wrote);
        self.0 = record;
        answer
    }

    fn choose(&self) -> Option<(u8, usize, u8)> {
        Engine::choose(&self.0)
    }

    fn cell(&self, cell: usize) -> i32 {
        Engine::cell(&self.0, cell)
    }
}
