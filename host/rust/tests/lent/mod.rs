//! Records as they lie in memory, with anything where nothing is to be looked at, and bytes around them that nobody may touch.

use second_hand::plans::Dice;
use second_hand::record::{self, Job};
use sorghemi::{raw, Record};
use std::mem::{offset_of, size_of};

/// Something lent, with bytes around it that nobody may touch.
#[repr(C, align(16))]
pub struct Lent<const SIZE: usize> {
    pub before: [u8; 64],
    pub bytes: [u8; SIZE],
    pub after: [u8; 64],
}

impl<const SIZE: usize> Lent<SIZE> {
    /// Any bytes.
    pub fn any(dice: &mut Dice) -> Lent<SIZE> {
        let mut byte = || dice.below(256) as u8;
        Lent { before: [(); 64].map(|()| byte()), bytes: [(); SIZE].map(|()| byte()), after: [(); 64].map(|()| byte()) }
    }

    /// All bytes, those around it too.
    pub fn all(&self) -> Vec<u8> {
        [&self.before[..], &self.bytes, &self.after].concat()
    }

    pub fn put(&mut self, at: usize, bytes: &[u8]) {
        self.bytes[at..at + bytes.len()].copy_from_slice(bytes);
    }

    /// Kind, number of accesses, and the accesses in use alone; or all of the job but for what stands between its fields.
    pub fn put_job(&mut self, at: usize, job: &Job, whole: bool) {
        self.put(at + offset_of!(sorghemi::Job, kind), &[job.kind]);
        self.put(at + offset_of!(sorghemi::Job, arity), &[job.arity]);
        let count = if whole { 4 } else { job.arity.min(4).into() };
        for (place, &(cell, mode)) in job.accesses[..count].iter().enumerate() {
            self.put(at + offset_of!(sorghemi::Job, accesses) + 2 * place, &[cell, mode]);
        }
        if whole {
            self.put(at + offset_of!(sorghemi::Job, parameter), &job.parameter.to_le_bytes());
            for (place, predicted) in job.predicted.iter().enumerate() {
                self.put(at + offset_of!(sorghemi::Job, predicted) + 4 * place, &predicted.to_le_bytes());
            }
        }
    }
}

pub type LentRecord = Lent<{ size_of::<Record>() }>;

/// Of the record just what R91 names, and anything else: other heights, parameters, predictions, values handed and reported,
/// places and cells not in use.
pub fn named_by_r91(record: &record::Record, dice: &mut Dice) -> LentRecord {
    let mut lent = LentRecord::any(dice);
    lent.put(0, &[record.cell_count, record.job_count, record.sealed, record.speculating]);
    for job in 0..record.job_count.into() {
        lent.put_job(offset_of!(Record, jobs) + job * size_of::<sorghemi::Job>(), &record.jobs[job], false);
        let (run, at) = (&record.runs[job], offset_of!(Record, runs) + job * size_of::<raw::Run>());
        lent.put(at + offset_of!(raw::Run, wrote), &[run.wrote]);
        lent.put(at + offset_of!(raw::Run, sources), &run.sources);
        lent.put(at + offset_of!(raw::Run, bypassed), &run.bypassed.to_le_bytes());
        lent.put(offset_of!(Record, committed) + job, &[record.committed[job]]);
        lent.put(offset_of!(Record, running) + job, &[record.running[job]]);
        lent.put(offset_of!(Record, phase) + job, &[record.phase[job]]);
    }
    lent
}

/// Damages the record in one thing that R91 names.
pub fn damage_one(lent: &mut LentRecord, dice: &mut Dice) {
    let held = usize::from(lent.bytes[1]);
    let job = dice.below(held.max(1));
    let in_jobs = offset_of!(Record, jobs) + job * size_of::<sorghemi::Job>();
    let in_runs = offset_of!(Record, runs) + job * size_of::<raw::Run>();
    let columns = [(offset_of!(Record, committed), 3), (offset_of!(Record, running), 2), (offset_of!(Record, phase), 4)];
    let (column, past_its_last) = dice.pick(&columns);
    let past = in_runs + offset_of!(raw::Run, bypassed) + job / 8;
    // A byte, and a number that it may not have.
    let (at, number) = match dice.below(if held == 0 { 4 } else { 12 }) {
        0 => (offset_of!(Record, cell_count), dice.pick(&[0, 65, 255])),
        1 => (offset_of!(Record, job_count), dice.pick(&[129, 255])),
        2 => (offset_of!(Record, sealed), dice.pick(&[2, 255])),
        3 => (offset_of!(Record, speculating), dice.pick(&[2, 255])),
        4 => (in_jobs + offset_of!(sorghemi::Job, arity), dice.pick(&[0, 5])),
        5 => (in_jobs + offset_of!(sorghemi::Job, accesses), lent.bytes[0]),
        6 => (in_jobs + offset_of!(sorghemi::Job, accesses) + 1, 4),
        7 => (in_jobs + offset_of!(sorghemi::Job, kind), 7),
        8 => (column + job, past_its_last),
        9 => (in_runs + offset_of!(raw::Run, wrote), 2),
        10 => (in_runs + offset_of!(raw::Run, sources) + dice.below(4), job as u8 + 1),
        _ => (past, lent.bytes[past] | 1 << (job % 8)),
    };
    lent.bytes[at] = number;
}
