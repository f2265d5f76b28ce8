//! A record as bytes, to keep it in a file or send it on. They are those of the record in memory, with zeros between the fields.

use crate::job::Job;
use crate::raw::{Access, JobSet, Record, Run};
use std::mem::{offset_of, size_of};

/// A field's bytes at a place; `write` and `read` are the same walk over the fields, in two directions.
trait Walk {
    fn byte(&mut self, at: usize, value: &mut u8);

    fn bytes(&mut self, at: usize, values: &mut [u8]) {
        for (i, value) in values.iter_mut().enumerate() {
            self.byte(at + i, value);
        }
    }

    fn heights(&mut self, at: usize, values: &mut [i32]) {
        for (i, value) in values.iter_mut().enumerate() {
            let mut four = value.to_le_bytes();
            self.bytes(at + 4 * i, &mut four);
            *value = i32::from_le_bytes(four);
        }
    }

    fn word(&mut self, at: usize, value: &mut u64) {
        let mut eight = value.to_le_bytes();
        self.bytes(at, &mut eight);
        *value = u64::from_le_bytes(eight);
    }

    fn job(&mut self, at: usize, job: &mut Job) {
        self.byte(at + offset_of!(Job, kind), &mut job.kind);
        self.byte(at + offset_of!(Job, arity), &mut job.arity);
        for (i, access) in job.accesses.iter_mut().enumerate() {
            let place = at + offset_of!(Job, accesses) + i * size_of::<Access>();
            self.byte(place + offset_of!(Access, cell), &mut access.cell);
            self.byte(place + offset_of!(Access, mode), &mut access.mode);
        }
        self.heights(at + offset_of!(Job, parameter), std::slice::from_mut(&mut job.parameter));
        self.heights(at + offset_of!(Job, predicted), &mut job.predicted);
    }

    fn run(&mut self, at: usize, run: &mut Run) {
        self.heights(at + offset_of!(Run, handed), &mut run.handed);
        self.heights(at + offset_of!(Run, reported), &mut run.reported);
        self.byte(at + offset_of!(Run, wrote), &mut run.wrote);
        self.bytes(at + offset_of!(Run, sources), &mut run.sources);
        let set = at + offset_of!(Run, bypassed);
        self.word(set + offset_of!(JobSet, low), &mut run.bypassed.low);
        self.word(set + offset_of!(JobSet, high), &mut run.bypassed.high);
    }

    fn record(&mut self, record: &mut Record) {
        self.byte(offset_of!(Record, cell_count), &mut record.cell_count);
        self.byte(offset_of!(Record, job_count), &mut record.job_count);
        self.byte(offset_of!(Record, sealed), &mut record.sealed);
        self.byte(offset_of!(Record, speculating), &mut record.speculating);
        self.heights(offset_of!(Record, cells), &mut record.cells);
        for (j, job) in record.jobs.iter_mut().enumerate() {
            self.job(offset_of!(Record, jobs) + j * size_of::<Job>(), job);
        }
        for (j, run) in record.runs.iter_mut().enumerate() {
            self.run(offset_of!(Record, runs) + j * size_of::<Run>(), run);
        }
        self.bytes(offset_of!(Record, committed), &mut record.committed);
        self.bytes(offset_of!(Record, running), &mut record.running);
        self.bytes(offset_of!(Record, phase), &mut record.phase);
    }
}

struct Write<'a>(&'a mut [u8; Record::SIZE]);

impl Walk for Write<'_> {
    fn byte(&mut self, at: usize, value: &mut u8) {
        self.0[at] = *value;
    }
}

struct Read<'a>(&'a [u8; Record::SIZE]);

impl Walk for Read<'_> {
    fn byte(&mut self, at: usize, value: &mut u8) {
        *value = self.0[at];
    }
}

impl Record {
    /// How many bytes a record has.
    pub const SIZE: usize = size_of::<Record>();

    /// The record's bytes.
    pub fn to_bytes(&self) -> [u8; Record::SIZE] {
        let mut bytes = [0; Record::SIZE];
        Write(&mut bytes).record(&mut self.clone());
        bytes
    }

    /// The record with these bytes. Any bytes give one; the library refuses it if it is out of form.
    pub fn from_bytes(bytes: &[u8; Record::SIZE]) -> Record {
        let mut record = Record::blank();
        Read(bytes).record(&mut record);
        record
    }

    /// A record of zeros, which is out of form.
    fn blank() -> Record {
        let access = Access { cell: 0, mode: 0 };
        let job = Job { kind: 0, arity: 0, accesses: [access; 4], parameter: 0, predicted: [0; 4] };
        let bypassed = JobSet { low: 0, high: 0 };
        let run = Run { handed: [0; 4], reported: [0; 4], wrote: 0, sources: [0; 4], bypassed };
        Record {
            cell_count: 0,
            job_count: 0,
            sealed: 0,
            speculating: 0,
            cells: [0; 64],
            jobs: [job; 128],
            runs: [run; 128],
            committed: [0; 128],
            running: [0; 128],
            phase: [0; 128],
        }
    }
}
