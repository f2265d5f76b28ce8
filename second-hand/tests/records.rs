//! `record`: side by side with `engine` on random lists of calls; every clause of
//! refusal 32 at its limits; states that no list of calls leads to; damaged
//! records.

use second_hand::choosing::Watch;
use second_hand::engine::{Access, Batch, GuessState, Report, Settled};
use second_hand::kinds;
use second_hand::picks::{pick, Answer, Field};
use second_hand::record::{BatchAnswer, Job, JobAnswer, Record, Run};
use second_hand::sets::GuessTold;
use second_hand::tally::Tally;

const READ: u8 = 0;
const WRITE: u8 = 1;
const MAYBE: u8 = 2;
const PREDICTED: u8 = 3;

struct Dice(u64);

impl Dice {
    fn below(&mut self, limit: u64) -> u64 {
        self.0 ^= self.0 << 13;
        self.0 ^= self.0 >> 7;
        self.0 ^= self.0 << 17;
        (self.0 >> 11) % limit
    }

    fn one_in(&mut self, chances: u64) -> bool {
        self.below(chances) == 0
    }
}

fn job(kind: u8, parameter: i32, accesses: &[(u8, u8)]) -> Job {
    let mut job = Job {
        kind,
        parameter,
        arity: accesses.len() as u8,
        ..Job::default()
    };
    job.accesses[..accesses.len()].copy_from_slice(accesses);
    job
}

fn record(heights: &[i32], jobs: &[Job], guessing: u8) -> Record {
    let mut record = Record::open(heights).unwrap();
    for &job in jobs {
        assert_eq!(record.insert(job), 0);
    }
    assert_eq!(record.seal(guessing), 0);
    record
}

/// Two cells; jobs 0 floor, 1 shift, 2 shift on cell 0, 3 set on cell 1.
fn quay(guessing: u8) -> Record {
    let floor = job(4, 1400, &[(0, MAYBE)]);
    let shift = job(2, 20, &[(0, WRITE)]);
    let set = job(1, 7, &[(1, WRITE)]);
    record(&[1500, 1480], &[floor, shift, shift, set], guessing)
}

/// The step's refusal, with a report of one value where one is due. A refusal
/// hands out zeros and changes nothing.
fn step(record: &mut Record, number: u8, job: usize, value: i32, mark: u8) -> u8 {
    let before = record.clone();
    let (refusal, handed) = record.step(number, job, [value; 4], mark);
    if refusal != 0 {
        assert_eq!(*record, before);
    }
    if refusal != 0 || number > 1 {
        assert_eq!(handed, [0; 4]);
    }
    refusal
}

/// What the five steps on this job would be answered, with mark 0.
fn answers(record: &Record, job: usize) -> [u8; 5] {
    [0, 1, 2, 3, 4].map(|number| step(&mut record.clone(), number, job, 5, 0))
}

// ---------------------------------------------------------------------------
// Bytes

/// The bytes of a record by the header's structs as a C compiler lays them out;
/// the bytes between the fields are 170.
fn bytes_of(record: &Record) -> Vec<u8> {
    let mut bytes = vec![170; 11912];
    let mut put = |at: usize, part: &[u8]| bytes[at..at + part.len()].copy_from_slice(part);
    put(
        0,
        &[
            record.cell_count,
            record.job_count,
            record.sealed,
            record.speculating,
        ],
    );
    for (cell, height) in record.cells.iter().enumerate() {
        put(4 + 4 * cell, &height.to_le_bytes());
    }
    for (number, job) in record.jobs.iter().enumerate() {
        let at = 260 + 32 * number;
        put(at, &[job.kind, job.arity]);
        put(at + 12, &job.parameter.to_le_bytes());
        for (place, access) in job.accesses.iter().enumerate() {
            put(at + 2 + 2 * place, &[access.0, access.1]);
            put(at + 16 + 4 * place, &job.predicted[place].to_le_bytes());
        }
    }
    for (number, run) in record.runs.iter().enumerate() {
        let at = 4360 + 56 * number;
        for place in 0..4 {
            put(at + 4 * place, &run.handed[place].to_le_bytes());
            put(at + 16 + 4 * place, &run.reported[place].to_le_bytes());
        }
        put(at + 32, &[run.wrote]);
        put(at + 33, &run.sources);
        put(at + 40, &(run.bypassed as u64).to_le_bytes());
        put(at + 48, &((run.bypassed >> 64) as u64).to_le_bytes());
    }
    put(11528, &record.committed);
    put(11656, &record.running);
    put(11784, &record.phase);
    bytes
}

#[test]
fn bytes_there_and_back() {
    assert_eq!(Record::SIZE, 11912);
    let mut dice = Dice(77);
    let bytes: Vec<u8> = (0..Record::SIZE).map(|_| dice.below(256) as u8).collect();
    let record = Record::from_bytes(&bytes);
    assert_eq!(record.jobs.len(), 128);
    assert_eq!(record.runs.len(), 128);
    assert_eq!(record.phase[127], bytes[11911]);
    assert_eq!(record.runs[127].bypassed >> 120, u128::from(bytes[11527]));
    assert_eq!(record.jobs[127].accesses[3].1, bytes[260 + 127 * 32 + 9]);
    let last = record.jobs[127].predicted[3].to_le_bytes();
    assert_eq!(last, bytes[4352..4356]);
    let back = bytes_of(&record);
    assert_eq!(Record::from_bytes(&back), record);
    // Between fields lie 2 bytes of a job, 3 of a run, and 4 before the runs.
    let between = back
        .iter()
        .zip(&bytes)
        .filter(|(one, other)| one != other)
        .count();
    assert!(between <= 128 * (2 + 3) + 4 && between > 128 * 4);
}

#[test]
#[should_panic]
fn another_length() {
    Record::from_bytes(&[0; 11911]);
}

// ---------------------------------------------------------------------------
// (a) Side by side with `engine`

/// A batch held twice, and what the calls say of each job's run.
struct Pair {
    record: Record,
    batch: Batch,
    guessing: Option<u8>,
    runs: Vec<([i32; 4], [i32; 4])>,
    accepted: [u64; 7],
    refused: [u64; 33],
    four: Four,
    /// How often a guess was judged 0 to 3 (R45).
    judged: [u64; 4],
}

/// What came up of jobs with four accesses: accepted steps by their number;
/// reports with mark 1 where the only maybe-write is the fourth access; heights
/// that a write, a maybe-write and a predicted write in the fourth place changed.
#[derive(Default, Debug)]
struct Four {
    accepted: [u64; 5],
    marked: u64,
    written: [u64; 3],
}

impl Four {
    /// Counts an accepted step, whatever the number of its job's accesses.
    fn count(&mut self, before: &Record, after: &Record, number: u8, job: usize, mark: u8) {
        let held = &before.jobs[job];
        if held.arity != 4 {
            return;
        }
        self.accepted[usize::from(number)] += 1;
        let modes = held.accesses.map(|access| access.1);
        let reports = number == 2 || number == 3;
        let only_fourth = !modes[..3].contains(&MAYBE) && modes[3] == MAYBE;
        self.marked += u64::from(reports && mark == 1 && only_fourth);
        let cell = usize::from(held.accesses[3].0);
        if before.cells[cell] != after.cells[cell] {
            assert!(number == 2 || number == 4);
            self.written[usize::from(modes[3] - WRITE)] += 1;
        }
    }

    fn add(&mut self, other: &Four) {
        for (sum, more) in self.accepted.iter_mut().zip(other.accepted) {
            *sum += more;
        }
        for (sum, more) in self.written.iter_mut().zip(other.written) {
            *sum += more;
        }
        self.marked += other.marked;
    }

    /// The least that came up of anything.
    fn least(&self) -> u64 {
        let all = self.accepted.iter().chain(&self.written);
        all.copied().min().unwrap_or(0).min(self.marked)
    }
}

/// A job that is mostly sound, often of kind 0 and four accesses. Places not in
/// use have anything in them, and predictions are any.
fn any_job(dice: &mut Dice, cells: u64) -> Job {
    let kind = match dice.below(40) {
        0 => 7,
        1..=10 => 0,
        _ => dice.below(7) as u8,
    };
    let modes = kinds::modes(u32::from(kind));
    let arity = match modes {
        _ if dice.one_in(40) => dice.below(6),
        Some(modes) => modes.len() as u64,
        None if !dice.one_in(3) => cells.min(4),
        None => 1 + dice.below(4),
    };
    let mut accesses = [(0, 0); 4];
    for place in 0..4 {
        let mut cell = dice.below(cells);
        // In use mostly one that the job does not have yet, if there is one.
        let taken = |cell: u64| {
            accesses[..place]
                .iter()
                .any(|&(other, _)| u64::from(other) == cell)
        };
        while (place as u64) < arity.min(cells) && taken(cell) && !dice.one_in(40) {
            cell = dice.below(cells);
        }
        if dice.one_in(60) {
            cell = cells;
        }
        let mode = if dice.one_in(60) { 4 } else { dice.below(4) };
        accesses[place] = (cell as u8, mode as u8);
    }
    // The fourth access is often the only maybe-write.
    if modes.is_none() && arity == 4 && dice.one_in(3) {
        for access in accesses[..3].iter_mut().filter(|access| access.1 == MAYBE) {
            access.1 = WRITE;
        }
        accesses[3].1 = MAYBE;
    }
    if !dice.one_in(40) {
        for (access, mode) in accesses.iter_mut().zip(modes.unwrap_or(&[])) {
            access.1 = *mode as u8;
        }
    }
    Job {
        kind,
        arity: arity as u8,
        accesses,
        parameter: dice.below(60) as i32 - 30,
        predicted: [0; 4].map(|_: i32| dice.below(60) as i32 - 30),
    }
}

fn accesses_of(job: &Job) -> Vec<Access> {
    let access = |place: usize| {
        let (cell, mode) = job.accesses.get(place).copied().unwrap_or((0, 0));
        Access {
            cell: u32::from(cell),
            mode: u32::from(mode),
            predicted: job.predicted.get(place).copied().unwrap_or(0),
        }
    };
    (0..usize::from(job.arity)).map(access).collect()
}

impl Pair {
    fn open(heights: &[i32]) -> Pair {
        Pair {
            record: Record::open(heights).unwrap(),
            batch: Batch::open(heights).unwrap(),
            guessing: None,
            runs: Vec::new(),
            accepted: [0; 7],
            refused: [0; 33],
            four: Four::default(),
            judged: [0; 4],
        }
    }

    fn count(&mut self, call: usize, refusal: u8) {
        match refusal {
            0 => self.accepted[call] += 1,
            number => self.refused[usize::from(number)] += 1,
        }
    }

    fn insert(&mut self, job: Job) {
        let answer = self
            .batch
            .insert(u32::from(job.kind), job.parameter, &accesses_of(&job));
        let refusal = self.record.insert(job);
        assert_eq!(u32::from(refusal), answer.err().unwrap_or(0));
        if refusal == 0 {
            self.runs.push(([0; 4], [0; 4]));
            assert_eq!(self.record.ask_job(self.runs.len() - 1).job, job);
        }
        self.count(5, refusal);
    }

    fn seal(&mut self, guessing: u8) {
        let answer = self.batch.seal(u32::from(guessing));
        let refusal = self.record.seal(guessing);
        assert_eq!(u32::from(refusal), answer.err().unwrap_or(0));
        if refusal == 0 {
            self.guessing = Some(guessing);
        }
        self.count(6, refusal);
    }

    fn step(&mut self, number: u8, job: usize, values: [i32; 4], mark: u8) {
        let batch = &mut self.batch;
        let report = Report {
            values,
            mark: u32::from(mark),
        };
        let place = job as u32;
        let answer = match number {
            0 => batch.start_own(place),
            1 => batch.start_guess(place),
            2 => batch.report_own(place, report).map(|()| [0; 4]),
            3 => batch.report_guess(place, report).map(|()| [0; 4]),
            _ => batch.settle(place).map(|()| [0; 4]),
        };
        let before = self.record.clone();
        let (refusal, handed) = self.record.step(number, job, values, mark);
        match answer {
            Ok(given) => assert_eq!((refusal, handed), (0, given)),
            Err(given) => {
                assert_eq!((u32::from(refusal), handed), (given, [0; 4]));
                assert_eq!(self.record, before);
            }
        }
        if refusal == 0 {
            self.note(number, job, handed, values, mark);
            self.four.count(&before, &self.record, number, job, mark);
        }
        self.count(usize::from(number), refusal);
    }

    /// What the accepted step says of the job's run.
    fn note(&mut self, number: u8, job: usize, handed: [i32; 4], values: [i32; 4], mark: u8) {
        match number {
            0 | 1 => self.runs[job] = (handed, [0; 4]),
            2 | 3 => {
                let handed = self.runs[job].0;
                let inserted = self.record.jobs[job];
                for (place, access) in accesses_of(&inserted).iter().enumerate() {
                    let written = matches!((access.mode, mark), (1 | 3, _) | (2, 1));
                    self.runs[job].1[place] = if written {
                        values[place]
                    } else {
                        handed[place]
                    };
                }
            }
            _ => {}
        }
    }

    fn compare(&mut self, dice: &mut Dice) {
        assert!(self.record.in_form());
        let cells = self.batch.cell_count();
        let jobs = self.batch.job_count();
        let asked = BatchAnswer {
            refusal: 0,
            cell_count: cells as u8,
            job_count: jobs as u8,
            sealed: u8::from(self.guessing.is_some()),
            speculating: self.guessing.unwrap_or(0),
            finished: self.batch.finished(),
        };
        assert_eq!(self.record.ask_batch(), asked);
        assert_eq!(self.record.ask_tally(), (0, self.batch.tally()));
        for cell in 0..cells + 2 {
            let (refusal, height) = self.record.ask_cell(cell as usize);
            let answer = if refusal == 0 {
                Ok(height)
            } else {
                Err(u32::from(refusal))
            };
            assert_eq!(answer, self.batch.ask_cell(cell));
        }
        for job in 0..jobs {
            self.compare_job(job);
        }
        assert_eq!(
            self.record.ask_job(jobs as usize),
            JobAnswer {
                refusal: 11,
                ..JobAnswer::default()
            }
        );
        assert_eq!(self.batch.ask_guess(jobs), Err(11));
        let refused = (11, GuessTold::default());
        assert_eq!(self.record.ask_looked_past(jobs as usize), refused);
        assert_eq!(self.batch.ask_looked_past(jobs), Err(11));
        self.compare_choice();
        let at = dice.below(8) as usize;
        let mut one = vec![-9; cells as usize + 4];
        let mut other = one.clone();
        let refusal = self.record.copy_out(&mut one, at);
        let answer = self.batch.copy_cells(&mut other, at);
        assert_eq!(u32::from(refusal), answer.err().unwrap_or(0));
        assert_eq!(one, other);
    }

    fn compare_choice(&self) {
        let (refusal, step, job, chain) = self.record.choose();
        match self.batch.choose() {
            Err(number) => {
                assert_eq!((u32::from(refusal), step, job, chain), (number, 0, 0, 0))
            }
            Ok(choice) => {
                assert_eq!(refusal, 0);
                let named = (u32::from(step), u32::from(job), u32::from(chain));
                assert_eq!(named, (choice.step, choice.job, choice.chain));
            }
        }
    }

    fn compare_job(&mut self, job: u32) {
        let place = job as usize;
        let (committed, wrote) = match self.batch.ask_job(job).unwrap() {
            Settled::No => (0, 0),
            Settled::ByOwnRun { mark } => (1, mark as u8),
            Settled::ByGuess { mark } => (2, mark as u8),
        };
        let phase = match self.batch.guess(job).map(|guess| guess.state) {
            None => 0,
            Some(GuessState::Out) => 1,
            Some(GuessState::Stored(_) | GuessState::Kept) => 2,
            Some(GuessState::ThrownAway) => 3,
        };
        let (handed, reported) = self.runs[place];
        let inserted = self.record.jobs[place];
        let running = u8::from(self.batch.own_handed(job).is_some());
        let validity = self.batch.ask_guess(job).unwrap() as u8;
        self.judged[usize::from(validity)] += 1;
        let answer = JobAnswer {
            refusal: 0,
            committed,
            wrote,
            running,
            phase,
            validity,
            handed,
            reported,
            job: inserted,
        };
        assert_eq!(self.record.ask_job(place), answer);
        let (refusal, told) = self.record.ask_looked_past(place);
        assert_eq!((refusal, Ok(told)), (0, self.batch.ask_looked_past(job)));
        assert_eq!(
            accesses_of(&inserted),
            self.batch.job(job).unwrap().accesses
        );
        self.compare_origins(job, phase);
    }

    /// Where a guess came from, while there is one.
    fn compare_origins(&self, job: u32, phase: u8) {
        let run = &self.record.runs[job as usize];
        let mut past = 0;
        let mut taken = 0;
        if let Some(guess) = self.batch.guess(job).filter(|_| phase != 3) {
            past = guess.looked_past.iter().fold(0, |set, &k| set | 1 << k);
            taken = guess.taken_from.iter().fold(0, |set, &k| set | 1 << k);
        }
        let named = run.sources.iter().filter(|&&source| source != 0);
        assert_eq!(run.bypassed, past);
        assert_eq!(
            named.fold(0u128, |set, &source| set | 1 << (source - 1)),
            taken
        );
    }

    /// Half of the time one that is allowed, if a few tries find it.
    fn any_step(&mut self, dice: &mut Dice) {
        let tries = if dice.one_in(2) { 1 } else { 20 };
        let (mut number, mut job) = (0, 0);
        for _ in 0..tries {
            number = dice.below(5) as u8;
            job = dice.below(self.runs.len() as u64 + 1) as usize;
            if self.batch.would_answer(u32::from(number), job as u32) == Some(0) {
                break;
            }
        }
        let values = [0; 4].map(|_: i32| dice.below(60) as i32 - 30);
        let mark = if dice.one_in(20) {
            2
        } else {
            dice.below(2) as u8
        };
        self.step(number, job, values, mark);
    }
}

/// One random list of calls on a fresh opening. `busy` is how often all is
/// compared: after one in that many calls.
fn one_list(dice: &mut Dice, most_cells: u64, inserts: u64, calls: u64, busy: u64) -> Pair {
    let cells = 1 + dice.below(most_cells);
    let heights: Vec<i32> = (0..cells).map(|_| dice.below(60) as i32 - 30).collect();
    let mut pair = Pair::open(&heights);
    for _ in 0..inserts {
        pair.insert(any_job(dice, cells));
        if dice.one_in(20) {
            pair.any_step(dice);
        }
    }
    if dice.one_in(8) {
        pair.seal(2);
    }
    pair.compare(dice);
    pair.seal(u8::from(!dice.one_in(4)));
    for _ in 0..calls {
        match dice.below(60) {
            0 => pair.insert(any_job(dice, cells)),
            1 => pair.seal(dice.below(3) as u8),
            _ => pair.any_step(dice),
        }
        if dice.one_in(busy) {
            pair.compare(dice);
        }
    }
    pair.compare(dice);
    pair
}

#[test]
fn side_by_side() {
    let mut dice = Dice(0x0BAD_5EED_1234_5678);
    let mut accepted = [0; 7];
    let mut refused = [0; 33];
    let mut finished = 0;
    let mut four = Four::default();
    let mut judged = [0; 4];
    for list in 0..700 {
        let pair = match list % 50 {
            0 => one_list(&mut dice, 64, 140, 3000, 300),
            _ => {
                let inserts = dice.below(14);
                one_list(&mut dice, 6, inserts, 40 * (inserts + 1), 3)
            }
        };
        finished += u64::from(pair.record.ask_batch().finished);
        four.add(&pair.four);
        for (sum, more) in judged.iter_mut().zip(pair.judged) {
            *sum += more;
        }
        for (sum, more) in accepted.iter_mut().zip(pair.accepted) {
            *sum += more;
        }
        for (sum, more) in refused.iter_mut().zip(pair.refused) {
            *sum += more;
        }
    }
    assert!(finished > 300, "{finished}");
    assert!(accepted.iter().all(|&times| times > 300), "{accepted:?}");
    for number in (2..=18).filter(|&number| number != 3) {
        assert!(refused[number] > 15, "{number}: {refused:?}");
    }
    println!("side by side, four accesses: {four:?}");
    assert!(four.least() > 20, "{four:?}");
    println!("side by side, judged 0 to 3: {judged:?}");
    assert!(judged.iter().all(|&times| times > 1000), "{judged:?}");
}

/// Also the 129th job and the longest chain.
#[test]
fn side_by_side_when_full() {
    let mut dice = Dice(3);
    let mut pair = Pair::open(&[0; 64]);
    for number in 0..130u8 {
        pair.insert(job(
            0,
            0,
            &[(number % 64, READ), (63, if number < 64 { 2 } else { 1 })],
        ));
        pair.insert(job(0, 0, &[(0, WRITE)]));
    }
    assert_eq!(pair.record.job_count, 128);
    assert!(pair.refused[3] > 0);
    pair.seal(1);
    pair.compare(&mut dice);
    for number in [1, 3, 0, 2, 4, 0, 2, 1, 3, 4] {
        for job in 0..128 {
            pair.step(number, job, [job as i32; 4], 0);
        }
        pair.compare(&mut dice);
    }
    assert!(
        pair.accepted[..5].iter().all(|&times| times > 0),
        "{:?}",
        pair.accepted
    );
    let shift = job(2, 1, &[(0, WRITE)]);
    assert_eq!(record(&[0], &[shift; 128], 0).choose(), (0, 0, 0, 128));
}

#[test]
fn openings() {
    assert!(Record::open(&[]).is_none());
    assert!(Record::open(&[0; 65]).is_none());
    let open = Record::open(&[7; 64]).unwrap();
    assert_eq!(
        (open.cell_count, open.ask_cell(63), open.ask_cell(64)),
        (64, (0, 7), (5, 0))
    );
    assert_eq!(open.choose(), (10, 0, 0, 0));
    let mut none = Record::open(&[7]).unwrap();
    assert!(!none.ask_batch().finished);
    none.seal(0);
    assert!(none.ask_batch().finished);
    assert_eq!(none.choose(), (19, 0, 0, 0));
}

// ---------------------------------------------------------------------------
// (b) R91: every clause of 32

/// Every entry gives 32, hands out zeros and changes nothing.
fn out_of_form(record: &Record) {
    assert!(!record.in_form());
    let mut after = record.clone();
    for number in [0, 1, 2, 3, 4, 5, 255] {
        for place in [0, 1, 2, 3, 127, 128, usize::MAX] {
            assert_eq!(after.step(number, place, [1; 4], 9), (32, [0; 4]));
        }
    }
    assert_eq!(after.insert(job(1, 0, &[(0, WRITE)])), 32);
    assert_eq!(after.insert(Job::default()), 32);
    assert_eq!(after.seal(1), 32);
    assert_eq!(after.seal(9), 32);
    assert_eq!(after, *record);
    assert_eq!(record.choose(), (32, 0, 0, 0));
    assert_eq!(record.ask_cell(0), (32, 0));
    assert_eq!(record.ask_cell(99), (32, 0));
    assert_eq!(
        record.ask_job(0),
        JobAnswer {
            refusal: 32,
            ..JobAnswer::default()
        }
    );
    assert_eq!(
        record.ask_job(999),
        JobAnswer {
            refusal: 32,
            ..JobAnswer::default()
        }
    );
    assert_eq!(
        record.ask_batch(),
        BatchAnswer {
            refusal: 32,
            ..BatchAnswer::default()
        }
    );
    assert_eq!(record.ask_tally(), (32, Tally::default()));
    for place in [0, 3, 127, 128, 999] {
        let refused = (32, GuessTold::default());
        assert_eq!(record.ask_looked_past(place), refused);
    }
    let mut buffer = [3; 70];
    assert_eq!(record.copy_out(&mut buffer, 0), 32);
    assert_eq!(record.copy_out(&mut buffer, 70), 32);
    assert_eq!(buffer, [3; 70]);
}

/// With the first change the record is in form, with the second it is not.
fn limit(record: &Record, last: impl Fn(&mut Record), past: impl Fn(&mut Record)) {
    let mut changed = record.clone();
    last(&mut changed);
    assert!(changed.in_form());
    assert_eq!(changed.ask_batch().refusal, 0);
    assert_eq!(changed.ask_tally().0, 0);
    let mut changed = record.clone();
    past(&mut changed);
    out_of_form(&changed);
}

#[test]
fn counts() {
    let read = job(0, 0, &[(0, READ)]);
    let full = record(&[0], &[read; 128], 1);
    limit(&full, |r| r.cell_count = 64, |r| r.cell_count = 65);
    limit(&full, |r| r.cell_count = 1, |r| r.cell_count = 0);
    limit(&full, |r| r.cell_count = 1, |r| r.cell_count = 255);
    limit(&full, |r| r.job_count = 128, |r| r.job_count = 129);
    limit(&full, |r| r.job_count = 0, |r| r.job_count = 255);
}

#[test]
fn states_and_marks_of_the_batch_and_of_jobs() {
    let quay = quay(1);
    limit(&quay, |r| r.sealed = 0, |r| r.sealed = 2);
    limit(&quay, |r| r.speculating = 0, |r| r.speculating = 2);
    limit(&quay, |r| r.sealed = 1, |r| r.sealed = 255);
    limit(&quay, |r| r.speculating = 1, |r| r.speculating = 128);
    // Unsealed, yet guesses may be started: each is in its list.
    limit(
        &quay,
        |r| (r.sealed, r.speculating) = (0, 1),
        |r| (r.sealed, r.speculating) = (3, 0),
    );
    for job in 0..4 {
        limit(&quay, |r| r.committed[job] = 2, |r| r.committed[job] = 3);
        limit(&quay, |r| r.running[job] = 1, |r| r.running[job] = 2);
        limit(&quay, |r| r.phase[job] = 3, |r| r.phase[job] = 4);
        // Also the mark of a run that never reported, and 1 without mode 2.
        limit(&quay, |r| r.runs[job].wrote = 1, |r| r.runs[job].wrote = 2);
    }
    // No pair of states is out of its list.
    for number in 0..3 * 2 * 4 * 2u8 {
        let mut record = quay.clone();
        record.committed[1] = number % 3;
        record.running[1] = number / 3 % 2;
        record.phase[1] = number / 6 % 4;
        record.runs[1].wrote = number / 24;
        assert!(record.in_form());
    }
}

/// A job of each kind, by number.
fn all_kinds() -> Record {
    let free = job(0, 9, &[(0, READ), (1, WRITE), (2, MAYBE), (3, READ)]);
    let kinds = [
        free,
        job(1, 0, &[(0, WRITE)]),
        job(2, 0, &[(0, WRITE)]),
        job(3, 0, &[(0, MAYBE), (1, READ)]),
        job(4, 0, &[(0, MAYBE)]),
        job(5, 0, &[(0, WRITE), (1, READ), (2, READ)]),
        job(6, 0, &[(0, MAYBE), (1, MAYBE)]),
    ];
    record(&[0; 4], &kinds, 1)
}

#[test]
fn held_jobs_4_to_6() {
    let held = all_kinds();
    // 4
    limit(&held, |r| r.jobs[0].arity = 1, |r| r.jobs[0].arity = 0);
    limit(&held, |r| r.jobs[0].arity = 4, |r| r.jobs[0].arity = 5);
    limit(&held, |r| r.jobs[0].arity = 2, |r| r.jobs[0].arity = 255);
    // 5
    limit(
        &held,
        |r| r.jobs[1].accesses[0].0 = 3,
        |r| r.jobs[1].accesses[0].0 = 4,
    );
    limit(
        &held,
        |r| r.jobs[0].accesses[3].0 = 3,
        |r| r.jobs[0].accesses[3].0 = 4,
    );
    limit(&held, |r| r.cell_count = 4, |r| r.cell_count = 3);
    limit(
        &held,
        |r| r.cell_count = 5,
        |r| r.jobs[6].accesses[1].0 = 255,
    );
    // 6
    limit(
        &held,
        |r| r.jobs[0].accesses[3].1 = 3,
        |r| r.jobs[0].accesses[3].1 = 4,
    );
    limit(
        &held,
        |r| r.jobs[0].accesses[0].1 = 3,
        |r| r.jobs[0].accesses[0].1 = 255,
    );
}

/// R91, R106, R108: mode 3 in each place of kind 0, and in none of another kind.
/// R92: predictions may be any numbers, with any mode and in places not in use.
#[test]
fn held_predictions() {
    let mut held = all_kinds();
    for place in 0..4 {
        limit(
            &held,
            |r| r.jobs[0].accesses[place].1 = PREDICTED,
            |r| r.jobs[0].accesses[place].1 = 4,
        );
    }
    for (number, kind) in held.clone().jobs[..7].iter().enumerate().skip(1) {
        for place in 0..usize::from(kind.arity) {
            limit(
                &held,
                |r| (r.jobs[number].kind, r.jobs[number].accesses[place].1) = (0, PREDICTED),
                |r| r.jobs[number].accesses[place].1 = PREDICTED,
            );
        }
        // Not in use it is not looked at.
        held.jobs[number].accesses[3].1 = PREDICTED;
        assert!(held.in_form());
    }
    for any in [0, 1, -1, i32::MIN, i32::MAX] {
        for job in &mut held.jobs {
            job.predicted = [any, any.wrapping_mul(3), !any, any];
        }
        assert!(held.in_form());
        assert_eq!(held.ask_job(6).job, held.jobs[6]);
    }
}

#[test]
fn held_jobs_7_and_8() {
    let held = all_kinds();
    // 7
    limit(
        &held,
        |r| r.jobs[3].accesses[1].0 = 2,
        |r| r.jobs[3].accesses[1].0 = 0,
    );
    limit(
        &held,
        |r| r.jobs[0].arity = 3,
        |r| r.jobs[0].accesses[3].0 = 0,
    );
    // 8
    limit(&held, |r| r.jobs[4].kind = 0, |r| r.jobs[0].kind = 7);
    limit(&held, |r| r.jobs[1].kind = 2, |r| r.jobs[1].kind = 4);
    limit(
        &held,
        |r| r.jobs[3].kind = 0,
        |r| r.jobs[3].accesses[1].1 = WRITE,
    );
    for number in 1..7 {
        let arity = held.jobs[number].arity;
        limit(&held, |_| (), |r| r.jobs[number].accesses[0].1 = READ);
        limit(&held, |_| (), |r| r.jobs[number].arity = 4);
        limit(&held, |_| (), |r| r.jobs[number].arity = arity - 1);
        limit(
            &held,
            |r| r.jobs[number].kind = 0,
            |r| r.jobs[number].kind = 255,
        );
    }
    // Parameters and heights may be any; accesses past the arity too.
    limit(
        &held,
        |r| r.jobs[2].parameter = i32::MIN,
        |r| r.jobs[2].kind = 6,
    );
    limit(
        &held,
        |r| r.jobs[1].accesses[1] = (255, 255),
        |r| r.jobs[1].accesses[0].1 = 255,
    );
    limit(
        &held,
        |r| r.jobs[1].accesses[1] = (0, 2),
        |r| r.jobs[1].arity = 2,
    );
}

#[test]
fn origins() {
    let read = job(0, 0, &[(0, READ)]);
    let full = record(&[0], &[read; 128], 1);
    for job in [0, 1, 2, 63, 64, 65, 126, 127usize] {
        for phase in 0..4 {
            let mut record = full.clone();
            record.phase[job] = phase;
            // All jobs before its own, and its own.
            let before: u128 = (1 << job) - 1;
            limit(
                &record,
                |r| r.runs[job].bypassed = before,
                |r| r.runs[job].bypassed = 1 << job,
            );
            limit(&record, |_| (), |r| r.runs[job].bypassed = 1 << 127);
            limit(&record, |_| (), |r| r.runs[job].bypassed = u128::MAX);
            // One more than the number; all four places.
            for place in 0..4 {
                let last = job as u8;
                limit(
                    &record,
                    |r| r.runs[job].sources[place] = last,
                    |r| r.runs[job].sources[place] = last + 1,
                );
                limit(&record, |_| (), |r| r.runs[job].sources[place] = 255);
            }
        }
    }
}

/// The record with anything in the cells and places that are not in use.
fn scribbled(dice: &mut Dice, record: &Record) -> Record {
    let mut other = record.clone();
    for height in &mut other.cells[usize::from(record.cell_count)..] {
        *height = dice.below(1 << 32) as i32;
    }
    for job in usize::from(record.job_count)..128 {
        let accesses = [0; 4].map(|_| (dice.below(256) as u8, dice.below(256) as u8));
        other.jobs[job] = Job {
            kind: 200,
            arity: 99,
            accesses,
            parameter: 7,
            predicted: [8, -8, i32::MIN, i32::MAX],
        };
        let (sources, bypassed) = ([255; 4], u128::MAX);
        other.runs[job] = Run {
            sources,
            bypassed,
            wrote: 77,
            ..Run::default()
        };
        other.committed[job] = dice.below(256) as u8;
        other.running[job] = dice.below(256) as u8;
        other.phase[job] = dice.below(256) as u8;
    }
    other
}

/// R92: places not in use are looked at neither by 32 nor by any entry.
#[test]
fn places_not_in_use() {
    let mut dice = Dice(99);
    for list in 0..60 {
        let record = one_list(&mut dice, 4, 8, list * 2, 1000).record;
        let other = scribbled(&mut dice, &record);
        let jobs = usize::from(record.job_count);
        let cells = usize::from(record.cell_count);
        assert!(other.in_form());
        assert_eq!(other.choose(), record.choose());
        assert_eq!(other.ask_batch(), record.ask_batch());
        assert_eq!(other.ask_tally(), record.ask_tally());
        assert_eq!(other.ask_job(jobs).refusal, 11);
        assert_eq!(other.ask_cell(cells), (5, 0));
        for job in 0..jobs + 1 {
            assert_eq!(other.ask_job(job), record.ask_job(job));
            assert_eq!(answers(&other, job), answers(&record, job));
        }
    }
}

/// R92: predictions of modes other than 3, and in places not in use, are looked at by
/// no call but asking the job, which shows them.
#[test]
fn predictions_that_mean_nothing() {
    let mut dice = Dice(46);
    let mut changed = [0; 2];
    for list in 0..200 {
        let record = one_list(&mut dice, 4, 8, list, 1000).record;
        let mut other = record.clone();
        for held in &mut other.jobs[..usize::from(record.job_count)] {
            for place in 0..4 {
                let unused = place >= usize::from(held.arity);
                if unused || held.accesses[place].1 != PREDICTED {
                    held.predicted[place] = dice.below(60) as i32 - 30;
                    changed[usize::from(unused)] += 1;
                }
            }
        }
        assert_eq!(other.choose(), record.choose());
        for job in 0..usize::from(record.job_count) {
            let asked = JobAnswer {
                job: other.jobs[job],
                ..record.ask_job(job)
            };
            assert_eq!(other.ask_job(job), asked);
            for number in 0..5 {
                let (mut one, mut two) = (record.clone(), other.clone());
                let answer = one.step(number, job, [5; 4], 0);
                assert_eq!(two.step(number, job, [5; 4], 0), answer);
                two.jobs.clone_from(&record.jobs);
                assert_eq!(two, one);
            }
        }
    }
    assert!(changed.iter().all(|&times| times > 500), "{changed:?}");
}

/// An insert blanks the place that it takes, and nothing else, sealed or not.
#[test]
fn insert_into_a_place_not_blank() {
    let new = Job {
        accesses: [(1, WRITE), (9, 9), (0, 2), (1, 1)],
        predicted: [1, 2, 3, 4],
        ..job(2, 4, &[(0, WRITE)])
    };
    for sealed in [0, 1] {
        let mut other = scribbled(&mut Dice(4), &quay(1));
        other.sealed = sealed;
        let mut due = other.clone();
        assert_eq!(other.insert(new), 0);
        due.job_count = 5;
        due.jobs[4] = new;
        due.runs[4] = Run::default();
        (due.committed[4], due.running[4], due.phase[4]) = (0, 0, 0);
        assert_eq!(other, due);
        assert_eq!(
            other.ask_job(4),
            JobAnswer {
                job: new,
                ..JobAnswer::default()
            }
        );
    }
}

/// R100: 32 goes before all. Then 21 of what is no step, then the others from the
/// lowest on.
#[test]
fn order_of_refusals() {
    let mut open = Record::open(&[0]).unwrap();
    assert_eq!(open.step(5, 9, [0; 4], 9), (21, [0; 4]));
    assert_eq!(open.step(255, 0, [0; 4], 0), (21, [0; 4]));
    assert_eq!(open.step(0, 9, [0; 4], 9), (10, [0; 4]));
    assert_eq!(open.insert(job(9, 0, &[(1, 4), (1, 4)])), 5);
    assert_eq!(open.insert(job(9, 0, &[(0, 4), (0, 4)])), 6);
    assert_eq!(open.insert(job(9, 0, &[(0, 3), (0, 3)])), 7);
    assert_eq!(open.insert(job(9, 0, &[(0, 3)])), 8);
    assert_eq!(
        open.insert(Job {
            arity: 5,
            ..job(9, 0, &[(1, 4); 4])
        }),
        4
    );
    assert_eq!(open.seal(2), 9);
    assert_eq!(open.seal(0), 0);
    assert_eq!(open.seal(2), 2);
    // R6: after sealing too a job is refused for what it is only.
    assert_eq!(open.insert(Job::default()), 4);
    assert_eq!(open.step(1, 0, [0; 4], 9), (11, [0; 4]));
    let mut off = quay(0);
    assert_eq!(step(&mut off, 1, 0, 0, 9), 12);
    assert_eq!(step(&mut off, 3, 0, 0, 9), 13);
    let mut buffer = [8; 3];
    assert_eq!(off.copy_out(&mut buffer, 2), 20);
    assert_eq!(off.copy_out(&mut buffer, usize::MAX), 20);
    assert_eq!(buffer, [8; 3]);
    assert_eq!(off.copy_out(&mut buffer, 1), 0);
    assert_eq!(buffer, [8, 1500, 1480]);
}

// ---------------------------------------------------------------------------
// (c) R93: states that no list of calls leads to

/// The quay with the floor's job looked past by the guess of job 1, whose report
/// 1520 is stored, and job 2 built on it with 1540 stored.
fn guessed() -> Record {
    let mut record = quay(1);
    for (job, value) in [(1, 1520), (2, 1540)] {
        assert_eq!(step(&mut record, 1, job, 0, 0), 0);
        assert_eq!(step(&mut record, 3, job, value, 0), 0);
    }
    assert_eq!(record.runs[1].bypassed, 1);
    assert_eq!(record.runs[2].sources, [2, 0, 0, 0]);
    assert_eq!(record.runs[2].handed, [1520, 0, 0, 0]);
    record
}

#[test]
fn settled_by_a_guess_never_started() {
    let mut record = guessed();
    record.committed[0] = 2;
    assert_eq!(answers(&record, 0), [13; 5]);
    // Job 1 is ready, and its guess stands; job 2 is not ready.
    assert_eq!(answers(&record, 1), [17, 13, 13, 13, 0]);
    assert_eq!(answers(&record, 2), [15, 13, 13, 13, 15]);
    assert_eq!(record.choose(), (0, 4, 1, 2));
    // So it does with mark 1: only heights count.
    record.runs[0].wrote = 1;
    assert_eq!(record.ask_job(0).wrote, 1);
    assert_eq!(answers(&record, 1), [17, 13, 13, 13, 0]);
    record.cells[0] = 1501;
    assert_eq!(answers(&record, 1), [0, 13, 13, 13, 18]);
    assert_eq!(answers(&record, 2), [15, 13, 13, 13, 15]);
    assert_eq!(record.choose(), (0, 0, 1, 2));
    // Without mark and with another height it has fallen all the same.
    record.runs[0].wrote = 0;
    assert_eq!(answers(&record, 1), [0, 13, 13, 13, 18]);
    record.committed = [1; 128];
    record.committed[2] = 0;
    assert_eq!(answers(&record, 2), [0, 13, 13, 13, 18]);
    record.cells[0] = 1520;
    assert_eq!(answers(&record, 2), [17, 13, 13, 13, 0]);
}

#[test]
fn own_run_out_of_a_settled_job() {
    let mut record = quay(1);
    record.committed[1] = 2;
    record.running[1] = 1;
    record.runs[1].sources[2] = 1;
    assert_eq!(answers(&record, 1), [13, 13, 0, 13, 13]);
    assert_eq!(step(&mut record, 2, 1, 9, 1), 16);
    assert_eq!(step(&mut record, 2, 1, 9, 0), 0);
    assert_eq!(
        (record.committed[1], record.running[1], record.phase[1]),
        (1, 0, 0)
    );
    assert_eq!(record.cells[..2], [9, 1480]);
    // A report changes no origins.
    assert_eq!(record.runs[1].sources, [0, 0, 1, 0]);
}

#[test]
fn guess_out_of_a_settled_job() {
    let mut record = quay(1);
    record.committed[0] = 1;
    record.phase[0] = 1;
    record.runs[0].handed = [4, 0, 0, 6];
    assert_eq!(answers(&record, 0), [13, 13, 13, 0, 13]);
    assert_eq!(step(&mut record, 3, 0, 9, 1), 0);
    assert_eq!((record.committed[0], record.phase[0]), (1, 2));
    assert_eq!(record.ask_job(0).wrote, 1);
    assert_eq!(record.cells[..2], [1500, 1480]);
    // The unused places of a report are 0, whatever was handed there.
    assert_eq!(record.runs[0].reported, [9, 0, 0, 0]);
    record.phase[0] = 1;
    assert_eq!(step(&mut record, 3, 0, 9, 0), 0);
    assert_eq!(record.runs[0].reported, [4, 0, 0, 0]);
    assert_eq!(record.runs[0].handed, [4, 0, 0, 6]);
}

/// How the guesses of the first jobs are judged (R45), by what asking them tells.
fn judgements<const JOBS: usize>(record: &Record) -> [u8; JOBS] {
    std::array::from_fn(|job| record.ask_job(job).validity)
}

/// R45 on what calls lead to.
#[test]
fn judged_on_the_way() {
    let mut record = guessed();
    assert_eq!(judgements(&record), [0, 1, 1, 0]);
    assert_eq!(step(&mut record, 0, 0, 0, 0), 0);
    let (mut there, mut raised) = (record.clone(), record.clone());
    // Mark 0: job 1 is ready and its guess stands; settled, there is none to judge.
    assert_eq!(step(&mut record, 2, 0, 0, 0), 0);
    assert_eq!(judgements(&record), [0, 2, 1, 0]);
    assert_eq!(step(&mut record, 4, 1, 0, 0), 0);
    assert_eq!(judgements(&record), [0, 0, 2, 0]);
    assert_eq!(step(&mut record, 4, 2, 0, 0), 0);
    assert_eq!(judgements(&record), [0, 0, 0, 0]);
    // Mark 1 with the height that was there.
    assert_eq!(step(&mut there, 2, 0, 1500, 1), 0);
    assert_eq!(judgements(&there), [0, 2, 1, 0]);
    // With another: the guess of job 1 has fallen, that of job 2 is not yet judged.
    assert_eq!(step(&mut raised, 2, 0, 1501, 1), 0);
    assert_eq!(judgements(&raised), [0, 3, 1, 0]);
    // Thrown away, there is none to judge; what took from it waits for the own run.
    assert_eq!(step(&mut raised, 0, 1, 0, 0), 0);
    assert_eq!(judgements(&raised), [0, 0, 1, 0]);
    let mut again = raised.clone();
    assert_eq!(step(&mut raised, 2, 1, 1521, 0), 0);
    assert_eq!(judgements(&raised), [0, 0, 3, 0]);
    assert_eq!(step(&mut again, 2, 1, 1520, 0), 0);
    assert_eq!(judgements(&again), [0, 0, 2, 0]);
}

/// R45, R93: whether the job's own run is out plays no part, nor does whether the
/// batch is sealed or guessing is on. Settled, it has no guess to judge.
#[test]
fn judged_whatever_the_job_has_come_to() {
    for number in 0..3 * 2 * 2 * 2 * 2u8 {
        let mut record = guessed();
        record.committed[1] = number % 3;
        record.running[1] = number / 3 % 2;
        record.phase[1] = 1 + number / 6 % 2;
        record.sealed = number / 12 % 2;
        record.speculating = number / 24;
        // Not ready, ready, and with another height there; then not ready again.
        let mut seen = Vec::new();
        for (settled, height) in [(0, 1500), (1, 1500), (1, 1501), (0, 1501)] {
            record.committed[0] = settled;
            record.cells[0] = height;
            seen.push(record.ask_job(1).validity);
        }
        let due = if number % 3 == 0 {
            [1, 2, 3, 1]
        } else {
            [0; 4]
        };
        assert_eq!(seen, due, "{number}");
        for phase in [0, 3] {
            record.phase[1] = phase;
            assert_eq!(record.ask_job(1).validity, 0);
        }
    }
}

/// R44: nothing but heights counts: no mark, no job looked past and no guess that was
/// taken from, whatever became of it.
#[test]
fn judged_by_heights_alone() {
    for number in 0..4 * 2 * 2 * 2 * 4u8 {
        let mut record = guessed();
        record.committed[..2].fill(1);
        record.phase[1] = number % 4;
        record.runs[0].wrote = number / 4 % 2;
        record.runs[1].wrote = number / 8 % 2;
        record.runs[2].bypassed = u128::from(number / 16 % 2) * 3;
        record.runs[2].sources[3] = number / 32 % 3;
        record.runs[1].reported[0] = 1500;
        assert_eq!(judgements(&record), [0, 0, 3, 0], "{number}");
        record.cells[0] = 1520;
        assert_eq!(judgements(&record), [0, 0, 2, 0], "{number}");
        assert_eq!(answers(&record, 2), [17, 13, 13, 13, 0], "{number}");
    }
}

/// R43: each place in use counts, and no other. (Its guess is of a ready job, which no
/// list of calls leads to.)
#[test]
fn judged_at_each_place_in_use() {
    let cells = [0, 1500, i32::MAX, -1500];
    for arity in 1..=4 {
        let outside = job(
            0,
            0,
            &[(3, READ), (0, MAYBE), (2, WRITE), (1, READ)][..arity],
        );
        let mut record = record(&cells, &[outside], 1);
        record.phase[0] = 1;
        record.runs[0].handed = [-1500, 0, i32::MAX, 1500];
        assert_eq!(judgements(&record), [2]);
        for place in 0..4 {
            let was = record.runs[0].handed[place];
            let others = [
                was ^ 1,
                was ^ i32::MIN,
                was.wrapping_neg(),
                was ^ 256,
                was ^ (1 << 16),
            ];
            for other in others.into_iter().filter(|&other| other != was) {
                record.runs[0].handed[place] = other;
                let due = if place < arity { 3 } else { 2 };
                assert_eq!(
                    judgements(&record),
                    [due],
                    "place {place} of {arity}, {other}"
                );
            }
            record.runs[0].handed[place] = was;
        }
        // All wrong; and what is reported plays no part.
        record.runs[0].reported = record.runs[0].handed;
        record.runs[0].handed = [7; 4];
        assert_eq!(judgements(&record), [3]);
    }
}

#[test]
fn own_run_and_guess_out_together() {
    let mut record = guessed();
    record.running[1] = 1;
    // Its stored report is still there for job 2 to take.
    record.phase[2] = 0;
    assert_eq!(record.clone().step(1, 2, [0; 4], 0), (0, [1520, 0, 0, 0]));
    record.committed[0] = 1;
    assert_eq!(answers(&record, 1), [13, 13, 0, 13, 0]);
    assert_eq!(record.choose(), (0, 4, 1, 2));
    assert_eq!(step(&mut record, 4, 1, 0, 0), 0);
    assert_eq!(
        (record.committed[1], record.running[1], record.phase[1]),
        (2, 1, 2)
    );
    assert_eq!(record.cells[0], 1520);
    assert_eq!(step(&mut record, 2, 1, 33, 0), 0);
    assert_eq!(
        (record.committed[1], record.running[1], record.phase[1]),
        (1, 0, 2)
    );
    assert_eq!(record.cells[0], 33);
}

#[test]
fn thrown_away_without_an_own_run() {
    let mut record = guessed();
    record.phase[1] = 3;
    // It has no stored report.
    assert_eq!(answers(&record, 1), [15, 13, 13, 13, 13]);
    record.committed[0] = 1;
    // It does not stand, fallen or not.
    assert_eq!(answers(&record, 1), [0, 13, 13, 13, 13]);
    assert_eq!(record.choose(), (0, 0, 1, 2));
    let mut third = record.clone();
    third.phase[2] = 0;
    assert_eq!(answers(&third, 2), [15, 15, 13, 13, 13]);
    assert_eq!(step(&mut record, 0, 1, 0, 0), 0);
    assert_eq!((record.running[1], record.phase[1]), (1, 3));
    assert_eq!(
        record.runs[1],
        Run {
            handed: [1500, 0, 0, 0],
            ..Run::default()
        }
    );
    assert_eq!(step(&mut record, 2, 1, 5, 0), 0);
    assert_eq!(answers(&record, 2), [0, 13, 13, 13, 18]);
}

#[test]
fn origins_that_are_no_writers() {
    let mut record = quay(1);
    // Job 3 conflicts with none; it is ready, and yet its guess is stored.
    record.phase[3] = 2;
    record.runs[3].handed = [1480, 1, 2, 3];
    record.runs[3].reported = [44, 45, 46, 47];
    assert_eq!(answers(&record, 3), [17, 13, 13, 13, 0]);
    assert_eq!(record.choose(), (0, 4, 3, 1));
    // A shift that it looked past is settled with mark 1; a source in a place without
    // an access is thrown away.
    record.runs[3].bypassed = 1 << 1;
    record.committed[1] = 1;
    record.runs[1].wrote = 1;
    record.runs[3].sources = [0, 0, 0, 3];
    record.phase[2] = 3;
    assert_eq!(answers(&record, 3), [17, 13, 13, 13, 0]);
    let mut other = record.clone();
    other.cells[1] = 1481;
    assert_eq!(answers(&other, 3), [0, 13, 13, 13, 18]);
    assert_eq!(step(&mut record, 4, 3, 0, 0), 0);
    assert_eq!(record.cells[..3], [1500, 44, 0]);
    assert_eq!((record.committed[3], record.phase[3]), (2, 2));
    assert_eq!(record.runs[3].reported, [44, 45, 46, 47]);
}

#[test]
fn stored_values_of_cells_not_written() {
    let free = job(0, 0, &[(0, READ), (1, WRITE), (2, MAYBE)]);
    let mut record = record(&[1, 2, 3, 4], &[free], 0);
    record.phase[0] = 2;
    record.runs[0].handed = [1, 2, 3, 0];
    record.runs[0].reported = [10, 20, 30, 40];
    // Guessing is off, but only starting a guess asks for that.
    assert_eq!(answers(&record, 0), [17, 12, 13, 13, 0]);
    let mut marked = record.clone();
    assert_eq!(step(&mut record, 4, 0, 0, 0), 0);
    assert_eq!(record.cells[..4], [1, 20, 3, 4]);
    marked.runs[0].wrote = 1;
    assert_eq!(step(&mut marked, 4, 0, 0, 0), 0);
    assert_eq!(marked.cells[..4], [1, 20, 30, 4]);
    assert_eq!(marked.ask_job(0).wrote, 1);
}

#[test]
fn mark_one_without_mode_two() {
    let mut record = guessed();
    record.committed[0] = 1;
    record.runs[1].wrote = 1;
    assert_eq!(step(&mut record, 4, 1, 0, 0), 0);
    assert_eq!(record.cells[0], 1520);
    assert_eq!(record.ask_job(1).wrote, 1);
    assert_eq!(answers(&record, 2), [17, 13, 13, 13, 0]);
    // Looked past with that mark, it changes nothing.
    record.runs[2].bypassed = 2;
    assert_eq!(answers(&record, 2), [17, 13, 13, 13, 0]);
}

#[test]
fn accesses_past_the_arity() {
    let mut record = quay(1);
    for job in 0..4 {
        record.jobs[job].accesses[1] = (1, MAYBE);
        record.jobs[job].accesses[3] = (0, MAYBE);
    }
    // No conflict with job 3, no mode 2 for its mark, nothing handed.
    assert_eq!(record.step(0, 3, [0; 4], 0), (0, [1480, 0, 0, 0]));
    assert_eq!(step(&mut record, 2, 3, 9, 1), 16);
    assert_eq!(step(&mut record, 2, 3, 9, 0), 0);
    assert_eq!(record.cells[..2], [1500, 9]);
    assert_eq!(record.ask_job(3).job.accesses[3], (0, MAYBE));
    assert_eq!(record.choose(), (0, 0, 0, 3));
}

#[test]
fn settled_before_its_turn() {
    // Job 1 is settled, job 0 not: the chain still goes through it.
    let mut record = quay(1);
    record.committed[1] = 1;
    assert_eq!(record.choose(), (0, 0, 0, 3));
    // Going back, a settled writer is not met; the floor is looked past.
    assert_eq!(record.clone().step(1, 2, [0; 4], 0), (0, [1500, 0, 0, 0]));
    record.committed = [2; 128];
    assert!(record.ask_batch().finished);
    assert_eq!(record.choose(), (19, 0, 0, 0));
    record.running = [1; 128];
    assert!(record.ask_batch().finished);
    record.sealed = 0;
    assert!(!record.ask_batch().finished);
    assert_eq!(record.choose(), (10, 0, 0, 0));
    assert_eq!(answers(&record, 0), [10; 5]);
    assert_eq!(record.ask_batch().speculating, 1);
    assert_eq!(record.seal(0), 0);
    assert_eq!((record.sealed, record.speculating), (1, 0));
}

#[test]
fn every_job_out_of_reach() {
    // All own runs are out though none but two was ready: only reports are left.
    let mut record = quay(1);
    record.running[..4].fill(1);
    assert_eq!(record.choose(), (19, 0, 0, 0));
    assert_eq!(step(&mut record, 2, 2, 8, 0), 0);
    assert_eq!(record.cells[0], 8);
    assert_eq!(record.choose(), (19, 0, 0, 0));
}

// ---------------------------------------------------------------------------
// Damaged records

/// Conflict straight from R20, without sets.
fn conflict(one: &Job, other: &Job) -> bool {
    let used = |job: &Job| job.accesses[..usize::from(job.arity)].to_vec();
    used(one).iter().any(|a| {
        used(other)
            .iter()
            .any(|b| a.0 == b.0 && (a.1 != 0 || b.1 != 0))
    })
}

/// What the chooser is to answer, by the rules' words, from what the steps themselves
/// answer; what is met of it is counted.
fn choice(record: &Record, watch: &mut Watch) -> Answer {
    let allowed = |number, job| step(&mut record.clone(), number, job, 0, 9) == 0;
    let field = Field::of(record, allowed);
    watch.chose(record, field.as_ref());
    pick(record, field.as_ref())
}

/// R43 word for word.
fn was_handed_what_is_there(record: &Record, job: usize) -> bool {
    let held = record.jobs[job];
    (0..usize::from(held.arity)).all(|place| {
        let cell = usize::from(held.accesses[place].0);
        record.runs[job].handed[place] == record.cells[cell]
    })
}

/// R45 word for word.
fn judged(record: &Record, job: usize) -> u8 {
    let settled = |k: usize| record.committed[k] != 0;
    let ready = (0..job).all(|k| settled(k) || !conflict(&record.jobs[k], &record.jobs[job]));
    match record.phase[job] {
        _ if settled(job) => 0,
        0 | 3 => 0,
        _ if !ready => 1,
        _ if was_handed_what_is_there(record, job) => 2,
        _ => 3,
    }
}

/// What is told of the job's guess, by R45's words, and as 17 and 18 have it: start
/// own finds that it stands, settle that it has fallen.
fn judged_alike(record: &Record, job: usize) -> u8 {
    let validity = record.ask_job(job).validity;
    assert_eq!(validity, judged(record, job));
    let [own, .., settle] = answers(record, job);
    assert!(own != 17 || validity == 2);
    assert!(own != 0 || validity == 0 || validity == 3);
    assert!(settle != 18 || validity == 3);
    assert!(settle != 0 || validity == 2);
    validity
}

/// Every field but those of the job's run, columns and cells is as before.
fn others_kept(before: &Record, after: &Record, job: usize) {
    let mut put_back = after.clone();
    put_back.runs[job] = before.runs[job];
    put_back.committed[job] = before.committed[job];
    put_back.running[job] = before.running[job];
    put_back.phase[job] = before.phase[job];
    let held = before.jobs[job];
    for &(cell, mode) in &held.accesses[..usize::from(held.arity)] {
        if mode != READ {
            put_back.cells[usize::from(cell)] = before.cells[usize::from(cell)];
        }
    }
    assert_eq!(put_back, *before);
}

/// R53: the own report of this value has reached each cell that it writes.
fn all_written(after: &Record, job: usize, value: i32, mark: u8) {
    let held = after.jobs[job];
    for &(cell, mode) in &held.accesses[..usize::from(held.arity)] {
        if mode == WRITE || mode == PREDICTED || (mode == MAYBE && mark == 1) {
            assert_eq!(after.cells[usize::from(cell)], value);
        }
    }
}

fn damage(dice: &mut Dice, record: &Record) -> Record {
    let mut bytes = bytes_of(record);
    let held = u64::from(record.job_count.max(1));
    for _ in 0..1 + dice.below(4) {
        let job = dice.below(held);
        let at = match dice.below(8) {
            0 => dice.below(4),
            1 => 260 + 32 * job + dice.below(32),
            2 => 4360 + 56 * job + 32 + dice.below(24),
            3 => 4360 + 56 * job + dice.below(56),
            4 => 11528 + job,
            5 => 11656 + job,
            6 => 11784 + job,
            _ => dice.below(Record::SIZE as u64),
        };
        let small = if dice.one_in(3) {
            dice.below(256)
        } else {
            dice.below(5)
        };
        bytes[at as usize] = if dice.one_in(3) {
            bytes[at as usize] ^ 1 << dice.below(8)
        } else {
            small as u8
        };
    }
    Record::from_bytes(&bytes)
}

/// The record with any states, marks and origins of its jobs that are in form. Handed
/// is what is there, the same with one place changed, or what was.
fn any_states(dice: &mut Dice, record: &Record) -> Record {
    let mut other = record.clone();
    for job in 0..usize::from(record.job_count) {
        other.committed[job] = dice.below(3) as u8;
        other.running[job] = dice.below(2) as u8;
        other.phase[job] = dice.below(4) as u8;
        let run = &mut other.runs[job];
        run.wrote = dice.below(2) as u8;
        run.bypassed = u128::from(dice.below(1 << job) & dice.below(1 << job));
        for source in &mut run.sources {
            let some = u64::from(dice.one_in(6));
            *source = (some * dice.below(job as u64 + 1)) as u8;
        }
        if !dice.one_in(3) {
            for place in 0..4 {
                let cell = usize::from(record.jobs[job].accesses[place].0) % 64;
                run.handed[place] = record.cells[cell];
            }
            if dice.one_in(2) {
                run.handed[dice.below(4) as usize] ^= 1 << dice.below(32);
            }
        }
    }
    other
}

/// R45 wherever a job may have come to: each of 0 to 3 comes up with each state of
/// a guess for which it may; of settled jobs only 0.
#[test]
fn judged_in_any_state() {
    let mut dice = Dice(0x45_1234_5678);
    let mut met = [[[0; 4]; 4]; 2];
    for _ in 0..400 {
        let sound = one_list(&mut dice, 6, 10, 0, 1000).record;
        for _ in 0..10 {
            let record = any_states(&mut dice, &sound);
            assert!(record.in_form());
            for job in 0..usize::from(record.job_count) {
                let settled = usize::from(record.committed[job] != 0);
                let validity = judged_alike(&record, job);
                met[settled][usize::from(record.phase[job])][usize::from(validity)] += 1;
            }
        }
    }
    println!("judged in any state, by settled, state of the guess, and number: {met:?}");
    for (settled, phases) in met.iter().enumerate() {
        for (phase, numbers) in phases.iter().enumerate() {
            let live = (phase == 1 || phase == 2) && settled == 0;
            let may = |number: usize| live == (number != 0);
            let came_up = |number: usize| numbers[number] > 100;
            assert!((0..4).all(|n| came_up(n) == may(n)), "{met:?}");
        }
    }
}

#[test]
fn damaged_records() {
    let mut dice = Dice(0xDA3A_6ED0_1111_2222);
    let mut in_form = 0;
    let mut accepted = [0; 5];
    let mut four = Four::default();
    let mut watch = Watch::default();
    for _ in 0..3000 {
        let inserts = 1 + dice.below(10);
        let calls = dice.below(4 * inserts);
        let sound = one_list(&mut dice, 6, inserts, calls, 1000).record;
        for _ in 0..12 {
            let record = damage(&mut dice, &sound);
            if !record.in_form() {
                out_of_form(&record);
                continue;
            }
            in_form += 1;
            for job in 0..usize::from(record.job_count) {
                judged_alike(&record, job);
                // Steps 2 and 3 with either mark.
                for (number, mark) in [(0, 0), (1, 0), (2, 0), (3, 0), (4, 0), (2, 1), (3, 1)] {
                    let mut after = record.clone();
                    if step(&mut after, number, job, -77, mark) == 0 {
                        others_kept(&record, &after, job);
                        assert!(after.in_form());
                        accepted[usize::from(number)] += 1;
                        four.count(&record, &after, number, job, mark);
                        if number == 2 {
                            all_written(&after, job, -77, mark);
                        }
                    }
                }
            }
            let unsealed = record.sealed == 0;
            let named = if unsealed {
                (10, 0, 0, 0)
            } else {
                choice(&record, &mut watch)
            };
            assert_eq!(record.choose(), named);
        }
    }
    assert!(in_form > 1500, "{in_form}");
    assert!(accepted.iter().all(|&times| times > 80), "{accepted:?}");
    println!("damaged, four accesses: {four:?}");
    assert!(four.least() > 10, "{four:?}");
    println!("damaged, {} choices:", watch.choices);
    come_up(watch.wrong_lines(), 20);
    assert!(watch.through_settled > 20, "{}", watch.through_settled);
}

/// Prints the lines. Each came up at least so often.
fn come_up(lines: Vec<(String, u64)>, least: u64) {
    for (what, times) in &lines {
        println!("  {what}: {times}");
    }
    assert!(lines.iter().all(|&(_, times)| times >= least), "{lines:?}");
}

/// The record with many jobs not settled, so that several steps are allowed; sometimes
/// with nothing but guesses to start.
fn many_open(dice: &mut Dice, mut record: Record) -> Record {
    let held = usize::from(record.job_count);
    let some = dice.below(held as u64 + 1) as usize;
    record.committed[some..held].fill(0);
    if dice.one_in(3) {
        for job in 0..held {
            match answers(&record, job) {
                [0, ..] => record.running[job] = 1,
                [.., 0] => record.phase[job] = 3,
                _ if record.running[job] == 0 => record.phase[job] = 0,
                _ => {}
            }
        }
    }
    record
}

/// R60 to R62 wherever the jobs may have come to.
#[test]
fn chosen_in_any_state() {
    let mut dice = Dice(0x61_1234_5678);
    let mut watch = Watch::default();
    for _ in 0..900 {
        let sound = one_list(&mut dice, 16, 16, 0, 1000).record;
        for _ in 0..10 {
            let any = any_states(&mut dice, &sound);
            let record = many_open(&mut dice, any);
            assert_eq!(record.choose(), choice(&record, &mut watch));
        }
    }
    println!("in any state, {} choices:", watch.choices);
    come_up(watch.choice_lines(), 5);
    assert!(watch.through_settled > 20, "{}", watch.through_settled);
}

// ---------------------------------------------------------------------------
// How fast

/// The best of five calls on each record, so that other work does not count.
fn microseconds(name: &str, records: &[Record], mut call: impl FnMut(&mut Record)) {
    let mut times = Vec::new();
    for record in records {
        let mut best = f64::MAX;
        for _ in 0..5 {
            let mut record = record.clone();
            let begin = std::time::Instant::now();
            call(&mut record);
            best = best.min(begin.elapsed().as_secs_f64() * 1e6);
        }
        times.push(best);
    }
    let mean = times.iter().sum::<f64>() / times.len() as f64;
    let slowest = times.iter().copied().fold(0.0, f64::max);
    println!("{name:10} mean {mean:7.2}  slowest {slowest:7.2}");
}

/// `cargo test --release --offline --test records speed -- --ignored --nocapture`
#[test]
#[ignore]
fn speed() {
    let mut dice = Dice(5);
    for (name, cells, inserts) in [
        ("128 jobs", 64, 150),
        ("128 jobs, 4 cells", 4, 200),
        ("10 jobs", 5, 10),
    ] {
        println!("{name}, microseconds");
        let mut records = Vec::new();
        for list in 0..40 {
            let sound = one_list(&mut dice, cells, inserts, 25 * list, 10_000).record;
            records.extend((0..25).map(|_| damage(&mut dice, &sound)));
        }
        records.retain(Record::in_form);
        let bytes = bytes_of(&records[0]);
        microseconds("from_bytes", &records, |r| *r = Record::from_bytes(&bytes));
        microseconds("in_form", &records, |r| assert!(r.in_form()));
        microseconds("insert", &records, |r| {
            assert!(r.insert(Job::default()) < 32)
        });
        microseconds("seal", &records, |r| assert!(r.seal(1) < 32));
        for number in 0..5 {
            let name = format!("step {number}");
            microseconds(&name, &records, |r| {
                let job = usize::from(r.job_count) - 1;
                assert!(r.step(number, job, [0; 4], 0).0 < 32);
            });
        }
        microseconds("choose", &records, |r| assert!(r.choose().0 < 32));
        microseconds("ask_cell", &records, |r| assert!(r.ask_cell(0).0 < 32));
        microseconds("ask_job", &records, |r| assert!(r.ask_job(0).refusal < 32));
        microseconds("ask_batch", &records, |r| {
            assert!(r.ask_batch().refusal < 32)
        });
        let mut buffer = [0; 64];
        microseconds("copy_out", &records, |r| {
            assert!(r.copy_out(&mut buffer, 0) < 32)
        });
    }
}
