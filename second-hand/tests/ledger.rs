//! The claim of R170 to R176, tried out on random lists of calls with inserts
//! anywhere. Of R170 it is tried that `record` and `engine` answer alike; all else
//! is held against the ledger, which is kept from the calls alone.

mod worked;

use second_hand::engine::Settled;
use second_hand::lists::{worth_a_look, Manner};
use second_hand::plans::Dice;
use worked::Worked;

impl Worked {
    /// Makes the list's next call, and tries the claim after it.
    fn go_on(&mut self, dice: &mut Dice, manner: &Manner) {
        let call = manner.call(dice, &self.record);
        let before = (self.record.clone(), self.batch.clone());
        let answer = self.make(&call);
        if answer.0 != 0 {
            // R81: a refused call changes nothing.
            assert!((&self.record, &self.batch) == (&before.0, &before.1));
        } else if worth_a_look(dice, &self.record) {
            self.ledger.claim(&self.cells(), &self.settled());
            self.batch_is_claimed();
            self.judged_alike();
            self.can_go_on();
        }
    }

    /// The cells as asked for.
    fn cells(&self) -> Vec<i32> {
        let cells = 0..usize::from(self.record.cell_count);
        cells.map(|cell| self.record.ask_cell(cell).1).collect()
    }

    /// Of each job how it is settled and its mark, as asked for.
    fn settled(&self) -> Vec<(u8, u8)> {
        let asked = |job| {
            let answer = self.record.ask_job(job);
            (answer.committed, answer.wrote)
        };
        (0..usize::from(self.record.job_count)).map(asked).collect()
    }

    /// What `engine` says of cells and jobs holds too.
    fn batch_is_claimed(&self) {
        let mut cells = vec![0; self.batch.cell_count() as usize];
        self.batch.copy_cells(&mut cells, 0).unwrap();
        let settled = |job| match self.batch.ask_job(job).unwrap() {
            Settled::No => (0, 0),
            Settled::ByOwnRun { mark } => (1, mark as u8),
            Settled::ByGuess { mark } => (2, mark as u8),
        };
        let jobs: Vec<(u8, u8)> = (0..self.batch.job_count()).map(settled).collect();
        self.ledger.claim(&cells, &jobs);
    }

    /// Guesses are judged as the ledger has it (R45, R164).
    fn judged_alike(&self) {
        for (job, due) in self.ledger.judged().into_iter().enumerate() {
            assert_eq!(self.record.ask_job(job).validity, due, "job {job}");
            assert_eq!(self.batch.ask_guess(job as u32), Ok(u32::from(due)));
        }
    }

    /// R8, and R172: while a job of a sealed batch is not settled, some step is
    /// accepted.
    fn can_go_on(&self) {
        let sealed = self.ledger.sealed.is_some();
        let finished = sealed && self.ledger.all_settled();
        assert_eq!(self.batch.finished(), finished);
        assert_eq!(self.record.ask_batch().finished, finished);
        if sealed && !finished {
            let accepted = |job, step| self.batch.would_answer(step, job) == Some(0);
            let some_step = |job| (0..5).any(|step| accepted(job, step));
            assert!((0..self.batch.job_count()).any(some_step));
        }
    }
}

#[test]
fn random_lists() {
    let mut dice = Dice::new(1, 170);
    let (mut ended, mut added) = (0, 0);
    for _ in 0..600 {
        let manner = Manner::any(&mut dice);
        let mut worked = Worked::open(&manner.heights);
        for _ in 0..manner.calls() {
            worked.go_on(&mut dice, &manner);
        }
        ended += u32::from(worked.batch.finished());
        added += worked.ledger.jobs.iter().filter(|line| line.added).count();
    }
    println!("600 lists, finished at the end {ended}, jobs after the seal {added}");
    assert!(ended > 300 && added > 1000, "{ended} {added}");
}

/// Works the list to its end: the cells and the marks, as asked for.
fn worked_out(dice: &mut Dice, manner: &Manner) -> (Vec<i32>, Vec<u8>) {
    let mut worked = Worked::open(&manner.heights);
    let mut calls = 0;
    while !manner.is_done(&worked.record) {
        worked.go_on(dice, manner);
        calls += 1;
        assert!(calls < 200_000, "the list does not end");
    }
    worked.ledger.claim(&worked.cells(), &worked.settled());
    let marks = worked.settled().into_iter().map(|(_, mark)| mark);
    (worked.cells(), marks.collect())
}

/// R176.
#[test]
fn pairs_of_lists() {
    let mut dice = Dice::new(1, 176);
    let mut marked = 0;
    for _ in 0..300 {
        let [first, second] = Manner::pair(&mut dice);
        let end = worked_out(&mut dice, &first);
        assert_eq!(worked_out(&mut dice, &second), end);
        marked += u32::from(end.1.contains(&1));
    }
    println!("300 pairs, a mark of 1 in {marked}");
    assert!(marked > 100, "{marked}");
}
