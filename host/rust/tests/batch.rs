//! The wrapper over the archive: batches run to their end, every refusal that a caller can meet, and the record kept.

use sorghemi::raw::{self, sorghemi_insert_all, sorghemi_turn, Inserted, JobList, StepList, Turned, NO_REPORT};
use sorghemi::{
    answer, Batch, Choice, Committed, Job, JobState, Jobs, Kind, Mode, Phase, Record, Refusal, RefusedJob, Report, RunReport,
    Speculation, Step, Taken, Validity, MOST_STEPS,
};

/// A small generator of random numbers, the same in every run.
struct Random(u64);

impl Random {
    fn below(&mut self, limit: u8) -> u8 {
        self.0 = self.0.wrapping_mul(6364136223846793005).wrapping_add(1442695040888963407);
        (self.0 >> 40) as u8 % limit
    }

    fn step(&mut self) -> Step {
        Step::from_number(self.below(5)).unwrap()
    }

    fn report(&mut self) -> Report {
        Report { values: [i32::from(self.below(100)); 4], wrote: self.below(3) }
    }
}

fn sealed(heights: &[i32], jobs: &[Job]) -> Batch {
    let mut batch = Batch::open(heights).unwrap();
    for (expected, job) in jobs.iter().enumerate() {
        assert_eq!(batch.insert(*job), Ok(expected));
    }
    batch.seal(true).unwrap();
    batch
}

#[test]
fn thursday() {
    let mut batch = sealed(&[2900, 1500], &[Job::spike(0, 1, 1000), Job::shift(0, 20)]);
    assert_eq!(batch.start_own(0), Ok([2900, 1500, 0, 0]));
    assert_eq!(batch.start_speculation(1), Ok([2900, 0, 0, 0]));
    batch.report_speculation(1, Report::of(&[2920])).unwrap();
    batch.report_own(0, Report::written(&[1500])).unwrap();
    // The spike test struck 2900 out, so the guess has fallen and the shift runs again.
    assert_eq!(batch.commit(1), Err(Refusal::GUESS_FALLEN));
    assert_eq!(batch.start_own(1), Ok([1500, 0, 0, 0]));
    batch.report_own(1, Report::of(&[1520])).unwrap();
    assert!(batch.finished());
    let mut heights = [7; 4];
    batch.copy_out(&mut heights, 1).unwrap();
    assert_eq!(heights, [7, 1520, 1500, 7]);
    assert_eq!(batch.cells(), [1520, 1500]);
    let spike = JobState {
        committed: Committed::ByOwnRun,
        wrote: true,
        running: false,
        phase: Phase::NeverStarted,
        validity: Validity::NoRun,
        handed: [2900, 1500, 0, 0],
        reported: [1500, 1500, 0, 0],
        job: Job::spike(0, 1, 1000),
    };
    assert_eq!(batch.job(0), Ok(spike));
    assert_eq!(batch.job(1).unwrap().phase, Phase::Discarded);
}

fn taken(step: Step, job: usize, handed: [i32; 4]) -> Taken {
    Taken { step, job, handed }
}

#[test]
fn monday_by_turns() {
    let mut batch = sealed(&[1500, 1480], &[Job::spike(0, 1, 1000), Job::shift(0, 20)]);
    let (test, guess) = (taken(Step::StartOwn, 0, [1500, 1480, 0, 0]), taken(Step::StartSpeculation, 1, [1500, 0, 0, 0]));
    assert_eq!(batch.turn(None, 16).unwrap().steps(), [test, guess]);
    assert_eq!(batch.turn(guess.reporting(Report::of(&[1520])), 16).unwrap().steps(), []);
    // The test found nothing: the guess is kept in the turn that reports so.
    let kept = taken(Step::Commit, 1, [0; 4]);
    assert_eq!(batch.turn(test.reporting(Report::of(&[1500, 1480])), 16).unwrap().steps(), [kept]);
    assert!(batch.finished());
    assert_eq!(batch.cells(), [1520, 1480]);
    assert_eq!(batch.job(1).unwrap().committed, Committed::BySpeculation);
}

#[test]
fn thursday_by_turns() {
    let mut batch = sealed(&[2900, 1500], &[Job::spike(0, 1, 1000), Job::shift(0, 20)]);
    let turn = batch.turn(None, 2).unwrap();
    assert_eq!(turn.runs().map(|run| run.job).collect::<Vec<_>>(), [0, 1]);
    batch.turn(Some(RunReport::Speculation(1, Report::of(&[2920]))), 1).unwrap();
    // The test struck 2900 out: the shift's own run is started in the turn that reports so.
    let again = taken(Step::StartOwn, 1, [1500, 0, 0, 0]);
    assert_eq!(batch.turn(Some(RunReport::Own(0, Report::written(&[1500]))), 1).unwrap().steps(), [again]);
    assert_eq!(batch.job(1).unwrap().phase, Phase::Discarded);
    assert_eq!(batch.turn(again.reporting(Report::of(&[1520])), 1).unwrap().steps(), []);
    assert!(batch.finished());
    assert_eq!(batch.cells(), [1520, 1500]);
}

/// R66: the report's own refusal, and neither record nor list is touched; nor by a number that is no report.
#[test]
fn a_refused_turn_changes_nothing() {
    let mut batch = sealed(&[1500, 1480], &[Job::spike(0, 1, 1000), Job::shift(0, 20)]);
    batch.turn(None, 2).unwrap();
    let before = batch.clone();
    let marked = Report { values: [0; 4], wrote: 2 };
    let refused = [
        (RunReport::Own(1, Report::default()), Refusal::WRONG_STATE),
        (RunReport::Speculation(0, Report::default()), Refusal::WRONG_STATE),
        (RunReport::Own(2, Report::default()), Refusal::NO_SUCH_JOB),
        (RunReport::Own(usize::MAX, Report::default()), Refusal::NO_SUCH_JOB),
        (RunReport::Own(0, marked), Refusal::WRONG_MARK),
        (RunReport::Speculation(1, Report::written(&[1520])), Refusal::WRONG_MARK),
    ];
    for (report, refusal) in refused {
        assert_eq!((batch.turn(Some(report), 16), &batch), (Err(refusal), &before), "{report:?}");
    }
    let mut record = *before.record();
    let untouched = StepList { taken: [raw::Taken { step: 9, job: 9, handed: [9; 4] }; MOST_STEPS] };
    let mut list = untouched;
    let mut refusal = |record: &mut Record, number| {
        let turned = unsafe { sorghemi_turn(record, number, 0, Report::default(), 16, &mut list) };
        assert_eq!((turned.count, &list), (0, &untouched), "number {number}");
        turned.refusal
    };
    for number in (0..NO_REPORT).filter(|number| ![2, 3].contains(number)) {
        assert_eq!(refusal(&mut record, number), 21, "number {number}");
    }
    assert_eq!(refusal(&mut record, 3), 13);
    assert_eq!(record, *before.record());
    // 32 goes before all.
    record.sealed = 2;
    assert_eq!([0, 2, 3, 4, NO_REPORT].map(|number| refusal(&mut record, number)), [32; 5]);
}

/// R65: the list is written whole, with zeros after the last step.
#[test]
fn a_turn_writes_the_whole_list() {
    let mut record = *sealed(&[1500], &[Job::shift(0, 20)]).record();
    let mut list = StepList { taken: [raw::Taken { step: 9, job: 9, handed: [9; 4] }; MOST_STEPS] };
    // Without a report neither job nor report are looked at.
    let report = Report { values: [7; 4], wrote: 255 };
    let turned = unsafe { sorghemi_turn(&mut record, NO_REPORT, usize::MAX, report, usize::MAX, &mut list) };
    assert_eq!(turned, Turned { refusal: 0, count: 1 });
    let mut expected = StepList::default();
    expected.taken[0].handed[0] = 1500;
    assert_eq!(list, expected);
}

#[test]
fn a_turn_with_limit_0_makes_its_report_alone() {
    let mut batch = sealed(&[1500, 1480], &[Job::shift(0, 20), Job::shift(1, 20), Job::shift(0, 5)]);
    let before = batch.clone();
    assert_eq!(batch.turn(None, 0).unwrap().steps(), []);
    assert_eq!(batch, before);
    batch.turn(None, 1).unwrap();
    let mut by_steps = batch.clone();
    assert_eq!(batch.turn(Some(RunReport::Own(0, Report::of(&[1520]))), 0).unwrap().steps(), []);
    by_steps.report_own(0, Report::of(&[1520])).unwrap();
    assert_eq!(batch, by_steps);
    // Two steps are allowed now, which the turn has left.
    assert_eq!(batch.turn(None, 5).unwrap().steps().len(), 2);
}

/// R65, on batches that more workers take than a turn has places for.
#[test]
fn a_turn_that_takes_fewer_steps_than_its_limit_leaves_none() {
    let jobs: Vec<Job> =
        (0..40).map(|job| if job % 2 == 0 { Job::floor(job / 2, 1400) } else { Job::shift(job / 2, 5) }).collect();
    for limit in [1, 2, 3, 15, 16, 17, usize::MAX] {
        let mut batch = sealed(&[1500; 20], &jobs);
        let most = limit.min(MOST_STEPS);
        let mut counts = Vec::new();
        while counts.last().map_or(true, |&count| count == most) {
            let mut by_choices = batch.clone();
            let turn = batch.turn(None, limit).unwrap();
            for step in &turn {
                let choice = by_choices.choose().unwrap();
                assert_eq!((choice.step, choice.job), (step.step, step.job));
                assert_eq!(by_choices.step(step.step, step.job, Report::default()), Ok(step.handed));
            }
            assert_eq!(batch, by_choices);
            counts.push(turn.steps().len());
        }
        // 20 own runs and 20 guesses: none is left, and none was left before the last turn.
        assert_eq!(batch.choose(), Err(Refusal::NOTHING_TO_START));
        assert_eq!(counts.iter().sum::<usize>(), 40);
    }
}

#[test]
fn a_turn_before_the_seal_is_refused() {
    let mut batch = Batch::open(&[1500]).unwrap();
    batch.insert(Job::shift(0, 20)).unwrap();
    assert_eq!(batch.turn(None, 1), Err(Refusal::NOT_SEALED));
    assert_eq!(batch.turn(None, 0), Err(Refusal::NOT_SEALED));
    assert_eq!(batch.turn(Some(RunReport::Own(0, Report::default())), 1), Err(Refusal::NOT_SEALED));
    batch.seal(false).unwrap();
    assert_eq!(batch.turn(None, 1).unwrap().runs().count(), 1);
}

#[test]
fn a_turn_is_shown_by_its_steps() {
    let mut batch = sealed(&[1500], &[Job::shift(0, 20)]);
    let turn = batch.turn(None, 16).unwrap();
    assert_eq!(format!("{turn:?}"), "Turn([Taken { step: StartOwn, job: 0, handed: [1500, 0, 0, 0] }])");
    assert_eq!(taken(Step::Commit, 0, [0; 4]).reporting(Report::default()), None);
}

/// P12 of docs/RULES.md, the job inserted when all others are settled.
#[test]
fn a_finished_batch_gains_a_job() {
    let mut batch = sealed(&[1500, 1480], &[Job::floor(0, 1400), Job::shift(0, 20)]);
    batch.start_own(0).unwrap();
    batch.start_speculation(1).unwrap();
    batch.report_speculation(1, Report::of(&[1520])).unwrap();
    batch.report_own(0, Report::default()).unwrap();
    batch.commit(1).unwrap();
    assert!(batch.finished());
    assert_eq!(batch.cells(), [1520, 1480]);
    assert_eq!(batch.insert(Job::shift(0, 5)), Ok(2));
    assert!(!batch.finished());
    assert_eq!(batch.seal(true), Err(Refusal::SEALED));
    assert_eq!(batch.choose(), Ok(Choice { step: Step::StartOwn, job: 2, chain: 1 }));
    assert_eq!(batch.start_own(2), Ok([1520, 0, 0, 0]));
    batch.report_own(2, Report::of(&[1525])).unwrap();
    assert!(batch.finished());
    assert_eq!(batch.cells(), [1525, 1480]);
}

/// P12, the job inserted while both runs are out.
#[test]
fn a_job_comes_in_while_runs_are_out() {
    let mut batch = sealed(&[1500, 1480], &[Job::floor(0, 1400), Job::shift(0, 20)]);
    batch.start_own(0).unwrap();
    batch.start_speculation(1).unwrap();
    assert_eq!(batch.insert(Job::shift(0, 5)), Ok(2));
    assert_eq!(batch.start_speculation(2), Err(Refusal::MUST_WAIT));
    batch.report_speculation(1, Report::of(&[1520])).unwrap();
    assert_eq!(batch.start_speculation(2), Ok([1520, 0, 0, 0]));
    batch.report_speculation(2, Report::of(&[1525])).unwrap();
    batch.report_own(0, Report::default()).unwrap();
    batch.commit(1).unwrap();
    batch.commit(2).unwrap();
    assert!(batch.finished());
    assert_eq!(batch.cells(), [1525, 1480]);
}

/// The list inserted in one call does what inserting its jobs one by one does, up to the first that is refused.
fn inserted_alike(before: &Batch, list: &[Job]) {
    let (mut whole, mut one_by_one) = (before.clone(), before.clone());
    let held = before.progress().unwrap().jobs;
    let told = whole.insert_all(list);
    let mut places = list.iter().enumerate();
    let refused = places.find_map(|(at, job)| one_by_one.insert(*job).err().map(|refusal| RefusedJob { at, refusal }));
    match refused {
        None => assert_eq!((told, &whole), (Ok(held..held + list.len()), &one_by_one)),
        Some(refused) => assert_eq!((told, &whole), (Err(refused), before)),
    }
}

#[test]
fn a_list_is_inserted_as_its_jobs_one_by_one() {
    for held in [0, 1, 100, 128] {
        let before = sealed(&[1500], &vec![Job::floor(0, 1400); held]);
        for count in [0, 1, 28, 29, 128, 129, 200] {
            for sound in [0, 27, 28, 127, 128, 200] {
                let list: Vec<Job> = (0..count).map(|place| Job::shift((place >= sound) as u8, 20)).collect();
                inserted_alike(&before, &list);
            }
        }
    }
}

/// 32 goes before all, also where there is no job; and a count that is too large is no fault of its own.
#[test]
fn a_list_for_a_record_out_of_form_or_with_any_count() {
    let mut record = *Batch::open(&[1500]).unwrap().record();
    let mut list = JobList { count: 0, jobs: [Job::shift(0, 20); 128] };
    let mut told = |record: &mut Record, count| {
        list.count = count;
        let Inserted { refusal, at } = unsafe { sorghemi_insert_all(record, &list) };
        (refusal, at)
    };
    assert_eq!(told(&mut record, usize::MAX), (3, 128));
    assert_eq!(told(&mut record, 128), (0, 0));
    assert_eq!(record.job_count, 128);
    record.cell_count = 0;
    let before = record;
    for count in [0, 1, usize::MAX] {
        assert_eq!(told(&mut record, count), (32, 0));
        assert_eq!(record, before);
    }
}

#[test]
fn a_job_tells_how_it_stands_at_each_step() {
    let mut batch = sealed(&[1300], &[Job::floor(0, 1400), Job::shift(0, 20), Job::floor(0, 1400)]);
    let told = |batch: &Batch, job| {
        let state = batch.job(job).unwrap();
        (state.committed, state.wrote, state.running, state.phase, state.validity)
    };
    let nothing = (Committed::NotYet, false, false, Phase::NeverStarted, Validity::NoRun);
    assert_eq!(told(&batch, 1), nothing);
    batch.start_own(0).unwrap();
    assert_eq!(told(&batch, 0), (Committed::NotYet, false, true, Phase::NeverStarted, Validity::NoRun));
    batch.start_speculation(1).unwrap();
    assert_eq!(told(&batch, 1), (Committed::NotYet, false, false, Phase::Out, Validity::Undecided));
    batch.report_speculation(1, Report::of(&[1320])).unwrap();
    assert_eq!(told(&batch, 1), (Committed::NotYet, false, false, Phase::Stored, Validity::Undecided));
    batch.start_speculation(2).unwrap();
    let mut found_something = batch.clone();
    // The first floor changes nothing: the guess of the shift stands, and that of the last job still waits.
    batch.report_own(0, Report::default()).unwrap();
    assert_eq!(told(&batch, 1), (Committed::NotYet, false, false, Phase::Stored, Validity::Valid));
    assert_eq!(told(&batch, 2), (Committed::NotYet, false, false, Phase::Out, Validity::Undecided));
    batch.commit(1).unwrap();
    assert_eq!(told(&batch, 1), (Committed::BySpeculation, false, false, Phase::Stored, Validity::NoRun));
    assert_eq!(told(&batch, 2), (Committed::NotYet, false, false, Phase::Out, Validity::Valid));
    // The first floor changes something: the guess of the shift has fallen, and a worker that still had it could know; that of
    // the last job is not yet to be judged.
    found_something.report_own(0, Report::written(&[1400])).unwrap();
    assert_eq!(told(&found_something, 0), (Committed::ByOwnRun, true, false, Phase::NeverStarted, Validity::NoRun));
    assert_eq!(told(&found_something, 1), (Committed::NotYet, false, false, Phase::Stored, Validity::Invalid));
    assert_eq!(told(&found_something, 2), (Committed::NotYet, false, false, Phase::Out, Validity::Undecided));
    found_something.start_own(1).unwrap();
    assert_eq!(told(&found_something, 1), (Committed::NotYet, false, true, Phase::Discarded, Validity::NoRun));
    // The shift gives 1420 now, and the last job's guess was handed 1320.
    found_something.report_own(1, Report::of(&[1420])).unwrap();
    assert_eq!(told(&found_something, 2), (Committed::NotYet, false, false, Phase::Out, Validity::Invalid));
}

fn validity(batch: &Batch, job: usize) -> Validity {
    batch.job(job).unwrap().validity
}

/// P9 of docs/RULES.md.
#[test]
fn only_the_guess_of_a_ready_job_has_fallen() {
    let mut batch = sealed(&[1300], &[Job::floor(0, 1400), Job::shift(0, 20), Job::shift(0, 20)]);
    batch.start_own(0).unwrap();
    for (job, handed) in [(1, 1300), (2, 1320)] {
        assert_eq!(batch.start_speculation(job), Ok([handed, 0, 0, 0]));
        batch.report_speculation(job, Report::of(&[handed + 20])).unwrap();
    }
    batch.report_own(0, Report::written(&[1400])).unwrap();
    assert_eq!([1, 2].map(|job| validity(&batch, job)), [Validity::Invalid, Validity::Undecided]);
    assert_eq!(batch.start_own(2), Err(Refusal::MUST_WAIT));
    assert_eq!(batch.start_own(1), Ok([1400, 0, 0, 0]));
}

/// P14, with this height in the report of job 0, which has mark 1.
fn outside_job_found(height: i32) -> Batch {
    let mut batch = sealed(&[1500], &[Job::outside(0, &[(0, Mode::MaybeWrite)]), Job::shift(0, 20)]);
    assert_eq!(batch.start_speculation(1), Ok([1500, 0, 0, 0]));
    batch.report_speculation(1, Report::of(&[1520])).unwrap();
    batch.start_own(0).unwrap();
    assert_eq!(validity(&batch, 1), Validity::Undecided);
    batch.report_own(0, Report::written(&[height])).unwrap();
    batch
}

#[test]
fn a_guess_that_was_handed_the_right_height_is_kept() {
    let mut batch = outside_job_found(1500);
    assert!(batch.job(0).unwrap().wrote);
    assert_eq!(validity(&batch, 1), Validity::Valid);
    assert_eq!(batch.start_own(1), Err(Refusal::GUESS_STANDS));
    batch.commit(1).unwrap();
    assert_eq!(validity(&batch, 1), Validity::NoRun);
    assert_eq!(batch.cells(), [1520]);
    let mut batch = outside_job_found(1501);
    assert_eq!(validity(&batch, 1), Validity::Invalid);
    assert_eq!(batch.commit(1), Err(Refusal::GUESS_FALLEN));
    assert_eq!(batch.start_own(1), Ok([1501, 0, 0, 0]));
}

/// P15, with this height in the report of job 1's own run.
fn source_ran_again(height: i32) -> Batch {
    let mut batch = sealed(&[1390], &[Job::floor(0, 1400), Job::set(0, 1500), Job::shift(0, 20)]);
    for (job, handed, reported) in [(1, 1390, 1500), (2, 1500, 1520)] {
        assert_eq!(batch.start_speculation(job), Ok([handed, 0, 0, 0]));
        batch.report_speculation(job, Report::of(&[reported])).unwrap();
    }
    batch.start_own(0).unwrap();
    batch.report_own(0, Report::written(&[1400])).unwrap();
    assert_eq!([1, 2].map(|job| validity(&batch, job)), [Validity::Invalid, Validity::Undecided]);
    assert_eq!(batch.start_own(1), Ok([1400, 0, 0, 0]));
    batch.report_own(1, Report::of(&[height])).unwrap();
    batch
}

#[test]
fn a_guess_whose_source_gives_the_same_again_is_kept() {
    let mut batch = source_ran_again(1500);
    assert_eq!(batch.job(1).unwrap().phase, Phase::Discarded);
    assert_eq!(validity(&batch, 2), Validity::Valid);
    batch.commit(2).unwrap();
    assert_eq!(batch.cells(), [1520]);
    let mut batch = source_ran_again(1501);
    assert_eq!(validity(&batch, 2), Validity::Invalid);
    assert_eq!(batch.commit(2), Err(Refusal::GUESS_FALLEN));
}

/// P16, with this height in the report of job 0.
fn gauge_found(height: i32) -> Batch {
    let write = [(0, Mode::Write)];
    let mut batch = sealed(&[1500], &[Job::outside(0, &write), Job::outside(0, &write).predicting(0, 1510)]);
    batch.start_own(0).unwrap();
    assert_eq!(batch.start_speculation(1), Ok([1510, 0, 0, 0]));
    batch.report_speculation(1, Report::of(&[1530])).unwrap();
    batch.report_own(0, Report::of(&[height])).unwrap();
    batch
}

#[test]
fn a_guess_with_a_right_forecast_is_kept() {
    let mut batch = gauge_found(1510);
    assert_eq!(validity(&batch, 1), Validity::Valid);
    batch.commit(1).unwrap();
    assert_eq!(batch.cells(), [1530]);
    let mut batch = gauge_found(1511);
    assert_eq!(validity(&batch, 1), Validity::Invalid);
    assert_eq!(batch.commit(1), Err(Refusal::GUESS_FALLEN));
    assert_eq!(batch.start_own(1), Ok([1511, 0, 0, 0]));
}

/// The access keeps its place, whatever its mode was; one that is not there comes last, and a fifth is counted alone.
#[test]
fn a_forecast_is_said_of_an_access() {
    let job = Job::outside(0, &[(5, Mode::Read), (0, Mode::Write)]).predicting(0, 1510).predicting(2, -7);
    assert_eq!(job.accesses.map(|access| (access.cell, access.mode)), [(5, 0), (0, 3), (2, 3), (0, 0)]);
    assert_eq!((job.arity, job.predicted), (3, [0, 1510, -7, 0]));
    assert_eq!(job.predicting(5, 1).predicting(0, 2).predicted, [1, 2, -7, 0]);
    let four = job.predicting(3, 8);
    let five = four.predicting(4, 9);
    assert_eq!((five.arity, five.accesses, five.predicted), (5, four.accesses, [0, 1510, -7, 8]));
    let mut batch = Batch::open(&[0; 6]).unwrap();
    assert_eq!(batch.insert(five), Err(Refusal::ACCESS_COUNT));
    assert_eq!(batch.insert(four), Ok(0));
    assert_eq!(batch.job(0).unwrap().job, four);
}

/// R115: the report of a guess that has fallen is taken; without a stored one the start waits.
#[test]
fn a_guess_is_started_from_a_fallen_one() {
    let mut batch = sealed(&[1300], &[Job::floor(0, 1400), Job::set(0, 1500), Job::shift(0, 20)]);
    batch.start_own(0).unwrap();
    assert_eq!(batch.start_speculation(2), Err(Refusal::MUST_WAIT));
    batch.start_speculation(1).unwrap();
    batch.report_own(0, Report::written(&[1400])).unwrap();
    assert_eq!(validity(&batch, 1), Validity::Invalid);
    assert_eq!(batch.start_speculation(2), Err(Refusal::MUST_WAIT));
    batch.report_speculation(1, Report::of(&[1500])).unwrap();
    assert_eq!(batch.start_speculation(2), Ok([1500, 0, 0, 0]));
    batch.report_speculation(2, Report::of(&[1520])).unwrap();
    batch.start_own(1).unwrap();
    batch.report_own(1, Report::of(&[1500])).unwrap();
    batch.commit(2).unwrap();
    assert_eq!(batch.cells(), [1520]);
}

/// Of the jobs looked past and of the open ones size and lowest.
fn told(bypassed: (usize, Option<usize>), open: (usize, Option<usize>)) -> Result<Speculation, Refusal> {
    let [bypassed, open] = [bypassed, open].map(|(size, lowest)| Jobs { size, lowest });
    Ok(Speculation { bypassed, open })
}

/// P13 of docs/RULES.md.
#[test]
fn a_guess_tells_what_it_looked_past() {
    let jobs = [Job::floor(0, 1400), Job::floor(1, 1400), Job::pair(0, 1), Job::mean(2, 0, 1)];
    let mut batch = sealed(&[1500, 1480, 0], &jobs);
    let (none, three) = ((0, None), (3, Some(0)));
    assert_eq!(batch.speculation(3), told(none, none));
    batch.start_speculation(3).unwrap();
    assert_eq!(batch.speculation(3), told(three, three));
    for (job, open) in [(0, (2, Some(1))), (1, (1, Some(2))), (2, none)] {
        let handed = batch.start_own(job).unwrap();
        let report = jobs[job].result(handed).unwrap();
        assert_eq!(report.wrote, (job == 2) as u8);
        batch.report_own(job, report).unwrap();
        assert_eq!(batch.speculation(3), told(three, open));
    }
    assert_eq!(batch.job(3).unwrap().validity, Validity::Invalid);
    batch.start_own(3).unwrap();
    assert_eq!(batch.speculation(3), told(none, none));
    assert_eq!(batch.speculation(4), Err(Refusal::NO_SUCH_JOB));
}

/// R79: before the seal too, and of a guess that is kept. R78: a lowest that is job 0 is one, and only an empty set has none.
#[test]
fn only_an_empty_set_has_no_lowest() {
    let mut batch = Batch::open(&[1500]).unwrap();
    assert_eq!(batch.speculation(0), Err(Refusal::NO_SUCH_JOB));
    for job in 0..66 {
        batch.insert(Job::floor(0, 1400)).unwrap();
        assert_eq!(batch.speculation(job), told((0, None), (0, None)));
    }
    batch.seal(true).unwrap();
    for job in 1..66 {
        batch.start_speculation(job).unwrap();
        assert_eq!(batch.speculation(job), told((job, Some(0)), (job, Some(0))));
    }
    batch.start_own(0).unwrap();
    batch.report_own(0, Report::default()).unwrap();
    for settled in 1..66 {
        batch.report_speculation(settled, Report::default()).unwrap();
        assert_eq!(batch.speculation(settled), told((settled, Some(0)), (0, None)));
        batch.commit(settled).unwrap();
        for job in 1..66 {
            let open = if job > settled + 1 { (job - settled - 1, Some(settled + 1)) } else { (0, None) };
            assert_eq!(batch.speculation(job), told((job, Some(0)), open), "job {job}, up to {settled} settled");
        }
    }
    assert_eq!(batch.speculation(66), Err(Refusal::NO_SUCH_JOB));
    assert_eq!(batch.speculation(usize::MAX), Err(Refusal::NO_SUCH_JOB));
}

#[test]
fn the_chooser_drives_a_batch_to_its_end() {
    let jobs = [Job::floor(0, 1400), Job::shift(0, 20), Job::mean(1, 0, 2), Job::pair(0, 1), Job::set(2, 9), Job::shift(0, -5)];
    let mut batch = sealed(&[1300, 0, 2000], &jobs);
    let mut out = std::collections::VecDeque::new();
    let mut guesses = 0;
    while !batch.finished() {
        match batch.choose() {
            Ok(choice) => {
                let handed = batch.step(choice.step, choice.job, Report::default()).unwrap();
                guesses += (choice.step == Step::StartSpeculation) as usize;
                match choice.step {
                    Step::StartOwn => out.push_back((Step::ReportOwn, choice.job, handed)),
                    Step::StartSpeculation => out.push_back((Step::ReportSpeculation, choice.job, handed)),
                    _ => {}
                }
            }
            Err(Refusal::NOTHING_TO_START) => {
                let (step, job, handed) = out.pop_front().unwrap();
                let report = jobs[job].result(handed).unwrap();
                // A guess may have been thrown away meanwhile; its report is then refused (R113).
                match batch.step(step, job, report) {
                    Ok(_) => {}
                    Err(refusal) => assert_eq!((step, refusal), (Step::ReportSpeculation, Refusal::WRONG_STATE)),
                }
            }
            Err(refusal) => panic!("{refusal}"),
        }
    }
    assert!(guesses > 0);
    // One job after the other: 1400; 1420; mean of 1420 and 2000 is 1710; no exchange; 9; 1415.
    assert_eq!(batch.cells(), [1415, 1710, 9]);
    assert_eq!(batch.cells(), [0, 1, 2].map(|x| batch.cell(x).unwrap()));
    assert_eq!(batch.choose(), Err(Refusal::NOTHING_TO_START));
}

#[test]
fn results_of_the_kinds() {
    // The worked examples P1 to P6 of docs/RULES.md, and values in places that a kind does not use.
    let examples = [
        (Job::floor(0, 1400), [1399, 7, 8, 9], [1400, 7, 8, 9], 1),
        (Job::floor(0, 1400), [1400, 0, 0, 0], [1400, 0, 0, 0], 0),
        (Job::spike(0, 1, 1399), [2900, 1500, 0, 0], [1500, 1500, 0, 0], 1),
        (Job::spike(0, 1, 1400), [2900, 1500, 0, 0], [2900, 1500, 0, 0], 0),
        (Job::spike(0, 1, i32::MAX), [i32::MAX, i32::MIN, 0, 0], [i32::MIN, i32::MIN, 0, 0], 1),
        (Job::shift(0, 20), [2147483640, 0, 0, 0], [i32::MAX, 0, 0, 0], 0),
        (Job::mean(0, 1, 2), [0, 3, 4, 5], [4, 3, 4, 5], 0),
        (Job::mean(0, 1, 2), [0, -3, -4, 0], [-4, -3, -4, 0], 0),
        (Job::mean(0, 1, 2), [0, -1, 0, 0], [-1, -1, 0, 0], 0),
        (Job::pair(0, 1), [1720, 1480, 0, 0], [1480, 1720, 0, 0], 1),
        (Job::pair(0, 1), [7, 7, 0, 0], [7, 7, 0, 0], 0),
        (Job::set(0, 9), [1500, 0, 0, 0], [9, 0, 0, 0], 0),
    ];
    for (job, handed, values, wrote) in examples {
        assert_eq!(job.result(handed), Ok(Report { values, wrote }), "{job:?}");
    }
    assert_eq!(Job::outside(5, &[(0, Mode::Write)]).result([1, 2, 3, 4]), Err(Refusal::WRONG_KIND));
    assert_eq!(Job::new(7, 0, &[]).result([1, 2, 3, 4]), Err(Refusal::WRONG_KIND));
}

#[test]
fn kinds_have_names() {
    let jobs = [Job::set(0, 1), Job::shift(0, 1), Job::spike(0, 1, 1), Job::floor(0, 1), Job::mean(0, 1, 2), Job::pair(0, 1)];
    let kinds = [Kind::Set, Kind::Shift, Kind::Spike, Kind::Floor, Kind::Mean, Kind::Pair];
    assert_eq!(jobs.map(|job| job.named_kind()), kinds.map(Some));
    let outside = Job::outside(-3, &[(0, Mode::Read)]);
    assert_eq!((outside.named_kind(), outside.parameter), (Some(Kind::Outside), -3));
    assert_eq!(Job::new(7, 0, &[]).named_kind(), None);
    // The engine keeps an outside job's parameter for its worker.
    assert_eq!(sealed(&[0], &[outside]).job(0).unwrap().job, outside);
}

#[test]
fn a_step_by_value_is_the_step_lent() {
    let jobs = [Job::floor(0, 1400), Job::shift(0, 20), Job::outside(0, &[(0, Mode::Read), (1, Mode::MaybeWrite)])];
    let mut lent = sealed(&[1300, 5], &jobs);
    let mut random = Random(1);
    for _ in 0..2000 {
        let (step, job, report) = (random.step(), usize::from(random.below(4)), random.report());
        let before = lent.clone();
        let by_value = lent.stepped(step, job, report);
        match lent.step(step, job, report) {
            Ok(handed) => assert_eq!(by_value, Ok((lent.clone(), handed))),
            Err(refusal) => {
                assert_eq!(by_value, Err(refusal));
                assert_eq!(lent, before, "a refusal changes nothing");
            }
        }
        if lent.finished() {
            lent = sealed(&[1300, 5], &jobs);
        }
    }
}

#[test]
fn refusals_of_the_planner() {
    assert_eq!(Batch::open(&[]), Err(Refusal::CELL_COUNT));
    assert_eq!(Batch::open(&[0; 65]), Err(Refusal::CELL_COUNT));
    let mut batch = Batch::open(&[0; 64]).unwrap();
    assert_eq!(batch.insert(Job::outside(0, &[])), Err(Refusal::ACCESS_COUNT));
    let five = [0, 1, 2, 3, 4].map(|cell| (cell, Mode::Read));
    assert_eq!(batch.insert(Job::outside(0, &five)), Err(Refusal::ACCESS_COUNT));
    assert_eq!(batch.insert(Job::set(64, 1)), Err(Refusal::NO_SUCH_CELL));
    let mut modeless = Job::outside(0, &[(0, Mode::Read)]);
    modeless.accesses[0].mode = 4;
    assert_eq!(batch.insert(modeless), Err(Refusal::NO_SUCH_MODE));
    assert_eq!(batch.insert(Job::new(2, 20, &[(0, Mode::PredictedWrite)])), Err(Refusal::WRONG_KIND));
    assert_eq!(batch.insert(Job::pair(3, 3)), Err(Refusal::CELL_TWICE));
    assert_eq!(batch.insert(Job::new(7, 0, &[(0, Mode::Read)])), Err(Refusal::WRONG_KIND));
    for _ in 0..128 {
        batch.insert(Job::set(63, 1)).unwrap();
    }
    assert_eq!(batch.insert(Job::set(63, 1)), Err(Refusal::TOO_MANY_JOBS));
    assert!(!batch.finished());
    batch.seal(false).unwrap();
    assert_eq!(batch.insert(Job::set(63, 1)), Err(Refusal::TOO_MANY_JOBS));
    assert_eq!(batch.seal(true), Err(Refusal::SEALED));
    assert_eq!(batch.start_speculation(1), Err(Refusal::GUESSING_OFF));
}

#[test]
fn refusals_of_the_host_and_the_reader() {
    let mut batch = Batch::open(&[1300, 5]).unwrap();
    assert_eq!(batch.start_own(0), Err(Refusal::NOT_SEALED));
    assert_eq!(batch.choose(), Err(Refusal::NOT_SEALED));
    batch.insert(Job::floor(0, 1400)).unwrap();
    batch.insert(Job::shift(0, 20)).unwrap();
    batch.seal(true).unwrap();
    assert_eq!(batch.start_own(2), Err(Refusal::NO_SUCH_JOB));
    assert_eq!(batch.start_own(usize::MAX), Err(Refusal::NO_SUCH_JOB));
    assert_eq!(batch.report_own(0, Report::default()), Err(Refusal::WRONG_STATE));
    assert_eq!(batch.start_speculation(0), Err(Refusal::JOB_READY));
    assert_eq!(batch.start_own(1), Err(Refusal::MUST_WAIT));
    batch.start_own(0).unwrap();
    batch.start_speculation(1).unwrap();
    assert_eq!(batch.choose(), Err(Refusal::NOTHING_TO_START));
    assert_eq!(batch.report_own(0, Report { values: [0; 4], wrote: 2 }), Err(Refusal::WRONG_MARK));
    batch.report_own(0, Report::default()).unwrap();
    assert_eq!(batch.start_own(1), Err(Refusal::GUESS_STANDS));
    assert_eq!(batch.cell(2), Err(Refusal::NO_SUCH_CELL));
    assert_eq!(batch.job(2), Err(Refusal::NO_SUCH_JOB));
    assert_eq!(batch.copy_out(&mut [0; 3], 2), Err(Refusal::BUFFER_TOO_SMALL));
    assert_eq!(batch.copy_out(&mut [0; 3], usize::MAX), Err(Refusal::BUFFER_TOO_SMALL));
}

#[test]
fn a_record_is_kept_and_taken_up_again() {
    let forecast = Job::outside(0, &[]).predicting(0, -6);
    let mut batch = sealed(&[1300, -5], &[Job::floor(0, 1400), Job::shift(0, 20), forecast]);
    batch.start_own(0).unwrap();
    batch.start_speculation(1).unwrap();
    let bytes = batch.record().to_bytes();
    let mut again = Batch::from_record(Record::from_bytes(&bytes)).unwrap();
    assert_eq!(again, batch);
    assert_eq!(again.start_speculation(2), Ok([-6, 0, 0, 0]));
    again.report_own(0, Report::default()).unwrap();
    assert_eq!(Batch::from_record(Record::from_bytes(&[0; Record::SIZE])), Err(Refusal::OUT_OF_FORM));
    assert_eq!(Batch::from_record(Record::from_bytes(&[255; Record::SIZE])), Err(Refusal::OUT_OF_FORM));
}

/// The batch with its jobs in states at random, as no list of calls may lead to them, but each number in form (R91).
fn in_any_state(batch: &Batch, random: &mut Random) -> Batch {
    let mut record = *batch.record();
    for job in 0..record.job_count {
        let present = record.jobs[usize::from(job)].accesses.map(|access| record.cells[usize::from(access.cell)]);
        let (place, run) = (usize::from(job), &mut record.runs[usize::from(job)]);
        if random.below(2) == 0 {
            run.handed = present;
        }
        record.committed[place] = [0, 0, 0, 1, 2][usize::from(random.below(5))];
        record.running[place] = random.below(2);
        record.phase[place] = random.below(4);
        run.wrote = random.below(2);
        run.sources = [(); 4].map(|()| random.below(job + 1));
        run.bypassed.low = u64::from(random.below(255)) & ((1 << job) - 1);
    }
    Batch::from_record(record).unwrap()
}

/// What lets `finished` and `cells` have no error: a record in form is in form after every call.
#[test]
fn calls_keep_a_record_in_form() {
    let jobs = [Job::floor(0, 1400), Job::shift(0, 20), Job::spike(1, 0, 9), Job::pair(0, 1), Job::mean(2, 0, 1)];
    let start = sealed(&[1300, 5, 7], &jobs);
    let mut random = Random(1);
    let mut accepted = [0; 5];
    let mut turns = [0; 3];
    for _ in 0..4000 {
        let mut batch = in_any_state(&start, &mut random);
        for _ in 0..8 {
            let (step, job) = (random.step(), usize::from(random.below(5)));
            accepted[step as usize] += batch.step(step, job, random.report()).is_ok() as usize;
            assert!(Batch::from_record(*batch.record()).is_ok(), "after {step:?} of job {job}");
        }
        let (job, report) = (usize::from(random.below(5)), random.report());
        let reports = [None, Some(RunReport::Own(job, report)), Some(RunReport::Speculation(job, report))];
        for (report, turns) in reports.into_iter().zip(&mut turns) {
            *turns += batch.turn(report, usize::from(random.below(3))).is_ok() as usize;
            assert!(Batch::from_record(*batch.record()).is_ok(), "after a turn with {report:?}");
        }
        assert_eq!(batch.cells().len(), 3);
    }
    assert!(accepted.iter().chain(&turns).all(|&times| times > 100), "{accepted:?}, {turns:?}");
}

#[test]
fn a_batch_is_shown_in_a_few_words() {
    let mut batch = sealed(&[1300, -5], &[Job::floor(0, 1400), Job::shift(0, 20), Job::spike(1, 0, 9)]);
    batch.insert(Job::outside(4, &[]).predicting(1, -6)).unwrap();
    batch.start_own(0).unwrap();
    batch.start_speculation(1).unwrap();
    let early = "Batch { cells: [1300, -5], sealed: true, speculating: true, jobs: {\
        0: Floor 1400 MaybeWrite(0): NotYet, running, \
        1: Shift 20 Write(0): NotYet, speculation Out Undecided, \
        2: Spike 9 MaybeWrite(1) Read(0): NotYet, \
        3: Outside 4 PredictedWrite(1, -6): NotYet} }";
    assert_eq!(format!("{batch:?}"), early);
    batch.report_own(0, Report::written(&[1400])).unwrap();
    batch.start_own(1).unwrap();
    let late = "Batch {
    cells: [
        1400,
        -5,
    ],
    sealed: true,
    speculating: true,
    jobs: {
        0: Floor 1400 MaybeWrite(0): ByOwnRun, wrote,
        1: Shift 20 Write(0): NotYet, running, speculation Discarded NoRun,
        2: Spike 9 MaybeWrite(1) Read(0): NotYet,
        3: Outside 4 PredictedWrite(1, -6): NotYet,
    },
}";
    assert_eq!(format!("{batch:#?}"), late);
    batch.start_speculation(3).unwrap();
    assert_eq!(format!("{:?}", batch.choose()), "Err(NOTHING_TO_START (19))");
}

#[test]
fn plans_are_answered() {
    // The stored plans with their answers, each fault among them.
    let folder = concat!(env!("CARGO_MANIFEST_DIR"), "/../../tests/plans");
    let mut tried = 0;
    for entry in std::fs::read_dir(folder).unwrap() {
        let plan = entry.unwrap().path();
        if plan.extension().is_some_and(|extension| extension == "plan") {
            let expected = std::fs::read(plan.with_extension("answer")).unwrap();
            assert!(answer(&std::fs::read(&plan).unwrap()) == expected, "{}", plan.display());
            tried += 1;
        }
    }
    assert!(tried > 20, "only {tried} stored plans");
    assert_eq!(answer(&vec![b' '; 65_537]), b"fault line\n22 0\n");
    assert_eq!(Refusal::from_number(22), Some(Refusal::PLAN_TOO_LONG));
}
