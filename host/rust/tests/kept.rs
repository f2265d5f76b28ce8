//! Guesses that are kept for the heights that they were handed (R43 to R45, R115), none lost to that rule (R185), and judgements
//! that stay (R186). Batches are worked by random lists of calls (`second_hand::lists`) in three hands at once, most of them with
//! few heights, so that reports often give what was there, and some with predictions. After every call (with 20 jobs or more
//! after one in twenty) each guess is held against both of the second hand's engines and the ledger (`second_hand::ledger`), and
//! the former rule is worked out beside it (`second_hand::former`), which is meant of guesses handed no prediction. BATCHES=COUNT
//! sets how many lists, SEED=NUMBER which; it prints what was met, and how many guesses the former rule would have kept
//! (`cargo test --test kept -- --nocapture`).

mod hands;
mod met;
mod morning;
mod setting;
#[allow(dead_code)] // Calls that only tests/damaged.rs makes.
mod theirs;

use met::{add, print};
use morning::Morning;
use second_hand::former::{falls, kept_by_each};
use second_hand::judging::{Watch, KEPT_NOW, MET};
use second_hand::lists::{worth_a_look, Call, Manner};
use second_hand::plans::Dice;
use setting::setting;
use sorghemi::Batch;

/// How a guess is judged, by R45's numbers. Each has to come up.
const JUDGED: [&str; 4] = ["none to judge", "not yet to be judged", "stands", "has fallen"];

/// How often guesses were judged so; how often R185 and R186 applied; what was met of guesses; and how many were kept, by the rules and by
/// the former rule: by the same calls, and by the chooser in how many batches.
#[derive(Default)]
struct Met {
    judged: [u64; JUDGED.len()],
    applied: u64,
    stayed: u64,
    guesses: [u64; MET.len()],
    kept: [u64; 2],
    kept_by_chooser: [u64; 2],
    chosen: u64,
}

impl Met {
    /// The guess of each job, as all hands, the wrapper and the ledger judge it, R185, and R186 by what was told at the last look.
    fn judge(&mut self, Morning { hands, ledger }: &Morning, told: &mut Vec<u8>) {
        told.resize(ledger.jobs.len(), 0);
        let batch = Batch::from_record(hands.both.ours).unwrap();
        let falls = falls(&hands.third);
        for (job, due) in ledger.judged().into_iter().enumerate() {
            let validity = hands.both.ask_job(job).validity;
            assert_eq!(validity, due, "R45: job {job} of {ledger:?}");
            assert_eq!(hands.third.ask_guess(job as u32), Ok(due.into()), "R45: job {job} of {ledger:?}");
            assert_eq!(batch.job(job).unwrap().validity as u8, due);
            add(&mut self.judged, [0, 1, 2, 3].map(|number| number == validity));
            let before = std::mem::replace(&mut told[job], validity);
            if before >= 2 {
                assert!(validity == before || validity == 0, "R186: job {job} of {ledger:?}, {before} before");
                self.stayed += 1;
            }
            let line = &ledger.jobs[job];
            let open = line.guess.is_some() && line.counted.is_none() && ledger.is_ready(job);
            if open && !line.job.predicts() && !falls[job].at_all() {
                assert_eq!(validity, 2, "R185: job {job} of {ledger:?}");
                self.applied += 1;
            }
        }
    }

    /// A list of calls, made by the former rule too.
    fn work(&mut self, dice: &mut Dice, manner: &Manner) {
        let mut morning = Morning::open(&manner.heights);
        let mut former = morning.hands.third.clone().under_former_rule();
        let mut watch = Watch::of(&morning.hands.third);
        let mut told = Vec::new();
        for _ in 0..manner.calls() {
            let call = manner.call(dice, morning.record());
            let answer = morning.make(&call);
            call.on_batch(&mut former);
            match call {
                Call::Step { number, job, .. } if answer == 0 => watch.after(&morning.hands.third, number.into(), job),
                _ => {}
            }
            if worth_a_look(dice, morning.record()) {
                self.judge(&morning, &mut told);
            }
        }
        sum(&mut self.guesses, watch.met);
        sum(&mut self.kept, [morning.hands.both.ask_tally().tally.kept, former.tally().kept].map(u64::from));
        if let Some(kept) = kept_by_each(&manner.batch()) {
            sum(&mut self.kept_by_chooser, kept);
            self.chosen += 1;
        }
    }

    fn print(&self) {
        println!("Guesses asked for on the way:");
        print(&JUDGED, &self.judged);
        println!("R185 applied {} times, R186 {} times. Of a guess was met, at most once of each:", self.applied, self.stayed);
        print(&MET, &self.guesses);
        println!("Guesses kept by the rules; by the former rule:");
        let [now, former] = self.kept;
        println!("  by the same calls, which suit the rules as they are: {now}; {former}");
        let [now, former] = self.kept_by_chooser;
        println!("  {} of these batches worked to their end by the chooser: {now}; {former}", self.chosen);
    }
}

fn sum<const COUNT: usize>(sums: &mut [u64; COUNT], more: [u64; COUNT]) {
    sums.iter_mut().zip(more).for_each(|(sum, more)| *sum += more);
}

/// Of eight lists one is any, and one has predictions.
#[test]
fn batches() {
    let (count, seed) = (setting("BATCHES", 800), setting("SEED", 1));
    let mut dice = Dice::new(seed, 185);
    let mut met = Met::default();
    for list in 0..count {
        let manner = match list % 8 {
            0 => Manner::any(&mut dice),
            1 => Manner::predicting(&mut dice),
            _ => Manner::few_heights(&mut dice),
        };
        met.work(&mut dice, &manner);
    }
    println!("{count} batches of seed {seed}: every answer the second hand's twice over, and the ledger's.");
    met.print();
    assert!(met.judged.iter().all(|&times| times > 0), "no guess was judged so: {:?}", met.judged);
    assert!(met.guesses.iter().all(|&times| times > 0), "something never came up: {:?}", met.guesses);
    assert!(met.applied > 0 && met.stayed > 0 && met.guesses[KEPT_NOW].iter().sum::<u64>() > count / 10, "{:?}", met.guesses);
}
