//! `coverage`: reads a stream of plans and prints in how many of them each
//! thing of interest happened, and how many guesses were kept.

use std::collections::{BTreeMap, BTreeSet};
use std::io::BufReader;

use second_hand::engine::{Batch, GuessState, Settled, REPORT_GUESS, REPORT_OWN, SETTLE};
use second_hand::former::{kept_by_each, MOST_WORKED_OUT};
use second_hand::judging::{Watch, MET};
use second_hand::{frame, plan};

fn main() -> std::io::Result<()> {
    let mut input = BufReader::new(std::io::stdin().lock());
    let mut coverage = Coverage::default();
    while let Some(bytes) = frame::read(&mut input)? {
        coverage.plans += 1;
        match plan::read(&bytes) {
            Err(fault) => coverage.faulty(&bytes, fault),
            Ok(plan) => coverage.sound(plan),
        }
    }
    coverage.print();
    Ok(())
}

/// In how many plans each happened, by name or number; and of all plans together the
/// steps, and the guesses kept by the rules and by the former rule.
#[derive(Default)]
struct Coverage {
    plans: u64,
    sound: u64,
    steps: u64,
    accepted: u64,
    seen: BTreeMap<&'static str, u64>,
    answers: BTreeMap<u32, u64>,
    faults: BTreeMap<u32, u64>,
    cut: BTreeMap<u32, u64>,
    switches: BTreeMap<u32, u64>,
    /// By the plans' own steps.
    kept: [u64; 2],
    /// By the chooser's order, with how many batches.
    kept_by_chooser: [u64; 2],
    chosen: u64,
}

impl Coverage {
    fn faulty(&mut self, bytes: &[u8], fault: plan::Fault) {
        *self.faults.entry(fault.number).or_default() += 1;
        *self.cut.entry(fault.number).or_default() += u64::from(sound_if_cut(bytes, fault));
        if let Some(switch) = faulty_switch(bytes, fault) {
            *self.switches.entry(switch).or_default() += 1;
        }
    }

    fn sound(&mut self, plan: plan::Plan) {
        self.sound += 1;
        self.count_kept(&plan);
        let mut batch = plan.batch;
        let mut watch = Watch::of(&batch);
        let (mut numbers, mut names) = (BTreeSet::new(), BTreeSet::new());
        for step in plan.steps {
            let answer = try_step(&mut batch, step, &mut names);
            if answer == 0 {
                watch.after(&batch, step.step, step.job as usize);
            }
            self.steps += 1;
            self.accepted += u64::from(answer == 0);
            numbers.insert(answer);
        }
        names.extend(things_seen(&batch));
        let met = MET.iter().zip(watch.met);
        names.extend(met.filter(|&(_, times)| times > 0).map(|(name, _)| *name));
        for number in numbers {
            *self.answers.entry(number).or_default() += 1;
        }
        for name in names {
            *self.seen.entry(name).or_default() += 1;
        }
    }

    /// The guesses kept when the plan is run, and when its batch is worked to the end.
    fn count_kept(&mut self, plan: &plan::Plan) {
        let mut former = plan.clone();
        former.batch = former.batch.under_former_rule();
        for (sum, plan) in self.kept.iter_mut().zip([plan.clone(), former]) {
            *sum += u64::from(plan::run(plan).batch.tally().kept);
        }
        if let Some(kept) = kept_by_each(&plan.batch) {
            self.chosen += 1;
            self.kept_by_chooser.iter_mut().zip(kept).for_each(|(sum, kept)| *sum += kept);
        }
    }
}

/// Tries the step, and adds what is seen of it.
fn try_step(batch: &mut Batch, step: plan::Step, names: &mut BTreeSet<&'static str>) -> u32 {
    let before = cells_and_mark(batch, step.job);
    let halved = sum_to_halve(batch, step);
    let answer = plan::try_step(batch, step);
    let after = cells_and_mark(batch, step.job);
    let fallen = batch.ask_guess(step.job) == Ok(3);
    let there = step.job % PAST_A_BYTE < batch.job_count();
    for (did, name) in [
        (before.1 == 0 && after.1 == 1 && before.0 == after.0, NAMES[10]),
        (answer == 0 && step.step == REPORT_GUESS && fallen, NAMES[11]),
        (step.job >= PAST_A_BYTE && there, NAMES[12]),
    ] {
        if did {
            names.insert(name);
        }
    }
    if let Some(sum) = halved.filter(|_| answer == 0) {
        names.extend(means_seen(sum));
    }
    answer
}

// ---------------------------------------------------------------------------
// What is printed

impl Coverage {
    fn print(&self) {
        let Coverage { plans, sound, steps, accepted, .. } = self;
        println!("plans {plans}, without fault {sound}, steps {steps}, accepted steps {accepted}");
        println!("plans in which this happened at least once:");
        print_each(NAMES.iter().map(|&name| (name, name)), &self.seen);
        println!("plans in which a guess was judged so:");
        print_each(MET.iter().map(|&name| (name, name)), &self.seen);
        self.print_kept();
        println!("plans in which a step was answered:");
        print_each(std::iter::once(0).chain(10..=18).map(|n| (n, n)), &self.answers);
        println!("plans at fault with:");
        print_each([1, 2, 3, 4, 5, 6, 7, 8, 9, 21, 22].map(|n| (n, n)), &self.faults);
        let from_256: u64 = self.switches.range(PAST_A_BYTE..).map(|(_, times)| times).sum();
        println!("plans at fault with a switch of 256 or more: {from_256}");
        print_each([256, 257].map(|n| (n, n)), &self.switches);
        println!("plans at fault on a line that would be right if its numbers were cut to bytes:");
        print_each([(5, "5, cell"), (8, "8, kind"), (9, "9, switch")], &self.cut);
    }

    fn print_kept(&self) {
        println!("guesses kept by the rules; by the former rule:");
        let [now, former] = self.kept;
        println!("  by the plans' own steps, which suit the rules as they are: {now}; {former}");
        let [now, former] = self.kept_by_chooser;
        println!(
            "  by the chooser, in {} batches of at most {MOST_WORKED_OUT} jobs: {now}; {former}",
            self.chosen
        );
    }
}

/// Of each key how often it was counted.
fn print_each<K: Ord, N: std::fmt::Display>(
    lines: impl IntoIterator<Item = (K, N)>,
    counts: &BTreeMap<K, u64>,
) {
    for (key, name) in lines {
        println!("  {name}: {}", counts.get(&key).copied().unwrap_or(0));
    }
}

/// Numbers from here on do not fit a byte.
const PAST_A_BYTE: u32 = 256;

/// The fields of the faulty line, with its place among the lines.
fn faulty_line(bytes: &[u8], fault: plan::Fault) -> Option<(usize, Vec<String>)> {
    let place = fault.line.checked_sub(1)?;
    let line = bytes.split(|&byte| byte == b'\n').nth(place)?;
    let line = std::str::from_utf8(line).ok()?;
    Some((place, line.split(' ').map(str::to_string).collect()))
}

/// The switch of a plan at fault with 9.
fn faulty_switch(bytes: &[u8], fault: plan::Fault) -> Option<u32> {
    let (_, fields) = faulty_line(bytes, fault).filter(|_| fault.number == 9)?;
    fields[0].parse().ok()
}

/// Whether a plan at fault with 5, 8 or 9 would have no fault on that line if the
/// numbers on it, but for p, were cut to bytes.
fn sound_if_cut(bytes: &[u8], fault: plan::Fault) -> bool {
    let Some((place, mut fields)) = faulty_line(bytes, fault) else { return false };
    if ![5, 8, 9].contains(&fault.number) {
        return false;
    }
    for (at, field) in fields.iter_mut().enumerate() {
        match field.parse::<u32>() {
            Ok(number) if at != 1 => *field = (number % PAST_A_BYTE).to_string(),
            _ => {}
        }
    }
    let mut lines: Vec<&[u8]> = bytes.split(|&byte| byte == b'\n').collect();
    let cut = fields.join(" ");
    lines[place] = cut.as_bytes();
    match plan::read(&lines.join(&b'\n')) {
        Ok(_) => true,
        Err(other) => other.line > fault.line,
    }
}

const NAMES: [&str; 18] = [
    "every job settled",
    "guess kept",
    "guess kept with mark 1",
    "guess thrown away",
    "guess on a guess",
    "guess on a guess on a guess",
    "guess on a guess kept",
    "guess on a guess thrown away",
    "guess that looked past two jobs or more",
    "guess that took from two guesses or more",
    "job settled with mark 1 and no height changed",
    "report of a guess that had already fallen",
    "step on a job number of 256 or more that would be a job's if it were cut to a byte",
    "mean settled",
    "mean settled with a half above zero",
    "mean settled with a half below zero",
    "mean settled with a sum of 1",
    "mean settled with a sum of -1",
];

/// R16: the sum that is halved, where the step, if it is accepted, settles a mean.
fn sum_to_halve(batch: &Batch, step: plan::Step) -> Option<i64> {
    let handed = match step.step {
        REPORT_OWN => batch.own_handed(step.job)?,
        SETTLE => batch.guess_handed(step.job)?,
        _ => return None,
    };
    let is_mean = batch.job(step.job)?.kind == 5;
    is_mean.then(|| i64::from(handed[1]) + i64::from(handed[2]))
}

fn means_seen(sum: i64) -> impl Iterator<Item = &'static str> {
    let odd = sum % 2 != 0;
    let happened = [
        (true, NAMES[13]),
        (odd && sum > 0, NAMES[14]),
        (odd && sum < 0, NAMES[15]),
        (sum == 1, NAMES[16]),
        (sum == -1, NAMES[17]),
    ];
    happened.into_iter().filter(|&(did, _)| did).map(|(_, name)| name)
}

fn cells_and_mark(batch: &Batch, job: u32) -> (Vec<i32>, u32) {
    (batch.cells(), batch.ask_job(job).map_or(0, |how| how.mark()))
}

fn things_seen(batch: &Batch) -> BTreeSet<&'static str> {
    let mut seen = BTreeSet::new();
    if batch.finished() {
        seen.insert(NAMES[0]);
    }
    // How many guesses deep each job's guess is built.
    let mut depths: Vec<u32> = Vec::new();
    for job in 0..batch.job_count() {
        let Some(guess) = batch.guess(job) else {
            depths.push(0);
            continue;
        };
        let below = guess.taken_from.iter().map(|&k| depths[k]).max().unwrap_or(0);
        depths.push(below + 1);
        let kept = guess.state == GuessState::Kept;
        let thrown = guess.state == GuessState::ThrownAway;
        let marked = batch.ask_job(job) == Ok(Settled::ByGuess { mark: 1 });
        let happened = [
            (kept, NAMES[1]),
            (marked, NAMES[2]),
            (thrown, NAMES[3]),
            (below >= 1, NAMES[4]),
            (below >= 2, NAMES[5]),
            (below >= 1 && kept, NAMES[6]),
            (below >= 1 && thrown, NAMES[7]),
            (guess.looked_past.len() >= 2, NAMES[8]),
            (guess.taken_from.len() >= 2, NAMES[9]),
        ];
        for (did, name) in happened {
            if did {
                seen.insert(name);
            }
        }
    }
    seen
}
