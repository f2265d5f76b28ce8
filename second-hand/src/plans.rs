//! Random plans, sound ones and damaged ones. They follow from the seed: plan
//! number n of a seed is the same whatever the count.

use crate::engine::{Access, Batch, REPORT_GUESS, REPORT_OWN, SETTLE, START_GUESS, START_OWN};
use crate::kinds;
use crate::plan::{try_step, Step, MOST_BYTES};

/// Plan number `index` of a seed.
pub fn plan(seed: u64, index: u64) -> Vec<u8> {
    any_plan(&mut Dice::new(seed, index))
}

// ---------------------------------------------------------------------------
// Dice

/// A small generator of pseudo-random numbers (the one known as SplitMix64).
pub struct Dice {
    state: u64,
}

impl Dice {
    pub fn new(seed: u64, index: u64) -> Dice {
        let mut dice = Dice { state: seed };
        dice.state = dice.next() ^ index.wrapping_mul(0xD134_2543_DE82_EF95);
        dice
    }

    fn next(&mut self) -> u64 {
        self.state = self.state.wrapping_add(0x9E37_79B9_7F4A_7C15);
        let mut z = self.state;
        z = (z ^ (z >> 30)).wrapping_mul(0xBF58_476D_1CE4_E5B9);
        z = (z ^ (z >> 27)).wrapping_mul(0x94D0_49BB_1331_11EB);
        z ^ (z >> 31)
    }

    /// A number below the limit, which is at least 1.
    pub fn below(&mut self, limit: usize) -> usize {
        (self.next() % limit as u64) as usize
    }

    /// A number from low to high, both included.
    pub fn range(&mut self, low: i64, high: i64) -> i64 {
        low + (self.next() % (high - low + 1) as u64) as i64
    }

    /// A number of 32 unsigned bits: 0, small, about the middle or the end of the
    /// range, or any.
    pub fn number(&mut self) -> u32 {
        let most = i64::from(u32::MAX);
        let number = match self.below(5) {
            0 => 0,
            1 => self.range(0, 300),
            2 => self.range(most / 2 - 2, most / 2 + 3),
            3 => self.range(most - 3, most),
            _ => self.range(0, most),
        };
        number as u32
    }

    /// A height that a careless look may take for this one: it differs in the highest
    /// bit alone, in the sign, in the lowest bit, or by 256.
    pub fn twin(&mut self, one: i32) -> i32 {
        match self.below(4) {
            0 => one ^ i32::MIN,
            1 => one.wrapping_neg(),
            2 => one ^ 1,
            _ => one.wrapping_add(256),
        }
    }

    pub fn percent(&mut self, chance: usize) -> bool {
        self.below(100) < chance
    }

    pub fn pick<T: Copy>(&mut self, list: &[T]) -> T {
        list[self.below(list.len())]
    }

    pub fn shuffle<T>(&mut self, list: &mut [T]) {
        for place in (1..list.len()).rev() {
            let other = self.below(place + 1);
            list.swap(place, other);
        }
    }
}

// ---------------------------------------------------------------------------
// Sound plans

/// A plan before it is written down.
struct Draft {
    heights: Vec<i32>,
    jobs: Vec<(u32, i32, Vec<u32>)>,
    guess: u32,
    steps: Vec<Step>,
}

fn any_plan(dice: &mut Dice) -> Vec<u8> {
    match dice.below(100) {
        0..=64 => write_down(&sound_draft(dice)),
        65 => long_plan(dice),
        66..=81 => refused_plan(dice),
        _ => damaged_plan(dice),
    }
}

fn sound_draft(dice: &mut Dice) -> Draft {
    let (cells, jobs) = match dice.below(100) {
        0..=71 => (dice.range(1, 4), dice.range(2, 8)),
        72..=89 => (dice.range(1, 8), dice.range(5, 20)),
        90..=93 => (dice.range(1, 3), dice.range(20, 60)),
        94..=95 => (dice.range(1, 64), dice.range(0, 2)),
        _ => (64, 128),
    };
    let favour = dice.below(8);
    let heights = heights(dice, cells, favour);
    let jobs = (0..jobs).map(|_| job(dice, &heights, favour)).collect();
    let guess = u32::from(dice.percent(88));
    let mut draft = Draft { heights, jobs, guess, steps: Vec::new() };
    draft.steps = steps(dice, &draft);
    draft
}

/// Heights for so many cells: each by itself, all alike, or alike but for twins.
fn heights(dice: &mut Dice, cells: i64, favour: usize) -> Vec<i32> {
    let wide = dice.percent(25);
    let mut heights: Vec<i32> = (0..cells).map(|_| height(dice, wide)).collect();
    let first = heights[0];
    let alike = if favour == MARKS { 60 } else { 20 };
    if dice.percent(alike) {
        heights.fill(first);
    }
    if dice.percent(20) {
        heights.fill_with(|| if dice.percent(50) { first } else { dice.twin(first) });
    }
    heights
}

/// A height, ordinary or, if it may be wide, near an end of the 32-bit range.
fn height(dice: &mut Dice, wide: bool) -> i32 {
    if !wide {
        return match dice.below(10) {
            0 => dice.range(-9, 9) as i32,
            1 => dice.range(-3000, 3000) as i32,
            _ => dice.range(1300, 3000) as i32,
        };
    }
    match dice.below(5) {
        0 => dice.range(i64::from(i32::MAX) - 9, i64::from(i32::MAX)) as i32,
        1 => dice.range(i64::from(i32::MIN), i64::from(i32::MIN) + 9) as i32,
        2 => dice.next() as u32 as i32,
        3 => dice.range(-3, 3) as i32,
        _ => dice.range(1300, 3000) as i32,
    }
}

/// The favour of jobs that report mark 1 and leave heights as they are, or bring back
/// what was there before.
const MARKS: usize = 7;

fn job(dice: &mut Dice, heights: &[i32], favour: usize) -> (u32, i32, Vec<u32>) {
    // Weights of kinds 1 to 6.
    let weights: [usize; 6] = match favour {
        0 => [1, 1, 1, 1, 1, 1],  // all alike
        1 => [1, 4, 1, 4, 0, 0],  // floors and shifts
        2 => [1, 4, 4, 1, 1, 0],  // spikes and shifts
        3 => [1, 2, 1, 1, 4, 1],  // means, which take from several
        4 => [0, 1, 2, 2, 1, 4],  // maybe-writers
        5 => [3, 4, 1, 1, 3, 0],  // writers
        6 => [4, 3, 1, 3, 1, 0],  // sets, whose runs end alike whatever they are handed
        _ => [1, 2, 4, 0, 1, 3],  // MARKS: spikes below 0 and pairs
    };
    let fitting = |kind: usize| kinds::modes(kind as u32 + 1).map_or(0, <[u32]>::len) <= heights.len();
    let total: usize = (0..6).filter(|&kind| fitting(kind)).map(|kind| weights[kind]).sum();
    let mut left = dice.below(total);
    let mut kind = 1;
    for place in (0..6).filter(|&kind| fitting(kind)) {
        if left < weights[place] {
            kind = place as u32 + 1;
            break;
        }
        left -= weights[place];
    }

    // Full-size batches keep mostly to a few cells, so that jobs conflict.
    let reach = if heights.len() > 8 && dice.percent(70) { 8 } else { heights.len() };
    let mut cells: Vec<u32> = (0..reach as u32).collect();
    dice.shuffle(&mut cells);
    cells.truncate(kinds::modes(kind).map_or(0, <[u32]>::len));

    let at = |place: usize| i64::from(heights[cells[place] as usize]);
    let p = match kind {
        2 => match dice.below(8) {
            0 => i64::from(height(dice, true)),
            1 => 0,
            _ => dice.range(-40, 40),
        },
        // Around the distance of the two heights, so that both marks come up;
        // below 0 the mark is 1 whatever the heights.
        3 => match dice.below(8) {
            0 => i64::from(height(dice, true)),
            1 => dice.range(-2, 0),
            2..=4 if favour == MARKS => dice.range(-2, -1),
            2 | 3 => (at(0) - at(1)).abs() + dice.range(-1, 1),
            _ => dice.range(0, 1600),
        },
        4 => match dice.below(8) {
            0 => i64::from(height(dice, true)),
            1..=3 => at(0) + dice.range(-1, 1),
            _ => at(0) + dice.range(-400, 60),
        },
        1 => match dice.below(4) {
            0 => at(0),
            1 => i64::from(dice.twin(heights[cells[0] as usize])),
            _ => i64::from(height(dice, dice_is_wide(heights))),
        },
        _ => i64::from(height(dice, true)),
    };
    let p = p.clamp(i64::from(i32::MIN), i64::from(i32::MAX)) as i32;
    (kind, p, cells)
}

/// Heights of an ordinary batch stay ordinary.
fn dice_is_wide(heights: &[i32]) -> bool {
    heights.iter().any(|height| height.unsigned_abs() > 1_000_000)
}

fn opened(draft: &Draft) -> Option<Batch> {
    let mut batch = Batch::open(&draft.heights).ok()?;
    for (kind, p, cells) in &draft.jobs {
        let modes = kinds::modes(*kind)?;
        let accesses: Vec<Access> =
            cells.iter().zip(modes).map(|(&cell, &mode)| Access::to(cell, mode)).collect();
        batch.insert(*kind, *p, &accesses).ok()?;
    }
    batch.seal(draft.guess).ok()?;
    Some(batch)
}

/// Steps for a batch, mostly ones that are allowed where they stand.
fn steps(dice: &mut Dice, draft: &Draft) -> Vec<Step> {
    let Some(mut batch) = opened(draft) else { return Vec::new() };
    let jobs = draft.jobs.len();
    let mut steps = Vec::new();
    // How often a step is anything at all, how often a bad job number.
    let wild = dice.pick(&[0, 3, 10, 10, 30]);
    let bad = dice.pick(&[0, 1, 3]);
    // How often a step is one that the rules of guessing refuse.
    let tempting = dice.pick(&[0, 5, 20]);
    // How strongly guessing goes before own runs.
    let eager = dice.pick(&[10, 50, 85, 97]);
    let most = match dice.below(10) {
        0 => dice.below(4 * jobs + 4),
        _ => 8 * jobs + 4,
    };
    let mut after_end = dice.below(4);
    while steps.len() < most {
        let step = if dice.percent(bad) {
            Step { step: dice.below(5) as u32, job: bad_job(dice, jobs) }
        } else if dice.percent(wild) {
            wild_step(dice, jobs)
        } else if dice.percent(tempting) {
            tempting_step(dice, &batch)
        } else {
            match allowed_step(dice, &batch, eager) {
                Some(step) => step,
                None if after_end > 0 => {
                    after_end -= 1;
                    wild_step(dice, jobs)
                }
                None => break,
            }
        };
        try_step(&mut batch, step);
        steps.push(step);
    }
    steps
}

/// Numbers from here on do not fit a byte, and would be cut to lower ones.
const PAST_A_BYTE: u32 = 256;

fn bad_job(dice: &mut Dice, jobs: usize) -> u32 {
    match dice.below(5) {
        0 => jobs as u32 + dice.below(200) as u32,
        1 => i32::MAX as u32,
        2 => PAST_A_BYTE + dice.below(jobs.max(1)) as u32,
        _ => jobs as u32,
    }
}

fn wild_step(dice: &mut Dice, jobs: usize) -> Step {
    Step { step: dice.below(5) as u32, job: dice.below(jobs.max(1)) as u32 }
}

/// A step that is refused for a rare reason, if a few throws find one.
fn tempting_step(dice: &mut Dice, batch: &Batch) -> Step {
    let jobs = batch.job_count() as usize;
    let mut best = wild_step(dice, jobs);
    let mut best_rank = 0;
    for _ in 0..16 {
        let step = dice.pick(&[START_OWN, START_GUESS, SETTLE]);
        let job = dice.below(jobs.max(1)) as u32;
        let rank = match batch.would_answer(step, job) {
            Some(18) => 5,
            Some(17) => 4,
            Some(14) => 2,
            Some(15) => 1 + dice.below(3),
            _ => 0,
        };
        if rank > best_rank {
            best = Step { step, job };
            best_rank = rank;
        }
    }
    best
}

/// Some step that the batch would accept now, if there is one.
fn allowed_step(dice: &mut Dice, batch: &Batch, eager: usize) -> Option<Step> {
    let mut order = [START_OWN, START_GUESS, REPORT_OWN, REPORT_GUESS, SETTLE];
    dice.shuffle(&mut order);
    if dice.percent(eager) {
        // Guesses first, and their reports; own reports and settling last.
        order.sort_by_key(|&step| step != START_GUESS && step != REPORT_GUESS);
    }
    let jobs = batch.job_count();
    if jobs == 0 {
        return None;
    }
    for step in order {
        let first = if dice.percent(50) { 0 } else { dice.below(jobs as usize) as u32 };
        for offset in 0..jobs {
            let job = (first + offset) % jobs;
            if batch.would_answer(step, job) == Some(0) {
                return Some(Step { step, job });
            }
        }
    }
    None
}

fn lines_of(draft: &Draft) -> Vec<Vec<u8>> {
    let mut lines = vec!["cell value".to_string()];
    for (cell, height) in draft.heights.iter().enumerate() {
        lines.push(format!("{cell} {height}"));
    }
    lines.push("kind p a b c".to_string());
    for (kind, p, cells) in &draft.jobs {
        let mut line = format!("{kind} {p}");
        for place in 0..3 {
            match cells.get(place) {
                Some(cell) => line += &format!(" {cell}"),
                None => line += " -",
            }
        }
        lines.push(line);
    }
    lines.push("guess".to_string());
    lines.push(draft.guess.to_string());
    lines.push("step job".to_string());
    for step in &draft.steps {
        lines.push(format!("{} {}", step.step, step.job));
    }
    lines.into_iter().map(String::into_bytes).collect()
}

fn join(lines: &[Vec<u8>]) -> Vec<u8> {
    let mut bytes = Vec::new();
    for line in lines {
        bytes.extend_from_slice(line);
        bytes.push(b'\n');
    }
    bytes
}

fn write_down(draft: &Draft) -> Vec<u8> {
    join(&lines_of(draft))
}

/// A plan of about 65,536 bytes: just that many, one more, one less, far more.
fn long_plan(dice: &mut Dice) -> Vec<u8> {
    let mut bytes = write_down(&sound_draft(dice));
    let aim = match dice.below(4) {
        0 => MOST_BYTES,
        1 => MOST_BYTES + 1,
        2 => MOST_BYTES - 1,
        _ => MOST_BYTES + dice.below(2000),
    };
    while bytes.len() + 8 <= aim {
        let step = dice.below(5);
        bytes.extend_from_slice(format!("{step} {}\n", dice.below(10)).as_bytes());
    }
    // 4 to 7 bytes are left, which one more step line fills.
    let left = aim - bytes.len();
    if left >= 4 {
        let digits: String = "1234".chars().take(left - 3).collect();
        bytes.extend_from_slice(format!("{} {digits}\n", dice.below(5)).as_bytes());
    }
    bytes
}

// ---------------------------------------------------------------------------
// Plans at fault with a number of the engine, often with a second fault near

fn refused_plan(dice: &mut Dice) -> Vec<u8> {
    let mut draft = sound_draft(dice);
    let cells = draft.heights.len() as u32;
    let some_kind = dice.range(1, 6) as u32;
    let out = match dice.below(5) {
        0 | 1 => PAST_A_BYTE + dice.below(cells as usize) as u32,
        _ => cells + dice.pick(&[0, 0, 1, 1000]),
    };
    match dice.below(9) {
        0 => draft.heights.clear(),
        1 => {
            let wanted = dice.range(65, 70) as usize;
            draft.heights.resize(wanted, 1500);
        }
        2 => {
            let wanted = dice.range(127, 131) as usize;
            draft.jobs.resize(wanted, (4, 1400, vec![0]));
            if dice.percent(40) {
                // Another fault on the line of job 128, or on one before it.
                let place = dice.pick(&[126, 127, 128]).min(draft.jobs.len() - 1);
                draft.jobs[place] = dice_job(dice, cells, out);
            }
        }
        3 => insert_job(dice, &mut draft, (some_kind, 7, vec![])),
        4 => {
            let cells = vec![out];
            insert_job(dice, &mut draft, (some_kind, 7, cells));
        }
        5 => insert_job(dice, &mut draft, (some_kind, 7, vec![0, 0])),
        6 if dice.percent(40) => {
            let count = kinds::modes(some_kind).map_or(0, <[u32]>::len) as u32;
            insert_job(dice, &mut draft, (PAST_A_BYTE + some_kind, 7, (0..count).collect()));
        }
        6 => {
            let kind = dice.pick(&[7, 8, 100, i32::MAX as u32]);
            insert_job(dice, &mut draft, (kind, 7, vec![0]));
        }
        // 256 and 257 would be cut to 0 and 1.
        7 if dice.percent(50) => draft.guess = PAST_A_BYTE + dice.below(2) as u32,
        7 => draft.guess = dice.pick(&[2, 3, 10, i32::MAX as u32]),
        _ => {
            let job = dice_job(dice, cells, out);
            insert_job(dice, &mut draft, job);
        }
    }
    let mut lines = lines_of(&draft);
    if dice.percent(25) {
        damage_line(dice, &mut lines);
    }
    join(&lines)
}

fn insert_job(dice: &mut Dice, draft: &mut Draft, job: (u32, i32, Vec<u32>)) {
    let place = dice.below(draft.jobs.len() + 1);
    draft.jobs.insert(place, job);
}

/// A job of any kind, even none, with any number of cells, sound or not.
fn dice_job(dice: &mut Dice, cells: u32, out: u32) -> (u32, i32, Vec<u32>) {
    let count = dice.below(4);
    let list = (0..count)
        .map(|_| if dice.percent(15) { out } else { dice.below(cells.max(1) as usize) as u32 })
        .collect();
    (dice.range(0, 8) as u32, dice.range(-5, 5) as i32, list)
}

// ---------------------------------------------------------------------------
// Damaged plans

fn damaged_plan(dice: &mut Dice) -> Vec<u8> {
    let draft = sound_draft(dice);
    let mut lines = lines_of(&draft);
    if dice.percent(55) {
        damage_line(dice, &mut lines);
        if dice.percent(15) {
            damage_line(dice, &mut lines);
        }
        return join(&lines);
    }
    let mut bytes = join(&lines);
    damage_bytes(dice, &mut bytes);
    if dice.percent(15) {
        damage_bytes(dice, &mut bytes);
    }
    bytes
}

/// A byte that is likely to matter in a plan.
fn odd_byte(dice: &mut Dice) -> u8 {
    match dice.below(4) {
        0 => dice.next() as u8,
        1 => dice.pick(&[0, 255, b'\r', b'\t', b'+', b'.', 0x80]),
        _ => dice.pick(b"0123456789- \n"),
    }
}

fn damage_bytes(dice: &mut Dice, bytes: &mut Vec<u8>) {
    let place = dice.below(bytes.len() + 1);
    let inside = place.min(bytes.len().max(1) - 1);
    let byte = odd_byte(dice);
    match dice.below(9) {
        _ if bytes.is_empty() => bytes.push(byte),
        0 | 1 => bytes[inside] = byte,
        2 => {
            bytes.remove(inside);
        }
        3 | 4 => bytes.insert(place, byte),
        5 => bytes.truncate(place),
        // Without the last line feed.
        6 => {
            bytes.pop();
        }
        // A blank line or a space at the end.
        7 => bytes.push(dice.pick(b"\n\n\n \r\0")),
        _ => {
            if dice.percent(20) {
                bytes.clear();
            } else {
                // Truncated after some line.
                while !bytes.is_empty() && (bytes.len() > place || bytes.last() != Some(&b'\n')) {
                    bytes.pop();
                }
            }
        }
    }
}

/// The numbers that a field may be changed to.
const ODD_FIELDS: [&str; 36] = [
    "-0", "00", "01", "007", "-01", "+1", "-1", "-", "--1", "", "x", "0x1", "1e3", "1.0", "1_000",
    "2147483647", "2147483648", "-2147483648", "-2147483649", "4294967295", "4294967296",
    "4294967297", "9999999999", "10000000000", "18446744073709551616",
    "340282366920938463463374607431768211457", "99999999999999999999999999999999999999999", "0",
    "1", "2", "5", "6", "7", "64", "128", "00000000000000000000000000000000000000000000000001",
];

const NAME_LINES: [&str; 12] = [
    "cell value", "kind p a b c", "guess", "step job", "Cell value", "cell  value", "kind p a b",
    "kind p a b c d", "guess ", " guess", "step jobs", "step answer",
];

fn damage_line(dice: &mut Dice, lines: &mut Vec<Vec<u8>>) {
    // Names lines are few, so they are sought out now and then.
    let is_name = |line: &Vec<u8>| line.first().is_some_and(u8::is_ascii_alphabetic);
    let names: Vec<usize> = (0..lines.len()).filter(|&at| is_name(&lines[at])).collect();
    let near_name = dice.percent(30) && !names.is_empty();
    // So are job lines, which have the most ways to go wrong.
    let is_job = |line: &Vec<u8>| line.iter().filter(|&&byte| byte == b' ').count() == 4;
    let jobs: Vec<usize> = (0..lines.len()).filter(|&at| is_job(&lines[at])).collect();
    let near_job = dice.percent(30) && !jobs.is_empty();
    let place = if near_name {
        dice.pick(&names)
    } else if near_job {
        dice.pick(&jobs)
    } else {
        dice.below(lines.len())
    };
    match dice.below(16) {
        0 => {
            lines.remove(place);
        }
        1 => lines.insert(place, lines[place].clone()),
        2 => lines.insert(place, Vec::new()),
        3 => {
            let other = dice.below(lines.len());
            lines.swap(place, other);
        }
        4 => lines[place] = dice.pick(&NAME_LINES).as_bytes().to_vec(),
        5 => lines.insert(place, dice.pick(&NAME_LINES).as_bytes().to_vec()),
        6 => lines[place].push(dice.pick(b"\r \t\0\xFF")),
        7 => lines[place].insert(0, dice.pick(b" \t0+-\xEF")),
        8 => lines.truncate(place),
        _ => {
            // One field is changed, doubled, dropped or moved.
            let line = lines[place].clone();
            let mut fields: Vec<Vec<u8>> =
                line.split(|&byte| byte == b' ').map(<[u8]>::to_vec).collect();
            let field = dice.below(fields.len());
            match dice.below(13) {
                0 => {
                    fields.remove(field);
                }
                10 => {
                    let last = fields.len() - 1;
                    fields.swap(field, last);
                }
                11 => fields[field] = b"-0".to_vec(),
                12 => fields[field] = b"0".to_vec(),
                1 => fields.insert(field, fields[field].clone()),
                2 => fields[field].insert(0, b'0'),
                3 => fields[field].insert(0, b'-'),
                4 => fields[field].push(b'0'),
                _ => fields[field] = dice.pick(&ODD_FIELDS).as_bytes().to_vec(),
            }
            lines[place] = fields.join(&b' ');
        }
    }
    if lines.is_empty() {
        lines.push(Vec::new());
    }
}
