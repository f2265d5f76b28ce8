//! Tallies: five numbers that say what became of guesses, those of one batch (R75)
//! or of many (R76), and which share of them was kept (R77). The counting over jobs
//! is done where the jobs are, in `record` and in `engine`. R numbers are the rules
//! of docs/RULES.md; refusal n is R(100 + n).

/// R76: any five numbers of 32 unsigned bits, whether or not a batch gave them.
#[derive(Clone, Copy, PartialEq, Eq, Debug, Default)]
pub struct Tally {
    pub jobs: u32,
    /// The guesses started, whatever became of them.
    pub started: u32,
    /// Those by which their jobs are settled.
    pub kept: u32,
    pub thrown_away: u32,
    /// Those still out or stored, of jobs that are not settled.
    pub rest: u32,
}

/// R123: the most that each number of a total may be.
const MOST: u128 = 4_294_967_295;

impl Tally {
    /// The five numbers in the order of R75.
    pub fn numbers(&self) -> [u32; 5] {
        [
            self.jobs,
            self.started,
            self.kept,
            self.thrown_away,
            self.rest,
        ]
    }

    /// The tally of five numbers in that order.
    pub fn of_numbers(numbers: [u32; 5]) -> Tally {
        let [jobs, started, kept, thrown_away, rest] = numbers;
        Tally {
            jobs,
            started,
            kept,
            thrown_away,
            rest,
        }
    }

    /// R177: as many are started as are kept, thrown away and the rest together.
    /// The three may come to more than 32 bits say.
    pub fn in_balance(&self) -> bool {
        let became = [self.kept, self.thrown_away, self.rest].map(u128::from);
        u128::from(self.started) == became.iter().sum()
    }

    /// R77: how many thousandths of the guesses started were kept, the next lower
    /// whole number; absent exactly where none was started. Where more are kept
    /// than started it is the same quotient.
    pub fn kept_share(&self) -> Option<u64> {
        if self.started == 0 {
            return None;
        }
        let thousandths = u128::from(self.kept) * 1000 / u128::from(self.started);
        // At most 4,294,967,295,000.
        Some(thousandths as u64)
    }
}

/// R76: the total of a list, each number the sum of those in the list: 0 and the
/// total. R123, R81: or 23 and zeros. Whether a sum is too large is asked only when
/// all is added, so the order of the list plays no part.
pub fn total(list: &[Tally]) -> (u8, Tally) {
    let mut sums = [0u128; 5];
    for tally in list {
        for (sum, number) in sums.iter_mut().zip(tally.numbers()) {
            *sum += u128::from(number);
        }
    }
    if sums.iter().any(|&sum| sum > MOST) {
        return (23, Tally::default());
    }
    (0, Tally::of_numbers(sums.map(|sum| sum as u32)))
}
