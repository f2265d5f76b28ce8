//! Refusals: each one's number, name and words, in one table. Refusal n is rule R(100 + n) of docs/RULES.md.

use std::fmt;

/// Why a call was refused (R101 to R132). A refused call changes nothing.
///
/// Each refusal has a constant, which can stand in a pattern:
///
/// ```
/// # use sorghemi::{Batch, Job, Refusal};
/// # let mut batch = Batch::open(&[1500]).unwrap();
/// # batch.insert(Job::set(0, 1400)).unwrap();
/// # batch.seal(true).unwrap();
/// # batch.start_own(0).unwrap();
/// match batch.choose() {
///     Ok(choice) => println!("a worker can take job {}", choice.job),
///     Err(Refusal::NOTHING_TO_START) => println!("wait for a report"),
///     Err(refusal) => panic!("{refusal}"),
/// }
/// ```
#[derive(Clone, Copy, PartialEq, Eq, Hash)]
pub struct Refusal(u8);

macro_rules! refusals {
    ($($number:literal $name:ident $words:literal)*) => {
        impl Refusal {
            $(
                #[doc = concat!("Refused with ", $number, ": ", $words, ".")]
                pub const $name: Refusal = Refusal($number);
            )*

            /// All refusals, in the order of their numbers.
            pub const ALL: &'static [Refusal] = &[$(Refusal::$name),*];

            /// Name and words.
            const fn entry(self) -> Option<(&'static str, &'static str)> {
                match self.0 {
                    $($number => Some((stringify!($name), $words)),)*
                    _ => None,
                }
            }
        }
    };
}

// The header for C and host/README.md have the same table (tests/names.rs).
refusals! {
    1 CELL_COUNT "a batch has 1 to 64 cells"
    2 SEALED "the batch is sealed already"
    3 TOO_MANY_JOBS "128 jobs are held already"
    4 ACCESS_COUNT "a job has 1 to 4 accesses"
    5 NO_SUCH_CELL "there is no such cell"
    6 NO_SUCH_MODE "a mode is 0 (read), 1 (write), 2 (maybe-write) or 3 (predicted write)"
    7 CELL_TWICE "a cell stands twice in the job"
    8 WRONG_KIND "there is no such kind, its modes are others, or it has no result built in"
    9 WRONG_SWITCH "the guess switch is 0 or 1"
    10 NOT_SEALED "the batch is not sealed yet"
    11 NO_SUCH_JOB "there is no such job"
    12 GUESSING_OFF "guessing is off"
    13 WRONG_STATE "the job is not in the state for this step"
    14 JOB_READY "the job is ready: it needs no guess"
    15 MUST_WAIT "an earlier job that this one waits for is not settled, or has no stored report to take a value from"
    16 WRONG_MARK "a mark is 0 or 1, and 1 only from a job that maybe-writes"
    17 GUESS_STANDS "the job's guess stands: report or settle it"
    18 GUESS_FALLEN "the guess has fallen"
    19 NOTHING_TO_START "no step 4, 0 or 1 is allowed now"
    20 BUFFER_TOO_SMALL "the buffer has fewer places left than there are cells, or than a plan's answer may take"
    21 NO_SUCH_STEP "a step's number is 0 to 4, a turn's report has 2 or 3; of a plan: the line is not in form, or the plan ends too soon"
    22 PLAN_TOO_LONG "a plan has at most 65,536 bytes"
    23 TOTAL_TOO_LARGE "a total of the tallies would be more than 4,294,967,295"
    32 OUT_OF_FORM "the record is out of form, or made for a library with another layout"
}

impl Refusal {
    /// What an answer's number says: 0 is no refusal.
    pub(crate) fn check(number: u8) -> Result<(), Refusal> {
        match number {
            0 => Ok(()),
            _ => Err(Refusal(number)),
        }
    }

    /// The refusal with the number, if there is one. The fault of a plan has such a number too ([`answer`](crate::answer)).
    pub fn from_number(number: u8) -> Option<Refusal> {
        Refusal(number).entry().map(|_| Refusal(number))
    }

    /// The number.
    pub const fn number(self) -> u8 {
        self.0
    }

    /// The name of its constant.
    pub fn name(self) -> &'static str {
        self.entry().map_or("UNKNOWN", |(name, _)| name)
    }

    /// What the number means, in words.
    pub fn meaning(self) -> &'static str {
        self.entry().map_or("a number that this version does not know", |(_, words)| words)
    }
}

impl fmt::Display for Refusal {
    fn fmt(&self, f: &mut fmt::Formatter) -> fmt::Result {
        write!(f, "refused with {}: {}", self.0, self.meaning())
    }
}

impl fmt::Debug for Refusal {
    fn fmt(&self, f: &mut fmt::Formatter) -> fmt::Result {
        write!(f, "{} ({})", self.name(), self.0)
    }
}

impl std::error::Error for Refusal {}

/// The job for which a list of jobs was refused. None of them is then inserted.
#[derive(Clone, Copy, Debug, PartialEq, Eq)]
pub struct RefusedJob {
    /// Its place in the list, 0 for the first.
    pub at: usize,
    /// Why it is refused.
    pub refusal: Refusal,
}

impl fmt::Display for RefusedJob {
    fn fmt(&self, f: &mut fmt::Formatter) -> fmt::Result {
        write!(f, "job {} of the list: {}", self.at, self.refusal)
    }
}

impl std::error::Error for RefusedJob {}

impl From<RefusedJob> for Refusal {
    fn from(refused: RefusedJob) -> Refusal {
        refused.refusal
    }
}

#[cfg(test)]
mod tests {
    use super::*;

    #[test]
    fn every_number_of_the_rules_is_in_the_table() {
        let rules = include_str!("../../../docs/RULES.md");
        let unknown = Refusal(0).meaning();
        for number in 0..=155 {
            let is_rule = number > 0 && rules.contains(&format!("- **R{}** {number}, ", 100 + u16::from(number)));
            assert_eq!(Refusal::ALL.contains(&Refusal(number)), is_rule, "{number}");
            assert_eq!(Refusal::from_number(number).is_some(), is_rule, "{number}");
            assert_eq!(Refusal(number).meaning() != unknown, is_rule, "{number}");
        }
        assert_eq!(Refusal::ALL.len(), 24);
        assert!(include_str!("../../c/sorghemi.h").contains(unknown));
    }
}
