//! Names for the numbers that the rules give: modes, kinds, steps, and the states that a job can be in.

/// An enum of named numbers, with the way from a name to its number and back.
macro_rules! named_numbers {
    ($(#[$of_all:meta])* $name:ident { $($(#[$of_one:meta])* $one:ident = $number:literal,)* }) => {
        $(#[$of_all])*
        #[derive(Clone, Copy, Debug, PartialEq, Eq, Hash)]
        pub enum $name {
            $($(#[$of_one])* $one = $number,)*
        }

        impl $name {
            /// Its number in the rules.
            pub const fn number(self) -> u8 {
                self as u8
            }

            /// What has the number, if anything has.
            pub const fn from_number(number: u8) -> Option<$name> {
                match number {
                    $($number => Some($name::$one),)*
                    _ => None,
                }
            }
        }
    };
}

named_numbers! {
    /// What a job may do with a cell (R3).
    Mode {
        /// It reads the cell.
        Read = 0,
        /// It writes the cell, and may use the old value.
        Write = 1,
        /// It writes the cell if its report says so.
        MaybeWrite = 2,
        /// It writes the cell, and predicts what it will find there ([`Job::predicting`](crate::Job::predicting)).
        PredictedWrite = 3,
    }
}

named_numbers! {
    /// The kinds of jobs (R11 to R17). [`Job`](crate::Job) has a function for each, which says what it does.
    Kind {
        /// Its result is the worker's own.
        Outside = 0,
        /// A cell becomes a height.
        Set = 1,
        /// A cell grows by a distance.
        Shift = 2,
        /// A cell too far from its neighbour becomes the neighbour's height.
        Spike = 3,
        /// A cell below a height becomes that height.
        Floor = 4,
        /// A cell becomes the mean of two others.
        Mean = 5,
        /// Two cells that stand in the wrong order are exchanged.
        Pair = 6,
    }
}

named_numbers! {
    /// The five steps (R51 to R55).
    Step {
        /// Start the job's own run.
        StartOwn = 0,
        /// Start its speculative run, a guess.
        StartSpeculation = 1,
        /// Report on its own run.
        ReportOwn = 2,
        /// Report on its guess.
        ReportSpeculation = 3,
        /// Settle the job by its guess.
        Commit = 4,
    }
}

named_numbers! {
    /// How a job is committed: in the rules' word, settled (R72).
    Committed {
        /// It is not settled.
        NotYet = 0,
        /// Settled by its own run.
        ByOwnRun = 1,
        /// Settled by its guess.
        BySpeculation = 2,
    }
}

impl Committed {
    /// Whether the job is settled, in either way.
    pub const fn is_settled(self) -> bool {
        !matches!(self, Committed::NotYet)
    }
}

named_numbers! {
    /// The state of a job's speculative run, its guess (R40).
    Phase {
        /// No guess was ever started.
        NeverStarted = 0,
        /// A worker has it: it is started and not reported.
        Out = 1,
        /// Its report is stored.
        Stored = 2,
        /// It is thrown away: the job's own run took its place.
        Discarded = 3,
    }
}

named_numbers! {
    /// How a job's guess is judged (R45). A judgement stays (R186): what is [`Invalid`](Validity::Invalid) is so until it is
    /// thrown away, and what is [`Valid`](Validity::Valid) until it is settled.
    Validity {
        /// There is no guess to judge: none is out or stored, or the job is settled.
        NoRun = 0,
        /// It is not yet to be judged: an earlier job that its own waits for is not settled.
        Undecided = 1,
        /// It stands: it was handed the heights that its cells hold, and with its report it can be settled.
        Valid = 2,
        /// It has fallen: it was handed another height. It will never be settled, and its worker can give it up.
        Invalid = 3,
    }
}

#[cfg(test)]
mod tests {
    use super::*;

    #[test]
    fn numbers_and_names_are_one_to_one() {
        for number in 0..=255 {
            assert_eq!(Mode::from_number(number).map(Mode::number), (number < 4).then_some(number));
            assert_eq!(Kind::from_number(number).map(Kind::number), (number < 7).then_some(number));
            assert_eq!(Step::from_number(number).map(Step::number), (number < 5).then_some(number));
            assert_eq!(Committed::from_number(number).map(Committed::number), (number < 3).then_some(number));
            assert_eq!(Phase::from_number(number).map(Phase::number), (number < 4).then_some(number));
            assert_eq!(Validity::from_number(number).map(Validity::number), (number < 4).then_some(number));
        }
        assert_eq!([0, 1, 2].map(|n| Committed::from_number(n).unwrap().is_settled()), [false, true, true]);
    }
}
