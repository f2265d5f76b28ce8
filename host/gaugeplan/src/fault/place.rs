//! Where in a plan a faulty line stands, by the lines before it, which are sound.

use crate::plan::{GUESS_NAMES, JOB_NAMES};

/// What a line has to be at this place.
#[derive(Clone, Copy, Debug, PartialEq, Eq)]
pub enum Place {
    CellNames,
    /// A cell, and which is due; or the names line of the jobs.
    Cell {
        due: usize,
    },
    /// A job, or the names line of the switch.
    Job,
    Switch,
    StepNames,
    Step,
}

/// The line at fault.
pub struct Faulty<'a> {
    /// Counted from 1.
    pub number: usize,
    /// Without its line feed.
    pub text: &'a [u8],
    /// Whether it has a line feed.
    pub whole: bool,
    pub place: Place,
    /// How many cell lines stand before it.
    pub cells: usize,
}

/// The line with the number.
pub fn find(plan: &[u8], number: usize) -> Faulty<'_> {
    let mut lines = plan.split_inclusive(|&byte| byte == b'\n');
    let mut place = Place::CellNames;
    let mut cells = 0;
    for line in lines.by_ref().take(number.saturating_sub(1)) {
        place = place.after(line.strip_suffix(b"\n").unwrap_or(line));
        if let Place::Cell { due } = place {
            cells = due;
        }
    }
    let line = lines.next().unwrap_or_default();
    let text = line.strip_suffix(b"\n").unwrap_or(line);
    Faulty { number, text, whole: text.len() < line.len(), place, cells }
}

impl Faulty<'_> {
    /// Whether it is no line at all: the plan ended before it.
    pub fn is_end(&self) -> bool {
        self.text.is_empty() && !self.whole
    }
}

impl Place {
    /// The place after a sound line at this one.
    fn after(self, line: &[u8]) -> Place {
        match self {
            Place::CellNames => Place::Cell { due: 0 },
            Place::Cell { .. } if line == JOB_NAMES => Place::Job,
            Place::Cell { due } => Place::Cell { due: due + 1 },
            Place::Job if line == GUESS_NAMES => Place::Switch,
            Place::Job => Place::Job,
            Place::Switch => Place::StepNames,
            Place::StepNames | Place::Step => Place::Step,
        }
    }

    /// How many fields a line of values has here.
    pub fn fields(self) -> usize {
        match self {
            Place::CellNames | Place::StepNames | Place::Cell { .. } | Place::Step => 2,
            Place::Job => 5,
            Place::Switch => 1,
        }
    }

    /// How a line of values is written here.
    pub fn form(self) -> &'static str {
        match self {
            Place::CellNames => "`cell value`",
            Place::Cell { .. } => "the cell's number, one space and its height",
            Place::Job => "kind, parameter and three cells, with `-` for each cell that the kind does not have",
            Place::Switch => "0 or 1, and nothing else",
            Place::StepNames => "`step job`",
            Place::Step => "the step, one space and the job's number",
        }
    }

    /// What may come at this place.
    pub fn expected(self) -> String {
        match self {
            Place::CellNames => "`cell value`, the names line of the cells".to_owned(),
            Place::Cell { due } => format!("cell {due}, or with `kind p a b c`, the names line of the jobs"),
            Place::Job => "a job, or with `guess`, the names line of the guess switch".to_owned(),
            Place::Switch => "the guess switch, 0 or 1".to_owned(),
            Place::StepNames => "`step job`, the names line of the steps, which stands also where there are none".to_owned(),
            Place::Step => "a step".to_owned(),
        }
    }
}
