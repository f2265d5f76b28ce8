//! Lines in the place of a names line, or that want to be one (R141).

use super::place::{Faulty, Place};
use crate::fields::{finding, Finding};
use crate::plan::{CELL_NAMES, GUESS_NAMES, JOB_NAMES, STEP_NAMES};

const ALL: [&[u8]; 4] = [CELL_NAMES, JOB_NAMES, GUESS_NAMES, STEP_NAMES];

/// What keeps the line from being the names line that is due. At a place where values may stand too, only a line that begins
/// with a letter wants to be names.
pub fn missed(line: &Faulty) -> Vec<Finding> {
    let text = line.text;
    let letter = text.first().is_some_and(u8::is_ascii_alphabetic);
    let found = match line.place {
        Place::CellNames if letter => Some(other_names(text, CELL_NAMES)),
        Place::CellNames => Some(finding(1, "the names line of the cells is missing", "put the line `cell value` first")),
        Place::Cell { .. } if letter => Some(other_names(text, JOB_NAMES)),
        Place::Job if letter => Some(other_names(text, GUESS_NAMES)),
        Place::Switch if letter => Some(finding(1, "the guess switch is missing", "put a line with 0 or 1 under `guess`")),
        Place::StepNames if letter => Some(other_names(text, STEP_NAMES)),
        Place::StepNames => {
            let repair = "leave one line under `guess`, and put `step job` after it";
            Some(finding(1, "the names line of the steps is due here", repair))
        }
        Place::Step if letter => {
            Some(finding(1, "the steps are the last part, and this is no step", "write a step, or end the plan"))
        }
        _ => None,
    };
    found.into_iter().collect()
}

/// A line of letters, where the names line `due` may stand and is not it.
fn other_names(text: &[u8], due: &[u8]) -> Finding {
    let name = String::from_utf8_lossy(due);
    let differs = text.iter().zip(due).take_while(|(a, b)| a == b).count() + 1;
    if text.eq_ignore_ascii_case(due) {
        return finding(differs, "a names line has capital letters", format!("write `{name}`"));
    }
    let place = |names: &[u8]| ALL.iter().position(|one| *one == names);
    match (place(text), place(due)) {
        (Some(this), Some(next)) if this < next => finding(1, "this names line stands a second time", "take the line out"),
        (Some(_), Some(_)) => {
            let repair = format!("put `{name}` before it; a part without lines has its names line all the same");
            finding(1, format!("the names line `{name}` is missing"), repair)
        }
        _ => finding(
            differs,
            format!("the line differs here from `{name}`, the names line that may come"),
            format!("write `{name}`"),
        ),
    }
}
