//! A fault in words. Its number and line are the library's; here the line, and what stands before it, is only looked at to say
//! which of the reasons for that number it is (R101 to R109, R121, R141 to R149), where it stands and how to mend it.

mod bytes;
mod jobs;
mod names;
mod place;
mod shown;
#[cfg(test)]
mod tests;

use crate::fields::{self, finding, plain, signed, Finding};
use crate::plan::Fault;
use crate::words;
use place::{Faulty, Place};
use sorghemi::Refusal;

/// What `explain` says of a plan at fault.
pub fn explained(plan: &[u8], fault: Fault) -> String {
    if fault.line == 0 {
        return too_long(fault);
    }
    let line = place::find(plan, fault.line);
    let found = findings(&line, fault.number);
    let general = if line.is_end() { "the plan ends too soon" } else { general(fault.number) };
    let mut text = format!("Fault {} on line {}: {general}.\n", fault.number, fault.line);
    for one in &found {
        text += &format!("\nLine {}, column {}: {}.\n", fault.line, one.column, one.what);
        if !line.is_end() {
            text += &shown::with_caret(line.text, one.column);
        }
        text += &format!("Repair: {}.\n", one.repair);
    }
    if found.is_empty() {
        text += "\nThe line, as it stands:\n";
        text += &shown::line(line.text);
    }
    text + "\nColumns are counted from 1, in bytes. What follows that line was not looked at.\n"
}

fn too_long(fault: Fault) -> String {
    format!(
        "Fault {} on line 0: {}.\n\nThe plan has more than 65,536 bytes, line feeds counted. Nothing in it was looked at.\n\
         Repair: leave step lines out, or make two plans of it.\n",
        fault.number,
        general(fault.number)
    )
}

/// What the number means on any line, in the words of docs/PLANS.md.
fn general(number: u8) -> &'static str {
    match number {
        1 => "a plan has 1 to 64 cells",
        3 => "a plan has at most 128 jobs",
        4 => "the job has no cells",
        5 => "there is no such cell",
        7 => "a cell stands twice in the job",
        8 => "there is no such kind, or it has another number of cells",
        9 => "the guess switch is 0 or 1",
        21 => "the line is not in form",
        22 => "the plan is too long",
        _ => Refusal::from_number(number).map_or("the library refuses the line", Refusal::meaning),
    }
}

fn findings(line: &Faulty, number: u8) -> Vec<Finding> {
    match number {
        1 => cell_count(line),
        3 => vec![finding(1, "128 jobs stand before this one", "take a job out; make two plans of it")],
        4 => jobs::without_cells(line.text),
        5 => jobs::no_such_cell(line.text, line.cells),
        7 => jobs::cell_twice(line.text),
        8 => jobs::wrong_kind(line.text),
        9 => vec![finding(1, "the guess switch is another number", "write 0 for guessing off or 1 for guessing on")],
        21 => not_in_form(line),
        _ => Vec::new(),
    }
}

fn cell_count(line: &Faulty) -> Vec<Finding> {
    let found = match line.cells {
        0 => {
            finding(1, "no cell line stands above the names of the jobs", "put a line such as `0 1500` above it for each cell")
        }
        more => finding(1, format!("{more} cells stand above the names of the jobs, and 64 are allowed"), "take cells out"),
    };
    vec![found]
}

/// The reasons for 21. Each sort is looked for only where no reason of the sorts before was found: a field cannot be judged
/// before it is known where it ends.
fn not_in_form(line: &Faulty) -> Vec<Finding> {
    if line.is_end() {
        return vec![ends_too_soon(line)];
    }
    let mut found = Vec::new();
    if !line.whole {
        found.push(no_line_feed(line));
    }
    for look in [bytes::strange, bytes::spaces, names::missed, field_count, values] {
        let more = look(line);
        if !more.is_empty() {
            found.extend(more);
            break;
        }
    }
    found.sort_by_key(|one| one.column);
    found
}

fn ends_too_soon(line: &Faulty) -> Finding {
    let what =
        if line.number == 1 { "the plan is empty".to_owned() } else { format!("the plan ends after line {}", line.number - 1) };
    finding(1, what, format!("go on with {}", line.place.expected()))
}

fn no_line_feed(line: &Faulty) -> Finding {
    let repair = match line.place {
        Place::StepNames | Place::Step => "end the last line with a line feed too".to_owned(),
        _ => "end the line with a line feed; the plan has to go on after it".to_owned(),
    };
    finding(line.text.len() + 1, "the last line has no line feed", repair)
}

fn field_count(line: &Faulty) -> Vec<Finding> {
    let fields = fields::split(line.text);
    let due = line.place.fields();
    if fields.len() == due {
        return Vec::new();
    }
    let column = fields.get(due).map_or(line.text.len() + 1, |field| field.column);
    let what = format!("the line has {}, and {due} {} due", words::count(fields.len(), "field"), words::be(due));
    vec![finding(column, what, format!("write {}", line.place.form()))]
}

/// What is wrong with the fields, one by one.
fn values(line: &Faulty) -> Vec<Finding> {
    let fields = fields::split(line.text);
    match (line.place, fields.as_slice()) {
        (Place::Cell { due }, &[cell, height]) => {
            let out_of_turn = |given| {
                let repair = format!("write {due}; cells are numbered 0, 1, 2 and so on, in turn");
                (given != due as i64)
                    .then(|| finding(cell.column, format!("cell {given} stands where cell {due} is due"), repair))
            };
            let turn = fields::number(cell, plain("cell's number")).map_or_else(Some, out_of_turn);
            turn.into_iter().chain(fields::number(height, signed("height")).err()).collect()
        }
        (Place::Job, _) => jobs::values(&fields),
        (Place::Switch, &[switch]) => fields::number(switch, plain("guess switch")).err().into_iter().collect(),
        (Place::Step, &[step, job]) => {
            let above = |given| (given > 4).then(|| finding(step.column, format!("there is no step {given}"), STEPS));
            let step = fields::number(step, plain("step")).map_or_else(Some, above);
            step.into_iter().chain(fields::number(job, plain("job's number")).err()).collect()
        }
        _ => Vec::new(),
    }
}

const STEPS: &str = "write 0 start own, 1 start guess, 2 report own, 3 report guess or 4 settle, by the number";
