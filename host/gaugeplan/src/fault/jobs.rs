//! What is wrong with the fields of a job line (R104 to R108, R145).

use crate::fields::{self, finding, plain, signed, Field, Finding};
use crate::plan;
use crate::words;

/// The fields that name cells.
fn cell_fields<'a>(fields: &'a [Field<'a>]) -> impl Iterator<Item = Field<'a>> + 'a {
    fields.iter().skip(2).copied()
}

/// The cells of a line that is in form, each with its column.
fn cells(line: &[u8]) -> Vec<(i64, usize)> {
    let fields = fields::split(line);
    cell_fields(&fields).filter_map(|field| Some((fields::number(field, plain("cell")).ok()?, field.column))).collect()
}

/// The reasons for which one of the fields is not in form.
pub fn values(fields: &[Field]) -> Vec<Finding> {
    let &[kind, parameter, ..] = fields else { return Vec::new() };
    let zero = |given| (given == 0).then(|| finding(kind.column, "kind 0 stands in no plan", format!("write {KINDS}")));
    let kind_found = fields::number(kind, plain("kind")).map_or_else(Some, zero);
    let parameter_found = fields::number(parameter, signed("parameter")).err();
    kind_found.into_iter().chain(parameter_found).chain(cells_found(fields)).collect()
}

fn cells_found(fields: &[Field]) -> Vec<Finding> {
    let mut found = Vec::new();
    let mut absent = false;
    for field in cell_fields(fields) {
        if field.bytes == b"-" {
            absent = true;
            continue;
        }
        found.extend(fields::number(field, plain("cell")).err());
        if absent {
            let repair = "put the cells first, and `-` for those that the kind does not have after them";
            found.push(finding(field.column, "a cell stands after `-`", repair));
        }
    }
    found
}

const KINDS: &str = "1 set, 2 shift, 3 spike, 4 floor, 5 mean or 6 pair, by the number";

pub fn without_cells(line: &[u8]) -> Vec<Finding> {
    let fields = fields::split(line);
    let column = fields.get(2).map_or(1, |field| field.column);
    let repair = match cells_due(&fields) {
        Some((name, due)) => format!("give the {}; {name} has {due}", words::count(due, "cell").trim_start_matches("1 ")),
        None => "give the cells of the job".to_owned(),
    };
    vec![finding(column, "the job has no cells", repair)]
}

pub fn no_such_cell(line: &[u8], count: usize) -> Vec<Finding> {
    let missing = cells(line).into_iter().filter(|&(cell, _)| cell >= count as i64);
    let have = if count == 1 {
        "the plan has cell 0 alone".to_owned()
    } else {
        format!("the plan has cells 0 to {}", count.saturating_sub(1))
    };
    missing
        .map(|(cell, column)| finding(column, format!("there is no cell {cell}"), format!("name a cell that is there; {have}")))
        .collect()
}

pub fn cell_twice(line: &[u8]) -> Vec<Finding> {
    let cells = cells(line);
    let again = |place: usize, cell: i64| cells.iter().take(place).any(|&(other, _)| other == cell);
    let twice = cells.iter().enumerate().filter(|&(place, &(cell, _))| again(place, cell));
    twice
        .map(|(_, &(cell, column))| finding(column, format!("cell {cell} stands twice in the job"), "name another cell"))
        .collect()
}

/// The name of the line's kind and how many cells it has; none where it is no kind.
fn cells_due(fields: &[Field]) -> Option<(String, usize)> {
    let kind = fields::number(*fields.first()?, plain("kind")).ok()?;
    let sample = plan::sample(u8::try_from(kind).ok()?)?;
    Some((format!("kind {kind}, {},", words::kind(&sample)), sample.arity.into()))
}

pub fn wrong_kind(line: &[u8]) -> Vec<Finding> {
    let fields = fields::split(line);
    let Some((name, due)) = cells_due(&fields) else {
        let kind = fields.first().map(|field| String::from_utf8_lossy(field.bytes)).unwrap_or_default();
        return vec![finding(1, format!("there is no kind {kind}"), format!("write {KINDS}"))];
    };
    let given = cells(line).len();
    let column = fields.get(2 + due.min(given)).map_or(1, |field| field.column);
    let what = format!("{name} has {}, and {given} {} given", words::count(due, "cell"), words::be(given));
    let repair = if given < due { "name the cells that are missing" } else { "write `-` for each cell too many" };
    vec![finding(column, what, repair)]
}
