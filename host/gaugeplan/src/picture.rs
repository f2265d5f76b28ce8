//! The run of a plan as a picture: a row for each job, a column for each step.

mod lanes;
mod legend;
mod rows;
mod sheet;
mod svg;

use crate::dependence::{Arrow, Link};
use crate::explain;
use crate::plan::{Contradiction, Plan, Sound};
use crate::trace::{self, Trace};
use rows::{Fate, Guess, Row, Rows};
use sheet::{Sheet, HALF_BAR, HALF_STORED};
use std::fmt::Write;
use svg::{n, text};

pub fn drawn(sound: &Sound) -> Result<String, Contradiction> {
    let plan = &sound.plan;
    let trace = trace::of(sound)?;
    let rows = rows::of(&trace);
    let arrows = trace.dependences.reduced();
    let lanes = lanes::of(&arrows);
    let legend = legend::of(&rows, &arrows, sheet::is_narrow(&trace));
    let sheet = Sheet::of(plan, &trace, &rows, &lanes, &legend);
    let mut body = head(plan, &trace, &sheet);
    body += &legend::drawn(&legend, &sheet);
    body += &grid(&rows, &sheet);
    body += &dependences(&arrows, &lanes, &sheet);
    body.extend(rows.jobs.iter().map(|row| job(row, &sheet)));
    body += &fall_lines(&rows, &sheet);
    body.extend(rows.jobs.iter().map(|row| marks(row, &sheet)));
    body += &strays(&rows, &sheet);
    body += &cells(plan, &trace, &sheet);
    Ok(svg::document(sheet.width, sheet.height, &title(plan), &description(plan, &trace, &rows), &body))
}

fn title(plan: &Plan) -> String {
    explain::has(plan).replace("The plan is sound:", "The run of a plan:").trim_end_matches('.').to_owned()
}

fn description(plan: &Plan, trace: &Trace, rows: &Rows) -> String {
    let mut words = vec![explain::came(plan, trace)];
    words.extend(rows.jobs.iter().map(|row| row.told.clone()));
    words.join(" ")
}

fn head(plan: &Plan, trace: &Trace, sheet: &Sheet) -> String {
    let name = text(sheet.left, sheet.title_y, "title", &title(plan));
    name + &text(sheet.left, sheet.title_y + 20.0, "", &explain::came(plan, trace))
}

/// Bands for the rows, lines and numbers for the columns.
fn grid(rows: &Rows, sheet: &Sheet) -> String {
    let mut body = String::new();
    let (top, bottom) = (sheet.rows_y, sheet.rows_y + sheet.rows_height());
    for row in (0..sheet.row_count).step_by(2) {
        body += &svg::rect("band", sheet.left, sheet.row_top(row), sheet.inner_width(), sheet::ROW);
    }
    let mut lines = String::new();
    for (column, x) in sheet.columns.middles.iter().enumerate() {
        if sheet.columns.is_numbered(column) {
            let _ = write!(lines, "M{} {}V{}", n(*x), n(top), n(bottom));
            body += &text(*x, top - 6.0, "number", &(column + 1).to_string());
            if rows.jobs.len() > sheet::ROWS_WITHOUT_FOOT {
                body += &text(*x, bottom + 14.0, "number", &(column + 1).to_string());
            }
        }
    }
    body += &svg::path("grid", &lines);
    body += &text(sheet.left + 38.0, top - 6.0, "column", "job");
    body += &text(sheet.columns.start - 4.0, top - 6.0, "column end", "step");
    body += &text(sheet.right_x, top - 6.0, "column", "settled by");
    body += &text(sheet.guess_x, top - 6.0, "column", "its guess");
    body + &svg::rect("frame", sheet.columns.start, top, sheet.columns.end - sheet.columns.start, bottom - top)
}

/// From the earlier job's row into a lane, down it, and into the later job's row.
fn dependences(arrows: &[Arrow], lanes: &lanes::Lanes, sheet: &Sheet) -> String {
    let mut body = String::new();
    for link in [Link::Writes, Link::MaybeWrites, Link::Reads] {
        let mut lines = String::new();
        let mut ends = String::new();
        for (arrow, lane) in arrows.iter().zip(&lanes.of_arrow).filter(|(arrow, _)| arrow.link == link) {
            let x = sheet.lane_x(*lane);
            let (from, to) = (sheet.row_middle(arrow.earlier) + 5.0, sheet.row_middle(arrow.later) - 5.0);
            let edge = sheet.columns.start - 2.0;
            let _ = write!(lines, "M{} {}H{}Q{x} {from} {x} {}", n(edge), n(from), n(x + 4.0), n(from + 4.0));
            let _ = write!(lines, "V{}Q{x} {to} {} {}H{}", n(to - 4.0), n(x + 4.0), n(to), n(edge - 5.0));
            let _ = write!(ends, "M{} {}l-6 -3v6zM{} {}h-3v-3h3z", n(edge), n(to), n(edge + 1.0), n(from + 1.5));
        }
        body += &svg::path(svg::link_class(link), &lines);
        body += &svg::path("head", &ends);
    }
    body
}

/// A line in the column in which guesses fell, from the job that wrote another height than they were handed.
fn fall_lines(rows: &Rows, sheet: &Sheet) -> String {
    let mut lines = String::new();
    for (number, row) in rows.jobs.iter().enumerate() {
        if let Some((step, by)) = row.fell() {
            let x = sheet.x(step);
            let _ = write!(lines, "M{} {}V{}", n(x), n(sheet.row_middle(by)), n(sheet.row_middle(number)));
        }
    }
    svg::path("fall", &lines)
}

/// A job's row, with its name on the left and what came of it on the right.
fn job(row: &Row, sheet: &Sheet) -> String {
    let y = sheet.row_middle(row.number);
    let mut body = format!("<g><title>{}</title>\n", svg::escaped(&row.told));
    body += &text(sheet.left + 28.0, y + 4.0, "jobnumber", &row.number.to_string());
    body += &text(sheet.left + 38.0, y + 4.0, "", &row.name);
    if sheet.columns.are_far() {
        body += &text(sheet.right_x - 10.0, y + 4.0, "jobnumber", &row.number.to_string());
    }
    body += &text(sheet.right_x, y + 4.0, "", &row.end);
    body += &text(sheet.guess_x, y + 4.0, "", &row.guess_end);
    if let Some(guess) = &row.guess {
        body += &guess_bar(row, guess, y, sheet);
    }
    if let Some((from, to)) = row.own {
        let (x, end) = (sheet.x(from), sheet.end_x(to));
        body += &svg::rect("own", x, y - HALF_BAR, end - x, 2.0 * HALF_BAR);
        body += &bar_label(row, &[(x, end)], y, "onown", "own run", sheet);
    }
    body + "</g>\n"
}

/// A guess is a full bar while it is out, and a low one while its report is stored.
fn guess_bar(row: &Row, guess: &Guess, y: f64, sheet: &Sheet) -> String {
    let (class, label) = match guess.fate {
        Fate::Kept => ("kept", "guess kept"),
        Fate::Lost => ("lost", "guess lost"),
        Fate::Open => ("open", "guess"),
    };
    let x = sheet.x(guess.from);
    let end = sheet.end_x(guess.end);
    let stored = guess.reported.map_or(end, |step| sheet.x(step));
    let mut body = String::new();
    if stored < end {
        body += &svg::rect(class, stored, y - HALF_STORED, end - stored, 2.0 * HALF_STORED);
    }
    body += &svg::rect(class, x, y - HALF_BAR, stored - x, 2.0 * HALF_BAR);
    body + &bar_label(row, &[(x, stored), (stored, end)], y, "onguess", label, sheet)
}

/// A bar's name in the widest of its stretches that no mark stands in, if it has the room there.
fn bar_label(row: &Row, stretches: &[(f64, f64)], y: f64, class: &str, label: &str, sheet: &Sheet) -> String {
    let free = stretches.iter().flat_map(|&(from, to)| sheet.between_marks(row, from, to));
    let widest = free.fold((0.0, 0.0), |best: (f64, f64), one| if one.1 - one.0 > best.1 - best.0 { one } else { best });
    if widest.1 - widest.0 < svg::width(label, svg::SMALL) + 2.0 * sheet.columns.mark_radius() + 4.0 {
        return String::new();
    }
    text((widest.0 + widest.1) / 2.0, y + 3.5, class, label)
}

/// Where the job was settled, where its guess fell, and its refused steps.
fn marks(row: &Row, sheet: &Sheet) -> String {
    let y = sheet.row_middle(row.number);
    let mut body = String::new();
    if let Some((step, mark)) = row.settled {
        body += &svg::mark(sheet.x(step), y, sheet.columns.mark_radius(), mark);
    }
    if let Some((step, _)) = row.fell() {
        body += &svg::cross(sheet.x(step), y, sheet.columns.mark_radius());
    }
    body + &refusals(&row.refused, y, sheet)
}

/// Refused steps: boxes with the number, or ticks where columns are narrow.
fn refusals(refused: &[(usize, u8)], y: f64, sheet: &Sheet) -> String {
    let mut body = String::new();
    let mut ticks = String::new();
    for &(step, number) in refused {
        let x = sheet.x(step);
        if sheet.columns.has_room(step) {
            body += &svg::refusal(x, y, number);
        } else {
            let _ = write!(ticks, "M{} {}v12", n(x), n(y - 6.0));
        }
    }
    svg::path("tickhalo", &ticks) + &svg::path("tick", &ticks) + &body
}

/// Refused steps on jobs that are not there.
fn strays(rows: &Rows, sheet: &Sheet) -> String {
    if rows.strays.is_empty() {
        return String::new();
    }
    let y = sheet.row_middle(rows.jobs.len());
    text(sheet.left + 38.0, y + 4.0, "", "no such job") + &refusals(&rows.strays, y, sheet)
}

/// Opening and final height of each cell, in columns.
fn cells(plan: &Plan, trace: &Trace, sheet: &Sheet) -> String {
    let heading = "Cells, in millimetres: height at the opening, and at the end";
    let mut body = text(sheet.left, sheet.cells.y, "heading", heading);
    for (cell, (opening, end)) in plan.heights.iter().zip(&trace.heights).enumerate() {
        let (x, y) = sheet.cells.place(cell);
        body += &text(x, y, "", &format!("cell {cell}"));
        body += &text(x + sheet.cells.opening(), y, "end", &opening.to_string());
        body += &svg::path("small-arrow", &format!("M{} {}h10m-3 -3l3 3l-3 3", n(x + sheet.cells.opening() + 5.0), n(y - 4.0)));
        body += &text(x + sheet.cells.end(), y, if opening == end { "end" } else { "end changed" }, &end.to_string());
    }
    body
}
