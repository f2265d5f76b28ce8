//! Where everything stands on the sheet. Rows have a fixed height; columns get narrower as there are more of them.

use super::lanes::Lanes;
use super::legend::{self, Item};
use super::rows::{Row, Rows};
use super::svg::{self, BODY};
use crate::explain;
use crate::plan::Plan;
use crate::trace::Trace;

pub const ROW: f64 = 28.0;
pub const HALF_BAR: f64 = 8.0;
pub const HALF_STORED: f64 = 4.0;
/// With more rows the numbers of the steps stand at the foot too.
pub const ROWS_WITHOUT_FOOT: usize = 16;

const MARGIN: f64 = 20.0;
/// A column's width where there is room, and the least of one whose step was accepted: at most 512 are.
const WIDEST: f64 = 52.0;
const NARROWEST: f64 = 14.0;
/// The chart's width from which on columns get narrower, and that from which on those of refused steps do.
const COMFORT: f64 = 1000.0;
const WIDE: f64 = 7200.0;
/// What refused steps get of a chart that would be too wide.
const REST: f64 = 1600.0;
/// How far apart the numbers of steps are, at least.
const NUMBERS_APART: f64 = 30.0;
/// The least width of a column in which the number of a refusal has room.
const NUMBER: f64 = 13.0;
const LINE: f64 = 20.0;
/// What is read like a page, legend and cells, stays this wide on a wide sheet.
const PAGE: f64 = 1200.0;
/// From this width of the chart on the jobs' numbers stand on its right too.
const FAR: f64 = 1200.0;

pub struct Sheet {
    pub left: f64,
    pub title_y: f64,
    pub legend_y: f64,
    pub rows_y: f64,
    pub row_count: usize,
    pub columns: Columns,
    lane_gap: f64,
    /// How jobs were settled stands here, and there what became of their guesses.
    pub right_x: f64,
    pub guess_x: f64,
    pub cells: Cells,
    pub width: f64,
    pub height: f64,
}

/// The chart, and a column in it for each step.
pub struct Columns {
    pub start: f64,
    pub end: f64,
    pub middles: Vec<f64>,
    widths: Vec<f64>,
    numbered: Vec<bool>,
}

/// The table of the cells, under the chart.
pub struct Cells {
    pub y: f64,
    rows: usize,
    /// How wide heights are at most.
    height: f64,
}

/// The widest of the words.
fn longest<'a>(words: impl Iterator<Item = &'a String>) -> f64 {
    words.map(|word| svg::width(word, BODY)).fold(60.0, f64::max)
}

impl Sheet {
    pub fn of(plan: &Plan, trace: &Trace, rows: &Rows, lanes: &Lanes, legend: &[Item]) -> Sheet {
        let lane_gap = (160.0 / lanes.count.max(1) as f64).clamp(3.0, 8.0);
        let names = longest(rows.jobs.iter().map(|row| &row.name));
        let columns = Columns::of(trace, MARGIN + 38.0 + names + 28.0 + lane_gap * lanes.count as f64);
        let right_x = columns.end + if columns.are_far() { 46.0 } else { 12.0 };
        let guess_x = right_x + longest(rows.jobs.iter().map(|row| &row.end)) + 16.0;
        let table = guess_x + longest(rows.jobs.iter().map(|row| &row.guess_end));
        let head = MARGIN + svg::width(&explain::came(plan, trace), BODY);
        let inner_width = table.max(head) - MARGIN;
        let legend_y = MARGIN + 54.0;
        let rows_y = legend_y + LINE * legend::rows(legend, inner_width.min(PAGE)) as f64 + 30.0;
        let row_count = rows.jobs.len() + usize::from(!rows.strays.is_empty());
        let foot = if rows.jobs.len() > ROWS_WITHOUT_FOOT { 48.0 } else { 30.0 };
        let cells = Cells::of(plan, trace, rows_y + row_count as f64 * ROW + foot, inner_width.min(PAGE));
        let (width, height) = (inner_width + 2.0 * MARGIN, cells.y + LINE * cells.rows as f64 + MARGIN);
        let (left, title_y) = (MARGIN, MARGIN + 14.0);
        Sheet { left, title_y, legend_y, rows_y, row_count, columns, lane_gap, right_x, guess_x, cells, width, height }
    }

    pub fn inner_width(&self) -> f64 {
        self.width - 2.0 * MARGIN
    }

    pub fn page_width(&self) -> f64 {
        self.inner_width().min(PAGE)
    }

    pub fn rows_height(&self) -> f64 {
        self.row_count as f64 * ROW
    }

    pub fn row_top(&self, row: usize) -> f64 {
        self.rows_y + row as f64 * ROW
    }

    pub fn row_middle(&self, row: usize) -> f64 {
        self.row_top(row) + ROW / 2.0
    }

    pub fn lane_x(&self, lane: usize) -> f64 {
        self.columns.start - 12.0 - self.lane_gap * (lane + 1) as f64
    }

    /// The middle of a step's column.
    pub fn x(&self, step: usize) -> f64 {
        self.columns.middles.get(step).copied().unwrap_or(self.columns.start)
    }

    /// The same, or the chart's end for what did not end.
    pub fn end_x(&self, step: Option<usize>) -> f64 {
        step.map_or(self.columns.end, |step| self.x(step))
    }

    /// The stretches from one x to another that no mark of the row stands in.
    pub fn between_marks(&self, row: &Row, from: f64, to: f64) -> Vec<(f64, f64)> {
        let steps = row.refused.iter().map(|(step, _)| *step).chain(row.fell().map(|(step, _)| step));
        let steps = steps.chain(row.crossed.iter().copied());
        let mut marks: Vec<f64> = steps.map(|step| self.x(step)).filter(|x| from < *x && *x < to).collect();
        marks.sort_by(f64::total_cmp);
        let starts = std::iter::once(from).chain(marks.iter().copied());
        starts.zip(marks.iter().copied().chain([to])).collect()
    }
}

impl Columns {
    fn of(trace: &Trace, start: f64) -> Columns {
        let widths = widths(trace);
        let mut end = start + 8.0;
        let mut middles = Vec::new();
        for width in &widths {
            middles.push(end + width / 2.0);
            end += width;
        }
        let numbered = numbered(&middles);
        Columns { start, end: (end + 8.0).max(start + 60.0), middles, widths, numbered }
    }

    /// Whether a row's beginning is too far from its end to be followed.
    pub fn are_far(&self) -> bool {
        self.end - self.start > FAR
    }

    pub fn is_numbered(&self, column: usize) -> bool {
        self.numbered.get(column).copied().unwrap_or_default()
    }

    /// Whether a number has room in a step's column.
    pub fn has_room(&self, step: usize) -> bool {
        self.widths.get(step).is_some_and(|width| *width >= NUMBER)
    }

    pub fn mark_radius(&self) -> f64 {
        let widest = self.widths.iter().copied().fold(0.0, f64::max);
        (widest / 2.0 - 1.0).clamp(4.0, 8.0)
    }
}

impl Cells {
    fn of(plan: &Plan, trace: &Trace, y: f64, width: f64) -> Cells {
        let heights = plan.heights.iter().chain(&trace.heights);
        let height = heights.map(|height| svg::digits(&height.to_string(), BODY)).fold(30.0, f64::max);
        let cells = Cells { y, rows: 1, height };
        let columns = ((width / cells.column()) as usize).max(1);
        Cells { rows: plan.heights.len().div_ceil(columns), ..cells }
    }

    fn column(&self) -> f64 {
        self.end() + 36.0
    }

    /// Where an opening height ends, seen from the cell's place.
    pub fn opening(&self) -> f64 {
        svg::width("cell 63", BODY) + 4.0 + self.height
    }

    /// The same of a height at the end.
    pub fn end(&self) -> f64 {
        self.opening() + 22.0 + self.height
    }

    /// A cell's place in the table.
    pub fn place(&self, cell: usize) -> (f64, f64) {
        let rows = self.rows.max(1);
        (MARGIN + (cell / rows) as f64 * self.column(), self.y + LINE * (cell % rows + 1) as f64)
    }
}

/// Whether columns of refused steps have no room for the number.
pub fn is_narrow(trace: &Trace) -> bool {
    widths(trace).into_iter().any(|width| width < NUMBER)
}

/// The widths of the columns. Those of accepted steps are the same, and never too narrow to be read.
fn widths(trace: &Trace) -> Vec<f64> {
    let steps = trace.events.len();
    let refused = trace.refused();
    let accepted = steps - refused;
    let width = (COMFORT / steps.max(1) as f64).clamp(NARROWEST, WIDEST);
    let narrow =
        if steps as f64 * width <= WIDE { width } else { (WIDE - accepted as f64 * width).max(REST) / refused.max(1) as f64 };
    trace.events.iter().map(|event| if event.is_refused() { narrow.min(width) } else { width }).collect()
}

/// Which columns are numbered: all, or every second, fifth, tenth and so on.
fn numbered(middles: &[f64]) -> Vec<bool> {
    let narrowest = middles.iter().zip(middles.iter().skip(1)).map(|(one, next)| next - one).fold(f64::INFINITY, f64::min);
    let rounds = (0..6).flat_map(|power| [1, 2, 5].map(|digit| digit * 10_usize.pow(power)));
    let every = rounds.into_iter().find(|every| *every as f64 * narrowest.max(0.5) >= NUMBERS_APART).unwrap_or(1);
    let mut last = f64::NEG_INFINITY;
    let mut number = |(column, x): (usize, &f64)| {
        let is = (column + 1) % every == 0 && x - last >= NUMBERS_APART || column == 0;
        if is {
            last = *x;
        }
        is
    };
    middles.iter().enumerate().map(&mut number).collect()
}
