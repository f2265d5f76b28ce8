//! Tables in plain text: the first column to the left, figures to the right.

use crate::measure::Figure;

pub fn print(header: &[&str], rows: &[Vec<String>]) {
    let width = |column: usize| {
        let cells = rows.iter().map(|row| row[column].len());
        cells.chain([header[column].len()]).max().unwrap_or(0)
    };
    let widths: Vec<usize> = (0..header.len()).map(width).collect();
    let line = |cells: &[&str]| {
        let mut text = format!("{:<1$}", cells[0], widths[0]);
        for (cell, width) in cells.iter().zip(&widths).skip(1) {
            text += &format!("  {cell:>width$}");
        }
        println!("{}", text.trim_end());
    };
    line(header);
    for row in rows {
        line(&row.iter().map(String::as_str).collect::<Vec<_>>());
    }
}

pub const NO_FIGURE: &str = "-";

/// Small figures with a digit after the point, others whole.
pub fn figure(figure: Option<f64>) -> String {
    match figure {
        None => NO_FIGURE.into(),
        Some(small) if small < 10.0 => format!("{small:.1}"),
        Some(figure) => format!("{figure:.0}"),
    }
}

/// No ratio to a figure that is too small to be one.
pub fn ratio(figure: Option<f64>, base: Option<f64>) -> String {
    match (figure, base) {
        (Some(figure), Some(base)) if base >= 1.0 => format!("{:.2}", figure / base),
        _ => NO_FIGURE.into(),
    }
}

/// The ratio of the medians and, in brackets, of the bests. Where the two are far
/// apart, the machine was too busy for the medians to be trusted.
pub fn ratios(figure: Figure, base: Option<Figure>) -> String {
    match base {
        None => NO_FIGURE.into(),
        Some(base) => format!(
            "{:.2} ({:.2})",
            figure.median / base.median,
            figure.best / base.best
        ),
    }
}
