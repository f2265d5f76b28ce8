//! The tallies of many plans in one table: how many guesses were worth it, over a month for instance.

use crate::answer::{self, Answer, FAULTY};
use crate::files;
use crate::plan::{self, Contradiction, Reading};
use crate::trace;
use crate::words;
use sorghemi::{Refusal, Tally};
use std::cmp::Reverse;
use std::ffi::{OsStr, OsString};

/// The columns of numbers, by the words of R75.
const NAMES: [&str; 5] = ["jobs", "started", "kept", "thrown away", "rest"];

/// A plan of the table.
struct Row {
    name: String,
    tally: Tally,
}

/// The table of the plans in these files. Where one of them has no tally there is no table, since a total that lacks a day could
/// be taken for the month's.
pub fn of_files(names: &[OsString]) -> Answer {
    let mut rows = Vec::new();
    let mut wrong = Vec::new();
    for name in names {
        match row(name) {
            Ok(row) => rows.push(row),
            Err(answer) => wrong.push(answer),
        }
    }
    if wrong.is_empty() {
        tabled(&rows)
    } else {
        told(wrong)
    }
}

fn row(name: &OsStr) -> Result<Row, Answer> {
    let shown = files::shown(name);
    let text = files::read(name).map_err(|reason| answer::failed(&format!("reading `{shown}` failed: {reason}")))?;
    let in_file = |Contradiction(what)| answer::contradicted(Contradiction(format!("`{shown}`: {what}")));
    match plan::read(&text).map_err(in_file)? {
        Reading::Sound(sound) => Ok(Row { tally: trace::of(&sound).map_err(in_file)?.tally, name: shown }),
        Reading::Faulty(faulty) => {
            let refused = answer::refused(&text, &faulty);
            let message = format!("gaugeplan: there is no table, since `{shown}` is at fault\n{}", refused.message);
            Err(Answer { message, ..refused })
        }
    }
}

/// What is wrong, of every file that has no tally: the highest status first, and faults, which take many lines, apart.
fn told(mut wrong: Vec<Answer>) -> Answer {
    wrong.sort_by_key(|one| Reverse(one.status));
    let status = wrong.first().map_or(0, |one| one.status);
    let mut message = String::new();
    for one in wrong {
        if one.status == FAULTY && !message.is_empty() {
            message += "\n";
        }
        message += &one.message;
    }
    Answer { output: Vec::new(), message, status }
}

fn tabled(rows: &[Row]) -> Answer {
    match table(rows) {
        Ok(text) => answer::quiet(text, 0),
        Err(refusal) => answer::failed(&format!("there is no table, since the total of the plans is {refusal}")),
    }
}

fn table(rows: &[Row]) -> Result<String, Refusal> {
    let tallies: Vec<Tally> = rows.iter().map(|row| row.tally).collect();
    let total = Tally::total(&tallies)?;
    let total_name = format!("total of {}", words::count(rows.len(), "plan"));
    let mut lines = vec![("plan", NAMES.map(str::to_owned))];
    lines.extend(rows.iter().map(|row| (row.name.as_str(), numbers(row.tally))));
    lines.push((&total_name, numbers(total)));
    Ok(aligned(&lines) + &kept(total))
}

fn numbers(tally: Tally) -> [String; 5] {
    let Tally { jobs, started, kept, discarded, pending } = tally;
    [jobs, started, kept, discarded, pending].map(|number| number.to_string())
}

/// Names to the left and numbers to the right, each column as wide as its widest field.
fn aligned(lines: &[(&str, [String; 5])]) -> String {
    let name_width = lines.iter().map(|(name, _)| name.chars().count()).max().unwrap_or_default();
    let widest = |column| lines.iter().filter_map(|(_, fields)| fields.get(column)).map(String::len).max().unwrap_or_default();
    let widths: [usize; 5] = std::array::from_fn(widest);
    let mut text = String::new();
    for (name, fields) in lines {
        text += &format!("{name:name_width$}");
        for (field, width) in fields.iter().zip(widths) {
            text += &format!("  {field:>width$}");
        }
        text += "\n";
    }
    text
}

fn kept(total: Tally) -> String {
    match total.kept_share() {
        None => "Kept: no guess was started.\n".to_owned(),
        Some(1) => "Kept: 1 thousandth of the guesses started.\n".to_owned(),
        Some(share) => format!("Kept: {share} thousandths of the guesses started.\n"),
    }
}

#[cfg(test)]
mod tests {
    use super::*;

    /// A plan with so many jobs, and guesses started, kept, thrown away and left.
    fn row(name: &str, [jobs, started, kept, discarded, pending]: [u32; 5]) -> Row {
        Row { name: name.to_owned(), tally: Tally { jobs, started, kept, discarded, pending } }
    }

    fn last_line(numbers: [u32; 5]) -> String {
        table(&[row("one", numbers)]).unwrap().lines().last().unwrap_or_default().to_owned()
    }

    #[test]
    fn columns_are_as_wide_as_they_have_to_be() {
        let rows = [row("Süd.plan", [7, 3, 2, 0, 1]), row("b", [123_456, 5, 4, 1, 0])];
        let expected = "\
plan                jobs  started  kept  thrown away  rest
Süd.plan               7        3     2            0     1
b                 123456        5     4            1     0
total of 2 plans  123463        8     6            1     1
Kept: 750 thousandths of the guesses started.
";
        assert_eq!(table(&rows).unwrap(), expected);
    }

    #[test]
    fn one_plan_is_no_plural() {
        let expected = "\
plan             jobs  started  kept  thrown away  rest
one                 2        0     0            0     0
total of 1 plan     2        0     0            0     0
Kept: no guess was started.
";
        assert_eq!(table(&[row("one", [2, 0, 0, 0, 0])]).unwrap(), expected);
    }

    #[test]
    fn the_share_is_rounded_down() {
        assert_eq!(last_line([9, 3, 2, 1, 0]), "Kept: 666 thousandths of the guesses started.");
        assert_eq!(last_line([9, 3, 0, 3, 0]), "Kept: 0 thousandths of the guesses started.");
        assert_eq!(last_line([2000, 1001, 2, 999, 0]), "Kept: 1 thousandth of the guesses started.");
        assert_eq!(last_line([9, 3, 3, 0, 0]), "Kept: 1000 thousandths of the guesses started.");
    }

    #[test]
    fn a_total_too_large_gives_no_table() {
        let rows = [row("a", [u32::MAX, 0, 0, 0, 0]), row("b", [1, 0, 0, 0, 0])];
        let Answer { output, message, status } = tabled(&rows);
        assert_eq!((output.as_slice(), status), (b"".as_slice(), answer::FAILED));
        assert!(
            message.starts_with("gaugeplan: there is no table, since the total of the plans is refused with 23: "),
            "{message}"
        );
        assert_eq!(message.lines().count(), 1);
        assert_eq!(tabled(&rows[..1]).status, 0);
    }

    #[test]
    fn what_is_worst_is_told_first() {
        let fault = || Answer { output: Vec::new(), message: "a fault\nof two lines\n".to_owned(), status: FAULTY };
        let wrong = vec![
            fault(),
            answer::failed("a"),
            fault(),
            answer::contradicted(Contradiction("b".to_owned())),
            answer::failed("c"),
        ];
        let Answer { output, message, status } = told(wrong);
        let faults = "a fault\nof two lines\n\na fault\nof two lines\n";
        assert_eq!(message, format!("gaugeplan: a mistake in gaugeplan: b\ngaugeplan: a\ngaugeplan: c\n\n{faults}"));
        assert_eq!((output.len(), status), (0, answer::CONTRADICTION));
        assert_eq!(told(vec![fault(), fault()]).message, faults);
    }
}
