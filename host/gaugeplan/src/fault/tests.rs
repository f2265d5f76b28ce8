//! A plan for each sort of fault, with what is told of it.

use super::explained;
use crate::plan::{self, Reading};

const CELLS: &str = "cell value\n0 1500\n1 1480\n";
const JOBS: &str = "kind p a b c\n3 1000 0 1 -\n";
const SWITCH: &str = "guess\n1\n";

fn told(text: &[u8]) -> String {
    match plan::read(text).unwrap() {
        Reading::Faulty(faulty) => explained(text, faulty.fault),
        Reading::Sound(_) => panic!("{:?} is sound", String::from_utf8_lossy(text)),
    }
}

/// The fault's number and line, and of what was found the columns and words.
fn found(text: &[u8]) -> (String, Vec<String>) {
    let told = told(text);
    let head = told.lines().next().unwrap_or_default().split(':').next().unwrap_or_default().to_owned();
    let lines = told.lines().filter(|line| line.starts_with("Line ") && line.contains(", column "));
    (head, lines.map(|line| line.split_once("column ").map_or("", |parts| parts.1).to_owned()).collect())
}

/// `line` stands after `before`; the fault has the number, and just these things are found.
#[track_caller]
fn check(before: &str, line: impl AsRef<[u8]>, number: u8, expected: &[&str]) {
    let text = [before.as_bytes(), line.as_ref(), b"\n"].concat();
    let at = before.lines().count() + 1;
    assert_eq!(found(&text), (format!("Fault {number} on line {at}"), expected.iter().map(|&one| one.to_owned()).collect()));
}

#[test]
fn names_lines() {
    check("", "Cell value", 21, &["1: a names line has capital letters."]);
    check("", "cell values", 21, &["11: the line differs here from `cell value`, the names line that may come."]);
    check("", "cell value ", 21, &["11: the line ends in a space."]);
    check("", "cell  value", 21, &["6: two spaces stand together."]);
    check("", "0 1500", 21, &["1: the names line of the cells is missing."]);
    check("", "guess", 21, &["1: the names line `cell value` is missing."]);
    check(CELLS, "kind p a b", 21, &["11: the line differs here from `kind p a b c`, the names line that may come."]);
    check(CELLS, "KIND p a b c", 21, &["1: a names line has capital letters."]);
    check(CELLS, "guess", 21, &["1: the names line `kind p a b c` is missing."]);
    check(CELLS, "cell value", 21, &["1: this names line stands a second time."]);
    check(&format!("{CELLS}{JOBS}"), "step job", 21, &["1: the names line `guess` is missing."]);
    check(&format!("{CELLS}{JOBS}guess\n"), "step job", 21, &["1: the guess switch is missing."]);
    check(&format!("{CELLS}{JOBS}{SWITCH}"), "0", 21, &["1: the names line of the steps is due here."]);
    check(
        &format!("{CELLS}{JOBS}{SWITCH}"),
        "steps job",
        21,
        &["5: the line differs here from `step job`, the names line that may come."],
    );
    check(&format!("{CELLS}{JOBS}{SWITCH}step job\n"), "guess", 21, &["1: the steps are the last part, and this is no step."]);
}

#[test]
fn bytes_and_spaces() {
    let mark = "1: the plan begins with a byte order mark, three bytes that some editors put before the text.";
    check("", "\u{feff}cell value", 21, &[mark]);
    check("", b"\xff\xfec\0e\0l\0l\0", 21, &["1: the plan is written in UTF-16, with two bytes for a character."]);
    check("", "cell value\r", 21, &["11: the line ends in a carriage return."]);
    check("cell value\n", "0\t1500", 21, &["2: a tab stands in the line."]);
    check("cell value\n", "0 15\r00", 21, &["5: a carriage return stands in the line."]);
    check("cell value\n", b"0 \x07", 21, &["3: a byte 7, which is no character, stands in the line."]);
    check("cell value\n", b"0 \xff", 21, &["3: a byte 255, which is beyond plain ASCII, stands in the line."]);
    check("cell value\n", "0\u{a0}1500", 21, &["2: a space that is not the plain one stands in the line."]);
    check("cell value\n", "0 \u{2212}5", 21, &["3: a dash that is not the plain minus sign stands in the line."]);
    check("cell value\n", "", 21, &["1: the line is blank."]);
    check("cell value\n", "  ", 21, &["1: the line has spaces alone."]);
    let all = ["1: the line begins with a space.", "4: two spaces stand together.", "10: the line ends in a space."];
    check("cell value\n", " 0   1500 ", 21, &all);
}

#[test]
fn fields() {
    check("cell value\n", "0", 21, &["2: the line has 1 field, and 2 are due."]);
    check("cell value\n", "0 1500 7", 21, &["8: the line has 3 fields, and 2 are due."]);
    check(&format!("{CELLS}kind p a b c\n"), "4 1400 0 -", 21, &["11: the line has 4 fields, and 5 are due."]);
    check(&format!("{CELLS}{JOBS}guess\n"), "0 1", 21, &["3: the line has 2 fields, and 1 is due."]);
    check("cell value\n", "00 +5", 21, &["1: the cell's number has a leading zero.", "4: the height has a plus sign."]);
    check("cell value\n", "1 -0", 21, &["1: cell 1 stands where cell 0 is due.", "3: the height is a minus zero."]);
    check("cell value\n", "0 2147483648", 21, &["3: the height is above 2147483647."]);
    check("cell value\n", "0 1.5", 21, &["4: `.` is no digit, so the height is no number."]);
    let jobs = format!("{CELLS}kind p a b c\n");
    check(&jobs, "0 5 - 1 -", 21, &["1: kind 0 stands in no plan.", "7: a cell stands after `-`."]);
    check(&jobs, "-3 - 0 1 -", 21, &["1: the kind has a minus sign.", "4: `-` stands for the parameter."]);
    check(&jobs, "3 5 x -1 -", 21, &["5: `x` is no digit, so the cell is no number.", "7: the cell has a minus sign."]);
    check(&format!("{CELLS}{JOBS}guess\n"), "01", 21, &["1: the guess switch has a leading zero."]);
    let steps = format!("{CELLS}{JOBS}{SWITCH}step job\n");
    check(&steps, "5 -1", 21, &["1: there is no step 5.", "3: the job's number has a minus sign."]);
}

#[test]
fn what_the_engine_refuses() {
    let jobs = format!("{CELLS}kind p a b c\n");
    check("cell value\n", "kind p a b c", 1, &["1: no cell line stands above the names of the jobs."]);
    let many: String = (0..65).map(|cell| format!("{cell} 1\n")).collect();
    let many = format!("cell value\n{many}");
    check(&many, "kind p a b c", 1, &["1: 65 cells stand above the names of the jobs, and 64 are allowed."]);
    let full = format!("{jobs}{}", "2 1 0 - -\n".repeat(128));
    check(&full, "2 1 0 - -", 3, &["1: 128 jobs stand before this one."]);
    check(&jobs, "2 20 - - -", 4, &["6: the job has no cells."]);
    check(&jobs, "5 0 2 0 9", 5, &["5: there is no cell 2.", "9: there is no cell 9."]);
    check(&jobs, "6 0 1 1 -", 7, &["7: cell 1 stands twice in the job."]);
    check(&jobs, "7 0 1 - -", 8, &["1: there is no kind 7."]);
    check(&jobs, "3 0 1 - -", 8, &["7: kind 3, spike, has 2 cells, and 1 is given."]);
    check(&jobs, "2 0 1 0 -", 8, &["7: kind 2, shift, has 1 cell, and 2 are given."]);
    check(&format!("{CELLS}{JOBS}guess\n"), "2", 9, &["1: the guess switch is another number."]);
}

#[test]
fn ends() {
    let end = |text: &str| found(text.as_bytes());
    let at = |line: usize, words: &str| (format!("Fault 21 on line {line}"), vec![words.to_owned()]);
    assert_eq!(end(""), at(1, "1: the plan is empty."));
    assert_eq!(end("cell value\n0 1500\n"), at(3, "1: the plan ends after line 2."));
    assert!(told(b"cell value\n0 1500\n").contains("go on with cell 1, or with `kind p a b c`"));
    assert!(told(b"cell value\n0 1500\nkind p a b c\n").contains("go on with a job, or with `guess`"));
    assert!(told(b"cell value\n0 1500\nkind p a b c\nguess\n").contains("go on with the guess switch, 0 or 1"));
    assert!(told(b"cell value\n0 1500\nkind p a b c\nguess\n1\n").contains("go on with `step job`"));
    assert_eq!(end("cell value\n0 1500"), at(2, "7: the last line has no line feed."));
    let whole = format!("{CELLS}{JOBS}{SWITCH}step job\n0 0");
    assert_eq!(end(&whole), at(9, "4: the last line has no line feed."));
    let both = (
        "Fault 21 on line 2".to_owned(),
        vec!["3: the height has a leading zero.".into(), "6: the last line has no line feed.".into()],
    );
    assert_eq!(end("cell value\n0 007"), both);
}

#[test]
fn too_long() {
    let text = told(&[b'7'; 65_537]);
    assert!(text.starts_with("Fault 22 on line 0: the plan is too long.\n"), "{text}");
    assert!(text.contains("The plan has more than 65,536 bytes"), "{text}");
}
