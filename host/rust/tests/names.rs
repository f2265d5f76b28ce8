//! Names, numbers and words are the same in the wrapper, in the header for C and on the hosts' page.

use sorghemi::raw::NO_REPORT;
use sorghemi::{Committed, Kind, Mode, Phase, Refusal, Step, Validity, LONGEST_ANSWER, MOST_STEPS};

const HEADER: &str = include_str!("../../c/sorghemi.h");
const PAGE: &str = include_str!("../../README.md");

/// Number, name and words of each refusal.
type Rows = Vec<(u8, String, String)>;

fn wrapper_rows() -> Rows {
    Refusal::ALL.iter().map(|refusal| (refusal.number(), refusal.name().to_string(), refusal.meaning().to_string())).collect()
}

/// The rows `ROW(number, NAME, "words")` of the header's table.
fn header_rows() -> Rows {
    let table = HEADER.split("#define SORGHEMI_REFUSALS(ROW)").nth(1).unwrap().split("\nenum").next().unwrap();
    let row = |text: &str| {
        let (number, rest) = text.split_once(", ").unwrap();
        let (name, rest) = rest.split_once(',').unwrap();
        let words = rest.split('"').nth(1).unwrap();
        (number.parse().unwrap(), name.to_string(), words.to_string())
    };
    table.split("ROW(").skip(1).map(row).collect()
}

/// The rows `| number | `NAME` | words |` of the page's table.
fn page_rows() -> Rows {
    let row = |line: &str| {
        let fields: Vec<&str> = line.split('|').map(str::trim).collect();
        let number = fields.get(1)?.parse().ok()?;
        Some((number, fields.get(2)?.trim_matches('`').to_string(), fields.get(3)?.to_string()))
    };
    PAGE.lines().filter_map(row).collect()
}

#[test]
fn refusals_are_said_alike() {
    assert_eq!(header_rows(), wrapper_rows());
    assert_eq!(page_rows(), wrapper_rows());
}

/// `MaybeWrite` as MAYBE_WRITE.
fn constant(name: &str) -> String {
    let mut words = String::new();
    for letter in name.chars() {
        if letter.is_uppercase() && !words.is_empty() {
            words.push('_');
        }
        words.extend(letter.to_uppercase());
    }
    words
}

/// The header's constants of the list, from 0 on: `Mode` has SORGHEMI_MODE_READ and so on.
fn header_has(list: &str, names: Vec<String>) {
    let prefix = format!("SORGHEMI_{}_", constant(list));
    let lines = HEADER.lines().map(str::trim).filter(|line| line.starts_with(&prefix));
    let found: Vec<&str> = lines.map(|line| line.split(',').next().unwrap()).collect();
    let expected = names.iter().enumerate();
    let expected: Vec<String> = expected.map(|(number, name)| format!("{prefix}{} = {number}", constant(name))).collect();
    assert_eq!(found, expected);
}

#[test]
fn the_header_has_the_names_of_the_wrapper() {
    macro_rules! check {
        ($list:ident) => {
            header_has(stringify!($list), (0..).map_while($list::from_number).map(|one| format!("{one:?}")).collect())
        };
    }
    check!(Mode);
    check!(Kind);
    check!(Step);
    check!(Committed);
    check!(Phase);
    check!(Validity);
    assert!(HEADER.contains(&format!("#define SORGHEMI_LONGEST_ANSWER {LONGEST_ANSWER}\n")));
    assert!(HEADER.contains(&format!("#define SORGHEMI_MOST_STEPS {MOST_STEPS}\n")));
    assert!(HEADER.contains(&format!("#define SORGHEMI_NO_REPORT {NO_REPORT}\n")));
}
