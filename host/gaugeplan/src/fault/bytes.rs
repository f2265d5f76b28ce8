//! Bytes that stand in no line of a plan, and spaces where none may be (R142).

use super::place::Faulty;
use crate::fields::{finding, Finding};

const MARK: &[u8] = b"\xef\xbb\xbf";
const WIDE_MARKS: [&[u8]; 2] = [b"\xff\xfe", b"\xfe\xff"];
const WIDE_SPACE: &[u8] = b"\xc2\xa0";
const DASHES: [&[u8]; 3] = [b"\xe2\x88\x92", b"\xe2\x80\x93", b"\xe2\x80\x94"];

/// Carriage returns, tabs and other bytes that are neither printed characters nor spaces, each sort once.
pub fn strange(line: &Faulty) -> Vec<Finding> {
    let text = line.text;
    if line.number == 1 && text.starts_with(MARK) {
        let what = "the plan begins with a byte order mark, three bytes that some editors put before the text";
        return vec![finding(1, what, "save the file as plain text, or as UTF-8 without a byte order mark")];
    }
    if line.number == 1 && WIDE_MARKS.iter().any(|mark| text.starts_with(mark)) {
        return vec![finding(
            1,
            "the plan is written in UTF-16, with two bytes for a character",
            "save the file as plain text, or as UTF-8",
        )];
    }
    let sorts = [carriage_return(text), tab(text), control(text), beyond_ascii(text)];
    sorts.into_iter().flatten().collect()
}

fn carriage_return(text: &[u8]) -> Option<Finding> {
    let place = text.iter().position(|&byte| byte == b'\r')?;
    let what =
        if place + 1 == text.len() { "the line ends in a carriage return" } else { "a carriage return stands in the line" };
    Some(finding(place + 1, what, "end lines with a line feed alone; an editor may call that Unix line ends"))
}

fn tab(text: &[u8]) -> Option<Finding> {
    let place = text.iter().position(|&byte| byte == b'\t')?;
    Some(finding(place + 1, "a tab stands in the line", "write one space between fields, and no tabs"))
}

fn control(text: &[u8]) -> Option<Finding> {
    let place = text.iter().position(|&byte| byte.is_ascii_control() && byte != b'\r' && byte != b'\t')?;
    let byte = text.get(place)?;
    Some(finding(place + 1, format!("a byte {byte}, which is no character, stands in the line"), "take it out"))
}

fn beyond_ascii(text: &[u8]) -> Option<Finding> {
    let place = text.iter().position(|byte| !byte.is_ascii())?;
    let rest = text.get(place..)?;
    let byte = rest.first()?;
    let (what, repair) = if rest.starts_with(WIDE_SPACE) {
        ("a space that is not the plain one stands in the line".to_owned(), "write a plain space")
    } else if DASHES.iter().any(|dash| rest.starts_with(dash)) {
        ("a dash that is not the plain minus sign stands in the line".to_owned(), "write `-`")
    } else {
        (format!("a byte {byte}, which is beyond plain ASCII, stands in the line"), "write digits, plain spaces and `-` only")
    };
    Some(finding(place + 1, what, repair))
}

/// A blank line, a space at either end, or two between fields.
pub fn spaces(line: &Faulty) -> Vec<Finding> {
    let text = line.text;
    if text.is_empty() {
        return vec![finding(1, "the line is blank", "take the line out")];
    }
    if text.iter().all(|&byte| byte == b' ') {
        return vec![finding(1, "the line has spaces alone", "take the line out")];
    }
    let end = text.len() - text.iter().rev().take_while(|&&byte| byte == b' ').count();
    let start = text.iter().take_while(|&&byte| byte == b' ').count();
    let double = text.get(start..end).and_then(|inner| inner.windows(2).position(|two| two == b"  "));
    let leading = (start > 0).then(|| finding(1, "the line begins with a space", "take the space out"));
    let double = double.map(|place| finding(start + place + 2, "two spaces stand together", "write one space between fields"));
    let trailing = (end < text.len()).then(|| finding(end + 1, "the line ends in a space", "take the space out"));
    leading.into_iter().chain(double).chain(trailing).collect()
}
