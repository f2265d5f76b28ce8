//! A line as it stands, with what cannot be printed escaped, and a caret under a column.

/// How many characters of a line are shown.
const WIDTH: usize = 72;
const INDENT: &str = "    ";

/// What stands for a byte.
fn escaped(byte: u8) -> String {
    match byte {
        b'\\' => "\\\\".to_owned(),
        b' '..=b'~' => char::from(byte).to_string(),
        b'\r' => "\\r".to_owned(),
        b'\t' => "\\t".to_owned(),
        _ => format!("\\x{byte:02x}"),
    }
}

/// The line, cut where it is too long.
pub fn line(text: &[u8]) -> String {
    let (shown, _) = window(text, 1);
    format!("{INDENT}{shown}\n")
}

/// The line, and under it a caret at the column, which may be the one after the last byte.
pub fn with_caret(text: &[u8], column: usize) -> String {
    let (shown, before) = window(text, column);
    format!("{INDENT}{shown}\n{INDENT}{}^\n", " ".repeat(before))
}

/// The part of the line about the column, and how many characters stand before the column.
fn window(text: &[u8], column: usize) -> (String, usize) {
    let at = column.saturating_sub(1).min(text.len());
    let first = at.saturating_sub(WIDTH / 2);
    let mut shown = if first > 0 { "...".to_owned() } else { String::new() };
    let mut before = shown.len();
    for (place, &byte) in text.iter().enumerate().skip(first) {
        if place == at {
            before = shown.len();
        }
        if place > at && shown.len() >= WIDTH {
            shown += "...";
            break;
        }
        shown += &escaped(byte);
    }
    if at == text.len() {
        before = shown.len();
    }
    (shown, before)
}

#[cfg(test)]
mod tests {
    use super::*;

    #[test]
    fn the_caret_stands_under_its_byte() {
        assert_eq!(with_caret(b"0 1500\r", 7), "    0 1500\\r\n          ^\n");
        assert_eq!(with_caret(b"\t\xff a", 4), "    \\t\\xff a\n           ^\n");
        assert_eq!(with_caret(b"ab", 3), "    ab\n      ^\n");
        assert_eq!(with_caret(b"", 1), "    \n    ^\n");
    }

    #[test]
    fn a_long_line_is_cut_about_the_column() {
        for column in [1, 2, 40, 500, 1000, 1001] {
            let shown = with_caret(&[b'7'; 1000], column);
            let lines: Vec<&str> = shown.lines().collect();
            assert!(lines[0].len() < 90 && lines[1].len() < 90, "{shown}");
            let under = lines[0].as_bytes().get(lines[1].len() - 1);
            assert_eq!(under, (column <= 1000).then_some(&b'7'), "{shown}");
        }
    }
}
