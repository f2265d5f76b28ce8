//! Files that arguments name.

use crate::streams;
use std::ffi::OsStr;
use std::fs::File;
use std::io;
use std::os::unix::ffi::OsStrExt;

/// The plan in the file. It is closed again at once: where a standard descriptor was closed, the file has taken its place.
pub fn read(name: &OsStr) -> io::Result<Vec<u8>> {
    streams::read_plan(File::open(name)?)
}

/// The name on one line: characters that cannot be printed are escaped, and bytes that are no UTF-8 shown by their numbers.
pub fn shown(name: &OsStr) -> String {
    let mut text = String::new();
    let mut rest = name.as_bytes();
    loop {
        let valid = std::str::from_utf8(rest).map_or_else(|error| error.valid_up_to(), str::len);
        let (characters, others) = rest.split_at(valid);
        text.extend(String::from_utf8_lossy(characters).chars().map(escaped));
        let Some((byte, after)) = others.split_first() else { return text };
        text += &format!("\\x{byte:02x}");
        rest = after;
    }
}

fn escaped(character: char) -> String {
    match character {
        '\'' | '"' => character.to_string(),
        _ => character.escape_debug().to_string(),
    }
}

#[cfg(test)]
mod tests {
    use super::*;

    #[test]
    fn names_are_shown_on_one_line() {
        let told = |name: &[u8]| shown(OsStr::from_bytes(name));
        assert_eq!(told(b"examples/month/02.plan"), "examples/month/02.plan");
        assert_eq!(told("März, the 2nd's \"best\".plan".as_bytes()), "März, the 2nd's \"best\".plan");
        assert_eq!(told(b"a\nb\tc\x1b[1m\\d"), "a\\nb\\tc\\u{1b}[1m\\\\d");
        assert_eq!(told("left\u{202e}right".as_bytes()), "left\\u{202e}right");
        assert_eq!(told(b"\xff\xc3.plan\xc3"), "\\xff\\xc3.plan\\xc3");
        assert_eq!(told(b""), "");
    }
}
