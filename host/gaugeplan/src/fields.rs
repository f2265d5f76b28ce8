//! The fields of a line, and what keeps one from being a number (R142, R143).

/// What is wrong, at which column, and how to mend it.
#[derive(Debug, PartialEq, Eq)]
pub struct Finding {
    /// Counted from 1, in bytes.
    pub column: usize,
    pub what: String,
    pub repair: String,
}

pub fn finding(column: usize, what: impl Into<String>, repair: impl Into<String>) -> Finding {
    Finding { column, what: what.into(), repair: repair.into() }
}

/// A field and the column of its first byte.
#[derive(Clone, Copy, Debug)]
pub struct Field<'a> {
    pub column: usize,
    pub bytes: &'a [u8],
}

/// The fields, with one space between.
pub fn split(line: &[u8]) -> Vec<Field<'_>> {
    let mut column = 1;
    let mut fields = Vec::new();
    for bytes in line.split(|&byte| byte == b' ') {
        fields.push(Field { column, bytes });
        column += bytes.len() + 1;
    }
    fields
}

/// Which numbers a field may hold, and what it is called.
#[derive(Clone, Copy)]
pub struct Number {
    pub name: &'static str,
    /// Heights and parameters may be below 0.
    pub signed: bool,
}

pub const fn signed(name: &'static str) -> Number {
    Number { name, signed: true }
}

pub const fn plain(name: &'static str) -> Number {
    Number { name, signed: false }
}

/// The number in the field, or what keeps it from being one.
pub fn number(field: Field, number: Number) -> Result<i64, Finding> {
    let Number { name, signed } = number;
    let Field { column, bytes } = field;
    let minus = bytes.first() == Some(&b'-');
    let digits = bytes.get(usize::from(minus)..).unwrap_or_default();
    let at_digits = column + usize::from(minus);
    if bytes == b"-" {
        let repair = format!("write a number; `-` stands only for a cell that a job does not have, and this is a {name}");
        return Err(finding(column, format!("`-` stands for the {name}"), repair));
    }
    if bytes.first() == Some(&b'+') {
        return Err(finding(column, format!("the {name} has a plus sign"), "take the plus sign out"));
    }
    if minus && !signed {
        let repair = "take the minus sign out; only heights and parameters may have one";
        return Err(finding(column, format!("the {name} has a minus sign"), repair));
    }
    if let Some(place) = digits.iter().position(|byte| !byte.is_ascii_digit()) {
        return Err(no_digit(at_digits + place, digits, place, name));
    }
    if minus && digits == b"0" {
        return Err(finding(column, format!("the {name} is a minus zero"), "write 0"));
    }
    if digits.len() > 1 && digits.first() == Some(&b'0') {
        return Err(finding(at_digits, format!("the {name} has a leading zero"), "take leading zeros out"));
    }
    value(digits, minus).ok_or_else(|| out_of_range(column, name, minus))
}

fn no_digit(column: usize, digits: &[u8], place: usize, name: &str) -> Finding {
    let byte = digits.get(place).copied().unwrap_or_default();
    let what = format!("`{}` is no digit, so the {name} is no number", char::from(byte));
    let repair = match byte {
        b'.' | b',' if place > 0 => "write a whole number, without point or comma",
        b';' => "write one space between fields, and nothing else",
        _ => "write a whole number in base ten",
    };
    finding(column, what, repair)
}

/// Digits without a leading zero, within 32 signed bits.
fn value(digits: &[u8], minus: bool) -> Option<i64> {
    let size: i64 = std::str::from_utf8(digits).ok()?.parse().ok()?;
    let value = if minus { -size } else { size };
    i32::try_from(value).ok().map(i64::from)
}

fn out_of_range(column: usize, name: &str, minus: bool) -> Finding {
    let (side, limit) = if minus { ("below", "-2147483648") } else { ("above", "2147483647") };
    finding(column, format!("the {name} is {side} {limit}"), "write a number that fits into 32 bits with their sign")
}

#[cfg(test)]
mod tests {
    use super::*;

    fn told(text: &str, kind: Number) -> (usize, String) {
        let found = number(Field { column: 3, bytes: text.as_bytes() }, kind).unwrap_err();
        (found.column, found.what)
    }

    #[test]
    fn numbers_are_read_to_their_limits() {
        let read = |text: &str, kind| number(Field { column: 1, bytes: text.as_bytes() }, kind).unwrap();
        assert_eq!(read("-2147483648", signed("height")), -2_147_483_648);
        assert_eq!(read("2147483647", plain("cell")), 2_147_483_647);
        assert_eq!(read("0", plain("cell")), 0);
    }

    #[test]
    fn each_reason_is_told_at_its_column() {
        let height = signed("height");
        assert_eq!(told("007", height), (3, "the height has a leading zero".into()));
        assert_eq!(told("-007", height), (4, "the height has a leading zero".into()));
        assert_eq!(told("-0", height), (3, "the height is a minus zero".into()));
        assert_eq!(told("+7", height), (3, "the height has a plus sign".into()));
        assert_eq!(told("-7", plain("cell")), (3, "the cell has a minus sign".into()));
        assert_eq!(told("-", height), (3, "`-` stands for the height".into()));
        assert_eq!(told("15x0", height), (5, "`x` is no digit, so the height is no number".into()));
        assert_eq!(told("--7", height), (4, "`-` is no digit, so the height is no number".into()));
        assert_eq!(told("2147483648", height), (3, "the height is above 2147483647".into()));
        assert_eq!(told("-2147483649", height), (3, "the height is below -2147483648".into()));
        assert_eq!(told(&"9".repeat(99), plain("job")), (3, "the job is above 2147483647".into()));
    }

    #[test]
    fn fields_know_their_columns() {
        let fields = split(b"4 1400 0");
        assert_eq!(fields.iter().map(|field| field.column).collect::<Vec<_>>(), [1, 3, 8]);
    }
}
