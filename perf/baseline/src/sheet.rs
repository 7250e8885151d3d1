//! The syntax of a turn sheet.

pub const MOST_BYTES: usize = 60_000;

pub const MAP_NAMES: &[u8] = b"party call a code number d e f\n";
pub const TRACE_NAMES: &[u8] = b"party call a severity hour d e f\n";

const LETTERS: &[u8] = b"NMRWTKDHFEVULS";

/// The fields of a line; the fourth is a code or severity, the fifth a number or hour.
pub struct Line {
    pub party: i32,
    pub letter: u8,
    pub a: i32,
    pub fourth: i32,
    pub fifth: i32,
    pub d: i32,
    pub e: i32,
    pub f: i32,
}

/// The lines behind the names line, each still with its byte 10.
pub fn lines(text: &[u8]) -> impl Iterator<Item = &[u8]> {
    text.split_inclusive(|&byte| byte == b'\n')
}

impl Line {
    /// `None` if the line is malformed.
    pub fn of(line: &[u8]) -> Option<Line> {
        let mut fields = line.strip_suffix(b"\n")?.split(|&byte| byte == b' ');
        let party = value(fields.next()?)?;
        let letter = letter(fields.next()?)?;
        let mut next_value = || value(fields.next()?);
        let line = Line {
            party,
            letter,
            a: next_value()?,
            fourth: next_value()?,
            fifth: next_value()?,
            d: next_value()?,
            e: next_value()?,
            f: next_value()?,
        };
        fields.next().is_none().then_some(line)
    }
}

fn letter(field: &[u8]) -> Option<u8> {
    match field {
        [letter] if LETTERS.contains(letter) => Some(*letter),
        _ => None,
    }
}

fn value(field: &[u8]) -> Option<i32> {
    let (sign, digits) = match field {
        [b'-', digits @ ..] => (-1, digits),
        digits => (1, digits),
    };
    if !(1..=7).contains(&digits.len()) || !digits.iter().all(u8::is_ascii_digit) {
        return None;
    }
    let size = digits
        .iter()
        .fold(0, |size, digit| size * 10 + i32::from(digit - b'0'));
    Some(sign * size)
}
