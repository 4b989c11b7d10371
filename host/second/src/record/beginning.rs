//! Whether bytes can still become a record, told from what a right line is and not by reading.

use super::{Form, Line, MOST_CHIP, MOST_ROUNDS};
use crate::cipher::{Set, SETS};

/// The most characters that a value can lack: those of a whole key, nonce or tag of 16 bytes.
const MOST_LACKING: usize = 32;

/// Says whether the bytes are the whole text of some record in either form, or a beginning of one.
pub fn may_begin(bytes: &[u8]) -> bool {
    may_begin_in(Form::One, bytes) || may_begin_in(Form::Two, bytes)
}

/// Says whether the bytes are the whole text of some record in the form, or a beginning of one.
pub fn may_begin_in(form: Form, bytes: &[u8]) -> bool {
    let mut lines: Vec<&[u8]> = bytes.split(|byte| *byte == b'\n').collect();
    let rest = lines
        .pop()
        .expect("any bytes have a part, if only an empty one");
    let digits = digits_asked(&lines);
    let kinds = form.lines();
    let mut pairs = kinds.iter().zip(&lines);
    let ended_well = pairs.all(|(kind, line)| is_right(*kind, line, digits));
    let none_too_many = lines.len() <= kinds.len();
    ended_well && none_too_many && may_go_on(kinds.get(lines.len()), rest, digits)
}

/// Gives how many digits the set line, if it is there, asks of key, nonce and tag.
fn digits_asked(lines: &[&[u8]]) -> usize {
    let label = Line::Set.label();
    let asked = lines.iter().find_map(|line| {
        let set = set_written(line.strip_prefix(label)?)?;
        Some(set.key * 2)
    });
    asked.unwrap_or(0)
}

/// Gives the set whose number the value is, if there is one.
fn set_written(value: &[u8]) -> Option<&'static Set> {
    let mut sets = SETS.iter();
    sets.find(|set| set.number.to_string().as_bytes() == value)
}

/// Says whether the text, without its line feed, is right as a line of that kind.
fn is_right(kind: Line, text: &[u8], digits: usize) -> bool {
    let Some(value) = text.strip_prefix(kind.label()) else {
        return false;
    };
    match kind {
        Line::Form => value.is_empty(),
        Line::Set => set_written(value).is_some(),
        Line::Chip => is_number(value, MOST_CHIP),
        Line::Key | Line::Nonce | Line::Tag => is_hex(value) && value.len() == digits,
        Line::Ad | Line::Text | Line::Cipher => {
            is_hex(value) && value.len() % 2 == 0 && value.len() <= 512
        }
        Line::Rounds => is_number(value, MOST_ROUNDS),
    }
}

/// Says whether all characters are lower-case hex digits.
fn is_hex(value: &[u8]) -> bool {
    let is_digit = |c: &u8| matches!(c, b'0'..=b'9' | b'a'..=b'f');
    value.iter().all(is_digit)
}

/// Says whether the value is just what some number up to the given one looks like when written.
fn is_number(value: &[u8], most: u64) -> bool {
    let text = String::from_utf8_lossy(value);
    let number: Option<u64> = text.parse().ok();
    number.is_some_and(|n| n <= most && n.to_string() == text)
}

/// Says whether the rest, which has no line feed, can become the next line, or is empty where none is.
fn may_go_on(next: Option<&Line>, rest: &[u8], digits: usize) -> bool {
    match next {
        Some(kind) => may_become_right(*kind, rest, digits),
        None => rest.is_empty(),
    }
}

/// Says whether the rest becomes right when what its label lacks, and then some ones, are added.
fn may_become_right(kind: Line, rest: &[u8], digits: usize) -> bool {
    let lacking = kind.label().get(rest.len()..).unwrap_or_default();
    let mut text = [rest, lacking].concat();
    // A one is a set, a chip, a hex digit and a number of rounds, so a value that lacks anything can
    // take ones.
    for _ in 0..=MOST_LACKING {
        if is_right(kind, &text, digits) {
            return true;
        }
        text.push(b'1');
    }
    false
}
