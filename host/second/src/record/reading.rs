//! Reading one record from the front of any bytes.

use super::{Broken, Form, Line, Record, MOST_BYTES, MOST_CHIP, MOST_ROUNDS};
use crate::cipher::{set_of, SETS};
use crate::hex::Case::Lower;
use crate::lines::{field, number, take_line, take_lines, Good};

/// Gives the record of the form at the front and how many bytes it took, or where it first breaks.
pub fn read(form: Form, bytes: &[u8]) -> Result<(Record, usize), Broken> {
    let mut record = Record::zero();
    let taken = take_lines(form.lines(), bytes, |line, text| {
        let take = |value: &[u8]| take_value(&mut record, line, value);
        take_line(line.label(), text, take)
    })?;
    Ok((record, taken))
}

/// Puts the value at the front into the record and gives its length in characters.
fn take_value(record: &mut Record, line: Line, text: &[u8]) -> Result<usize, Good> {
    let own = set_of(record.set).map_or(0, |set| set.key);
    let length;
    match line {
        Line::Form => length = 0,
        Line::Set => (record.set, length) = set_value(text)?,
        Line::Chip => (record.chip, length) = number(text, MOST_CHIP)?,
        Line::Key => (record.key, length) = field(Lower, text, own, own)?,
        Line::Nonce => (record.nonce, length) = field(Lower, text, own, own)?,
        Line::Ad => (record.ad, length) = field(Lower, text, 0, MOST_BYTES)?,
        Line::Text => (record.text, length) = field(Lower, text, 0, MOST_BYTES)?,
        Line::Cipher => (record.cipher, length) = field(Lower, text, 0, MOST_BYTES)?,
        Line::Tag => (record.tag, length) = field(Lower, text, own, own)?,
        Line::Rounds => (record.rounds, length) = number(text, MOST_ROUNDS)?,
    }
    Ok(length)
}

/// Gives the set number at the front and its length in characters; every set's number is one digit.
fn set_value(text: &[u8]) -> Result<(u64, usize), Good> {
    for set in &SETS {
        let digits = set.number.to_string();
        if text.starts_with(digits.as_bytes()) {
            return Ok((set.number, digits.len()));
        }
    }
    Err(0)
}
