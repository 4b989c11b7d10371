//! Reading one entry from the front of any bytes.

use super::{Line, LINES};
use crate::cipher::Set;
use crate::formula::rounds_by_formula;
use crate::hex::Case::Upper;
use crate::lines::{begins, field, hex_bytes, take_line, take_lines, Good};
use crate::record::{Broken, Field, Record, MOST_BYTES};

/// Gives the record of the set that the entry at the front tells and how many bytes it took, or where it first breaks.
///
/// The entry has to have the given count.
pub fn read(set: &Set, count: u64, bytes: &[u8]) -> Result<(Record, usize), Broken> {
    let mut record = Record::zero();
    record.set = set.number;
    let taken = take_lines(&LINES, bytes, |line, text| {
        let take = |value: &[u8]| take_value(&mut record, set, count, line, value);
        take_line(line.label(), text, take)
    })?;
    record.rounds = rounds_by_formula(set, record.ad.len, record.text.len);
    Ok((record, taken))
}

/// Puts the value at the front, unless it is the count, into the record and gives its length in characters.
fn take_value(
    record: &mut Record,
    set: &Set,
    count: u64,
    line: Line,
    text: &[u8],
) -> Result<usize, Good> {
    let own = set.key;
    let length;
    match line {
        Line::Count => length = take_count(count, text)?,
        Line::Key => (record.key, length) = field(Upper, text, own, own)?,
        Line::Nonce => (record.nonce, length) = field(Upper, text, own, own)?,
        Line::Pt => (record.text, length) = field(Upper, text, 0, MOST_BYTES)?,
        Line::Ad => (record.ad, length) = field(Upper, text, 0, MOST_BYTES)?,
        Line::Ct => (record.cipher, record.tag, length) = cipher_and_tag(own, text)?,
        Line::Empty => length = 0,
    }
    Ok(length)
}

/// Makes sure that the count stands at the front and gives its length in digits.
fn take_count(count: u64, text: &[u8]) -> Result<usize, Good> {
    let digits = count.to_string();
    begins(text, digits.as_bytes())?;
    Ok(digits.len())
}

/// Gives the cipher at the front, the tag of `own` bytes behind it, and the length of both in characters.
fn cipher_and_tag(own: usize, text: &[u8]) -> Result<(Field<256>, Field<16>, usize), Good> {
    let (bytes, length) = hex_bytes(Upper, text, own, own + MOST_BYTES)?;
    let (cipher, tag) = bytes.split_at(bytes.len() - own);
    let cipher = Field::of(cipher).expect("no more bytes than places");
    let tag = Field::of(tag).expect("no more bytes than places");
    Ok((cipher, tag, length))
}
