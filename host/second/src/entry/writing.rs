//! Writing one entry.

use super::{Line, LINES};
use crate::hex::{written_in, Case};
use crate::lines::line_of;
use crate::record::Record;

/// Gives the entry with that count that tells the record, which has a right form, without its set and rounds.
pub fn written(count: u64, record: &Record) -> Vec<u8> {
    let written = |line: &Line| line_of(line.label(), &value(count, record, *line));
    LINES.iter().flat_map(written).collect()
}

/// Gives the characters of the line's value.
fn value(count: u64, record: &Record, line: Line) -> Vec<u8> {
    let digits = |bytes: &[u8]| written_in(Case::Upper, bytes);
    match line {
        Line::Count => count.to_string().into_bytes(),
        Line::Key => digits(record.key.held()),
        Line::Nonce => digits(record.nonce.held()),
        Line::Pt => digits(record.text.held()),
        Line::Ad => digits(record.ad.held()),
        Line::Ct => digits(&[record.cipher.held(), record.tag.held()].concat()),
        Line::Empty => Vec::new(),
    }
}
