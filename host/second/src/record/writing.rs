//! Writing one record to the front of lent bytes.

use super::{first_broken_line, Broken, Form, Line, Record};
use crate::hex;
use crate::lines::line_of;

/// Why a record wasn't written, or wasn't moved.
#[derive(Clone, Copy, Debug, PartialEq, Eq)]
pub enum Refused {
    /// The record has no right form, first here; the column is 0 unless it was being read.
    Broken(Broken),
    /// The record is in form, but form 1 has no line for its chip, which isn't 0.
    Chip,
    /// The output is shorter than the record.
    Short,
}

impl Refused {
    /// Gives the answer number of the refusal.
    pub fn number(&self) -> u64 {
        match self {
            Refused::Broken(_) => 10,
            Refused::Chip => 11,
            Refused::Short => 6,
        }
    }
}

/// Writes the record in the form and gives its length in bytes; a refusal leaves the output as it was.
pub fn write(form: Form, record: &Record, out: &mut [u8]) -> Result<usize, Refused> {
    if let Some(line) = first_broken_line(form, record) {
        return Err(Refused::Broken(Broken { line, column: 0 }));
    }
    if form == Form::One && record.chip != 0 {
        return Err(Refused::Chip);
    }
    let whole = lines(form, record);
    if out.len() < whole.len() {
        return Err(Refused::Short);
    }
    out[..whole.len()].copy_from_slice(&whole);
    Ok(whole.len())
}

/// Gives the lines of a record that is right in the form, one after another.
fn lines(form: Form, record: &Record) -> Vec<u8> {
    let written = |line: &Line| line_of(line.label(), &value(record, *line));
    form.lines().iter().flat_map(written).collect()
}

/// Gives the characters of the line's value.
fn value(record: &Record, line: Line) -> Vec<u8> {
    match line {
        Line::Form => Vec::new(),
        Line::Set => record.set.to_string().into_bytes(),
        Line::Chip => record.chip.to_string().into_bytes(),
        Line::Key => hex::written(record.key.held()),
        Line::Nonce => hex::written(record.nonce.held()),
        Line::Ad => hex::written(record.ad.held()),
        Line::Text => hex::written(record.text.held()),
        Line::Cipher => hex::written(record.cipher.held()),
        Line::Tag => hex::written(record.tag.held()),
        Line::Rounds => record.rounds.to_string().into_bytes(),
    }
}
