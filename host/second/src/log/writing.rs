//! Writing entries.

use super::{Entry, Line, LINES};
use crate::hex;
use crate::lines::line_of;

/// Gives the five lines of the entry, which are right when what it holds is.
pub fn written(entry: &Entry) -> Vec<u8> {
    let written = |line: &Line| line_of(line.label(), &value(entry, *line));
    LINES.iter().flat_map(written).collect()
}

/// Gives the log of the entries.
pub fn log_of(entries: &[Entry]) -> Vec<u8> {
    entries.iter().flat_map(written).collect()
}

/// Gives the characters of the line's value.
fn value(entry: &Entry, line: Line) -> Vec<u8> {
    match line {
        Line::Call => entry.call.word().to_vec(),
        Line::Data => hex::written(&entry.data),
        Line::Answer => entry.answer.to_string().into_bytes(),
        Line::Out => hex::written(&entry.out),
        Line::Rounds => entry.rounds.to_string().into_bytes(),
    }
}
