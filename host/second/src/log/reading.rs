//! Reading entries: one from the front of any bytes, or those of a log in turn.

use super::{Call, Entry, Line, CALLS, LINES, MOST_NUMBER};
use crate::hex::Case::Lower;
use crate::lines::{begins, hex_bytes, number, take_line, take_lines, Good};
use crate::record::{Broken, MOST_BYTES};

/// A log that is being read: its bytes and the place in them where the next entry starts.
#[derive(Clone, Copy, Debug, PartialEq, Eq)]
pub struct Log<'a> {
    bytes: &'a [u8],
    place: usize,
}

impl<'a> Log<'a> {
    /// Gives the log of the given bytes, of which none has been read.
    pub fn new(bytes: &'a [u8]) -> Log<'a> {
        Log { bytes, place: 0 }
    }

    /// Gives how many bytes have been read.
    pub fn place(&self) -> usize {
        self.place
    }

    /// Takes the next entry, or none where the log ends; a broken one isn't taken, and this is where it first breaks.
    pub fn take_entry(&mut self) -> Result<Option<Entry>, Broken> {
        if self.place == self.bytes.len() {
            return Ok(None);
        }
        let (entry, taken) = read(&self.bytes[self.place..])?;
        self.place += taken;
        Ok(Some(entry))
    }
}

/// Gives the entry at the front and how many bytes it took, or where it first breaks.
pub fn read(bytes: &[u8]) -> Result<(Entry, usize), Broken> {
    // The first line puts its own call here before any other line is read.
    let mut entry = Entry {
        call: Call::Finish,
        data: Vec::new(),
        answer: 0,
        out: Vec::new(),
        rounds: 0,
    };
    let taken = take_lines(&LINES, bytes, |line, text| {
        let take = |value: &[u8]| take_value(&mut entry, line, value);
        take_line(line.label(), text, take)
    })?;
    Ok((entry, taken))
}

/// Puts the value at the front into the entry and gives its length in characters.
fn take_value(entry: &mut Entry, line: Line, text: &[u8]) -> Result<usize, Good> {
    let (fewest, most) = entry.call.fewest_and_most();
    let length;
    match line {
        Line::Call => (entry.call, length) = call_value(text)?,
        Line::Data => (entry.data, length) = hex_bytes(Lower, text, fewest, most)?,
        Line::Answer => (entry.answer, length) = number(text, MOST_NUMBER)?,
        Line::Out => (entry.out, length) = hex_bytes(Lower, text, 0, MOST_BYTES)?,
        Line::Rounds => (entry.rounds, length) = number(text, MOST_NUMBER)?,
    }
    Ok(length)
}

/// Gives the call whose word stands at the front and the word's length in characters.
fn call_value(text: &[u8]) -> Result<(Call, usize), Good> {
    let mut good = 0;
    for call in CALLS {
        match begins(text, call.word()) {
            Ok(()) => return Ok((call, call.word().len())),
            Err(so_far) => good = good.max(so_far),
        }
    }
    Err(good)
}
