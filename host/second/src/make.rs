//! Making right bench records with our own sealing.

use crate::calls::seal;
use crate::cipher::set_of;
use crate::record::{write, Field, Form, Record, Refused, LONGEST_2};

/// Why no record could be made.
#[derive(Clone, Copy, Debug, PartialEq, Eq)]
pub enum Unmade {
    /// Sealing answered this number.
    Answer(u64),
    /// The message is longer than a record can hold; the number is that of its first such line in form 1.
    Line(u64),
}

/// Gives the record of a message with our cipher, tag and rounds, and with chip 0.
pub fn right_record(
    set: u64,
    key: &[u8],
    nonce: &[u8],
    ad: &[u8],
    text: &[u8],
) -> Result<Record, Unmade> {
    let mut cipher = vec![0; text.len()];
    let mut tag = vec![0; set_of(set).map_or(0, |known| known.key)];
    let answer = seal(set, key, nonce, ad, text, &mut cipher, &mut tag);
    if answer.number != 0 {
        return Err(Unmade::Answer(answer.number));
    }
    Ok(Record {
        set,
        chip: 0,
        key: Field::of(key).ok_or(Unmade::Line(2))?,
        nonce: Field::of(nonce).ok_or(Unmade::Line(3))?,
        ad: Field::of(ad).ok_or(Unmade::Line(4))?,
        text: Field::of(text).ok_or(Unmade::Line(5))?,
        cipher: Field::of(&cipher).ok_or(Unmade::Line(6))?,
        tag: Field::of(&tag).ok_or(Unmade::Line(7))?,
        rounds: answer.rounds,
    })
}

/// Gives the lines of a record in the form, or the refusal of the writer.
pub fn lines_of(form: Form, record: &Record) -> Result<Vec<u8>, Refused> {
    // What suffices for form 2 suffices for form 1.
    let mut out = vec![0; LONGEST_2];
    let length = write(form, record, &mut out)?;
    out.truncate(length);
    Ok(out)
}
