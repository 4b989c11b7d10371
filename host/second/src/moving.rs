//! Moving records from form 1 to form 2 and back, one at a time or a whole input.

use crate::record::{read, write, Form, Refused, LONGEST_2};
use crate::whole::each_turned;

pub use crate::whole::Moved;

/// Which way records are moved.
#[derive(Clone, Copy, Debug, PartialEq, Eq)]
pub enum Direction {
    /// From form 1 to form 2.
    Forward,
    /// From form 2 to form 1.
    Back,
}

impl Direction {
    /// Gives the form that is read and the form that is written.
    fn forms(self) -> (Form, Form) {
        match self {
            Direction::Forward => (Form::One, Form::Two),
            Direction::Back => (Form::Two, Form::One),
        }
    }
}

/// How many bytes a moved record took of the text and how many were written for it.
#[derive(Clone, Copy, Debug, PartialEq, Eq)]
pub struct Lengths {
    pub taken: usize,
    pub written: usize,
}

/// Writes the form 1 record at the front of the text as one of form 2 with chip 0; a refusal changes nothing.
pub fn forward(text: &[u8], out: &mut [u8]) -> Result<Lengths, Refused> {
    move_one(Direction::Forward, text, out)
}

/// Writes the form 2 record at the front of the text as one of form 1; a refusal changes nothing.
pub fn back(text: &[u8], out: &mut [u8]) -> Result<Lengths, Refused> {
    move_one(Direction::Back, text, out)
}

/// Writes the record at the front of the text in its new form; a refusal changes nothing.
fn move_one(direction: Direction, text: &[u8], out: &mut [u8]) -> Result<Lengths, Refused> {
    let (old, new) = direction.forms();
    let (record, taken) = read(old, text).map_err(Refused::Broken)?;
    // A record that was read in either form breaks no line of the other, so 10 is answered above.
    let written = write(new, &record, out)?;
    Ok(Lengths { taken, written })
}

/// Gives what is printed when all records of the input are moved, or nothing because one is refused.
pub fn move_all(direction: Direction, input: &[u8]) -> Moved {
    let moved = each_turned(input, |_, rest| {
        let mut room = [0; LONGEST_2];
        let Lengths { taken, written } = move_one(direction, rest, &mut room)?;
        Ok((room[..written].to_vec(), taken))
    });
    match moved {
        Ok(whole) => Moved::done(whole),
        Err((record, why)) => refused(record, why),
    }
}

/// Gives what is printed when the record with the given number is refused.
fn refused(record: u64, why: Refused) -> Moved {
    let broken = match why {
        Refused::Broken(broken) => Some(broken),
        Refused::Chip | Refused::Short => None,
    };
    Moved::refused(why.number(), Some(record), broken)
}
