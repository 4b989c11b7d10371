//! Logs of a chip's stream calls: what an entry holds, its lines, reading and writing.

mod reading;
mod writing;

pub use reading::{read, Log};
pub use writing::{log_of, written};

use crate::cipher::set_of;
use crate::record::{MOST_BYTES, MOST_ROUNDS};

/// The largest answer and the largest rounds: both are written as the rounds of a record are.
pub const MOST_NUMBER: u64 = MOST_ROUNDS;

/// A call of a sealing stream; W12 names starts in sets 1 and 2 only, and W5 adds none.
#[derive(Clone, Copy, Debug, PartialEq, Eq)]
pub enum Call {
    /// A start in set 1.
    Start1,
    /// A start in set 2.
    Start2,
    /// A piece of the associated data.
    Ad,
    /// A piece of the text.
    Text,
    Finish,
}

/// All calls.
pub const CALLS: [Call; 5] = [
    Call::Start1,
    Call::Start2,
    Call::Ad,
    Call::Text,
    Call::Finish,
];

impl Call {
    /// Gives the word for the call in a log; none of the words begins another.
    pub fn word(self) -> &'static [u8] {
        match self {
            Call::Start1 => b"start1",
            Call::Start2 => b"start2",
            Call::Ad => b"ad",
            Call::Text => b"text",
            Call::Finish => b"finish",
        }
    }

    /// Gives the fewest and the most bytes of data that the call has in a log.
    fn fewest_and_most(self) -> (usize, usize) {
        let key_and_nonce = |set: u64| {
            let length = 2 * set_of(set).expect("a known set").key;
            (length, length)
        };
        match self {
            Call::Start1 => key_and_nonce(1),
            Call::Start2 => key_and_nonce(2),
            Call::Ad | Call::Text => (0, MOST_BYTES),
            Call::Finish => (0, 0),
        }
    }
}

/// What a log tells of one call; it may also hold what no log can.
#[derive(Clone, Debug, PartialEq, Eq)]
pub struct Entry {
    pub call: Call,
    /// What the call was handed: a start's key and then its nonce, or a piece.
    pub data: Vec<u8>,
    pub answer: u64,
    /// What the call gave out: a piece of ciphertext, or a tag.
    pub out: Vec<u8>,
    pub rounds: u64,
}

/// A line of an entry, by what it tells.
#[derive(Clone, Copy, Debug, PartialEq, Eq)]
enum Line {
    Call,
    Data,
    Answer,
    Out,
    Rounds,
}

/// The lines of an entry, in their order.
const LINES: [Line; 5] = [
    Line::Call,
    Line::Data,
    Line::Answer,
    Line::Out,
    Line::Rounds,
];

impl Line {
    /// Gives the characters before the line's value.
    fn label(self) -> &'static [u8] {
        match self {
            Line::Call => b"call=",
            Line::Data => b"data=",
            Line::Answer => b"answer=",
            Line::Out => b"out=",
            Line::Rounds => b"rounds=",
        }
    }
}
