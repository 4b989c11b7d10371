//! The refusals and their numbers.

use crate::Rounds;
use std::fmt;

/// Why a call was not done; of several causes, the first in the order of these variants.
#[derive(Clone, Copy, Debug, PartialEq, Eq)]
#[non_exhaustive]
pub enum Refusal {
    /// There is no set of this number. No byte has changed.
    UnknownSet,
    /// The key does not have the set's length; or, where one was to be made of bytes, no set's. No byte has changed, and
    /// no stream was started.
    KeyLength,
    /// The nonce does not have the set's length; or, where one was to be made of bytes, no set's. No byte has changed, and
    /// no stream was started.
    NonceLength,
    /// The data comes too late: it stands before the text. Nothing has changed, and the stream goes on.
    OutOfPhase,
    /// The tag does not have the set's length; or, where one was to be made of bytes, no set's. No byte has changed. A
    /// stream that was to be finished is over.
    TagLength,
    /// The data or the text would pass its limit, or a start's limit is over the largest. No byte has changed. A stream
    /// goes on, and a shorter piece can follow; a refused start gave none.
    PastLimit,
    /// The output is shorter than the text or the ciphertext. No byte has changed, and a stream goes on.
    OutputTooShort,
    /// All else fits, but the message was not sealed so.
    ///
    /// Opening a whole message left zeros where the text would have gone. A stream is over; what an
    /// [`Opening`](crate::Opening) handed out is still where it was put, and must not be used.
    TagDiffers {
        /// The rounds of the whole message, or of the call that finished a stream.
        rounds: Rounds,
    },
}

impl Refusal {
    /// The refusals that report no rounds.
    const SILENT: [Refusal; 7] = [
        Refusal::UnknownSet,
        Refusal::KeyLength,
        Refusal::NonceLength,
        Refusal::OutOfPhase,
        Refusal::TagLength,
        Refusal::PastLimit,
        Refusal::OutputTooShort,
    ];

    /// The refusal of this number that reports no rounds, if there is one.
    pub(crate) fn silent(number: u64) -> Option<Refusal> {
        let mut refusals = Refusal::SILENT.into_iter();
        refusals.find(|refusal| refusal.number() == number)
    }

    /// The number of this answer: 1 to 7, or 9. A broken state, 8, is none: the types of this crate keep states whole.
    #[must_use]
    pub const fn number(self) -> u64 {
        match self {
            Refusal::UnknownSet => 1,
            Refusal::KeyLength => 2,
            Refusal::NonceLength => 3,
            Refusal::TagLength => 4,
            Refusal::PastLimit => 5,
            Refusal::OutputTooShort => 6,
            Refusal::OutOfPhase => 7,
            Refusal::TagDiffers { .. } => 9,
        }
    }
}

impl fmt::Display for Refusal {
    fn fmt(&self, to: &mut fmt::Formatter<'_>) -> fmt::Result {
        to.write_str(match self {
            Refusal::UnknownSet => "there is no such set",
            Refusal::KeyLength => "the key does not have the set's length",
            Refusal::NonceLength => "the nonce does not have the set's length",
            Refusal::TagLength => "the tag does not have the set's length",
            Refusal::PastLimit => "the data or the text passes its limit",
            Refusal::OutputTooShort => "the output is shorter than the text",
            Refusal::OutOfPhase => "the stream takes no more data",
            Refusal::TagDiffers { .. } => "the tag differs",
        })
    }
}

impl std::error::Error for Refusal {}
