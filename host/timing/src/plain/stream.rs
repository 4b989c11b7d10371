//! Streams in any set, with the model's answers.

use super::pieces::InPieces;
use super::sets::{unknown, Ascon128, Ascon128V12, Ascon128aV12, Ascon96};
use kvistmaur::{Refusal, Rounds, Set};

/// A stream in one of the sets.
pub enum Stream {
    Ascon128(<Ascon128 as InPieces>::Stream),
    Ascon96(<Ascon96 as InPieces>::Stream),
    Ascon128V12(<Ascon128V12 as InPieces>::Stream),
    Ascon128aV12(<Ascon128aV12 as InPieces>::Stream),
}

/// Makes a call on the stream of whatever set it is.
macro_rules! in_its_set {
    ($stream:expr, $pieces:ident => $call:expr) => {
        match $stream {
            Stream::Ascon128($pieces) => $call,
            Stream::Ascon96($pieces) => $call,
            Stream::Ascon128V12($pieces) => $call,
            Stream::Ascon128aV12($pieces) => $call,
        }
    };
}

impl Stream {
    /// Starts a stream.
    pub fn start(set: Set, limit: usize, key: &[u8], nonce: &[u8]) -> Result<Stream, Refusal> {
        match set {
            Set::Ascon128 => Ascon128::pieces(limit, key, nonce).map(Stream::Ascon128),
            Set::Ascon96 => Ascon96::pieces(limit, key, nonce).map(Stream::Ascon96),
            Set::Ascon128V12 => Ascon128V12::pieces(limit, key, nonce).map(Stream::Ascon128V12),
            Set::Ascon128aV12 => Ascon128aV12::pieces(limit, key, nonce).map(Stream::Ascon128aV12),
            other => unknown(other),
        }
    }

    /// Takes a piece of the data.
    pub fn data(&mut self, data: &[u8]) -> Result<Rounds, Refusal> {
        in_its_set!(self, pieces => pieces.data(data))
    }

    /// Seals a piece of the text.
    pub fn seal(&mut self, text: &[u8], out: &mut [u8]) -> Result<Rounds, Refusal> {
        in_its_set!(self, pieces => pieces.seal(text, out))
    }

    /// Takes a piece of the ciphertext that is to be checked.
    pub fn check(&mut self, cipher: &[u8]) -> Result<Rounds, Refusal> {
        in_its_set!(self, pieces => pieces.check(cipher))
    }

    /// Opens a piece of the ciphertext.
    pub fn open(&mut self, cipher: &[u8], out: &mut [u8]) -> Result<Rounds, Refusal> {
        in_its_set!(self, pieces => pieces.open(cipher, out))
    }

    /// Ends a sealing: puts the tag into a place of its length, and gives the rounds of the end.
    pub fn tag(self, tag: &mut [u8]) -> Rounds {
        in_its_set!(self, pieces => {
            let (ours, rounds) = pieces.tag();
            tag.copy_from_slice(&ours);
            rounds
        })
    }

    /// Ends a checking or an opening, and compares its tag with another.
    pub fn finish(self, tag: &[u8]) -> Result<Rounds, Refusal> {
        in_its_set!(self, pieces => pieces.finish(tag))
    }
}
