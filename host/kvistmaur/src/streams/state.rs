//! What the streams of all directions are made of.

use crate::answer::Call;
use crate::{boundary, Key, Nonce, Refusal, Rounds, Set, Tag, STATE_LENGTH};
use std::fmt;

/// The set of an open stream, and its state, which goes into each call of the library and comes back from it.
///
/// The state holds the key. It lies in a box, so that a move leaves no copy of it, and is cleared when it is dropped.
pub struct State {
    set: Set,
    area: Box<[u8; STATE_LENGTH]>,
}

/// A start of the library.
type Start = fn(u64, u64, &[u8], &[u8], &mut [u8]) -> u64;

/// A finish of the library that compares tags.
type Finish = fn(&mut [u8], &[u8]) -> u64;

/// Where the numbers of a state that are shown begin, of which each has eight bytes; as in include/kvistmaur.h.
const PHASE: usize = 72;
const DATA_COUNT: usize = 80;
const TEXT_COUNT: usize = 88;
const LIMIT: usize = 104;

impl State {
    /// The state of a stream that was just started.
    pub fn start(
        start: Start,
        set: Set,
        limit: usize,
        key: &Key,
        nonce: &Nonce,
    ) -> Result<State, Refusal> {
        let area = Box::new([0; STATE_LENGTH]);
        let mut state = State { set, area };
        let (key, nonce) = (key.bytes(), nonce.as_ref());
        let number = start(set.number(), limit as u64, key, nonce, state.area());
        Call::START.read(number)?;
        Ok(state)
    }

    /// The bytes of the state, for a call of the library.
    pub fn area(&mut self) -> &mut [u8] {
        &mut self.area[..]
    }

    /// The bytes of the tag.
    pub fn tag_length(&self) -> usize {
        self.set.key_length()
    }

    /// Takes a piece of the data.
    pub fn data(&mut self, data: &[u8]) -> Result<Rounds, Refusal> {
        Call::STREAM_DATA.read(boundary::stream_data(self.area(), data))
    }

    /// Ends the stream with a tag that came with the message.
    pub fn finish(mut self, finish: Finish, tag: &Tag) -> Result<Rounds, Refusal> {
        Call::FINISH_WITH_TAG.read(finish(self.area(), tag.as_ref()))
    }

    /// Writes the name of a stream and how far it is.
    pub fn show(&self, name: &str, to: &mut fmt::Formatter<'_>) -> fmt::Result {
        let phase = match self.number_at(PHASE) {
            0 => "data",
            _ => "text",
        };
        to.debug_struct(name)
            .field("set", &self.set)
            .field("phase", &format_args!("{phase}"))
            .field("data", &self.number_at(DATA_COUNT))
            .field("text", &self.number_at(TEXT_COUNT))
            .field("limit", &self.number_at(LIMIT))
            .finish_non_exhaustive()
    }

    /// The number in the eight bytes from a place on.
    fn number_at(&self, place: usize) -> u64 {
        let eight = self.area[place..].iter().take(8);
        eight.fold(0, |number, byte| number << 8 | u64::from(*byte))
    }
}

impl Drop for State {
    fn drop(&mut self) {
        // Never refused: the area has the length of a state, and what it holds does not matter.
        let _ = boundary::stream_end(self.area());
    }
}
