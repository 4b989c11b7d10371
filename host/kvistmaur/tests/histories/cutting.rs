//! Ways to cut a message into pieces.

use crate::message::Message;
use second::random::Random;

/// The lengths of the pieces of a message's data and of its text.
#[derive(PartialEq)]
pub struct Cutting {
    pub data: Vec<usize>,
    pub text: Vec<usize>,
}

impl Cutting {
    /// Any cutting of a message; pieces of no bytes are frequent.
    pub fn any(random: &mut Random, message: &Message) -> Cutting {
        let block = message.set.block;
        Cutting {
            data: cut(random, message.data.len(), block),
            text: cut(random, message.body().len(), block),
        }
    }

    /// Another cutting of the message. It has a text call only if this one has, since such a call closes the data.
    pub fn another(&self, random: &mut Random, message: &Message) -> Cutting {
        let mut other = Cutting::any(random, message);
        match (self.text.is_empty(), other.text.is_empty()) {
            (true, _) => other.text.clear(),
            (false, true) => other.text.push(0),
            (false, false) => (),
        }
        if other == *self {
            other.data.push(0);
        }
        other
    }
}

/// The pieces of bytes that have these lengths.
pub fn pieces<'a>(bytes: &'a [u8], lengths: &'a [usize]) -> impl Iterator<Item = &'a [u8]> {
    let mut rest = bytes;
    lengths.iter().map(move |length| {
        let (piece, after) = rest.split_at(*length);
        rest = after;
        piece
    })
}

/// Cuts a length into up to five pieces; for no bytes there may be none.
fn cut(random: &mut Random, length: usize, block: usize) -> Vec<usize> {
    let count = match length {
        0 => random.below(3),
        _ => 1 + random.below(5),
    };
    let mut ends: Vec<usize> = (0..count).map(|_| end(random, length, block)).collect();
    if let Some(last) = ends.last_mut() {
        *last = length;
    }
    ends.sort_unstable();
    let starts = [0].into_iter().chain(ends.clone());
    starts.zip(&ends).map(|(start, end)| end - start).collect()
}

/// A place to cut at: any, at an edge of a block, or before all bytes.
fn end(random: &mut Random, length: usize, block: usize) -> usize {
    let any = random.below(length + 1);
    [any, any, any, any / block * block, 0][random.below(5)]
}
