//! What a call is lent.

use crate::common::Lent;

/// What a caller hands over; `piece` is data, text or ciphertext.
#[derive(Clone)]
pub struct Arguments {
    pub set: u64,
    pub limit: u64,
    pub key: Vec<u8>,
    pub nonce: Vec<u8>,
    pub state: Vec<u8>,
    pub piece: Vec<u8>,
    /// The length of the output.
    pub room: usize,
    /// The tag to finish with, or what lies where the tag will go.
    pub tag: Vec<u8>,
}

/// The memory of a call: two numbers, and each slice by itself.
#[derive(Clone)]
pub struct Memory {
    pub set: u64,
    pub limit: u64,
    pub key: Lent,
    pub nonce: Lent,
    pub state: Lent,
    pub piece: Lent,
    pub out: Lent,
    pub tag: Lent,
}

impl Arguments {
    /// The memory as it is before the call, each slice shifted by what `shift` gives. An empty one is lent by a pointer that leads nowhere.
    pub fn memory(&self, mut shift: impl FnMut() -> usize) -> Memory {
        let mut lend = |bytes: &[u8]| match bytes {
            [] => Lent::dangling(),
            _ => Lent::holding(bytes, shift()),
        };
        Memory {
            set: self.set,
            limit: self.limit,
            key: lend(&self.key),
            nonce: lend(&self.nonce),
            state: lend(&self.state),
            piece: lend(&self.piece),
            tag: lend(&self.tag),
            out: match self.room {
                0 => Lent::dangling(),
                room => Lent::room(room, shift()),
            },
        }
    }

    /// The arguments in lines: the numbers, the lengths, and the state in digits.
    pub fn shown(&self) -> String {
        let state: String = self
            .state
            .iter()
            .map(|byte| format!("{byte:02x}"))
            .collect();
        format!(
            "set {}, limit {}, key {}, nonce {}, piece {}, output {}, tag {}, state {}: {state}",
            self.set,
            self.limit,
            self.key.len(),
            self.nonce.len(),
            self.piece.len(),
            self.room,
            self.tag.len(),
            self.state.len()
        )
    }
}

impl Memory {
    /// The first slice that differs, guards included, and the place counted from the slice's start.
    pub fn difference(&self, other: &Memory) -> Option<(&'static str, isize)> {
        [
            ("key", &self.key, &other.key),
            ("nonce", &self.nonce, &other.nonce),
            ("state", &self.state, &other.state),
            ("piece", &self.piece, &other.piece),
            ("tag", &self.tag, &other.tag),
            ("output", &self.out, &other.out),
        ]
        .into_iter()
        .find_map(|(name, one, two)| Some((name, one.difference(two)?)))
    }
}
