//! A call, and the memory that it is lent.

use crate::common::Lent;
use crate::program::Program;
use kvistmaur::{Key, Nonce, Set, Tag};

/// Sealing or opening.
#[derive(Clone, Copy, Debug, PartialEq, Eq, PartialOrd, Ord)]
pub enum Direction {
    Seal,
    Open,
}

pub const DIRECTIONS: [Direction; 2] = [Direction::Seal, Direction::Open];

/// What a caller hands over; `body` is the text or the ciphertext.
#[derive(Clone)]
pub struct Call {
    pub direction: Direction,
    pub set: u64,
    pub key: Vec<u8>,
    pub nonce: Vec<u8>,
    pub data: Vec<u8>,
    pub body: Vec<u8>,
    /// The tag to open with, or what lies where the tag will go.
    pub tag: Vec<u8>,
    /// The length of the output.
    pub room: usize,
    /// Whether empty slices have a pointer that leads nowhere.
    pub dangling: bool,
}

/// The memory of a call: each slice by itself.
#[derive(Clone)]
pub struct Memory {
    key: Lent,
    nonce: Lent,
    data: Lent,
    body: Lent,
    tag: Lent,
    out: Lent,
}

impl Call {
    /// The memory as it is before the call, each slice shifted by what `shift` gives.
    pub fn memory(&self, mut shift: impl FnMut() -> usize) -> Memory {
        let mut lend = |bytes: &[u8]| match (bytes, self.dangling) {
            ([], true) => Lent::dangling(),
            _ => Lent::holding(bytes, shift()),
        };
        Memory {
            key: lend(&self.key),
            nonce: lend(&self.nonce),
            data: lend(&self.data),
            body: lend(&self.body),
            tag: lend(&self.tag),
            out: match (self.room, self.dangling) {
                (0, true) => Lent::dangling(),
                _ => Lent::room(self.room, shift()),
            },
        }
    }

    /// Runs the call on a program, with this memory, and gives 16 × rounds + answer.
    pub fn run(&self, program: &Program, memory: &mut Memory) -> u64 {
        let (key, nonce) = (memory.key.get(), memory.nonce.get());
        let (data, body) = (memory.data.get(), memory.body.get());
        let (tag, out) = (&mut memory.tag, memory.out.get_mut());
        match self.direction {
            Direction::Seal => (program.seal)(self.set, key, nonce, data, body, out, tag.get_mut()),
            Direction::Open => (program.open)(self.set, key, nonce, data, body, tag.get(), out),
        }
    }

    /// Whether the types can say the call. They know the sets alone, and the lengths that sets have; and the place for a sealing's tag always has the right one.
    pub fn has_types(&self) -> bool {
        let Ok(set) = Set::try_from(self.set) else {
            return false;
        };
        let tag = match self.direction {
            Direction::Seal => self.tag.len() == set.key_length(),
            Direction::Open => Tag::try_from(&self.tag[..]).is_ok(),
        };
        tag && Key::try_from(&self.key[..]).is_ok() && Nonce::try_from(&self.nonce[..]).is_ok()
    }

    /// The call in a line: its direction, its set and its lengths.
    pub fn shown(&self) -> String {
        format!(
            "{:?}, set {}, key {}, nonce {}, data {}, body {}, tag {}, output {}",
            self.direction,
            self.set,
            self.key.len(),
            self.nonce.len(),
            self.data.len(),
            self.body.len(),
            self.tag.len(),
            self.room
        )
    }
}

impl Memory {
    /// The first slice that differs, guards included, and the place counted from the slice's start.
    pub fn difference(&self, other: &Memory) -> Option<(&'static str, isize)> {
        [
            ("key", &self.key, &other.key),
            ("nonce", &self.nonce, &other.nonce),
            ("data", &self.data, &other.data),
            ("body", &self.body, &other.body),
            ("tag", &self.tag, &other.tag),
            ("output", &self.out, &other.out),
        ]
        .into_iter()
        .find_map(|(name, one, two)| Some((name, one.difference(two)?)))
    }

    /// What the output holds.
    pub fn output(&self) -> &[u8] {
        self.out.get()
    }
}
