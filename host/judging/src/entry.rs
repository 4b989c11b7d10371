//! Entries of published test files as lines that can be put wrong.

use crate::message::right_of;
use crate::text::{Kind, Text};
use second::cipher::Set;
use second::entry;
use second::record::Record;

/// A line of an entry, by what it tells.
#[derive(Clone, Copy, Debug, PartialEq, Eq)]
pub enum Part {
    /// The entry's place in its file, counted from 1.
    Count,
    Key,
    Nonce,
    /// The text.
    Pt,
    /// The associated data.
    Ad,
    /// The cipher and, behind it, the tag.
    Ct,
    /// Nothing; the entry ends with it.
    End,
}

/// The lines of an entry, in their order.
pub const PARTS: [Part; 7] = [
    Part::Count,
    Part::Key,
    Part::Nonce,
    Part::Pt,
    Part::Ad,
    Part::Ct,
    Part::End,
];

/// The lines that hold bytes.
pub const BYTES: [Part; 5] = [Part::Key, Part::Nonce, Part::Pt, Part::Ad, Part::Ct];

/// The lines of an entry, each with its line feed.
pub type Entry = Text<Part>;

impl Kind for Part {
    fn beginning(self) -> &'static [u8] {
        match self {
            Part::Count => b"Count = ",
            Part::Key => b"Key = ",
            Part::Nonce => b"Nonce = ",
            Part::Pt => b"PT = ",
            Part::Ad => b"AD = ",
            Part::Ct => b"CT = ",
            Part::End => b"",
        }
    }
}

impl Entry {
    /// Gives the entry of this count that tells a record.
    pub fn of(count: usize, record: &Record) -> Entry {
        Text::split(&PARTS, &entry::written(count as u64, record))
    }

    /// Gives the right entry of this count of a pseudo-random message with data and text of these lengths.
    pub fn right(set: &Set, count: usize, ad: usize, text: usize) -> Entry {
        Entry::of(count, &right_of(set, ad, text))
    }

    /// Gives a short right entry with no empty field.
    pub fn short(set: &Set, count: usize) -> Entry {
        Entry::right(set, count, 3, 5)
    }

    /// Gives the entry with a cipher of so many bytes before the tag.
    pub fn with_cipher(&self, set: &Set, length: usize) -> Entry {
        let both = self.value(Part::Ct);
        let tag = &both[both.len() - 2 * set.key..];
        self.with_value(Part::Ct, [&b"5A".repeat(length), tag].concat())
    }
}

/// Gives the short right entries up to this count, one after another.
pub fn short_up_to(set: &Set, count: usize) -> Vec<u8> {
    let entry = |count| Entry::short(set, count).bytes();
    (1..=count).flat_map(entry).collect()
}
