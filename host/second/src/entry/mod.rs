//! Entries of published test files: their lines, reading one into a record and writing one from it.

mod reading;
mod writing;

pub use reading::read;
pub use writing::written;

/// A line of an entry, by what it tells.
#[derive(Clone, Copy, Debug, PartialEq, Eq)]
enum Line {
    /// The entry's place in its file, counted from 1.
    Count,
    Key,
    Nonce,
    /// The text.
    Pt,
    /// The associated data.
    Ad,
    /// The cipher and, behind it, the tag.
    Ct,
    /// Nothing; it ends the entry.
    Empty,
}

/// The lines of an entry, in their order.
const LINES: [Line; 7] = [
    Line::Count,
    Line::Key,
    Line::Nonce,
    Line::Pt,
    Line::Ad,
    Line::Ct,
    Line::Empty,
];

impl Line {
    /// Gives the characters before the line's value.
    fn label(self) -> &'static [u8] {
        match self {
            Line::Count => b"Count = ",
            Line::Key => b"Key = ",
            Line::Nonce => b"Nonce = ",
            Line::Pt => b"PT = ",
            Line::Ad => b"AD = ",
            Line::Ct => b"CT = ",
            Line::Empty => b"",
        }
    }
}
