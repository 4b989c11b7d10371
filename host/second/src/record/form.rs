//! The two forms of a record: which lines each has, in what order, and which form a text is of.

/// The form of a record's text.
#[derive(Clone, Copy, Debug, PartialEq, Eq)]
pub enum Form {
    /// Eight lines, without a chip.
    One,
    /// Ten lines, of which the first names the form and the third the chip.
    Two,
}

/// A line of a record, by what it tells.
#[derive(Clone, Copy, Debug, PartialEq, Eq)]
pub enum Line {
    Form,
    Set,
    Chip,
    Key,
    Nonce,
    Ad,
    Text,
    Cipher,
    Tag,
    Rounds,
}

/// The lines of form 1, in their order.
const LINES_1: [Line; 8] = [
    Line::Set,
    Line::Key,
    Line::Nonce,
    Line::Ad,
    Line::Text,
    Line::Cipher,
    Line::Tag,
    Line::Rounds,
];

/// The lines of form 2, in their order.
const LINES_2: [Line; 10] = [
    Line::Form,
    Line::Set,
    Line::Chip,
    Line::Key,
    Line::Nonce,
    Line::Ad,
    Line::Text,
    Line::Cipher,
    Line::Tag,
    Line::Rounds,
];

impl Form {
    /// Gives the lines of the form, in their order.
    pub fn lines(self) -> &'static [Line] {
        match self {
            Form::One => &LINES_1,
            Form::Two => &LINES_2,
        }
    }
}

impl Line {
    /// Gives the characters before the line's value; the form line is all label, as it has one spelling.
    pub fn label(self) -> &'static [u8] {
        match self {
            Line::Form => b"form=2",
            Line::Set => b"set=",
            Line::Chip => b"chip=",
            Line::Key => b"key=",
            Line::Nonce => b"nonce=",
            Line::Ad => b"ad=",
            Line::Text => b"text=",
            Line::Cipher => b"cipher=",
            Line::Tag => b"tag=",
            Line::Rounds => b"rounds=",
        }
    }
}

/// Gives the form that the first line at the front of any bytes is taken to be of.
pub fn form_of(bytes: &[u8]) -> Form {
    if bytes.starts_with(b"form=") {
        Form::Two
    } else {
        Form::One
    }
}
