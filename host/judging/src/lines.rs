//! Records of either form as lines that can be put wrong.

use crate::message::right_of;
use crate::text::{number_among, Kind, Text};
use second::cipher::{Set, SETS};
use second::make::lines_of;
use second::record::{Form, Line, Record};

pub use crate::text::{column, label};

/// The lines that hold bytes.
pub const HEX: [Line; 6] = [
    Line::Key,
    Line::Nonce,
    Line::Ad,
    Line::Text,
    Line::Cipher,
    Line::Tag,
];

/// The lines whose bytes have the set's length.
pub const KEYED: [Line; 3] = [Line::Key, Line::Nonce, Line::Tag];

/// The lines that hold up to 256 bytes.
pub const UP_TO_256: [Line; 3] = [Line::Ad, Line::Text, Line::Cipher];

/// The beginning of a first line by which a record is of form 2.
const FORM: &[u8] = b"form=";

/// The lines of a record, each with its line feed.
pub type Lines = Text<Line>;

impl Kind for Line {
    fn beginning(self) -> &'static [u8] {
        match self {
            Line::Form => FORM,
            _ => self.label(),
        }
    }
}

impl Lines {
    /// Gives the lines of a record that is right in the form.
    pub fn of(form: Form, record: &Record) -> Lines {
        let bytes = lines_of(form, record).expect("the record is right in the form");
        Text::split(form.lines(), &bytes)
    }

    /// Gives the right record of a pseudo-random message with data and text of these lengths, in form 2 of a chip that they choose.
    pub fn right(form: Form, set: &Set, ad: usize, text: usize) -> Lines {
        let mut record = right_of(set, ad, text);
        if form == Form::One {
            record.chip = 0;
        }
        Lines::of(form, &record)
    }

    /// Gives a short right record with no empty field; sets 1 and 2 take turns by the number.
    pub fn short(form: Form, number: usize) -> Lines {
        Lines::right(form, &SETS[number % 2], 3, 5)
    }

    /// Gives the lines with this chip, where the form has a line for it.
    pub fn with_chip(&self, chip: u64) -> Lines {
        if !self.kinds().contains(&Line::Chip) {
            return self.clone();
        }
        self.with_value(Line::Chip, chip.to_string())
    }
}

/// Gives the number that a line has in a form, counted from 1.
pub fn number(form: Form, line: Line) -> usize {
    number_among(form.lines(), line)
}

/// Gives the column of the fault where a line is right up to this place, counted from 0, and wrong there: a first line that does not begin
/// `form=` is form 1's, and has no right character.
pub fn fault_column(line: Line, place: usize) -> usize {
    match line {
        Line::Form if place < FORM.len() => 1,
        _ => place + 1,
    }
}
