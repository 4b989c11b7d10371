//! Bench records: what they hold, where they break a rule, reading and writing.

mod beginning;
mod field;
mod form;
mod reading;
mod writing;

pub use beginning::{may_begin, may_begin_in};
pub use field::Field;
pub use form::{form_of, Form, Line};
pub use reading::read;
pub use writing::{write, Refused};

use crate::cipher::set_of;

/// The most bytes that a written record of form 1 can have.
pub const LONGEST_1: usize = 1_688;

/// The most bytes that a written record of form 2 can have.
pub const LONGEST_2: usize = 1_706;

/// The most bytes that ad, text and cipher hold.
pub const MOST_BYTES: usize = 256;

/// The largest number of a chip.
pub const MOST_CHIP: u64 = 65_535;

/// The largest number that seven decimal digits can write.
pub const MOST_ROUNDS: u64 = 9_999_999;

/// One bench record; it may also hold what no record form allows.
#[derive(Clone, Debug, PartialEq, Eq)]
pub struct Record {
    pub set: u64,
    /// The number of the chip; form 1 has no line for it, reads it as 0 and is written with no other.
    pub chip: u64,
    pub key: Field<16>,
    pub nonce: Field<16>,
    pub ad: Field<256>,
    pub text: Field<256>,
    pub cipher: Field<256>,
    pub tag: Field<16>,
    pub rounds: u64,
}

/// Where a record first breaks a rule of its form; lines and columns count from 1.
#[derive(Clone, Copy, Debug, PartialEq, Eq)]
pub struct Broken {
    /// The number, 1 to 8 in form 1 and 1 to 10 in form 2, of the first line that breaks a rule.
    pub line: u64,
    /// The column in bytes where no right line can go on, or 0 when the record wasn't read from text.
    pub column: u64,
}

impl Record {
    /// Gives the record in which everything is zero.
    pub fn zero() -> Record {
        Record {
            set: 0,
            chip: 0,
            key: Field::zero(),
            nonce: Field::zero(),
            ad: Field::zero(),
            text: Field::zero(),
            cipher: Field::zero(),
            tag: Field::zero(),
            rounds: 0,
        }
    }
}

/// Gives the number of the first line of the form that the record holds nothing right for, if any.
pub fn first_broken_line(form: Form, record: &Record) -> Option<u64> {
    let mut lines = (1..).zip(form.lines());
    let broken = lines.find(|(_, line)| !holds(record, **line));
    broken.map(|(number, _)| number)
}

/// Says whether what the record holds for the line is right.
fn holds(record: &Record, line: Line) -> bool {
    let own = set_of(record.set).map(|set| set.key);
    let has_own_length = |field: &Field<16>| field.fits() && Some(field.len) == own;
    match line {
        Line::Form => true,
        Line::Set => own.is_some(),
        Line::Chip => record.chip <= MOST_CHIP,
        Line::Key => has_own_length(&record.key),
        Line::Nonce => has_own_length(&record.nonce),
        Line::Ad => record.ad.fits(),
        Line::Text => record.text.fits(),
        Line::Cipher => record.cipher.fits(),
        Line::Tag => has_own_length(&record.tag),
        Line::Rounds => record.rounds <= MOST_ROUNDS,
    }
}
