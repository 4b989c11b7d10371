//! Bytes of a set's length, kept in place.

use super::LONGEST;
use std::fmt;

/// The bytes of a nonce or a tag, with zeros behind them.
#[derive(Clone, Copy, PartialEq, Eq, Hash)]
pub struct Kept {
    pub all: [u8; LONGEST],
    pub length: usize,
}

impl Kept {
    /// These bytes, of which there are 16 at most.
    pub fn holding(bytes: &[u8]) -> Kept {
        let mut kept = Kept::zeros(bytes.len());
        kept.get_mut().copy_from_slice(bytes);
        kept
    }

    /// So many zeros.
    pub fn zeros(length: usize) -> Kept {
        let all = [0; LONGEST];
        Kept { all, length }
    }

    /// The bytes, to be read.
    pub fn get(&self) -> &[u8] {
        &self.all[..self.length]
    }

    /// The bytes, to be written.
    pub fn get_mut(&mut self) -> &mut [u8] {
        &mut self.all[..self.length]
    }

    /// Writes a name and the bytes behind it, in hexadecimal digits.
    pub fn write(&self, name: &str, to: &mut fmt::Formatter<'_>) -> fmt::Result {
        write!(to, "{name}(")?;
        for byte in self.get() {
            write!(to, "{byte:02x}")?;
        }
        to.write_str(")")
    }
}
