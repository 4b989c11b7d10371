//! Bytes lent out of the middle of a longer stretch, so that a write beyond either end shows.

use std::ops::Range;

/// The bytes kept on each side of the lent ones.
const GUARD: usize = 32;

/// A stretch of memory and the part of it that is lent.
#[derive(Clone, PartialEq)]
pub struct Lent {
    all: Vec<u8>,
    part: Range<usize>,
}

impl Lent {
    /// Lends a copy of the bytes, `shift` places further back than the guard alone would put them.
    pub fn holding(bytes: &[u8], shift: usize) -> Lent {
        let mut lent = Lent::room(bytes.len(), shift);
        lent.get_mut().copy_from_slice(bytes);
        lent
    }

    /// Lends as many bytes as said, which hold a pattern without zeros.
    pub fn room(length: usize, shift: usize) -> Lent {
        let start = GUARD + shift;
        let pattern = |place: usize| (place % 251) as u8 + 1;
        Lent {
            all: (0..start + length + GUARD).map(pattern).collect(),
            part: start..start + length,
        }
    }

    /// Lends no bytes, by a pointer that leads nowhere.
    pub fn dangling() -> Lent {
        let all = Vec::new();
        assert_eq!(all.as_ptr() as usize, 1, "an empty vector has no memory");
        Lent { all, part: 0..0 }
    }

    /// The lent bytes, to be read.
    pub fn get(&self) -> &[u8] {
        &self.all[self.part.clone()]
    }

    /// The lent bytes, to be written.
    pub fn get_mut(&mut self) -> &mut [u8] {
        &mut self.all[self.part.clone()]
    }

    /// The first place at which two stretches differ, counted from the lent part's start.
    pub fn difference(&self, other: &Lent) -> Option<isize> {
        if self == other {
            return None;
        }
        let place = self.all.iter().zip(&other.all).position(|(a, b)| a != b)?;
        Some(place as isize - self.part.start as isize)
    }
}
