//! A field of bytes: a fixed number of places and a length.

/// Places for `N` bytes and how many of them are in use; the length may be any number.
#[derive(Clone, Debug, PartialEq, Eq)]
pub struct Field<const N: usize> {
    pub bytes: [u8; N],
    pub len: usize,
}

impl<const N: usize> Field<N> {
    /// Gives the field of length 0 whose places are all zero.
    pub fn zero() -> Self {
        Field {
            bytes: [0; N],
            len: 0,
        }
    }

    /// Gives the field that holds the given bytes, or none when there are too few places.
    pub fn of(bytes: &[u8]) -> Option<Self> {
        if bytes.len() > N {
            return None;
        }
        let mut field = Self::zero();
        field.bytes[..bytes.len()].copy_from_slice(bytes);
        field.len = bytes.len();
        Some(field)
    }

    /// Says whether the length is within the places and every place past it is zero.
    pub fn fits(&self) -> bool {
        self.len <= N && self.bytes[self.len..].iter().all(|byte| *byte == 0)
    }

    /// Gives the bytes in use of a field whose length is within its places.
    pub fn held(&self) -> &[u8] {
        &self.bytes[..self.len]
    }
}
