//! Keys.

use super::made_of_bytes;
use crate::boundary;
use std::fmt;

/// A key: it is not shown, and is cleared when it is dropped.
///
/// It is made of 16 bytes, or of 12 in set 2. They are copied into memory of its own, which a move of the key does not
/// copy again. The array or slice that they came from is the caller's to clear.
///
/// ```
/// use kvistmaur::{Key, Refusal};
///
/// let key = Key::from(*b"a key of 16 byte");
/// assert_eq!(format!("{key:?}"), "Key(..)");
///
/// let read: Vec<u8> = vec![7; 15]; // from a file, say
/// assert_eq!(Key::try_from(&read[..]).unwrap_err(), Refusal::KeyLength);
/// ```
#[derive(Clone)]
pub struct Key(Box<[u8]>);

made_of_bytes!(Key, KeyLength);

impl Key {
    /// The key of these bytes.
    fn holding(bytes: &[u8]) -> Key {
        Key(bytes.into())
    }

    /// Its bytes, for the library alone.
    pub(crate) fn bytes(&self) -> &[u8] {
        &self.0
    }
}

impl Drop for Key {
    fn drop(&mut self) {
        boundary::clear(&mut self.0);
    }
}

/// Says that it is a key, and nothing else.
impl fmt::Debug for Key {
    fn fmt(&self, to: &mut fmt::Formatter<'_>) -> fmt::Result {
        to.write_str("Key(..)")
    }
}
