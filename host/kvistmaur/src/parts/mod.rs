//! The parts of a message that have the length of the set: key, nonce and tag, each a type, so that none stands for another.

mod kept;
mod key;
mod nonce;
mod tag;

pub use key::Key;
pub use nonce::Nonce;
pub use tag::Tag;

use crate::Set;

/// The most bytes that a part has.
const LONGEST: usize = 16;

/// Whether there is a set whose parts have this length.
fn some_set_has(length: usize) -> bool {
    Set::ALL.iter().any(|set| set.key_length() == length)
}

/// Has a part made of arrays of the lengths that sets have, and of slices; a slice of another length is the named refusal.
macro_rules! made_of_bytes {
    ($part:ident, $refusal:ident) => {
        impl From<[u8; 16]> for $part {
            fn from(bytes: [u8; 16]) -> $part {
                $part::holding(&bytes)
            }
        }

        impl From<[u8; 12]> for $part {
            fn from(bytes: [u8; 12]) -> $part {
                $part::holding(&bytes)
            }
        }

        impl TryFrom<&[u8]> for $part {
            type Error = $crate::Refusal;

            fn try_from(bytes: &[u8]) -> Result<$part, $crate::Refusal> {
                if $crate::parts::some_set_has(bytes.len()) {
                    Ok($part::holding(bytes))
                } else {
                    Err($crate::Refusal::$refusal)
                }
            }
        }
    };
}
use made_of_bytes;
