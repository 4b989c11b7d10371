//! What a sealing gives beside the ciphertext.

use crate::{Rounds, Tag};

/// The tag of a message, without which nobody can open it, and the rounds.
#[derive(Clone, Copy, Debug, PartialEq, Eq)]
#[must_use = "without its tag a message can not be opened"]
#[non_exhaustive]
pub struct Sealed {
    /// The tag, which is sent with the ciphertext.
    pub tag: Tag,
    /// The rounds of the whole message, or of the call that finished a stream.
    pub rounds: Rounds,
}
