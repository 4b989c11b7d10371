//! Tags.

use super::kept::Kept;
use super::made_of_bytes;
use std::fmt;

/// A tag, which goes with a ciphertext and shows that nobody has changed it: 16 bytes, or 12 in set 2.
///
/// Two tags are compared without a stop at the first byte that differs. That is how the code is written; how long it
/// takes is not promised. Don't compare tags to judge a message: [`open`](crate::open) and the finish of a
/// [`Checking`](crate::Checking) do.
///
/// ```
/// use kvistmaur::{Refusal, Tag};
///
/// let tag = Tag::from([0xa5; 12]);
/// assert_eq!(tag.as_ref(), [0xa5; 12]);
/// assert_eq!(format!("{tag:?}"), "Tag(a5a5a5a5a5a5a5a5a5a5a5a5)");
/// assert_eq!(Tag::try_from(&[0; 15][..]), Err(Refusal::TagLength));
/// ```
#[derive(Clone, Copy)]
pub struct Tag(Kept);

made_of_bytes!(Tag, TagLength);

impl Tag {
    /// The tag of these bytes.
    fn holding(bytes: &[u8]) -> Tag {
        Tag(Kept::holding(bytes))
    }

    /// A place of this length, for a sealing to put its tag into.
    pub(crate) fn place(length: usize) -> Tag {
        Tag(Kept::zeros(length))
    }

    /// Its bytes, to be written.
    pub(crate) fn as_mut(&mut self) -> &mut [u8] {
        self.0.get_mut()
    }
}

impl AsRef<[u8]> for Tag {
    fn as_ref(&self) -> &[u8] {
        self.0.get()
    }
}

impl PartialEq for Tag {
    fn eq(&self, other: &Tag) -> bool {
        let pairs = self.0.all.iter().zip(&other.0.all);
        let difference = pairs.fold(0, |all, (one, two)| all | (one ^ two));
        (difference == 0) & (self.0.length == other.0.length)
    }
}

impl Eq for Tag {}

impl fmt::Debug for Tag {
    fn fmt(&self, to: &mut fmt::Formatter<'_>) -> fmt::Result {
        self.0.write("Tag", to)
    }
}
