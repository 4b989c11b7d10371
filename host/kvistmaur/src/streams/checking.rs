//! Checking streams.

use super::shared_calls;
use super::state::State;
use crate::answer::Call;
use crate::{boundary, Refusal, Rounds, Tag};

/// A checking: it takes the data and then the ciphertext, each in any pieces, and says at its end whether the tag is
/// right. It hands out no text.
///
/// What it holds of the key is cleared when it is dropped. It has no copy, as a [`Sealing`](crate::Sealing) has none.
///
/// ```
/// use kvistmaur::{seal, Checking, Key, Nonce, Refusal, Set};
///
/// let (key, nonce) = (Key::from([7; 16]), Nonce::from([1; 16]));
/// let mut cipher = [0; 5];
/// let sealed = seal(Set::Ascon128, &key, &nonce, b"valve 12", b"close", &mut cipher)?;
///
/// let mut checking = Checking::start(Set::Ascon128, &key, &nonce)?;
/// checking.data(b"valve 12")?;
/// for fragment in cipher.chunks(2) {
///     checking.check(fragment)?;
/// }
/// checking.finish(&sealed.tag)?;
/// # Ok::<(), Refusal>(())
/// ```
///
/// A checking that was finished is gone:
///
/// ```compile_fail,E0382
/// # use kvistmaur::{Checking, Key, Nonce, Set, Tag};
/// # let (key, nonce, tag) = (Key::from([7; 16]), Nonce::from([1; 16]), Tag::from([0; 16]));
/// let mut checking = Checking::start(Set::Ascon128, &key, &nonce).unwrap();
/// let verdict = checking.finish(&tag);
/// checking.check(b"close").unwrap();
/// ```
///
/// It hands out nothing:
///
/// ```compile_fail,E0599
/// # use kvistmaur::{Checking, Key, Nonce, Set};
/// # let (key, nonce) = (Key::from([7; 16]), Nonce::from([1; 16]));
/// let mut checking = Checking::start(Set::Ascon128, &key, &nonce).unwrap();
/// checking.open(b"close", &mut [0; 5]).unwrap();
/// ```
#[must_use = "a checking that is not finished says nothing of the message"]
pub struct Checking(State);

shared_calls!(Checking, crate::boundary::start_checking);

impl Checking {
    /// Takes a piece of the ciphertext, and gives the rounds.
    ///
    /// More than the stream's limit in all is [`Refusal::PastLimit`], which changes nothing; the stream goes on.
    pub fn check(&mut self, cipher: &[u8]) -> Result<Rounds, Refusal> {
        Call::STREAM_CHECK.read(boundary::stream_check(self.0.area(), cipher))
    }

    /// Ends the message: done, with the rounds of this call, where the tag is that of the data and the ciphertext that
    /// came.
    ///
    /// A refusal is the first that holds of [`Refusal::TagLength`] and [`Refusal::TagDiffers`].
    pub fn finish(self, tag: &Tag) -> Result<Rounds, Refusal> {
        self.0.finish(boundary::finish_checking, tag)
    }
}
