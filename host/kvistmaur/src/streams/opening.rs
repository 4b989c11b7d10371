//! Opening streams.

use super::shared_calls;
use super::state::State;
use crate::answer::Call;
use crate::{boundary, Refusal, Rounds, Tag};

/// An opening: it takes the data and then the ciphertext, each in any pieces, hands out the text, and says at its end
/// whether the tag is right.
///
/// **What it hands out is unverified until [`finish`](Opening::finish) is done.** Up to then it is the decryption of
/// whatever came. A finish that refuses does not take it back and puts no zeros there, so it must not be used. Who has to
/// act on pieces before the end walks through the ciphertext twice, first with a [`Checking`](crate::Checking): after its
/// yes, and as long as the second walk reads the same bytes, each piece is the text that was sealed.
///
/// What it holds of the key is cleared when it is dropped. It has no copy, as a [`Sealing`](crate::Sealing) has none.
///
/// ```
/// use kvistmaur::{seal, Key, Nonce, Opening, Refusal, Set};
///
/// let (key, nonce) = (Key::from([7; 16]), Nonce::from([1; 16]));
/// let mut cipher = [0; 5];
/// let sealed = seal(Set::Ascon128, &key, &nonce, b"valve 12", b"close", &mut cipher)?;
///
/// let mut order = [0; 5];
/// let mut opening = Opening::start(Set::Ascon128, &key, &nonce)?;
/// opening.data(b"valve 12")?;
/// opening.open(&cipher[..3], &mut order[..3])?;
/// opening.open(&cipher[3..], &mut order[3..])?;
/// opening.finish(&sealed.tag)?; // up to here the order is unverified
/// assert_eq!(&order, b"close");
/// # Ok::<(), Refusal>(())
/// ```
///
/// An opening that was finished is gone:
///
/// ```compile_fail,E0382
/// # use kvistmaur::{Key, Nonce, Opening, Set, Tag};
/// # let (key, nonce, tag) = (Key::from([7; 16]), Nonce::from([1; 16]), Tag::from([0; 16]));
/// let mut opening = Opening::start(Set::Ascon128, &key, &nonce).unwrap();
/// let verdict = opening.finish(&tag);
/// opening.open(b"close", &mut [0; 5]).unwrap();
/// ```
///
/// It does not seal:
///
/// ```compile_fail,E0599
/// # use kvistmaur::{Key, Nonce, Opening, Set};
/// # let (key, nonce) = (Key::from([7; 16]), Nonce::from([1; 16]));
/// let mut opening = Opening::start(Set::Ascon128, &key, &nonce).unwrap();
/// opening.seal(b"close", &mut [0; 5]).unwrap();
/// ```
#[must_use = "what an opening hands out is unverified until it is finished"]
pub struct Opening(State);

shared_calls!(Opening, crate::boundary::start_opening);

impl Opening {
    /// Opens a piece of the ciphertext, and gives the rounds. The text is unverified until [`finish`](Opening::finish) is
    /// done.
    ///
    /// The text goes to the first `cipher.len()` bytes of `out`; the rest of `out` keeps its bytes. A refusal changes
    /// nothing, and the stream goes on. It is the first that holds of [`Refusal::PastLimit`] and
    /// [`Refusal::OutputTooShort`].
    pub fn open(&mut self, cipher: &[u8], out: &mut [u8]) -> Result<Rounds, Refusal> {
        Call::STREAM_OPEN.read(boundary::stream_open(self.0.area(), cipher, out))
    }

    /// Ends the message: done, with the rounds of this call, where the tag is that of the data and the ciphertext that
    /// came. Only then is what was handed out the text that was sealed.
    ///
    /// A refusal is the first that holds of [`Refusal::TagLength`] and [`Refusal::TagDiffers`]. It does not take back what
    /// was handed out.
    pub fn finish(self, tag: &Tag) -> Result<Rounds, Refusal> {
        self.0.finish(boundary::finish_opening, tag)
    }
}
