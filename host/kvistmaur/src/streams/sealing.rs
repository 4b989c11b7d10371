//! Sealing streams.

use super::shared_calls;
use super::state::State;
use crate::answer::Call;
use crate::{boundary, Refusal, Rounds, Sealed, Tag};

/// A sealing: it takes the data and then the text, each in any pieces, hands out the ciphertext, and gives the tag at its
/// end.
///
/// However the message is cut, ciphertext and tag are those of [`seal`](crate::seal). What it holds of the key is cleared
/// when it is dropped.
///
/// ```
/// use kvistmaur::{seal, Key, Nonce, Refusal, Sealing, Set};
///
/// let (key, nonce) = (Key::from([7; 16]), Nonce::from([1; 16]));
/// let mut cipher = [0; 16];
/// let mut sealing = Sealing::start(Set::Ascon128, &key, &nonce)?;
/// sealing.data(b"valve 12")?;
/// sealing.seal(b"close, ", &mut cipher[..7])?;
/// sealing.seal(b"then wait", &mut cipher[7..])?;
/// let sealed = sealing.finish();
///
/// let mut whole = [0; 16];
/// let once = seal(Set::Ascon128, &key, &nonce, b"valve 12", b"close, then wait", &mut whole)?;
/// assert_eq!((cipher, sealed.tag), (whole, once.tag));
/// # Ok::<(), Refusal>(())
/// ```
///
/// A sealing that was finished is gone:
///
/// ```compile_fail,E0382
/// # use kvistmaur::{Key, Nonce, Sealing, Set};
/// # let (key, nonce) = (Key::from([7; 16]), Nonce::from([1; 16]));
/// let mut sealing = Sealing::start(Set::Ascon128, &key, &nonce).unwrap();
/// let sealed = sealing.finish();
/// sealing.seal(b"close", &mut [0; 5]).unwrap();
/// ```
///
/// A sealing does not check or open:
///
/// ```compile_fail,E0599
/// # use kvistmaur::{Key, Nonce, Sealing, Set};
/// # let (key, nonce) = (Key::from([7; 16]), Nonce::from([1; 16]));
/// let mut sealing = Sealing::start(Set::Ascon128, &key, &nonce).unwrap();
/// sealing.check(b"close").unwrap();
/// ```
///
/// It has no copy, which could seal another text under the same key and nonce:
///
/// ```compile_fail,E0599
/// # use kvistmaur::{Key, Nonce, Sealing, Set};
/// # let (key, nonce) = (Key::from([7; 16]), Nonce::from([1; 16]));
/// let sealing = Sealing::start(Set::Ascon128, &key, &nonce).unwrap();
/// let another = sealing.clone();
/// ```
#[must_use = "a sealing that is not finished gives no tag"]
pub struct Sealing(State);

shared_calls!(Sealing, crate::boundary::start_sealing);

impl Sealing {
    /// Seals a piece of the text, and gives the rounds.
    ///
    /// The ciphertext goes to the first `text.len()` bytes of `out`; the rest of `out` keeps its bytes. A refusal changes
    /// nothing, and the stream goes on. It is the first that holds of [`Refusal::PastLimit`] and
    /// [`Refusal::OutputTooShort`].
    pub fn seal(&mut self, text: &[u8], out: &mut [u8]) -> Result<Rounds, Refusal> {
        Call::STREAM_SEAL.read(boundary::stream_seal(self.0.area(), text, out))
    }

    /// Ends the message, and gives its tag and the rounds of this call. If there was no text call, the text is empty.
    pub fn finish(mut self) -> Sealed {
        let mut tag = Tag::place(self.0.tag_length());
        let number = boundary::finish_sealing(self.0.area(), tag.as_mut());
        let rounds = Call::FINISH_SEALING
            .read(number)
            .expect("this call has no refusal");
        Sealed { tag, rounds }
    }
}
