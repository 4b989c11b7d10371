//! Sealing and opening of whole messages.

use crate::answer::Call;
use crate::{boundary, Key, Nonce, Refusal, Rounds, Sealed, Set, Tag};

/// Seals `text` together with `data`, and gives the tag and the rounds that it took.
///
/// The ciphertext goes to the first `text.len()` bytes of `out`; the rest of `out` keeps its bytes. A refusal changes no
/// byte. It is the first that holds of [`Refusal::KeyLength`], [`Refusal::NonceLength`], [`Refusal::PastLimit`] and
/// [`Refusal::OutputTooShort`].
///
/// Key and nonce can not be swapped by mistake:
///
/// ```compile_fail,E0308
/// use kvistmaur::{seal, Key, Nonce, Set};
///
/// let (key, nonce) = (Key::from([7; 16]), Nonce::from([1; 16]));
/// let sealed = seal(Set::Ascon128, &nonce, &key, b"valve 12", b"close", &mut [0; 5]);
/// ```
///
/// Input and output are never the same bytes; a call in place does not compile:
///
/// ```compile_fail,E0502
/// use kvistmaur::{seal, Key, Nonce, Set};
///
/// let (key, nonce) = (Key::from([7; 16]), Nonce::from([1; 16]));
/// let mut order = *b"close";
/// let sealed = seal(Set::Ascon128, &key, &nonce, b"valve 12", &order, &mut order);
/// ```
pub fn seal(
    set: Set,
    key: &Key,
    nonce: &Nonce,
    data: &[u8],
    text: &[u8],
    out: &mut [u8],
) -> Result<Sealed, Refusal> {
    let mut tag = Tag::place(set.key_length());
    let (key, nonce, place) = (key.bytes(), nonce.as_ref(), tag.as_mut());
    let number = boundary::seal(set.number(), key, nonce, data, text, out, place);
    let rounds = Call::SEAL.read(number)?;
    Ok(Sealed { tag, rounds })
}

/// Opens `cipher` with `tag` and `data`, and gives the rounds that it took.
///
/// The text goes to the first `cipher.len()` bytes of `out`; the rest of `out` keeps its bytes. A refusal is the first
/// that holds of [`Refusal::KeyLength`], [`Refusal::NonceLength`], [`Refusal::TagLength`], [`Refusal::PastLimit`],
/// [`Refusal::OutputTooShort`] and [`Refusal::TagDiffers`]. The last puts zeros where the text would have gone; the
/// others change no byte. If two calls in one set have arguments of the same lengths and the same bytes in `out` before,
/// and both give [`Refusal::TagDiffers`], they report the same rounds and leave the same bytes in `out`, whatever the keys
/// and contents. How long a call takes is not promised.
pub fn open(
    set: Set,
    key: &Key,
    nonce: &Nonce,
    data: &[u8],
    cipher: &[u8],
    tag: &Tag,
    out: &mut [u8],
) -> Result<Rounds, Refusal> {
    let (key, nonce, tag) = (key.bytes(), nonce.as_ref(), tag.as_ref());
    let number = boundary::open(set.number(), key, nonce, data, cipher, tag, out);
    Call::OPEN.read(number)
}
