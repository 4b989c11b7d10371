//! Whole-message calls with the model's answers.

use super::sets::{unknown, Ascon128, Ascon128V12, Ascon128aV12, Ascon96};
use super::sponge::Sponge;
use kvistmaur::{Refusal, Rounds, Set, DATA_LIMIT, TEXT_LIMIT};

/// Seals as the model does.
#[inline(never)]
pub fn seal(
    set: Set,
    key: &[u8],
    nonce: &[u8],
    data: &[u8],
    text: &[u8],
    out: &mut [u8],
    tag: &mut [u8],
) -> Result<Rounds, Refusal> {
    match set {
        Set::Ascon128 => Ascon128::seal(key, nonce, data, text, out, tag),
        Set::Ascon96 => Ascon96::seal(key, nonce, data, text, out, tag),
        Set::Ascon128V12 => Ascon128V12::seal(key, nonce, data, text, out, tag),
        Set::Ascon128aV12 => Ascon128aV12::seal(key, nonce, data, text, out, tag),
        other => unknown(other),
    }
}

/// Opens as the model does.
#[inline(never)]
pub fn open(
    set: Set,
    key: &[u8],
    nonce: &[u8],
    data: &[u8],
    cipher: &[u8],
    tag: &[u8],
    out: &mut [u8],
) -> Result<Rounds, Refusal> {
    match set {
        Set::Ascon128 => Ascon128::open(key, nonce, data, cipher, tag, out),
        Set::Ascon96 => Ascon96::open(key, nonce, data, cipher, tag, out),
        Set::Ascon128V12 => Ascon128V12::open(key, nonce, data, cipher, tag, out),
        Set::Ascon128aV12 => Ascon128aV12::open(key, nonce, data, cipher, tag, out),
        other => unknown(other),
    }
}

impl<const KEY: usize, const BLOCK: usize, const WORD: u64, const FROM: usize, const TO: usize>
    Sponge<KEY, BLOCK, WORD, FROM, TO>
{
    /// Seals in this set.
    fn seal(
        key: &[u8],
        nonce: &[u8],
        data: &[u8],
        text: &[u8],
        out: &mut [u8],
        tag: &mut [u8],
    ) -> Result<Rounds, Refusal> {
        let (key, nonce) = fitting::<KEY>(key, nonce, tag)?;
        let out = room(data, text, out)?;
        let mut sponge = Self::start(key, nonce, data);
        sponge.encrypt(text, out);
        tag.copy_from_slice(&sponge.end(key));
        Ok(rounds(BLOCK, TO - FROM, data, text))
    }

    /// Opens in this set.
    fn open(
        key: &[u8],
        nonce: &[u8],
        data: &[u8],
        cipher: &[u8],
        tag: &[u8],
        out: &mut [u8],
    ) -> Result<Rounds, Refusal> {
        let (key, nonce) = fitting::<KEY>(key, nonce, tag)?;
        let out = room(data, cipher, out)?;
        let mut sponge = Self::start(key, nonce, data);
        sponge.decrypt(cipher, out);
        let ours = sponge.end(key);
        let rounds = rounds(BLOCK, TO - FROM, data, cipher);
        if same(&ours, tag) {
            Ok(rounds)
        } else {
            out.fill(0);
            Err(Refusal::TagDiffers { rounds })
        }
    }
}

/// Whether two tags are equal.
pub fn same(ours: &[u8], tag: &[u8]) -> bool {
    let pairs = ours.iter().zip(tag);
    pairs.fold(0, |all, (a, b)| all | (a ^ b)) == 0
}

/// Key and nonce, when they and the tag have the set's length.
fn fitting<'a, const KEY: usize>(
    key: &'a [u8],
    nonce: &'a [u8],
    tag: &[u8],
) -> Result<(&'a [u8; KEY], &'a [u8; KEY]), Refusal> {
    let key = key.try_into().map_err(|_| Refusal::KeyLength)?;
    let nonce = nonce.try_into().map_err(|_| Refusal::NonceLength)?;
    if tag.len() != KEY {
        return Err(Refusal::TagLength);
    }
    Ok((key, nonce))
}

/// The part of the output that the text needs, when it is there and nothing passes its limit.
fn room<'a>(data: &[u8], text: &[u8], out: &'a mut [u8]) -> Result<&'a mut [u8], Refusal> {
    if data.len() > DATA_LIMIT || text.len() > TEXT_LIMIT {
        return Err(Refusal::PastLimit);
    }
    out.get_mut(..text.len()).ok_or(Refusal::OutputTooShort)
}

/// The rounds of a message, by the length of a block and the rounds between.
fn rounds(block: usize, middle: usize, data: &[u8], text: &[u8]) -> Rounds {
    let data_blocks = match data.len() {
        0 => 0,
        length => length / block + 1,
    };
    Rounds((24 + middle * (data_blocks + text.len() / block)) as u64)
}
