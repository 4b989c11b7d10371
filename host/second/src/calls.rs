//! Whole-message calls on any input, with the answer numbers of the rules.

use crate::cipher::{open_published, seal_published, set_of, Set};

/// The most bytes of associated data in a message.
pub const AD_LIMIT: usize = 65_536;

/// The most bytes of text or ciphertext in a message.
pub const TEXT_LIMIT: usize = 1_048_576;

/// An answer number and the rounds reported with it.
#[derive(Clone, Copy, Debug, PartialEq, Eq)]
pub struct Answer {
    pub number: u64,
    pub rounds: u64,
}

impl Answer {
    /// Gives the refusal of the given number, which reports no rounds.
    fn refusal(number: u64) -> Answer {
        Answer { number, rounds: 0 }
    }

    /// Gives the one number of the C boundary: 16 × rounds + answer.
    pub fn one_number(&self) -> u64 {
        16 * self.rounds + self.number
    }
}

/// The lengths of what a caller handed over; `body` is the text or the ciphertext.
struct Lengths {
    key: usize,
    nonce: usize,
    tag: usize,
    ad: usize,
    body: usize,
    out: usize,
}

/// Gives the set when nothing is wrong with the lengths, otherwise the first answer that holds.
fn tested(number: u64, lengths: &Lengths) -> Result<&'static Set, u64> {
    let Some(set) = set_of(number) else {
        return Err(1);
    };
    if lengths.key != set.key {
        return Err(2);
    }
    if lengths.nonce != set.key {
        return Err(3);
    }
    if lengths.tag != set.key {
        return Err(4);
    }
    if lengths.ad > AD_LIMIT || lengths.body > TEXT_LIMIT {
        return Err(5);
    }
    if lengths.out < lengths.body {
        return Err(6);
    }
    Ok(set)
}

/// Seals a message into `out` and `tag` and gives the answer; a refusal changes nothing.
pub fn seal(
    set: u64,
    key: &[u8],
    nonce: &[u8],
    ad: &[u8],
    text: &[u8],
    out: &mut [u8],
    tag: &mut [u8],
) -> Answer {
    let lengths = Lengths {
        key: key.len(),
        nonce: nonce.len(),
        tag: tag.len(),
        ad: ad.len(),
        body: text.len(),
        out: out.len(),
    };
    let set = match tested(set, &lengths) {
        Ok(set) => set,
        Err(number) => return Answer::refusal(number),
    };
    let sealed = seal_published(set, key, nonce, ad, text);
    out[..text.len()].copy_from_slice(&sealed.cipher);
    tag.copy_from_slice(&sealed.tag);
    Answer {
        number: 0,
        rounds: sealed.rounds,
    }
}

/// Opens a message into `out` and gives the answer; a wrong tag puts zeros there instead of text.
pub fn open(
    set: u64,
    key: &[u8],
    nonce: &[u8],
    ad: &[u8],
    cipher: &[u8],
    tag: &[u8],
    out: &mut [u8],
) -> Answer {
    let lengths = Lengths {
        key: key.len(),
        nonce: nonce.len(),
        tag: tag.len(),
        ad: ad.len(),
        body: cipher.len(),
        out: out.len(),
    };
    let set = match tested(set, &lengths) {
        Ok(set) => set,
        Err(number) => return Answer::refusal(number),
    };
    let opened = open_published(set, key, nonce, ad, cipher, tag);
    let rounds = opened.rounds;
    match opened.text {
        Some(text) => {
            out[..cipher.len()].copy_from_slice(&text);
            Answer { number: 0, rounds }
        }
        None => {
            out[..cipher.len()].fill(0);
            Answer { number: 9, rounds }
        }
    }
}
