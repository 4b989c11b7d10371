//! What several test files use: a sealed message, and bytes with one bit changed.

use second::calls::{seal, Answer};
use second::cipher::{set_of, Set};
use second::formula::rounds_by_formula;
use second::random::Random;

/// A sealed message with all that belongs to it.
pub struct Message {
    pub set: &'static Set,
    pub key: Vec<u8>,
    pub nonce: Vec<u8>,
    pub ad: Vec<u8>,
    pub text: Vec<u8>,
    pub cipher: Vec<u8>,
    pub tag: Vec<u8>,
    pub rounds: u64,
}

/// Gives a pseudo-random message of the given lengths, sealed into a longer output.
pub fn message(random: &mut Random, number: u64, ad: usize, text: usize) -> Message {
    let set = set_of(number).expect("a known set");
    let key = random.bytes(set.key);
    let nonce = random.bytes(set.key);
    let ad = random.bytes(ad);
    let text = random.bytes(text);
    let spare = random.below(4);
    let before = random.bytes(text.len() + spare);
    let mut out = before.clone();
    let mut tag = random.bytes(set.key);
    let answer = seal(number, &key, &nonce, &ad, &text, &mut out, &mut tag);
    let rounds = rounds_by_formula(set, ad.len(), text.len());
    assert_eq!(answer, Answer { number: 0, rounds });
    assert_eq!(out[text.len()..], before[text.len()..]);
    out.truncate(text.len());
    Message {
        set,
        key,
        nonce,
        ad,
        text,
        cipher: out,
        tag,
        rounds,
    }
}

/// Gives the bytes with the given bit of all their bits changed.
pub fn flipped(bytes: &[u8], bit: usize) -> Vec<u8> {
    let mut other = bytes.to_vec();
    other[bit / 8] ^= 1 << (bit % 8);
    other
}
