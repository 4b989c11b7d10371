//! Pseudo-random messages sealed, opened, and opened after damage.

mod common;

use common::{flipped, message, Message};
use second::calls::{open, Answer};
use second::cipher::{set_numbers, set_of, Set, SETS};
use second::formula::rounds_by_formula;
use second::random::Random;

const SEED: u64 = 20_140_315;
const PER_PAIR: usize = 12;

/// Gives the lengths around the first block edges of a set, one for each place in the list.
fn edges(set: &Set) -> [usize; 10] {
    let b = set.block;
    [
        0,
        1,
        b - 1,
        b,
        b + 1,
        2 * b - 1,
        2 * b,
        2 * b + 1,
        3 * b - 1,
        4 * b,
    ]
}

/// Opens into an output with spare bytes and gives the answer and the front of the output.
fn opened(
    random: &mut Random,
    m: &Message,
    ad: &[u8],
    cipher: &[u8],
    tag: &[u8],
) -> (Answer, Vec<u8>) {
    let spare = random.below(4);
    let before = random.bytes(cipher.len() + spare);
    let mut out = before.clone();
    let answer = open(m.set.number, &m.key, &m.nonce, ad, cipher, tag, &mut out);
    assert_eq!(out[cipher.len()..], before[cipher.len()..]);
    out.truncate(cipher.len());
    (answer, out)
}

/// Gives the bytes with one bit changed, or with one byte added when there are none.
fn damaged(random: &mut Random, bytes: &[u8]) -> Vec<u8> {
    let mut other = bytes.to_vec();
    if other.is_empty() {
        return random.bytes(1);
    }
    let place = random.below(other.len());
    other[place] ^= 1 << random.below(8);
    other
}

/// Opens a damaged message and checks answer 9, its rounds and the zeros.
fn refused(random: &mut Random, m: &Message, ad: &[u8], cipher: &[u8], tag: &[u8]) {
    let (answer, out) = opened(random, m, ad, cipher, tag);
    let rounds = rounds_by_formula(m.set, ad.len(), cipher.len());
    assert_eq!(answer, Answer { number: 9, rounds });
    assert_eq!(answer.one_number(), 16 * rounds + 9);
    assert!(out.iter().all(|byte| *byte == 0));
}

/// Says that each message comes back, and none does after damage to tag, ciphertext or data.
#[test]
fn trips_with_damage() {
    let mut random = Random::new(SEED);
    let (mut trips, mut damages) = (0, 0);
    for number in set_numbers() {
        let set = set_of(number).expect("a known set");
        for ad_length in edges(set) {
            for text_length in edges(set) {
                for _ in 0..PER_PAIR {
                    let random = &mut random;
                    let m = message(random, number, ad_length, text_length);
                    let (answer, out) = opened(random, &m, &m.ad, &m.cipher, &m.tag);
                    let rounds = m.rounds;
                    assert_eq!(answer, Answer { number: 0, rounds });
                    assert_eq!(out, m.text);
                    trips += 1;

                    let tag = damaged(random, &m.tag);
                    refused(random, &m, &m.ad, &m.cipher, &tag);
                    let cipher = damaged(random, &m.cipher);
                    refused(random, &m, &m.ad, &cipher, &m.tag);
                    let ad = damaged(random, &m.ad);
                    refused(random, &m, &ad, &m.cipher, &m.tag);
                    damages += 3;
                }
            }
        }
    }
    assert_eq!((trips, damages), (SETS.len() * 1_200, SETS.len() * 3_600));
}

/// Says that every single bit of a tag counts.
#[test]
fn every_tag_bit_counts() {
    let mut random = Random::new(SEED + 1);
    let mut ran = 0;
    for number in set_numbers() {
        let m = message(&mut random, number, 5, 21);
        for bit in 0..m.set.key * 8 {
            refused(&mut random, &m, &m.ad, &m.cipher, &flipped(&m.tag, bit));
            ran += 1;
        }
    }
    assert_eq!(ran, 128 + 96 + 128 + 128);
}

/// Says that a ciphertext cut or lengthened at a block edge is refused.
#[test]
fn other_lengths_are_refused() {
    let mut random = Random::new(SEED + 2);
    let mut ran = 0;
    for number in set_numbers() {
        for text_length in 1..=40 {
            let m = message(&mut random, number, 3, text_length);
            let shorter = m.cipher[..text_length - 1].to_vec();
            refused(&mut random, &m, &m.ad, &shorter, &m.tag);
            let mut longer = m.cipher.clone();
            longer.push(0x80);
            refused(&mut random, &m, &m.ad, &longer, &m.tag);
            ran += 2;
        }
    }
    assert_eq!(ran, SETS.len() * 80);
}
