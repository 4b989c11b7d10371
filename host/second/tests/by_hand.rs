//! Whole messages worked out word by word, with every constant written out here.

use second::cipher::{open_published, padded_data, padded_text, seal_published, set_of, SETS};
use second::permutation::run;

const SIX: [u64; 6] = [0xf0, 0xe1, 0xd2, 0xc3, 0xb4, 0xa5];
const EIGHT: [u64; 8] = [0xf0, 0xe1, 0xd2, 0xc3, 0xb4, 0xa5, 0x96, 0x87];
const LAST_SIX: [u64; 6] = [0x96, 0x87, 0x78, 0x69, 0x5a, 0x4b];
const LAST_EIGHT: [u64; 8] = [0xb4, 0xa5, 0x96, 0x87, 0x78, 0x69, 0x5a, 0x4b];
const TWELVE: [u64; 12] = [
    0xf0, 0xe1, 0xd2, 0xc3, 0xb4, 0xa5, 0x96, 0x87, 0x78, 0x69, 0x5a, 0x4b,
];

/// Gives the big-endian bytes of the words, one after another.
fn bytes(words: &[u64]) -> Vec<u8> {
    words.iter().flat_map(|word| word.to_be_bytes()).collect()
}

/// Gives cipher and tag of set 1 or 3 with 9 bytes of data and 11 of text, worked out on words.
fn blocks_of_8_by_hand(first: u64, middle: &[u64]) -> (Vec<u8>, Vec<u8>) {
    let (k0, k1) = (0x0001020304050607, 0x08090a0b0c0d0e0f);
    let (n0, n1) = (0x1011121314151617, 0x18191a1b1c1d1e1f);
    let mut x = run([first, k0, k1, n0, n1], &TWELVE);
    x[3] ^= k0;
    x[4] ^= k1;
    x[0] ^= 0x2021222324252627;
    x = run(x, middle);
    x[0] ^= 0x2880000000000000;
    x = run(x, middle);
    x[4] ^= 1;
    x[0] ^= 0x3031323334353637;
    let mut cipher = bytes(&x[..1]);
    x = run(x, middle);
    x[0] ^= 0x38393a8000000000;
    cipher.extend(&bytes(&x[..1])[..3]);
    x[1] ^= k0;
    x[2] ^= k1;
    x = run(x, &TWELVE);
    (cipher, bytes(&[x[3] ^ k0, x[4] ^ k1]))
}

/// Gives cipher and tag of set 2 with 16 bytes of data and 32 of text, worked out on words.
fn set_2_by_hand(middle: &[u64]) -> (Vec<u8>, Vec<u8>) {
    let start = [
        0x600c080000000000,
        0,
        0x0001020304050607,
        0x08090a0b10111213,
        0x1415161718191a1b,
    ];
    let mut x = run(start, &TWELVE);
    x[3] ^= 0x0000000000010203;
    x[4] ^= 0x0405060708090a0b;
    x[0] ^= 0x2021222324252627;
    x[1] ^= 0x28292a2b2c2d2e2f;
    x = run(x, middle);
    x[0] ^= 0x8000000000000000;
    x = run(x, middle);
    x[4] ^= 1;
    x[0] ^= 0x3031323334353637;
    x[1] ^= 0x38393a3b3c3d3e3f;
    let mut cipher = bytes(&x[..2]);
    x = run(x, middle);
    x[0] ^= 0x4041424344454647;
    x[1] ^= 0x48494a4b4c4d4e4f;
    cipher.extend(bytes(&x[..2]));
    x = run(x, middle);
    x[0] ^= 0x8000000000000000;
    x[2] ^= 0x0001020304050607;
    x[3] ^= 0x08090a0b00000000;
    x = run(x, &TWELVE);
    let tag = bytes(&[x[3] ^ 0x0000000000010203, x[4] ^ 0x0405060708090a0b]);
    (cipher, tag[4..].to_vec())
}

/// Gives cipher and tag of set 4 with 16 bytes of data and 37 of text, worked out on words.
fn set_4_by_hand(middle: &[u64]) -> (Vec<u8>, Vec<u8>) {
    let (k0, k1) = (0x0001020304050607, 0x08090a0b0c0d0e0f);
    let (n0, n1) = (0x1011121314151617, 0x18191a1b1c1d1e1f);
    let mut x = run([0x80800c0800000000, k0, k1, n0, n1], &TWELVE);
    x[3] ^= k0;
    x[4] ^= k1;
    x[0] ^= 0x2021222324252627;
    x[1] ^= 0x28292a2b2c2d2e2f;
    x = run(x, middle);
    x[0] ^= 0x8000000000000000;
    x = run(x, middle);
    x[4] ^= 1;
    x[0] ^= 0x3031323334353637;
    x[1] ^= 0x38393a3b3c3d3e3f;
    let mut cipher = bytes(&x[..2]);
    x = run(x, middle);
    x[0] ^= 0x4041424344454647;
    x[1] ^= 0x48494a4b4c4d4e4f;
    cipher.extend(bytes(&x[..2]));
    x = run(x, middle);
    x[0] ^= 0x5051525354800000;
    cipher.extend(&bytes(&x[..2])[..5]);
    // The key lies behind the block of two words, and the tail of the last word stays as it is.
    x[2] ^= k0;
    x[3] ^= k1;
    x = run(x, &TWELVE);
    (cipher, bytes(&[x[3] ^ k0, x[4] ^ k1]))
}

/// Gives cipher and tag of a message of nothing at all in a set with blocks of 8, worked out on words.
fn nothing_by_hand(first: u64) -> (Vec<u8>, Vec<u8>) {
    let (k0, k1) = (0x0001020304050607, 0x08090a0b0c0d0e0f);
    let (n0, n1) = (0x1011121314151617, 0x18191a1b1c1d1e1f);
    let mut x = run([first, k0, k1, n0, n1], &TWELVE);
    x[3] ^= k0;
    x[4] ^= k1 ^ 1;
    x[0] ^= 0x8000000000000000;
    x[1] ^= k0;
    x[2] ^= k1;
    x = run(x, &TWELVE);
    (Vec::new(), bytes(&[x[3] ^ k0, x[4] ^ k1]))
}

/// Gives `count` bytes counting up from `first`.
fn counting(first: u8, count: u8) -> Vec<u8> {
    (first..first + count).collect()
}

/// The first word of set 1, as the rules print it.
const FIRST_1: u64 = 0x800c060000000000;

/// The first word of set 3, as W5 prints it.
const FIRST_3: u64 = 0x80400c0600000000;

/// Says that sealing and opening agree with the messages worked out here.
#[test]
fn sealing_is_what_the_hand_gives() {
    let set_1 = blocks_of_8_by_hand(FIRST_1, &SIX);
    let set_3 = blocks_of_8_by_hand(FIRST_3, &LAST_SIX);
    let cases = [
        (1, 9, counting(0x30, 11), set_1, 42),
        (2, 16, counting(0x30, 32), set_2_by_hand(&EIGHT), 56),
        (3, 9, counting(0x30, 11), set_3, 42),
        (4, 16, counting(0x30, 37), set_4_by_hand(&LAST_EIGHT), 56),
        (1, 0, Vec::new(), nothing_by_hand(FIRST_1), 24),
        (3, 0, Vec::new(), nothing_by_hand(FIRST_3), 24),
    ];
    let mut ran = 0;
    for (number, ad, text, (cipher, tag), rounds) in cases {
        let set = set_of(number).expect("a known set");
        let key = counting(0, set.key as u8);
        let nonce = counting(0x10, set.key as u8);
        let ad = counting(0x20, ad);
        let sealed = seal_published(set, &key, &nonce, &ad, &text);
        assert_eq!(sealed.cipher, cipher);
        assert_eq!(sealed.tag, tag);
        assert_eq!(sealed.rounds, rounds);
        let opened = open_published(set, &key, &nonce, &ad, &cipher, &tag);
        assert_eq!(opened.text, Some(text));
        assert_eq!(opened.rounds, rounds);
        ran += 1;
    }
    assert_eq!(ran, 6);
}

/// Says that the cases above would notice middle rounds with the constants of the other edition.
#[test]
fn other_constants_would_be_noticed() {
    for first in [FIRST_1, FIRST_3] {
        assert_ne!(
            blocks_of_8_by_hand(first, &SIX),
            blocks_of_8_by_hand(first, &LAST_SIX)
        );
    }
    assert_ne!(set_2_by_hand(&EIGHT), set_2_by_hand(&LAST_EIGHT));
    assert_ne!(set_4_by_hand(&EIGHT), set_4_by_hand(&LAST_EIGHT));
}

/// Says that padded blocks are right in number, length and content for all small lengths.
#[test]
fn padded_blocks() {
    let mut ran = 0;
    for set in &SETS {
        for length in 0..=100 {
            let bytes = counting(1, length);
            let length = usize::from(length);
            let text = padded_text(set, &bytes);
            assert_eq!(text.len(), length / set.block + 1);
            assert!(text.iter().all(|block| block.len() == set.block));
            let whole = text.concat();
            assert_eq!(whole[..length], bytes);
            assert_eq!(whole[length], 0x80);
            assert!(whole[length + 1..].iter().all(|byte| *byte == 0));
            let data = padded_data(set, &bytes);
            assert_eq!(data, if length == 0 { Vec::new() } else { text });
            ran += 1;
        }
    }
    assert_eq!(ran, SETS.len() * 101);
}
