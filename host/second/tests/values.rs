//! The cases P1 to P12 of the rules and those of its run-only cases that are whole messages.

use second::calls::{open, seal, Answer};
use second::cipher::{first_bytes, set_numbers, set_of, Set, SETS};
use second::formula::rounds_by_formula;
use second::permutation::{sigma, substitute};

/// Gives the set of the given number.
fn set(number: u64) -> &'static Set {
    set_of(number).expect("a known set")
}

/// Gives the answer to sealing zero bytes of the given lengths with all else fitting.
fn sealed(number: u64, ad: usize, text: usize) -> Answer {
    let key = vec![0; set(number).key];
    let mut out = vec![0; text];
    let mut tag = vec![0; set(number).key];
    let (ad, text) = (vec![0; ad], vec![0; text]);
    seal(number, &key, &key, &ad, &text, &mut out, &mut tag)
}

/// Says that P1 to P6 hold: first blocks, substitution, diffusion.
#[test]
fn p1_to_p6() {
    assert_eq!(first_bytes(set(1)), [0x80, 0x0c, 0x06, 0, 0, 0, 0, 0]);
    let mut second_set = vec![0x60, 0x0c, 0x08];
    second_set.extend([0; 13]);
    assert_eq!(first_bytes(set(2)), second_set);
    assert_eq!([0, 16, 31].map(substitute), [4, 30, 23]);
    assert_eq!(sigma(0, 1), 0x0000_2010_0000_0001);
    assert_eq!(sigma(2, 1), 0x8400_0000_0000_0001);
    let ones = (0..5).filter(|i| sigma(*i, u64::MAX) == u64::MAX).count();
    assert_eq!(ones, 5);
}

/// Says that P7 to P12 hold by really running the messages, at the limits too.
#[test]
fn p7_to_p12() {
    let cases = [
        (1, 0, 0, 24),
        (1, 7, 7, 30),
        (1, 8, 0, 36),
        (1, 1, 8, 36),
        (2, 16, 15, 40),
        (1, 65_536, 1_048_576, 835_614),
    ];
    let mut ran = 0;
    for (number, ad, text, rounds) in cases {
        assert_eq!(sealed(number, ad, text), Answer { number: 0, rounds });
        assert_eq!(rounds_by_formula(set(number), ad, text), rounds);
        ran += 1;
    }
    assert_eq!(ran, 6);
}

/// Says that a message of each set at both limits is done and opens again.
#[test]
fn both_limits_in_each_set() {
    let ad = vec![1; 65_536];
    let text: Vec<u8> = (0..1_048_576u32).map(|i| (i % 251) as u8).collect();
    let eight = 24 + 6 * (8_193 + 131_073 - 1);
    let sixteen = 24 + 8 * (4_097 + 65_537 - 1);
    let mut ran = 0;
    for (number, rounds) in set_numbers().zip([eight, sixteen, eight, sixteen]) {
        let key = vec![7; set(number).key];
        let mut cipher = vec![0; text.len()];
        let mut tag = key.clone();
        let answer = seal(number, &key, &key, &ad, &text, &mut cipher, &mut tag);
        assert_eq!(answer, Answer { number: 0, rounds });
        let mut back = vec![0; text.len()];
        let opened = open(number, &key, &key, &ad, &cipher, &tag, &mut back);
        assert_eq!(opened, answer);
        assert!(back == text);
        ran += 1;
    }
    assert_eq!(ran, SETS.len());
}

/// Says that the counted rounds are those of the formula for all small lengths.
#[test]
fn counted_rounds_are_those_of_the_formula() {
    let mut ran = 0;
    for number in set_numbers() {
        for ad in 0..=40 {
            for text in 0..=40 {
                let rounds = rounds_by_formula(set(number), ad, text);
                assert_eq!(sealed(number, ad, text), Answer { number: 0, rounds });
                assert_eq!(sealed(number, ad, text).one_number(), 16 * rounds);
                ran += 1;
            }
        }
    }
    assert_eq!(ran, SETS.len() * 41 * 41);
}

/// Says that one byte past a limit is refused with 5, alone and together.
#[test]
fn past_the_limits() {
    let mut ran = 0;
    for number in set_numbers() {
        for (ad, text) in [(65_537, 0), (0, 1_048_577), (65_537, 1_048_577)] {
            let refusal = Answer {
                number: 5,
                rounds: 0,
            };
            assert_eq!(sealed(number, ad, text), refusal);
            let key = vec![0; set(number).key];
            let (ad, cipher) = (vec![0; ad], vec![0; text]);
            let mut out = vec![9; text];
            assert_eq!(
                open(number, &key, &key, &ad, &cipher, &key, &mut out),
                refusal
            );
            assert!(out.iter().all(|byte| *byte == 9));
            ran += 1;
        }
    }
    assert_eq!(ran, SETS.len() * 3);
}

/// Says that an output one byte short is refused with 6, and a wrong key with 2 before a wrong nonce.
#[test]
fn short_output_and_short_key() {
    let text = [1, 2, 3];
    let mut ran = 0;
    for (key, nonce, out, answer) in [
        (16, 16, 3, 0),
        (16, 16, 2, 6),
        (15, 16, 3, 2),
        (15, 15, 3, 2),
        (15, 17, 3, 2),
        (16, 15, 3, 3),
    ] {
        let (key, nonce) = (vec![0; key], vec![0; nonce]);
        let mut out = vec![5; out];
        let mut tag = [6; 16];
        let given = seal(1, &key, &nonce, &[], &text, &mut out, &mut tag);
        assert_eq!(given.number, answer);
        if answer > 0 {
            assert!(out.iter().all(|byte| *byte == 5) && tag == [6; 16]);
            assert_eq!(given.rounds, 0);
        }
        ran += 1;
    }
    assert_eq!(ran, 6);
}
