//! The cases that the rules name, on each side of a limit.

use kvistmaur::{boundary, open, seal, Key, Nonce, Refusal, Rounds, Set, DATA_LIMIT, TEXT_LIMIT};

const SET: Set = Set::Ascon128;

/// The lengths of a call in set 1.
struct Lengths {
    key: usize,
    nonce: usize,
    data: usize,
    text: usize,
    room: usize,
}

/// Spoils the lengths of a call that fits, and checks that sealing and opening both refuse so and leave every byte, by the boundary and by the types.
fn refused(spoil: fn(&mut Lengths), refusal: Refusal, number: u64) {
    let mut lengths = Lengths {
        key: 16,
        nonce: 16,
        data: 8,
        text: 21,
        room: 21,
    };
    spoil(&mut lengths);
    let (key, nonce) = (vec![7; lengths.key], vec![1; lengths.nonce]);
    let (data, text) = (vec![2; lengths.data], vec![3; lengths.text]);
    let (mut out, mut tag) = (vec![4; lengths.room], [5; 16]);
    let set = SET.number();

    let sealed = boundary::seal(set, &key, &nonce, &data, &text, &mut out, &mut tag);
    let opened = boundary::open(set, &key, &nonce, &data, &text, &tag, &mut out);
    assert_eq!((sealed, opened), (number, number));

    let sealed = parts(&key, &nonce)
        .and_then(|(key, nonce)| seal(SET, &key, &nonce, &data, &text, &mut out));
    let opened = parts(&key, &nonce)
        .and_then(|(key, nonce)| open(SET, &key, &nonce, &data, &text, &tag.into(), &mut out));
    assert_eq!((sealed, opened), (Err(refusal), Err(refusal)));
    assert_eq!(refusal.number(), number);
    assert_eq!((out, tag), (vec![4; lengths.room], [5; 16]));
}

/// Key and nonce of these bytes, made in this order.
fn parts(key: &[u8], nonce: &[u8]) -> Result<(Key, Nonce), Refusal> {
    Ok((Key::try_from(key)?, Nonce::try_from(nonce)?))
}

#[test]
fn data_of_65537_bytes() {
    refused(|of| of.data = 65_537, Refusal::PastLimit, 5);
}

#[test]
fn text_of_1048577_bytes() {
    let spoil = |of: &mut Lengths| (of.text, of.room) = (1_048_577, 1_048_577);
    refused(spoil, Refusal::PastLimit, 5);
}

#[test]
fn output_one_byte_short() {
    refused(|of| of.room = of.text - 1, Refusal::OutputTooShort, 6);
}

#[test]
fn key_of_15_bytes_in_set_1() {
    refused(|of| of.key = 15, Refusal::KeyLength, 2);
}

#[test]
fn key_of_15_bytes_in_set_1_with_a_wrong_nonce() {
    let spoil = |of: &mut Lengths| (of.key, of.nonce) = (15, 15);
    refused(spoil, Refusal::KeyLength, 2);
}

/// P7 to P12, and their like of sets 3 and 4, run: the rounds of messages around the block edges and at both limits.
#[test]
fn rounds_of_the_table() {
    for (set, data, text, rounds) in [
        (Set::Ascon128, 0, 0, 24),
        (Set::Ascon128, 7, 7, 30),
        (Set::Ascon128, 8, 0, 36),
        (Set::Ascon128, 1, 8, 36),
        (Set::Ascon96, 16, 15, 40),
        (Set::Ascon128, DATA_LIMIT, TEXT_LIMIT, 835_614),
        (Set::Ascon128V12, 0, 0, 24),
        (Set::Ascon128V12, 7, 7, 30),
        (Set::Ascon128V12, 8, 0, 36),
        (Set::Ascon128V12, 1, 8, 36),
        (Set::Ascon128V12, DATA_LIMIT, TEXT_LIMIT, 835_614),
        (Set::Ascon128aV12, 0, 0, 24),
        (Set::Ascon128aV12, 15, 15, 32),
        (Set::Ascon128aV12, 16, 0, 40),
        (Set::Ascon128aV12, 1, 16, 40),
        (Set::Ascon128aV12, DATA_LIMIT, TEXT_LIMIT, 557_088),
    ] {
        let (key, nonce) = (vec![7; set.key_length()], vec![7; set.key_length()]);
        let (key, nonce) = parts(&key, &nonce).expect("the set's lengths");
        let (data, text) = (vec![2; data], vec![3; text]);
        let mut cipher = vec![0; text.len()];
        let sealed = seal(set, &key, &nonce, &data, &text, &mut cipher).expect("all fits");
        assert_eq!(sealed.rounds, Rounds(rounds));

        let mut opened = vec![0; text.len()];
        let answer = open(set, &key, &nonce, &data, &cipher, &sealed.tag, &mut opened);
        assert_eq!(answer, Ok(Rounds(rounds)));
        assert_eq!(opened, text);

        // Through the boundary one slice serves as key and as nonce: what is only read may be lent twice.
        let both = vec![7; set.key_length()];
        let (mut again, mut tag) = (vec![0; text.len()], both.clone());
        let number = set.number();
        let sealed_so = boundary::seal(number, &both, &both, &data, &text, &mut again, &mut tag);
        assert_eq!(sealed_so, 16 * rounds);
        assert_eq!((&again, &tag[..]), (&cipher, sealed.tag.as_ref()));
    }
}
