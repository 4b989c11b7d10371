//! The answers of Ascon v1.2 that were published for the lightweight competition, by the model, as whole messages and byte by byte, and by the second program.

use kvistmaur::{Key, Nonce, Rounds, Sealing, Set, Tag, START_ROUNDS};
use second::{calls, hex};

/// A published answer: the set, how many bytes of data and of text it has, which count up from zero as key and nonce do, and ciphertext and tag; with the rounds of the
/// rules' formula.
type Published = (Set, usize, usize, &'static str, u64);

#[rustfmt::skip]
const PUBLISHED: [Published; 5] = [
    (Set::Ascon128V12, 0, 0, "e355159f292911f794cb1432a0103a8a", 24),
    (Set::Ascon128V12, 1, 0, "944df887cd4901614c5dedbc42fc0da0", 30),
    (Set::Ascon128V12, 0, 1, "bc18c3f4e39eca7222490d967c79bffc92", 24),
    (Set::Ascon128V12, 0, 16, "bc820dbdf7a4631c5b29884ad69175c3f58e28436dd71556d58dfa56ac890beb", 36),
    (Set::Ascon128aV12, 0, 0, "7a834e6f09210957067b10fd831f0078", 24),
];

/// So many bytes counting up from zero.
fn counting(length: usize) -> Vec<u8> {
    (0..).take(length).collect()
}

/// Ciphertext and tag, in hex, by a sealing that fills the places of both.
fn sealed(text: &[u8], seal: impl FnOnce(&mut [u8], &mut [u8])) -> String {
    let (mut cipher, mut tag) = (vec![0; text.len()], vec![0; 16]);
    seal(&mut cipher, &mut tag);
    String::from_utf8(hex::written(&[cipher, tag].concat())).expect("digits")
}

#[test]
fn both_programs_seal_and_open_as_published() {
    let bytes = counting(16);
    let key = Key::try_from(&bytes[..]).expect("16 bytes");
    let nonce = Nonce::try_from(&bytes[..]).expect("16 bytes");
    let mut ran = 0;
    for (set, data, text, published, rounds) in PUBLISHED {
        let (data, text, number) = (counting(data), counting(text), set.number());
        let by_model = sealed(&text, |cipher, tag| {
            let given = kvistmaur::seal(set, &key, &nonce, &data, &text, cipher).expect("it fits");
            assert_eq!(given.rounds, Rounds(rounds));
            tag.copy_from_slice(given.tag.as_ref());
        });
        let by_second = sealed(&text, |cipher, tag| {
            let answer = calls::seal(number, &bytes, &bytes, &data, &text, cipher, tag);
            assert_eq!((answer.number, answer.rounds), (0, rounds));
        });
        let by_stream = sealed(&text, |cipher, tag| {
            let mut sealing = Sealing::start(set, &key, &nonce).expect("it fits");
            let mut sum = START_ROUNDS.0;
            for byte in data.chunks(1) {
                sum += sealing.data(byte).expect("it fits").0;
            }
            for (byte, place) in text.chunks(1).zip(cipher.chunks_mut(1)) {
                sum += sealing.seal(byte, place).expect("it fits").0;
            }
            let given = sealing.finish();
            assert_eq!(sum + given.rounds.0, rounds);
            tag.copy_from_slice(given.tag.as_ref());
        });
        assert_eq!([by_model, by_stream, by_second], [published; 3]);

        let both = hex::read(published.as_bytes()).expect("digits");
        let (cipher, tag) = both.split_at(text.len());
        let given = Tag::try_from(tag).expect("16 bytes");
        let mut opened = vec![0xee; text.len()];
        let answer = kvistmaur::open(set, &key, &nonce, &data, cipher, &given, &mut opened);
        assert_eq!((answer, &opened), (Ok(Rounds(rounds)), &text));
        opened.fill(0xee);
        let answer = calls::open(number, &bytes, &bytes, &data, cipher, tag, &mut opened);
        assert_eq!((answer.number, answer.rounds, opened), (0, rounds, text));
        ran += 1;
    }
    assert_eq!(ran, 5);
}
