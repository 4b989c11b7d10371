//! Keys, nonces and tags: of which lengths they are made, what they show, and when two are equal.

use kvistmaur::{Key, Nonce, Refusal, Set, Tag};

/// The bytes 1, 2, 3 and so on.
fn counting(length: usize) -> Vec<u8> {
    (1..).take(length).collect()
}

/// Only 12 and 16 bytes are a key, a nonce or a tag; any other length is the refusal of that part.
#[test]
fn lengths_that_sets_have() {
    let mut made = Vec::new();
    for length in 0..=64 {
        let bytes = &counting(length)[..];
        let (key, nonce, tag) = (
            Key::try_from(bytes),
            Nonce::try_from(bytes),
            Tag::try_from(bytes),
        );
        if let (Ok(_), Ok(nonce), Ok(tag)) = (&key, &nonce, &tag) {
            assert_eq!((nonce.as_ref(), tag.as_ref()), (bytes, bytes));
            made.push(length);
        } else {
            assert_eq!(key.unwrap_err(), Refusal::KeyLength);
            assert_eq!(nonce, Err(Refusal::NonceLength));
            assert_eq!(tag, Err(Refusal::TagLength));
        }
    }
    assert_eq!(made, [12, 16]);
}

/// An array and a slice of the same bytes make the same part.
#[test]
fn arrays_and_slices() {
    let bytes = counting(16);
    let (long, short): ([u8; 16], [u8; 12]) = (
        bytes[..].try_into().unwrap(),
        bytes[..12].try_into().unwrap(),
    );
    assert_eq!(Nonce::try_from(&long[..]), Ok(Nonce::from(long)));
    assert_eq!(Nonce::try_from(&short[..]), Ok(Nonce::from(short)));
    assert_eq!(Tag::try_from(&long[..]), Ok(Tag::from(long)));
    assert_eq!(Tag::try_from(&short[..]), Ok(Tag::from(short)));
}

/// A nonce and a tag show their bytes, and a key shows nothing.
#[test]
fn what_is_shown() {
    let bytes: [u8; 12] = counting(12).try_into().unwrap();
    assert_eq!(
        format!("{:?} {:?}", Nonce::from(bytes), Tag::from(bytes)),
        "Nonce(0102030405060708090a0b0c) Tag(0102030405060708090a0b0c)"
    );
    for key in [Key::from(bytes), Key::from([7; 16]).clone()] {
        assert_eq!(
            (format!("{key:?}"), format!("{key:#?}")),
            ("Key(..)".into(), "Key(..)".into())
        );
    }
}

/// A tag equals itself, and no tag that differs in one bit or in its length.
#[test]
fn tags_are_equal_when_all_bits_are() {
    let right = Tag::from([0xa5; 16]);
    assert_eq!(right, Tag::from([0xa5; 16]));
    let mut differing = 0;
    for bit in 0..128 {
        let mut bytes = [0xa5; 16];
        bytes[bit / 8] ^= 1 << (bit % 8);
        differing += usize::from(right != Tag::from(bytes) && Tag::from(bytes) != right);
    }
    assert_eq!(differing, 128);

    let mut padded = [0; 16];
    padded[..12].copy_from_slice(&[0xa5; 12]);
    assert_ne!(Tag::from([0xa5; 12]), Tag::from(padded));
    assert_ne!(Tag::from(padded), Tag::from([0xa5; 12]));
}

/// Each set is that of its number, and no other number has one.
#[test]
fn sets_of_numbers() {
    for set in Set::ALL {
        assert_eq!(Set::try_from(set.number()), Ok(*set));
    }
    let numbers: Vec<u64> = Set::ALL.iter().map(|set| set.number()).collect();
    assert_eq!(numbers, [1, 2, 3, 4]);
    for number in [0, 5, 257, 1 << 32 | 1, 1 << 63 | 2, u64::MAX] {
        assert_eq!(Set::try_from(number), Err(Refusal::UnknownSet));
    }
}

/// Each refusal has its number and its words, and is an error as others are.
#[test]
fn refusals_are_errors() {
    let rounds = kvistmaur::Rounds(24);
    let refusals = [
        (Refusal::UnknownSet, 1, "there is no such set"),
        (
            Refusal::KeyLength,
            2,
            "the key does not have the set's length",
        ),
        (
            Refusal::NonceLength,
            3,
            "the nonce does not have the set's length",
        ),
        (
            Refusal::TagLength,
            4,
            "the tag does not have the set's length",
        ),
        (
            Refusal::PastLimit,
            5,
            "the data or the text passes its limit",
        ),
        (
            Refusal::OutputTooShort,
            6,
            "the output is shorter than the text",
        ),
        (Refusal::OutOfPhase, 7, "the stream takes no more data"),
        (Refusal::TagDiffers { rounds }, 9, "the tag differs"),
    ];
    for (refusal, number, words) in refusals {
        assert_eq!(refusal.number(), number);
        assert_eq!(
            Box::<dyn std::error::Error>::from(refusal).to_string(),
            words
        );
    }
}
