//! The stream cases that the rules have run, each with the answer it gets here.

use crate::cipher::{Set, SETS};
use crate::stream::{
    ad, check, finish_sealing, seal, start, Direction, Given, Stream, LARGEST_LIMIT,
};

/// The bytes of one of sixteen calls that together take a whole text.
static SIXTEENTH: [u8; 65_536] = [0; 65_536];

/// Starts a stream of the set, with the largest limit and so many bytes of key from 0 on and of nonce from 16 on.
fn started(set: &Set, direction: Direction, key_length: usize, nonce_length: usize) -> Given {
    let key: Vec<u8> = (0..).take(key_length).collect();
    let nonce: Vec<u8> = (16..).take(nonce_length).collect();
    start(direction, set.number, LARGEST_LIMIT, &key, &nonce)
}

/// Gives a fresh stream of the set.
fn fresh(set: &Set, direction: Direction) -> Stream {
    let (number, _, stream) = started(set, direction, set.key, set.key);
    assert_eq!(number, 0);
    stream
}

/// Gives the answer of one data call with that many zero bytes on a fresh sealing stream.
fn data_of(set: &Set, count: usize) -> u64 {
    ad(fresh(set, Direction::Sealing), &vec![0; count]).0
}

/// Gives the answers of the checking call that reaches the text limit and of one more byte.
fn checked_to_the_limit(set: &Set) -> (u64, u64) {
    let mut stream = fresh(set, Direction::Checking);
    for _ in 0..15 {
        let (number, _, next) = check(stream, &SIXTEENTH);
        assert_eq!(number, 0);
        stream = next;
    }
    let (reaching, _, full) = check(stream, &SIXTEENTH);
    let (passing, _, _) = check(full, &[0]);
    (reaching, passing)
}

/// Gives the answer of one more byte, with room for it, on a sealing stream at the text limit.
fn sealed_past_the_limit(set: &Set) -> u64 {
    let mut stream = fresh(set, Direction::Sealing);
    let mut out = SIXTEENTH;
    for _ in 0..16 {
        let (number, _, next) = seal(stream, &SIXTEENTH, &mut out);
        assert_eq!(number, 0);
        stream = next;
    }
    seal(stream, &[0], &mut [0]).0
}

/// Gives the answer of a text call of 53 bytes with room for 52.
fn short_room(set: &Set) -> u64 {
    seal(fresh(set, Direction::Sealing), &[0; 53], &mut [0; 52]).0
}

/// Gives the answer of a start with that many bytes of key and of nonce.
fn started_with(set: &Set, key_length: usize, nonce_length: usize) -> u64 {
    started(set, Direction::Sealing, key_length, nonce_length).0
}

/// Gives the answer of the second of two finishes.
fn finished_twice(set: &Set) -> u64 {
    let mut tag = vec![0; set.key];
    let (number, _, ended) = finish_sealing(fresh(set, Direction::Sealing), &mut tag);
    assert_eq!(number, 0);
    finish_sealing(ended, &mut tag).0
}

/// Gives the answer of a one-byte data call after a zero-length text call.
fn data_after_empty_text(set: &Set) -> u64 {
    let (number, _, stream) = seal(fresh(set, Direction::Sealing), &[], &mut []);
    assert_eq!(number, 0);
    ad(stream, &[0]).0
}

/// Gives each case's name and the answer it gets in set 1, in a fixed order.
pub fn named_cases() -> Vec<(String, u64)> {
    named_cases_in(&SETS[0])
}

/// Gives each case's name and the answer it gets in the set, in the same order.
pub fn named_cases_in(set: &Set) -> Vec<(String, u64)> {
    let (reaching, passing) = checked_to_the_limit(set);
    let cases = [
        ("65537 bytes of data", data_of(set, 65_537)),
        ("65536 bytes of data", data_of(set, 65_536)),
        ("1048576 bytes of text", reaching),
        ("1048577 bytes of text", passing),
        ("1048577 bytes sealed", sealed_past_the_limit(set)),
        ("room one byte short", short_room(set)),
        ("key of 15 bytes", started_with(set, 15, 16)),
        ("key of 15 bytes, nonce of 15", started_with(set, 15, 15)),
        ("finishing twice", finished_twice(set)),
        ("data after an empty text call", data_after_empty_text(set)),
    ];
    cases
        .map(|(name, answer)| (name.to_string(), answer))
        .into()
}
