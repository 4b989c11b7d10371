//! Pseudo-random messages that fit.

use crate::call::{Call, Direction};
use second::calls;
use second::cipher::Set;
use second::random::Random;

/// The call that seals a message of the given lengths, with exactly the room it needs.
pub fn sealing(random: &mut Random, set: &Set, data: usize, text: usize) -> Call {
    Call {
        direction: Direction::Seal,
        set: set.number,
        key: random.bytes(set.key),
        nonce: random.bytes(set.key),
        data: random.bytes(data),
        body: random.bytes(text),
        tag: random.bytes(set.key),
        room: text,
        dangling: false,
    }
}

/// The call that opens what a fitting sealing gives, by the second program.
pub fn opening(sealing: &Call) -> Call {
    let (key, nonce) = (&sealing.key, &sealing.nonce);
    let (data, text) = (&sealing.data, &sealing.body);
    let (mut cipher, mut tag) = (text.clone(), sealing.tag.clone());
    let answer = calls::seal(sealing.set, key, nonce, data, text, &mut cipher, &mut tag);
    assert_eq!(answer.number, 0, "the sealing fits");
    Call {
        direction: Direction::Open,
        body: cipher,
        tag,
        ..sealing.clone()
    }
}

/// A message's call in the given direction.
pub fn fitting(
    random: &mut Random,
    direction: Direction,
    set: &Set,
    data: usize,
    text: usize,
) -> Call {
    let call = sealing(random, set, data, text);
    match direction {
        Direction::Seal => call,
        Direction::Open => opening(&call),
    }
}
