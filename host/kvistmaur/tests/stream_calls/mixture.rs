//! Stream calls of any kind, for the rest of a run.

use crate::call::CALLS;
use crate::harness::Harness;
use crate::lending::Arguments;
use crate::states::{feed, put, put_right_tag, started, DIRECTIONS, NUMBERS, PLACES};
use second::area::LENGTH;
use second::cipher::SETS;
use second::random::Random;

/// Compares a call in which each choice is left to chance: the stream and what it has taken, the call and its arguments, damage and faults.
pub fn any_call(harness: &mut Harness) {
    let random = &mut harness.random;
    let set = &SETS[random.below(SETS.len())];
    let direction = DIRECTIONS[random.below(3)];
    let limit = [60, 200, 1_048_576][random.below(3)];
    let mut arguments = started(random, set, direction, limit);
    let text = [None, Some(random.below(60))][random.below(2)];
    let data = random.below(40);
    feed(random, &mut arguments, data, text);

    let length = any_length(random);
    arguments.piece = random.bytes(length);
    arguments.room = length + random.below(4);
    if random.below(2) == 0 {
        put_right_tag(&mut arguments);
    }
    // Half of the calls stay as they are; the others get one change or a few.
    while random.below(2) == 0 {
        change(random, &mut arguments);
    }
    let call = CALLS[random.below(CALLS.len())];
    harness.compare(call, &arguments);
}

/// The length of a piece: mostly short, seldom longer than data may be.
fn any_length(random: &mut Random) -> usize {
    match random.below(200) {
        0 => 65_536 + random.below(2),
        1..=20 => random.below(400),
        _ => random.below(40),
    }
}

/// Damages a bit of the state, gives it another number or another length, or other bytes, or changes an argument.
fn change(random: &mut Random, arguments: &mut Arguments) {
    let number = NUMBERS[random.below(NUMBERS.len())];
    let place = PLACES[random.below(PLACES.len())];
    let state = &mut arguments.state;
    match random.below(10) {
        0 | 1 => {
            let bit = random.below(8 * state.len());
            state[bit / 8] ^= 1 << (bit % 8);
        }
        2 | 3 if state.len() >= LENGTH => put(state, place, number),
        2..=4 => state.resize(LENGTH - 12 + random.below(24), 0),
        5 => *state = random.bytes(LENGTH),
        6 => arguments.set = number,
        7 => arguments.limit = number,
        8 => arguments.room = random.below(arguments.piece.len() + 1),
        _ => {
            let part = match random.below(3) {
                0 => &mut arguments.key,
                1 => &mut arguments.nonce,
                _ => &mut arguments.tag,
            };
            part.resize(random.below(18), 0);
        }
    }
}
