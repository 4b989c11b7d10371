//! Calls of any kind, for the rest of a run.

use crate::call::{Call, DIRECTIONS};
use crate::fault::UNKNOWN_SETS;
use crate::harness::Harness;
use crate::message::fitting;
use second::cipher::SETS;
use second::random::Random;

/// Compares a call in which each choice is left to chance: direction, set, lengths, room, damage and faults.
pub fn any_call(harness: &mut Harness) {
    let random = &mut harness.random;
    let direction = DIRECTIONS[random.below(2)];
    let set = &SETS[random.below(SETS.len())];
    let (data, text) = (length(random), length(random));
    let mut call = fitting(random, direction, set, data, text);
    call.room += random.below(40);
    // Half of the calls stay as they are; the others get one change or a few.
    while random.below(2) == 0 {
        change(random, &mut call);
    }
    harness.compare(&call);
}

/// A length: mostly short, seldom up to a few thousand.
fn length(random: &mut Random) -> usize {
    let most = [20, 20, 70, 70, 70, 300, 300, 3000][random.below(8)];
    random.below(most)
}

/// A number of a set or of none, either as often.
fn other_set(random: &mut Random) -> u64 {
    match random.below(2) {
        0 => SETS[random.below(SETS.len())].number,
        _ => UNKNOWN_SETS[random.below(UNKNOWN_SETS.len())],
    }
}

/// Damages a bit of a part, gives a part another length or the output other room, or names another set.
fn change(random: &mut Random, call: &mut Call) {
    let choice = random.below(12);
    match choice {
        10 => call.room = random.below(call.body.len() + 2),
        11 => call.set = other_set(random),
        _ => {
            let part = match choice % 5 {
                0 => &mut call.key,
                1 => &mut call.nonce,
                2 => &mut call.tag,
                3 => &mut call.data,
                _ => &mut call.body,
            };
            if choice < 5 && !part.is_empty() {
                let place = random.below(part.len());
                part[place] ^= 1 << random.below(8);
            } else {
                part.resize(random.below(18), 0);
            }
        }
    }
}
