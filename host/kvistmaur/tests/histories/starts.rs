//! Starts that fit, and starts that are refused.

use crate::history::Start;
use second::cipher::SETS;
use second::random::Random;
use second::stream::LARGEST_LIMIT;

/// A start that is done.
pub fn fitting_start(random: &mut Random) -> Start {
    let set = &SETS[random.below(SETS.len())];
    let small = random.below(60) as u64;
    let limits = [0, 1, small, 200, LARGEST_LIMIT - small, LARGEST_LIMIT];
    Start {
        set: set.number,
        limit: limits[random.below(limits.len())],
        key: random.bytes(set.key),
        nonce: random.bytes(set.key),
    }
}

/// A start with one fault or several, and the answer that refuses it.
pub fn refused_start(random: &mut Random) -> (Start, u64) {
    let mut start = fitting_start(random);
    // Of 1, 2, 3 and 5, which are tested in this order, those whose bit is set hold: one, or any of them.
    let faults = [1 << random.below(4), 1 + random.below(15)][random.below(2)];
    if faults & 0b1000 != 0 {
        start.limit = limit_over(random);
    }
    if faults & 0b0100 != 0 {
        start.nonce = other_length(random, start.nonce.len());
    }
    if faults & 0b0010 != 0 {
        start.key = other_length(random, start.key.len());
    }
    if faults & 0b0001 != 0 {
        start.set = unknown_set(random, start.set);
    }
    (start, [1, 2, 3, 5][usize::trailing_zeros(faults) as usize])
}

/// A number that is over the largest limit; some are not when they are cut to fewer bits.
pub fn limit_over(random: &mut Random) -> u64 {
    let small = random.below(300) as u64;
    let over = [
        LARGEST_LIMIT + 1,
        LARGEST_LIMIT + 1 + small,
        2 * LARGEST_LIMIT,
        1 << 32,
        (1 << 32) + small,
        1 << 63,
        u64::MAX,
    ];
    over[random.below(over.len())]
}

/// A number that no set has; some are the given set's when they are cut to fewer bits.
fn unknown_set(random: &mut Random, set: u64) -> u64 {
    let unknown = [
        0,
        5,
        (1 << 8) + set,
        (1 << 16) + set,
        (1 << 32) + set,
        (1 << 63) + set,
        u64::MAX,
    ];
    unknown[random.below(unknown.len())]
}

/// Bytes of another length than a key, nonce or tag has, often of the one that it has in other sets.
pub fn other_length(random: &mut Random, right: usize) -> Vec<u8> {
    let length = [right - 1, right + 1, 28 - right, 0, 8, 40][random.below(6)];
    random.bytes(length)
}
