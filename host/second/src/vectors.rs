//! Right bench records of pseudo-random messages.

use crate::cipher::{Set, SETS};
use crate::make::right_record;
use crate::random::Random;
use crate::record::{Form, Record, MOST_BYTES, MOST_CHIP};

/// The most bytes of associated data or text in a short record.
const MOST_SHORT: usize = 40;

/// Gives a length from 0 to 256, three times of four at a block edge or one byte beside it.
pub fn length(random: &mut Random, block: usize) -> usize {
    if random.below(4) == 0 {
        return random.below(MOST_BYTES + 1);
    }
    let edge = random.below(MOST_BYTES / block + 1) * block;
    (edge + random.below(3)).saturating_sub(1).min(MOST_BYTES)
}

/// Gives a length from 0 to 40, one time of four 0 at least.
fn short_length(random: &mut Random) -> usize {
    if random.below(4) == 0 {
        return 0;
    }
    random.below(MOST_SHORT + 1)
}

/// How many sets take turns.
fn turns() -> u64 {
    SETS.len() as u64
}

/// Gives the right record of the next pseudo-random message; the sets take turns by `index`.
pub fn record(random: &mut Random, index: u64) -> Record {
    let set = &SETS[(index % turns()) as usize];
    record_with(random, set, |random| length(random, set.block))
}

/// Gives the right record of the next pseudo-random message of the set, of at most 40 bytes of data and of text.
pub fn short_record(random: &mut Random, set: &Set) -> Record {
    record_with(random, set, short_length)
}

/// Gives the right record of the next pseudo-random message of the set; `length` gives those of data and text.
fn record_with(random: &mut Random, set: &Set, length: impl Fn(&mut Random) -> usize) -> Record {
    let key = random.bytes(set.key);
    let nonce = random.bytes(set.key);
    let ad_length = length(random);
    let ad = random.bytes(ad_length);
    let text_length = length(random);
    let text = random.bytes(text_length);
    right_record(set.number, &key, &nonce, &ad, &text).expect("the message has a right form")
}

/// Gives a chip: by `index` the least, the greatest, one of at most two digits and any in turn, each once a set.
pub fn chip(random: &mut Random, index: u64) -> u64 {
    match index / turns() % 4 {
        0 => 0,
        1 => MOST_CHIP,
        2 => random.below(100) as u64,
        _ => random.below(MOST_CHIP as usize + 1) as u64,
    }
}

/// Gives the right record of the next pseudo-random message, for form 2 with a pseudo-random chip.
pub fn record_in(form: Form, random: &mut Random, index: u64) -> Record {
    let mut record = record(random, index);
    if form == Form::Two {
        record.chip = chip(random, index);
    }
    record
}
