//! What somebody else may do to an area between two calls.

use crate::states::{put, DIRECTIONS, NUMBERS, PLACES};
use second::area::LENGTH;
use second::calls::AD_LIMIT;
use second::cipher::SETS;
use second::random::Random;
use second::stream::LARGEST_LIMIT;

/// Turns a bit.
pub fn bit(random: &mut Random, area: &mut [u8]) {
    let bit = random.below(8 * area.len());
    area[bit / 8] ^= 1 << (bit % 8);
}

/// Makes a byte another.
pub fn byte(random: &mut Random, area: &mut [u8]) {
    let place = random.below(area.len());
    area[place] ^= 1 + random.below(255) as u8;
}

/// Puts an edge value into the place of a number: one that means something in any state, or one near a number of this state.
pub fn number(random: &mut Random, area: &mut [u8]) {
    let [place, other] = [0; 2].map(|_| PLACES[random.below(PLACES.len())]);
    let (own, near) = (number_at(area, place), number_at(area, other));
    let value = match random.below(9) {
        0 => own.wrapping_add([1, 8, 16, 1 << 8, 1 << 32, 1 << 63][random.below(6)]),
        1 => own.wrapping_sub([1, 8, 16][random.below(3)]),
        2 => near.wrapping_add(random.below(2) as u64),
        _ => NUMBERS[random.below(NUMBERS.len())],
    };
    put(area, place, value);
}

/// The number in eight bytes of an area.
fn number_at(area: &[u8], place: usize) -> u64 {
    let eight = area[place..place + 8].try_into();
    u64::from_be_bytes(eight.expect("eight bytes"))
}

/// Swaps two of the words, the halves of the key and the numbers.
pub fn swap(random: &mut Random, area: &mut [u8]) {
    let one = random.below(14);
    let two = (one + 1 + random.below(13)) % 14;
    for byte in 0..8 {
        area.swap(8 * one + byte, 8 * two + byte);
    }
}

/// Turns the bytes of a number or a word around, as where the low byte comes first.
pub fn turned_around(random: &mut Random, area: &mut [u8]) {
    let part = random.below(14);
    area[8 * part..][..8].reverse();
}

/// A length that no state has, often one less or one more.
pub fn another_length(random: &mut Random) -> usize {
    let any = random.below(240);
    let lengths = [
        LENGTH - 1,
        LENGTH + 1,
        LENGTH - 8,
        LENGTH + 8,
        2 * LENGTH,
        0,
        if any == LENGTH { 1 } else { any },
    ];
    lengths[random.below(lengths.len())]
}

/// Fills the area with noise: all of it, or with edge values as its numbers, or with small ones, or with some that go together.
pub fn noise(random: &mut Random, area: &mut [u8]) {
    area.copy_from_slice(&random.bytes(LENGTH));
    match random.below(4) {
        0 => (),
        1 => put_numbers(area, || NUMBERS[random.below(NUMBERS.len())]),
        2 => put_numbers(area, || random.below(4) as u64),
        _ => {
            sound(random, area);
            (0..1 + random.below(3)).for_each(|_| number(random, area));
        }
    }
}

/// Fills the area with a made-up open state that breaks no rule.
pub fn sound(random: &mut Random, area: &mut [u8]) {
    area.copy_from_slice(&random.bytes(LENGTH));
    let set = &SETS[random.below(SETS.len())];
    area[40 + set.key..56].fill(0);
    let largest = LARGEST_LIMIT as usize;
    let limit = [0, 1, 200, random.below(largest), largest][random.below(5)];
    let phase = random.below(2);
    let data = [0, 1, random.below(100), random.below(AD_LIMIT), AD_LIMIT][random.below(5)];
    let text = phase * [0, limit, random.below(limit + 1)][random.below(3)];
    let place = [data, text][phase] % set.block;
    let direction = random.below(DIRECTIONS.len());
    let set = set.number as usize;
    let mut numbers = [set, direction, phase, data, text, place, limit].into_iter();
    put_numbers(area, || numbers.next().expect("seven numbers") as u64);
}

/// Puts seven numbers, one after another, into the places of an area's numbers.
fn put_numbers(area: &mut [u8], mut next: impl FnMut() -> u64) {
    for place in PLACES {
        put(area, place, next());
    }
}
