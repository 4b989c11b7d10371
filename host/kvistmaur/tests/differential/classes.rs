//! The classes of calls that every run goes through, each a row with the number of calls that it has to come to.

use crate::call::{Call, Direction, DIRECTIONS};
use crate::common::Class;
use crate::fault::{Fault, UNKNOWN_SETS};
use crate::harness::Harness;
use crate::message::{fitting, opening, sealing};
use kvistmaur::{DATA_LIMIT, TEXT_LIMIT};
use second::cipher::{Set, SETS};
use second::formula::rounds_by_formula;
use second::random::Random;

/// All classes; the numbers are written down so that a class that shrinks is noticed.
#[rustfmt::skip]
pub const CLASSES: [Class<Harness>; 17] = [
    Class { name: "data and text around the first block edges", calls: 3_200, run: near_edges },
    Class { name: "data or text around far block edges", calls: 136, run: far_edges },
    Class { name: "at a limit", calls: 36, run: at_limits },
    Class { name: "one past a limit", calls: 24, run: past_limits },
    Class { name: "one fault", calls: 176, run: one_fault },
    Class { name: "two faults", calls: 4_400, run: two_faults },
    Class { name: "unknown sets", calls: 128, run: unknown_sets },
    Class { name: "opened as another set", calls: 12, run: as_another_set },
    Class { name: "each bit of the tag", calls: 480, run: |h| bits(h, |call| &mut call.tag) },
    Class { name: "each two bytes of the tag", calls: 852, run: two_bytes },
    Class { name: "each bit of the ciphertext", calls: 480, run: |h| bits(h, |call| &mut call.body) },
    Class { name: "each bit of the nonce", calls: 480, run: |h| bits(h, |call| &mut call.nonce) },
    Class { name: "each bit of the key", calls: 480, run: |h| bits(h, |call| &mut call.key) },
    Class { name: "each bit of the data", calls: 416, run: |h| bits(h, |call| &mut call.data) },
    Class { name: "more room than text", calls: 960, run: longer_rooms },
    Class { name: "empty slices behind a pointer to nothing", calls: 512, run: dangling },
    Class { name: "answered 9 with the same lengths", calls: 1_120, run: alike },
];

/// Seals a message of the given lengths and opens it again.
fn trip(harness: &mut Harness, set: &Set, data: usize, text: usize) {
    let seal = sealing(&mut harness.random, set, data, text);
    harness.expect(&seal, 0);
    harness.expect(&opening(&seal), 0);
}

/// The lengths one less than the given one, equal, and one more.
fn around(length: usize) -> [usize; 3] {
    [length - 1, length, length + 1]
}

/// Every pair of lengths around the edges of the first six blocks.
fn near_edges(harness: &mut Harness) {
    for set in &SETS {
        let edges = (1..=6).flat_map(|count| around(count * set.block));
        let lengths: Vec<usize> = [0, 1].into_iter().chain(edges).collect();
        for data in &lengths {
            for text in &lengths {
                trip(harness, set, *data, *text);
            }
        }
    }
}

/// Lengths at which a count of bytes or blocks would need another byte.
fn far_edges(harness: &mut Harness) {
    for set in &SETS {
        for far in [256, 256 * set.block, 65_536] {
            for length in around(far) {
                trip(harness, set, 3, length);
                if length <= DATA_LIMIT {
                    trip(harness, set, length, 3);
                }
            }
        }
    }
}

/// Data, text and both at their limit: sealed, opened, and refused with a differing tag.
fn at_limits(harness: &mut Harness) {
    for set in &SETS {
        for (data, text) in [(DATA_LIMIT, 21), (9, TEXT_LIMIT), (DATA_LIMIT, TEXT_LIMIT)] {
            let seal = sealing(&mut harness.random, set, data, text);
            harness.expect(&seal, 0);
            let mut open = opening(&seal);
            harness.expect(&open, 0);
            open.tag[set.key - 1] ^= 1;
            harness.expect(&open, 9);
        }
    }
}

/// Data, text and both one byte past their limit.
fn past_limits(harness: &mut Harness) {
    for set in &SETS {
        for (data, text) in [
            (DATA_LIMIT + 1, 21),
            (9, TEXT_LIMIT + 1),
            (DATA_LIMIT + 1, TEXT_LIMIT + 1),
        ] {
            let mut call = sealing(&mut harness.random, set, data, text);
            for direction in DIRECTIONS {
                call.direction = direction;
                harness.expect(&call, 5);
            }
        }
    }
}

/// A short call that fits and has no empty part.
fn short(harness: &mut Harness, direction: Direction, set: &Set) -> Call {
    let (data, text) = (set.block + 1, set.block + 3);
    fitting(&mut harness.random, direction, set, data, text)
}

/// Runs `visit` for each direction and set.
fn each_kind(harness: &mut Harness, mut visit: impl FnMut(&mut Harness, Direction, &'static Set)) {
    for direction in DIRECTIONS {
        for set in &SETS {
            visit(harness, direction, set);
        }
    }
}

/// Every fault but the set's, alone, in every way.
fn one_fault(harness: &mut Harness) {
    each_kind(harness, |harness, direction, set| {
        for fault in &Fault::of(direction)[1..] {
            for way in 0..fault.ways() {
                let mut call = short(harness, direction, set);
                fault.bring(&mut call, way);
                harness.expect(&call, fault.answer());
            }
        }
    });
}

/// Every pair of faults, each in every way: the first in the order is answered.
fn two_faults(harness: &mut Harness) {
    each_kind(harness, |harness, direction, set| {
        let faults = Fault::of(direction);
        for (place, first) in faults.iter().enumerate() {
            for second in &faults[place + 1..] {
                for way in 0..first.ways() * second.ways() {
                    let mut call = short(harness, direction, set);
                    first.bring(&mut call, way % first.ways());
                    second.bring(&mut call, way / first.ways());
                    harness.expect(&call, first.answer().min(second.answer()));
                }
            }
        }
    });
}

/// Every unknown set number, with the lengths of each set.
fn unknown_sets(harness: &mut Harness) {
    each_kind(harness, |harness, direction, set| {
        for number in UNKNOWN_SETS {
            let mut call = short(harness, direction, set);
            call.set = number;
            harness.expect(&call, 1);
        }
    });
}

/// Opening in each set what each other set sealed: the key has not the length, or the tag differs.
fn as_another_set(harness: &mut Harness) {
    for own in &SETS {
        for other in SETS.iter().filter(|other| other.number != own.number) {
            let mut call = short(harness, Direction::Open, own);
            call.set = other.number;
            harness.expect(&call, if own.key == other.key { 9 } else { 2 });
        }
    }
}

/// Opening after each single bit of a part was turned, with exact room and with more.
fn bits(harness: &mut Harness, part: fn(&mut Call) -> &mut Vec<u8>) {
    for set in &SETS {
        let mut call = short(harness, Direction::Open, set);
        for bit in 0..8 * part(&mut call).len() {
            call.room = call.body.len() + bit % 3;
            part(&mut call)[bit / 8] ^= 1 << (bit % 8);
            harness.expect(&call, 9);
            part(&mut call)[bit / 8] ^= 1 << (bit % 8);
        }
    }
}

/// Opening with the same bit turned in two bytes of the tag, and with two bytes swapped, so that no sum tells.
fn two_bytes(harness: &mut Harness) {
    for set in &SETS {
        let right = short(harness, Direction::Open, set);
        for second in 0..set.key {
            for first in 0..second {
                let mut call = right.clone();
                call.tag[first] ^= 0x10;
                call.tag[second] ^= 0x10;
                harness.expect(&call, 9);

                let mut call = right.clone();
                call.tag.swap(first, second);
                let same = right.tag[first] == right.tag[second];
                harness.expect(&call, if same { 0 } else { 9 });
            }
        }
    }
}

/// Sealing, opening and refusing texts of 0 to 79 bytes in a room of 80.
fn longer_rooms(harness: &mut Harness) {
    for set in &SETS {
        for text in 0..80 {
            let mut seal = sealing(&mut harness.random, set, 5, text);
            seal.room = 80;
            harness.expect(&seal, 0);
            let mut open = opening(&seal);
            harness.expect(&open, 0);
            open.nonce[0] ^= 0x80;
            harness.expect(&open, 9);
        }
    }
}

/// Every choice of slices to be empty, behind a pointer that leads nowhere.
fn dangling(harness: &mut Harness) {
    each_kind(harness, |harness, direction, set| {
        for choice in 0..64 {
            let empty: [bool; 6] = std::array::from_fn(|slice| choice >> slice & 1 == 1);
            let mut call = short(harness, direction, set);
            call.dangling = true;
            call.room = if empty[5] { 0 } else { call.room };
            let parts = [
                &mut call.key,
                &mut call.nonce,
                &mut call.tag,
                &mut call.data,
                &mut call.body,
            ];
            for (part, empty) in parts.into_iter().zip(empty) {
                part.truncate(if empty { 0 } else { part.len() });
            }
            let [no_key, no_nonce, no_tag, no_data, no_body, no_room] = empty;
            let answer = match direction {
                _ if no_key => 2,
                _ if no_nonce => 3,
                _ if no_tag => 4,
                _ if no_room && !no_body => 6,
                Direction::Open if no_data || no_body => 9,
                _ => 0,
            };
            harness.expect(&call, answer);
        }
    });
}

/// A right opening with every byte of one part changed, for each part that is not empty, and with every byte of all parts.
fn wrong_ones(random: &mut Random, right: &Call) -> Vec<Call> {
    let parts: [fn(&mut Call) -> &mut Vec<u8>; 5] = [
        |call| &mut call.key,
        |call| &mut call.nonce,
        |call| &mut call.data,
        |call| &mut call.body,
        |call| &mut call.tag,
    ];
    let mut other = |byte: &mut u8| *byte ^= 1 + random.below(255) as u8;
    let mut all = right.clone();
    let mut wrong = Vec::new();
    for part in parts {
        let mut call = right.clone();
        if !part(&mut call).is_empty() {
            part(&mut call).iter_mut().for_each(&mut other);
            wrong.push(call);
        }
        part(&mut all).iter_mut().for_each(&mut other);
    }
    wrong.push(all);
    wrong
}

/// Openings of the same lengths, with the same output before, that are answered 9: whatever else differs, they return the same number and leave the same output.
fn alike(harness: &mut Harness) {
    for set in &SETS {
        for data in [0, 1, set.block - 1, set.block, 3 * set.block] {
            for text in [0, 1, set.block - 1, set.block, 40] {
                for more in [0, 3] {
                    let mut right = opening(&sealing(&mut harness.random, set, data, text));
                    right.room += more;
                    let number = 16 * rounds_by_formula(set, data, text) + 9;
                    let before = right.memory(|| 0);
                    let zeros = [&vec![0; text], &before.output()[text..]].concat();
                    for call in wrong_ones(&mut harness.random, &right) {
                        let mut memory = call.memory(|| 0);
                        assert_eq!(memory.output(), before.output());
                        let returned = harness.compare_in(&call, &mut memory);
                        let left = (returned, memory.output());
                        assert_eq!(left, (number, &zeros[..]), "{}", call.shown());
                    }
                }
            }
        }
    }
}
