//! The classes of stream calls that every run goes through, each a row with the number of calls that it has to come to.

use crate::call::{Call, CALLS};
use crate::common::Class;
use crate::harness::Harness;
use crate::lending::Arguments;
use crate::states::{feed, put, put_right_tag, started, DIRECTIONS, NUMBERS, PLACES};
use second::area::{self, LENGTH};
use second::cipher::SETS;
use second::stream::{ENDED, LARGEST_LIMIT};

/// How many open streams there are: in each set and direction, before the text and in it.
const OPEN: usize = 4 * 3 * 2;

/// All classes; the numbers are written down so that a class that shrinks is noticed.
#[rustfmt::skip]
pub const CLASSES: [Class<Harness>; 6] = [
    Class { name: "each bit of a state turned", calls: OPEN * 896 * 8, run: bits },
    Class { name: "each number of a state another", calls: OPEN * 7 * 18 * 8, run: numbers },
    Class { name: "each other length of a state", calls: 3 * 240 * 11, run: lengths },
    Class { name: "starts with each mixture of faults", calls: 3 * 9 * 6 * 6 * 6 * 3, run: starts },
    Class { name: "pieces and tags of each length", calls: OPEN * 50 * 2 * 8, run: pieces },
    Class { name: "counts at a limit", calls: 4 * 3 * 16 * 4, run: counts },
];

/// Runs `visit` on an open stream of each set and direction, in each phase.
fn each_open(harness: &mut Harness, visit: impl Fn(&mut Harness, Arguments)) {
    for set in &SETS {
        for direction in DIRECTIONS {
            for text in [None, Some(19)] {
                let mut stream = started(&mut harness.random, set, direction, 1_000);
                feed(&mut harness.random, &mut stream, 13, text);
                put_right_tag(&mut stream);
                visit(harness, stream);
            }
        }
    }
}

/// Compares every call on a stream.
fn every_call(harness: &mut Harness, arguments: &Arguments) {
    for call in Call::ON_STREAMS {
        harness.compare(*call, arguments);
    }
}

/// Every call on an open stream after each single bit of its state was turned.
fn bits(harness: &mut Harness) {
    each_open(harness, |harness, right| {
        for bit in 0..8 * LENGTH {
            let mut arguments = right.clone();
            arguments.state[bit / 8] ^= 1 << (bit % 8);
            every_call(harness, &arguments);
        }
    });
}

/// Every call on an open stream after one of the numbers of its state was made another.
fn numbers(harness: &mut Harness) {
    each_open(harness, |harness, right| {
        for place in PLACES {
            for number in NUMBERS {
                let mut arguments = right.clone();
                put(&mut arguments.state, place, number);
                every_call(harness, &arguments);
            }
        }
    });
}

/// Every call on the beginning of a state, or on a state and zeros behind it.
fn lengths(harness: &mut Harness) {
    for direction in DIRECTIONS {
        let right = started(&mut harness.random, &SETS[0], direction, 1_000);
        for length in (0..=240).filter(|length| *length != LENGTH) {
            let mut arguments = right.clone();
            arguments.state.resize(length, 0);
            for call in CALLS {
                harness.expect(call, &arguments, 8);
            }
        }
    }
}

/// Starts with sets, keys, nonces and limits that fit or don't; over an open stream, over the ended state and over any bytes.
fn starts(harness: &mut Harness) {
    for direction in DIRECTIONS {
        let open = started(&mut harness.random, &SETS[0], direction, 1_000);
        for set in [1, 2, 3, 4, 0, 5, 257, 1 << 32 | 1, u64::MAX] {
            for key in [0, 12, 15, 16, 17, 40] {
                for nonce in [0, 12, 15, 16, 17, 40] {
                    for limit in [0, 200, LARGEST_LIMIT, LARGEST_LIMIT + 1, 1 << 32, u64::MAX] {
                        let right = if set == 2 { 12 } else { 16 };
                        let answer = match () {
                            _ if !(1..=4).contains(&set) => 1,
                            _ if key != right => 2,
                            _ if nonce != right => 3,
                            _ if limit > LARGEST_LIMIT => 5,
                            _ => 0,
                        };
                        let mut arguments = open.clone();
                        (arguments.set, arguments.limit) = (set, limit);
                        arguments.key = harness.random.bytes(key);
                        arguments.nonce = harness.random.bytes(nonce);
                        harness.expect(Call::start(direction), &arguments, answer);
                        arguments.state = area::spelled(&ENDED).to_vec();
                        harness.expect(Call::start(direction), &arguments, answer);
                        arguments.state = harness.random.bytes(LENGTH);
                        harness.expect(Call::start(direction), &arguments, answer);
                    }
                }
            }
        }
    }
}

/// Every call on an open stream with pieces and tags of 0 to 49 bytes, with room for them and with room for one byte less.
fn pieces(harness: &mut Harness) {
    each_open(harness, |harness, right| {
        for length in 0..50 {
            for less in [0, 1] {
                let mut arguments = right.clone();
                arguments.piece = harness.random.bytes(length);
                arguments.room = length.saturating_sub(less);
                arguments.tag.resize(length, 0x5a);
                every_call(harness, &arguments);
            }
        }
    });
}

/// Streams that have taken about as much as they may, each with a piece of 21 bytes that just fits, or doesn't: phase, limit, and the counts of data and of text.
#[rustfmt::skip]
const COUNTS: [[u64; 4]; 16] = [
    [0, 0, 65_536, 0], [0, 0, 65_535, 0], [0, 21, 65_515, 0], [0, LARGEST_LIMIT, 65_516, 0],
    [0, 20, 7, 0], [0, 21, 8, 0], [0, 22, 65_536, 0],
    [1, 0, 65_536, 0], [1, 20, 3, 0], [1, 21, 3, 0], [1, 21, 3, 1], [1, 1_000, 0, 979], [1, 1_000, 0, 980],
    [1, LARGEST_LIMIT, 0, LARGEST_LIMIT - 21], [1, LARGEST_LIMIT, 0, LARGEST_LIMIT - 20], [1, LARGEST_LIMIT, 65_536, LARGEST_LIMIT],
];

/// The fitting calls on such streams.
fn counts(harness: &mut Harness) {
    for set in &SETS {
        for direction in DIRECTIONS {
            for [phase, limit, data, text] in COUNTS {
                let mut stream = started(&mut harness.random, set, direction, limit);
                let place = [data, text][phase as usize] % set.block as u64;
                for (at, number) in [(72, phase), (80, data), (88, text), (96, place)] {
                    put(&mut stream.state, at, number);
                }
                put_right_tag(&mut stream);
                let by_room = |fits| if fits { 0 } else { 5 };
                let for_data = match phase {
                    0 => by_room(data + 21 <= 65_536),
                    _ => 7,
                };
                harness.expect(Call::Data, &stream, for_data);
                harness.expect(Call::text(direction), &stream, by_room(text + 21 <= limit));
                harness.expect(Call::finish(direction), &stream, 0);
                harness.expect(Call::End, &stream, 0);
            }
        }
    }
}
