//! Streams to make calls on, by the second program.

use crate::lending::Arguments;
use second::area::{self, LENGTH};
use second::cipher::Set;
use second::random::Random;
use second::stream::Direction::{self, Checking, Opening, Sealing};

/// All directions.
pub const DIRECTIONS: [Direction; 3] = [Sealing, Checking, Opening];

/// Where the numbers of a state begin: set, direction, phase, data count, text count, place and limit.
pub const PLACES: [usize; 7] = [56, 64, 72, 80, 88, 96, 104];

/// Numbers that mean something in a state, or do when they are cut to fewer bits.
#[rustfmt::skip]
pub const NUMBERS: [u64; 18] = [
    0, 1, 2, 3, 4, 5, 7, 8, 15, 16, 256, 65_536, 65_537, 1_048_576, 1_048_577, 1 << 32, 1 << 63, u64::MAX,
];

/// A stream that was just started, and arguments for all calls that fit it.
pub fn started(random: &mut Random, set: &Set, direction: Direction, limit: u64) -> Arguments {
    let (key, nonce) = (random.bytes(set.key), random.bytes(set.key));
    let start = match direction {
        Sealing => area::start_sealing,
        Checking => area::start_checking,
        Opening => area::start_opening,
    };
    let mut state = vec![0; LENGTH];
    let number = start(set.number, limit, &key, &nonce, &mut state);
    assert_eq!(number, 16 * 12);
    Arguments {
        set: set.number,
        limit,
        key,
        nonce,
        state,
        piece: random.bytes(21),
        room: 24,
        tag: random.bytes(set.key),
    }
}

/// Takes data and text into a stream that was just started; without text it stays in the phase of the data.
pub fn feed(random: &mut Random, stream: &mut Arguments, data: usize, text: Option<usize>) {
    let state = &mut stream.state;
    assert_eq!(area::stream_data(state, &random.bytes(data)) % 16, 0);
    if let Some(length) = text {
        let (text, mut out) = (random.bytes(length), vec![0; length]);
        let taken = match state[71] {
            0 => area::stream_seal(state, &text, &mut out),
            1 => area::stream_check(state, &text),
            _ => area::stream_open(state, &text, &mut out),
        };
        assert_eq!(taken % 16, 0);
    }
}

/// Gives the arguments the tag of their stream, which is the same in each direction.
pub fn put_right_tag(stream: &mut Arguments) {
    let mut sealing = stream.state.clone();
    put(&mut sealing, 64, 0);
    let finished = area::finish_sealing(&mut sealing, &mut stream.tag);
    assert_eq!(finished % 16, 0);
}

/// Puts a number into eight bytes of a state.
pub fn put(state: &mut [u8], place: usize, number: u64) {
    state[place..place + 8].copy_from_slice(&number.to_be_bytes());
}
