//! Stream calls on states that a caller lends as bytes, with the one number of the C boundary.
//!
//! An area of 112 bytes spells a state: the words x0 to x4, the key in 16 bytes, then set, direction,
//! phase, data count, text count, place and limit. A word or a number takes 8 bytes, high byte first.
//!
//! A call on an area is the stream's call on the state that the area spells, and leaves the next state's
//! spelling there. A refused call gives its state back, so the same bytes stand there again.

use crate::calls::Answer;
use crate::stream::{self, Direction, Given, Phase, Stream, ENDED};

/// How many bytes an area has.
pub const LENGTH: usize = 112;

/// Gives the number that spells a direction.
fn direction_number(direction: Direction) -> u64 {
    match direction {
        Direction::Sealing => 0,
        Direction::Checking => 1,
        Direction::Opening => 2,
    }
}

/// Gives the direction that the number spells, if it spells one.
fn direction_of(number: u64) -> Option<Direction> {
    match number {
        0 => Some(Direction::Sealing),
        1 => Some(Direction::Checking),
        2 => Some(Direction::Opening),
        _ => None,
    }
}

/// Gives the number that spells a phase.
fn phase_number(phase: Phase) -> u64 {
    match phase {
        Phase::Data => 0,
        Phase::Text => 1,
        Phase::Ended => 2,
    }
}

/// Gives the phase that the number spells, if it spells one.
fn phase_of(number: u64) -> Option<Phase> {
    match number {
        0 => Some(Phase::Data),
        1 => Some(Phase::Text),
        2 => Some(Phase::Ended),
        _ => None,
    }
}

/// Writes the number into the eight bytes of the area from `place` on, high byte first.
fn put_number(area: &mut [u8], place: usize, number: u64) {
    for i in 0..8 {
        area[place + i] = (number >> (8 * (7 - i))) as u8;
    }
}

/// Gives the number in the eight bytes of the area from `place` on, high byte first.
fn number_at(area: &[u8], place: usize) -> u64 {
    let mut number = 0;
    for byte in &area[place..place + 8] {
        number = number << 8 | u64::from(*byte);
    }
    number
}

/// Gives the spelling of a state, broken or not.
pub fn spelled(stream: &Stream) -> [u8; LENGTH] {
    let mut area = [0; LENGTH];
    for (i, word) in stream.words.iter().enumerate() {
        put_number(&mut area, 8 * i, *word);
    }
    area[40..56].copy_from_slice(&stream.key);
    put_number(&mut area, 56, stream.set);
    put_number(&mut area, 64, direction_number(stream.direction));
    put_number(&mut area, 72, phase_number(stream.phase));
    put_number(&mut area, 80, stream.ad_count);
    put_number(&mut area, 88, stream.text_count);
    put_number(&mut area, 96, stream.place);
    put_number(&mut area, 104, stream.limit);
    area
}

/// Gives the state that the area spells, broken or not, or none if it spells no state.
pub fn read(area: &[u8]) -> Option<Stream> {
    if area.len() != LENGTH {
        return None;
    }
    let direction = direction_of(number_at(area, 64))?;
    let phase = phase_of(number_at(area, 72))?;
    let mut key = [0; 16];
    key.copy_from_slice(&area[40..56]);
    Some(Stream {
        words: [0, 8, 16, 24, 32].map(|place| number_at(area, place)),
        set: number_at(area, 56),
        direction,
        phase,
        key,
        ad_count: number_at(area, 80),
        text_count: number_at(area, 88),
        place: number_at(area, 96),
        limit: number_at(area, 104),
    })
}

/// Gives the one number of an answer and its rounds.
fn one_number(number: u64, rounds: u64) -> u64 {
    Answer { number, rounds }.one_number()
}

/// Leaves the spelling of what a call gave in an area of 112 bytes, and gives the one number.
fn left_in(area: &mut [u8], (number, rounds, next): Given) -> u64 {
    area.copy_from_slice(&spelled(&next));
    one_number(number, rounds)
}

/// Makes the stream's call on the state that the area spells; 8 if it spells none.
fn called_on(area: &mut [u8], call: impl FnOnce(Stream) -> Given) -> u64 {
    match read(area) {
        Some(stream) => left_in(area, call(stream)),
        None => one_number(8, 0),
    }
}

/// Starts a stream in an area of the right length, whatever it holds; 8 if the length is another.
fn started_in(
    area: &mut [u8],
    direction: Direction,
    set: u64,
    limit: u64,
    key: &[u8],
    nonce: &[u8],
) -> u64 {
    if area.len() != LENGTH {
        return one_number(8, 0);
    }
    left_in(area, stream::start(direction, set, limit, key, nonce))
}

/// Starts a sealing stream in the area; refused with 1, 2, 3 or 5 it leaves the ended state there.
pub fn start_sealing(set: u64, limit: u64, key: &[u8], nonce: &[u8], area: &mut [u8]) -> u64 {
    started_in(area, Direction::Sealing, set, limit, key, nonce)
}

/// Starts a checking stream in the area; refused with 1, 2, 3 or 5 it leaves the ended state there.
pub fn start_checking(set: u64, limit: u64, key: &[u8], nonce: &[u8], area: &mut [u8]) -> u64 {
    started_in(area, Direction::Checking, set, limit, key, nonce)
}

/// Starts an opening stream in the area; refused with 1, 2, 3 or 5 it leaves the ended state there.
pub fn start_opening(set: u64, limit: u64, key: &[u8], nonce: &[u8], area: &mut [u8]) -> u64 {
    started_in(area, Direction::Opening, set, limit, key, nonce)
}

/// Takes a piece of the associated data into the stream of the area, in any direction.
pub fn stream_data(area: &mut [u8], data: &[u8]) -> u64 {
    called_on(area, |state| stream::ad(state, data))
}

/// Seals a piece of the text into the front of `out`.
pub fn stream_seal(area: &mut [u8], text: &[u8], out: &mut [u8]) -> u64 {
    called_on(area, |state| stream::seal(state, text, out))
}

/// Takes a piece of the ciphertext that is to be checked.
pub fn stream_check(area: &mut [u8], cipher: &[u8]) -> u64 {
    called_on(area, |state| stream::check(state, cipher))
}

/// Opens a piece of the ciphertext into the front of `out`; what it gives is unverified up to the finish.
pub fn stream_open(area: &mut [u8], cipher: &[u8], out: &mut [u8]) -> u64 {
    called_on(area, |state| stream::open(state, cipher, out))
}

/// Finishes the sealing stream of the area and puts the tag into its place.
pub fn finish_sealing(area: &mut [u8], tag_place: &mut [u8]) -> u64 {
    called_on(area, |state| stream::finish_sealing(state, tag_place))
}

/// Finishes the checking stream of the area: done if the tag is that of what came, otherwise 9.
pub fn finish_checking(area: &mut [u8], tag: &[u8]) -> u64 {
    called_on(area, |state| stream::finish_checking(state, tag))
}

/// Finishes the opening stream of the area: done if the tag is that of what came, otherwise 9.
pub fn finish_opening(area: &mut [u8], tag: &[u8]) -> u64 {
    called_on(area, |state| stream::finish_opening(state, tag))
}

/// Leaves the ended state in an area of the right length, whatever it holds; 8 if the length is another.
pub fn stream_end(area: &mut [u8]) -> u64 {
    if area.len() != LENGTH {
        return one_number(8, 0);
    }
    left_in(area, (0, 0, ENDED))
}
