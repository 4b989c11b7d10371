//! Sealing, checking and opening streams on any state and input, with the answer numbers of the rules.
//!
//! A state is its named parts and nothing else, so what an unfilled block has taken stands in the
//! words already. A call puts stand-ins for those bytes before its piece: zeros where bytes are
//! combined, the state's own front where they replace. It then cuts the whole into blocks.
//!
//! Sealing combines: the front is then the ciphertext. Checking and opening replace: the front becomes
//! the ciphertext that came, and the plaintext is what stood there combined with it. Opening hands that
//! plaintext out (W1), checking doesn't.

use crate::calls::{AD_LIMIT, TEXT_LIMIT};
use crate::cipher::{cipher_blocks, combined, finish, set_of, started, Set, State};
use crate::permutation::Words;

/// The largest text limit that a stream may have.
pub const LARGEST_LIMIT: u64 = TEXT_LIMIT as u64;

/// What a stream is for.
#[derive(Clone, Copy, Debug, PartialEq, Eq)]
pub enum Direction {
    Sealing,
    Checking,
    Opening,
}

/// What a stream takes next: associated data, text, or nothing any more.
#[derive(Clone, Copy, Debug, PartialEq, Eq)]
pub enum Phase {
    Data,
    Text,
    Ended,
}

/// The state of a stream, in parts that anyone may fill in.
#[derive(Clone, Copy, Debug, PartialEq, Eq)]
pub struct Stream {
    pub words: Words,
    pub set: u64,
    pub direction: Direction,
    pub phase: Phase,
    /// The key, and in set 2 four zero bytes after it.
    pub key: [u8; 16],
    pub ad_count: u64,
    pub text_count: u64,
    pub place: u64,
    /// The most bytes of text or ciphertext that the stream takes.
    pub limit: u64,
}

/// The one ended state.
pub const ENDED: Stream = Stream {
    words: [0; 5],
    set: 1,
    direction: Direction::Sealing,
    phase: Phase::Ended,
    key: [0; 16],
    ad_count: 0,
    text_count: 0,
    place: 0,
    limit: 0,
};

/// What a call gives: the answer number, the rounds reported and the next state.
pub type Given = (u64, u64, Stream);

/// Says whether a state breaks any of the rules.
pub fn is_broken(stream: &Stream) -> bool {
    let Some(set) = set_of(stream.set) else {
        return true;
    };
    let block = set.block as u64;
    let present = match stream.phase {
        Phase::Ended => return *stream != ENDED,
        Phase::Data => stream.ad_count,
        Phase::Text => stream.text_count,
    };
    if stream.place != present % block {
        return true;
    }
    if stream.phase == Phase::Data && stream.text_count != 0 {
        return true;
    }
    if stream.limit > LARGEST_LIMIT {
        return true;
    }
    if stream.ad_count > AD_LIMIT as u64 || stream.text_count > stream.limit {
        return true;
    }
    stream.key[set.key..].iter().any(|byte| *byte != 0)
}

/// Gives the set of a state that is open in the given direction, or 8 or 7 if it isn't.
fn fitting(stream: &Stream, direction: Direction) -> Result<&'static Set, u64> {
    if is_broken(stream) {
        return Err(8);
    }
    if stream.phase == Phase::Ended || stream.direction != direction {
        return Err(7);
    }
    set_of(stream.set).ok_or(8)
}

/// Gives the count after a piece of that length, or 5 if it would pass the limit.
fn count_after(count: u64, length: usize, limit: u64) -> Result<u64, u64> {
    match count.checked_add(length as u64) {
        Some(sum) if sum <= limit => Ok(sum),
        _ => Err(5),
    }
}

/// Gives the set and the text count after a piece of that length, or 8, 7 or 5 if it can't come.
fn fitting_text(
    stream: &Stream,
    direction: Direction,
    length: usize,
) -> Result<(&'static Set, u64), u64> {
    let set = fitting(stream, direction)?;
    let text_count = count_after(stream.text_count, length, stream.limit)?;
    Ok((set, text_count))
}

/// Gives the refusal of the given number, with the state as it came.
fn refusal(number: u64, stream: Stream) -> Given {
    (number, 0, stream)
}

/// Gives the 40 bytes of a stream's words as a state on which no round has run.
fn state_of(stream: &Stream) -> State {
    let bytes: Vec<u8> = stream.words.iter().flat_map(|x| x.to_be_bytes()).collect();
    State::new(&bytes)
}

/// Gives the state with the associated data closed, and the place in the text's present block.
fn state_at_text(set: &Set, stream: &Stream) -> (State, usize) {
    let mut state = state_of(stream);
    let place = stream.place as usize;
    if stream.phase == Phase::Text {
        return (state, place);
    }
    if stream.ad_count > 0 {
        state.combine(place, &[0x80]);
        state.run(set.edition, set.middle);
    }
    state.combine(39, &[1]);
    (state, 0)
}

/// Gives the answer to a text call that ends on the given state, that far into a block.
fn text_taken(stream: Stream, state: &State, text_count: u64, place: usize) -> Given {
    let next = Stream {
        words: state.words(),
        phase: Phase::Text,
        text_count,
        place: place as u64,
        ..stream
    };
    (0, state.rounds(), next)
}

/// Takes a piece of the ciphertext into a state that far into a block, and gives the plaintext of the
/// piece and the place after it.
fn take_cipher(set: &Set, state: &mut State, place: usize, piece: &[u8]) -> (Vec<u8>, usize) {
    let mut joined = state.first(place).to_vec();
    joined.extend(piece);
    let blocks = cipher_blocks(set, &joined);
    let (unfilled, filled) = blocks.split_last().expect("there is always a last block");
    let mut text = Vec::new();
    for block in filled {
        text.extend(combined(state.first(set.block), block));
        state.replace_front(block);
        state.run(set.edition, set.middle);
    }
    text.extend(combined(state.first(unfilled.len()), unfilled));
    state.replace_front(unfilled);
    // The first bytes are those of the stand-ins, which are no part of the piece.
    (text[place..].to_vec(), unfilled.len())
}

/// Ends the text of a sound open stream and gives the tag and the rounds of doing so.
fn tag_and_rounds(set: &Set, stream: &Stream) -> (Vec<u8>, u64) {
    let (mut state, place) = state_at_text(set, stream);
    state.combine(place, &[0x80]);
    let tag = finish(set, &mut state, &stream.key[..set.key]);
    (tag, state.rounds())
}

/// Starts a stream that takes no more text than the limit; a refused start gives the ended state.
pub fn start(direction: Direction, set: u64, limit: u64, key: &[u8], nonce: &[u8]) -> Given {
    let Some(known) = set_of(set) else {
        return refusal(1, ENDED);
    };
    if key.len() != known.key {
        return refusal(2, ENDED);
    }
    if nonce.len() != known.key {
        return refusal(3, ENDED);
    }
    if limit > LARGEST_LIMIT {
        return refusal(5, ENDED);
    }
    let state = started(known, key, nonce);
    let mut kept = [0; 16];
    kept[..key.len()].copy_from_slice(key);
    let next = Stream {
        words: state.words(),
        set,
        direction,
        phase: Phase::Data,
        key: kept,
        ad_count: 0,
        text_count: 0,
        place: 0,
        limit,
    };
    (0, state.rounds(), next)
}

/// Takes a piece of the associated data, in any direction; its limit is the same in all streams.
pub fn ad(stream: Stream, piece: &[u8]) -> Given {
    let set = match fitting(&stream, stream.direction) {
        Ok(set) => set,
        Err(number) => return refusal(number, stream),
    };
    if stream.phase != Phase::Data {
        return refusal(7, stream);
    }
    let ad_count = match count_after(stream.ad_count, piece.len(), AD_LIMIT as u64) {
        Ok(count) => count,
        Err(number) => return refusal(number, stream),
    };

    let mut state = state_of(&stream);
    let mut joined = vec![0; stream.place as usize];
    joined.extend(piece);
    let blocks = cipher_blocks(set, &joined);
    let (unfilled, filled) = blocks.split_last().expect("there is always a last block");
    for block in filled {
        state.combine(0, block);
        state.run(set.edition, set.middle);
    }
    state.combine(0, unfilled);

    let next = Stream {
        words: state.words(),
        ad_count,
        place: unfilled.len() as u64,
        ..stream
    };
    (0, state.rounds(), next)
}

/// Seals a piece of the text into the front of `out`; a refusal changes nothing there.
pub fn seal(stream: Stream, piece: &[u8], out: &mut [u8]) -> Given {
    let (set, text_count) = match fitting_text(&stream, Direction::Sealing, piece.len()) {
        Ok(both) => both,
        Err(number) => return refusal(number, stream),
    };
    if out.len() < piece.len() {
        return refusal(6, stream);
    }

    let (mut state, place) = state_at_text(set, &stream);
    let mut joined = vec![0; place];
    joined.extend(piece);
    let blocks = cipher_blocks(set, &joined);
    let (unfilled, filled) = blocks.split_last().expect("there is always a last block");
    let mut cipher = Vec::new();
    for block in filled {
        state.combine(0, block);
        cipher.extend(state.first(set.block));
        state.run(set.edition, set.middle);
    }
    state.combine(0, unfilled);
    cipher.extend(state.first(unfilled.len()));
    // The first bytes went out in an earlier call.
    out[..piece.len()].copy_from_slice(&cipher[place..]);

    text_taken(stream, &state, text_count, unfilled.len())
}

/// Takes a piece of the ciphertext that is to be checked; its plaintext isn't written anywhere.
pub fn check(stream: Stream, piece: &[u8]) -> Given {
    let (set, text_count) = match fitting_text(&stream, Direction::Checking, piece.len()) {
        Ok(both) => both,
        Err(number) => return refusal(number, stream),
    };

    let (mut state, place) = state_at_text(set, &stream);
    let (_, place) = take_cipher(set, &mut state, place, piece);

    text_taken(stream, &state, text_count, place)
}

/// Opens a piece of the ciphertext into the front of `out`; a refusal changes nothing there.
///
/// What it hands out is unverified until the finish says yes: it is the plaintext of whatever came. A
/// finish that says no doesn't take it back or put zeros in its place, so the caller mustn't use it.
pub fn open(stream: Stream, piece: &[u8], out: &mut [u8]) -> Given {
    let (set, text_count) = match fitting_text(&stream, Direction::Opening, piece.len()) {
        Ok(both) => both,
        Err(number) => return refusal(number, stream),
    };
    if out.len() < piece.len() {
        return refusal(6, stream);
    }

    let (mut state, place) = state_at_text(set, &stream);
    let (text, place) = take_cipher(set, &mut state, place, piece);
    out[..piece.len()].copy_from_slice(&text);

    text_taken(stream, &state, text_count, place)
}

/// Finishes a sealing stream and puts the tag into its place; a refusal changes nothing there.
pub fn finish_sealing(stream: Stream, tag_place: &mut [u8]) -> Given {
    let set = match fitting(&stream, Direction::Sealing) {
        Ok(set) => set,
        Err(number) => return refusal(number, stream),
    };
    if tag_place.len() != set.key {
        return refusal(4, stream);
    }
    let (tag, rounds) = tag_and_rounds(set, &stream);
    tag_place.copy_from_slice(&tag);
    (0, rounds, ENDED)
}

/// Finishes a stream of the direction by comparing the tags; equal or not, the stream has ended.
fn finish_by_comparing(stream: Stream, direction: Direction, tag: &[u8]) -> Given {
    let set = match fitting(&stream, direction) {
        Ok(set) => set,
        Err(number) => return refusal(number, stream),
    };
    if tag.len() != set.key {
        return refusal(4, stream);
    }
    let (ours, rounds) = tag_and_rounds(set, &stream);
    let number = if ours == tag { 0 } else { 9 };
    (number, rounds, ENDED)
}

/// Finishes a checking stream: done if the tag is that of what came, otherwise 9.
pub fn finish_checking(stream: Stream, tag: &[u8]) -> Given {
    finish_by_comparing(stream, Direction::Checking, tag)
}

/// Finishes an opening stream: done if the tag is that of what came, otherwise 9.
///
/// Done says that the pieces that the stream handed out, joined, are the plaintext of the message; 9 says nothing of them.
pub fn finish_opening(stream: Stream, tag: &[u8]) -> Given {
    finish_by_comparing(stream, Direction::Opening, tag)
}
