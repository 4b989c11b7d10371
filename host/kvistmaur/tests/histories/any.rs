//! Calls of any kind, on whatever the area holds; most fit it.

use crate::damage;
use crate::history::{expect, History};
use crate::starts::{fitting_start, refused_start};
use crate::states::{put, DIRECTIONS};
use kvistmaur::boundary;
use second::area;
use second::cipher::set_of;
use second::random::Random;
use second::stream::Direction;

/// A kind of call, which a direction makes a call.
#[derive(Clone, Copy)]
pub enum Kind {
    Start,
    Data,
    Text,
    Finish,
    End,
}

use Kind::*;

/// The kinds that look at the state in the area.
pub const READING: [Kind; 3] = [Data, Text, Finish];

/// Makes a call of any kind, and gives its number.
pub fn any_call(history: &mut History) -> u64 {
    let kinds = [
        Start, Data, Data, Data, Text, Text, Text, Text, Finish, Finish, End,
    ];
    let kind = kinds[history.random.below(kinds.len())];
    any_call_of(history, kind)
}

/// Makes a call that looks at the state in the area, and gives its number.
pub fn any_reading_call(history: &mut History) -> u64 {
    let kind = READING[history.random.below(READING.len())];
    any_call_of(history, kind)
}

/// Makes any call of a kind, mostly in the direction of the stream that stands in the area.
fn any_call_of(history: &mut History, kind: Kind) -> u64 {
    let own = area::read(&history.area).map(|stream| stream.direction);
    let random = &mut history.random;
    let direction = match own {
        Some(own) if random.below(8) > 0 => own,
        _ => DIRECTIONS[random.below(3)],
    };
    make(history, kind, direction)
}

/// Makes the call of a kind and a direction with any arguments, and gives its number.
pub fn make(history: &mut History, kind: Kind, direction: Direction) -> u64 {
    let random = &mut history.random;
    match kind {
        Start => {
            let start = any_start(random);
            history.start(direction, &start)
        }
        Data => {
            let piece = any_piece(random);
            history.data(&piece)
        }
        Text => {
            let piece = any_piece(random);
            let room = any_room(random, piece.len());
            history.text(direction, &piece, room).0
        }
        Finish => {
            let tag = any_tag(history);
            history.finish(direction, &tag).0
        }
        End => history.end(),
    }
}

/// Starts a stream, and hands over some pieces of data and perhaps of text.
pub fn open_stream(history: &mut History) {
    let direction = DIRECTIONS[history.random.below(3)];
    let start = fitting_start(&mut history.random);
    let number = history.start(direction, &start);
    expect(number, 0);
    for _ in 0..history.random.below(3) {
        make(history, Data, direction);
    }
    for _ in 0..history.random.below(3) {
        make(history, Text, direction);
    }
}

/// A start, which is mostly done.
fn any_start(random: &mut Random) -> crate::history::Start {
    match random.below(4) {
        0 => refused_start(random).0,
        _ => fitting_start(random),
    }
}

/// A piece of up to some blocks, often of no bytes or of whole words.
pub fn any_piece(random: &mut Random) -> Vec<u8> {
    let most = [1, 9, 9, 20, 20, 40, 40, 90][random.below(8)];
    let any = random.below(most);
    let length = [any, any, any, any / 8 * 8][random.below(4)];
    random.bytes(length)
}

/// Room for a piece of this length, and seldom less.
pub fn any_room(random: &mut Random, length: usize) -> usize {
    match random.below(10) {
        0 => random.below(length + 1),
        more => length + more % 4,
    }
}

/// A tag for the stream in the area: mostly the right one, otherwise another, or one of another length.
fn any_tag(history: &mut History) -> Vec<u8> {
    let right = right_tag(&history.area);
    let random = &mut history.random;
    match (random.below(8), right) {
        (0, _) => {
            let length = random.below(20);
            random.bytes(length)
        }
        (1, Some(mut tag)) => {
            damage::bit(random, &mut tag);
            tag
        }
        (_, Some(tag)) => tag,
        (which, None) => random.bytes([12, 16][which % 2]),
    }
}

/// The tag that the second program gives the stream in the area, if it is open; it is the same in each direction.
pub fn right_tag(area: &[u8]) -> Option<Vec<u8>> {
    let set = set_of(area::read(area)?.set)?;
    let (mut sealing, mut tag) = (area.to_vec(), vec![0; set.key]);
    put(&mut sealing, 64, 0);
    let number = area::finish_sealing(&mut sealing, &mut tag);
    (boundary::answer(number) == 0).then_some(tag)
}

/// A stream, and calls of any kind in any order.
pub fn any_history(history: &mut History) -> bool {
    open_stream(history);
    for _ in 0..2 + history.random.below(8) {
        any_call(history);
    }
    history.record.calls() > 2
}
