//! Histories that the streams of the crate make, too, as far as their types can say the calls.

use crate::any::{any_piece, any_room, right_tag};
use crate::damage;
use crate::history::{History, Start};
use crate::starts::{fitting_start, limit_over};
use crate::states::DIRECTIONS;
use crate::walk::{Message, Walk};
use kvistmaur::{Checking, Key, Nonce, Opening, Refusal, Rounds, Sealing, Set, Tag, START_ROUNDS};
use second::random::Random;
use second::stream::Direction;

/// A stream of any direction, by its type beside the boundary.
pub fn beside_the_boundary(history: &mut History) -> bool {
    let direction = DIRECTIONS[history.random.below(3)];
    match direction {
        Direction::Sealing => history_of::<Sealing>(history, direction),
        Direction::Checking => history_of::<Checking>(history, direction),
        Direction::Opening => history_of::<Opening>(history, direction),
    }
    history.record.calls() > 0
}

/// Makes a start, some pieces and a finish, each by the boundary and by the type.
fn history_of<W: Walk>(history: &mut History, direction: Direction) {
    let start = start_with_types(&mut history.random);
    let number = history.start(direction, &start);
    let stream = W::begin(&message_of(&start), start.limit as usize);
    let typed = stream.as_ref().map(|_| START_ROUNDS);
    agree(history, number, typed.map_err(|refusal| *refusal));
    let Ok(mut stream) = stream else {
        return;
    };

    let pieces = history.random.below(8);
    for done in 0..pieces {
        let piece = any_piece(&mut history.random);
        if history.random.below(pieces) >= done {
            let number = history.data(&piece);
            agree(history, number, stream.take_data(&piece));
        } else {
            take_text(history, direction, &mut stream, &piece);
        }
    }
    finish(history, direction, stream);
}

/// Takes a piece of text, by the boundary and by the type, which have to hand out the same and touch nothing behind it.
fn take_text<W: Walk>(history: &mut History, direction: Direction, stream: &mut W, piece: &[u8]) {
    let room = any_room(&mut history.random, piece.len());
    let (number, mut wanted) = history.text(direction, piece, room);
    let mut out = vec![0xee; room];
    let typed = stream.take(piece, &mut out);
    agree(history, number, typed);
    let given = match typed {
        Ok(_) if W::GIVES => piece.len(),
        _ => 0,
    };
    wanted.resize(room, 0xee);
    wanted[given..].fill(0xee);
    assert_eq!(out, wanted, "the output by the type and by the boundary");
}

/// Finishes the stream by the boundary and by the type; a sealing by its type has to give the boundary's tag.
fn finish<W: Walk>(history: &mut History, direction: Direction, stream: W) {
    let tag = tag_with_types(history, direction);
    let (number, tag) = history.finish(direction, &tag);
    let tag = Tag::try_from(&tag[..]).expect("a length that a set has");
    agree(history, number, stream.end(&tag));
}

/// A start that types can say; every fourth one is refused.
fn start_with_types(random: &mut Random) -> Start {
    let mut start = fitting_start(random);
    let other = 28 - start.key.len();
    match random.below(12) {
        0 => start.key = random.bytes(other),
        1 => start.nonce = random.bytes(other),
        2 => start.limit = limit_over(random),
        _ => (),
    }
    start
}

/// The right tag, or for an opening or a checking seldom another, or one of the other length that types can say.
fn tag_with_types(history: &mut History, direction: Direction) -> Vec<u8> {
    let mut tag = right_tag(&history.area).expect("the stream is open");
    let random = &mut history.random;
    match random.below(6) {
        _ if direction == Direction::Sealing => (),
        0 => damage::bit(random, &mut tag),
        1 => tag.resize(28 - tag.len(), 0),
        _ => (),
    }
    tag
}

/// The part of a message that a start takes, in types.
fn message_of(start: &Start) -> Message {
    Message {
        set: Set::try_from(start.set).expect("a set"),
        key: Key::try_from(&start.key[..]).expect("a length that a set has"),
        nonce: Nonce::try_from(&start.nonce[..]).expect("a length that a set has"),
        data: Vec::new(),
        text: Vec::new(),
        cipher: Vec::new(),
        tag: Tag::from([0; 16]),
        rounds: 0,
    }
}

/// Panics unless what a type says is what the boundary's number says.
fn agree(history: &mut History, number: u64, typed: Result<Rounds, Refusal>) {
    let said = match typed {
        Ok(Rounds(rounds)) => 16 * rounds,
        Err(Refusal::TagDiffers { rounds }) => 16 * rounds.0 + 9,
        Err(refusal) => refusal.number(),
    };
    assert_eq!(said, number, "the number by the type and by the boundary");
    history.tally.typed += 1;
}
