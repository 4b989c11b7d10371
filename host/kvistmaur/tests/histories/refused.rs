//! Calls on an open stream that are refused, and so leave all as it was.

use crate::any::{any_piece, make, right_tag, Kind};
use crate::damage::another_length;
use crate::history::{expect, History};
use crate::starts::other_length;
use crate::states::DIRECTIONS;
use second::area;
use second::calls::AD_LIMIT;
use second::stream::{Direction, Phase, Stream};

/// The most bytes that a piece is given in order to pass a limit of text.
const FAR: u64 = 500;

/// Makes a call on the open stream in the area that is refused with 4, 5, 6, 7 or 8.
pub fn refused_call(history: &mut History) {
    let stream = area::read(&history.area).expect("the area holds an open stream");
    let room = stream.limit - stream.text_count;
    match history.random.below(20) {
        0 if stream.phase == Phase::Data => data_past_limit(history, &stream),
        0..=2 if stream.phase == Phase::Text => data_after_text(history),
        3..=5 if room < FAR => text_past_limit(history, &stream),
        6..=8 if room > 0 && stream.direction != Direction::Checking => no_room(history, &stream),
        9..=11 => other_direction(history, &stream, Kind::Text),
        12..=14 => other_direction(history, &stream, Kind::Finish),
        15..=16 => area_of_another_length(history),
        _ => tag_of_another_length(history, &stream),
    }
}

/// Data that would pass its limit: 5.
fn data_past_limit(history: &mut History, stream: &Stream) {
    let rest = AD_LIMIT - stream.ad_count as usize;
    let number = history.data(&vec![0x5a; rest + 1]);
    expect(number, 5);
}

/// Data after text: 7, however long it is.
fn data_after_text(history: &mut History) {
    let piece = any_piece(&mut history.random);
    let number = history.data(&piece);
    expect(number, 7);
}

/// Text that would pass the stream's limit: 5, whatever the room.
pub fn text_past_limit(history: &mut History, stream: &Stream) {
    let random = &mut history.random;
    let over = stream.limit - stream.text_count + 1 + random.below(3) as u64;
    let piece = random.bytes(over as usize);
    let room = random.below(piece.len() + 2);
    let (number, _) = history.text(stream.direction, &piece, room);
    expect(number, 5);
}

/// Text within the limit, but more than the output takes: 6.
fn no_room(history: &mut History, stream: &Stream) {
    let random = &mut history.random;
    let most = (stream.limit - stream.text_count).min(40) as usize;
    let length = 1 + random.below(most);
    let room = [length - 1, random.below(length)][random.below(2)];
    let piece = random.bytes(length);
    let (number, _) = history.text(stream.direction, &piece, room);
    expect(number, 6);
}

/// The text call or the finish of another direction: 7, whatever else it is given.
fn other_direction(history: &mut History, stream: &Stream, kind: Kind) {
    let others = DIRECTIONS
        .iter()
        .filter(|other| **other != stream.direction);
    let other = *others.collect::<Vec<_>>()[history.random.below(2)];
    let number = make(history, kind, other);
    expect(number, 7);
}

/// The right finish with a tag of another length: 4.
fn tag_of_another_length(history: &mut History, stream: &Stream) {
    let mut right = right_tag(&history.area).expect("the stream is open");
    let random = &mut history.random;
    let tag = match random.below(2) {
        0 => other_length(random, right.len()),
        _ => {
            // Its first bytes, or it and one byte more.
            right.resize(right.len() + 1 - 2 * random.below(2), 0);
            right
        }
    };
    let (number, _) = history.finish(stream.direction, &tag);
    expect(number, 4);
}

/// Any call, to which the area is lent with another length: 8. A start and an end are no exception.
fn area_of_another_length(history: &mut History) {
    let kept = history.area.clone();
    let length = another_length(&mut history.random);
    history.area.resize(length, 0);
    let kinds = [Kind::Start, Kind::Data, Kind::Text, Kind::Finish, Kind::End];
    let kind = kinds[history.random.below(kinds.len())];
    let direction = DIRECTIONS[history.random.below(3)];
    let number = make(history, kind, direction);
    expect(number, 8);
    history.area = kept;
}
