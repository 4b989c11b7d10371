//! Histories that meet a limit.

use crate::any::right_tag;
use crate::history::{expect, History};
use crate::message::Message;
use crate::refused::text_past_limit;
use crate::starts::fitting_start;
use crate::states::{put, DIRECTIONS};
use crate::taking::right_message;
use second::area;
use second::calls::AD_LIMIT;
use second::cipher::set_of;
use second::stream::{Direction, LARGEST_LIMIT};

/// A right message that fills the limit of its stream, while text past the limit is refused.
pub fn filled(history: &mut History) -> bool {
    let random = &mut history.random;
    let text = [0, 1, random.below(20), random.below(60), 200][random.below(5)];
    let data = random.below(20);
    let mut message = Message::of_lengths(random, data, text);
    message.limit = text as u64;
    // Once more, until the limit was met.
    while !history.record.answered(5) {
        right_message(history, &message, try_past_limit);
    }
    history.record.came_right()
}

/// Tries, every second time, to hand over more text than the stream takes.
fn try_past_limit(history: &mut History) {
    if history.random.below(2) == 0 {
        let stream = area::read(&history.area).expect("the area holds an open stream");
        text_past_limit(history, &stream);
    }
}

/// A stream whose counts are written so that it is near a limit, which it then meets.
pub fn near(history: &mut History) -> bool {
    let random = &mut history.random;
    let direction = DIRECTIONS[random.below(3)];
    let (rest, more) = (random.below(40), random.below(40));
    let largest = LARGEST_LIMIT as usize;
    let limit = [largest, largest - more, 200, 40 + more][random.below(4)];
    let other_data = [0, 1, random.below(AD_LIMIT), AD_LIMIT - 1, AD_LIMIT][random.below(5)];
    let (phase, data, text) = match random.below(2) {
        0 => (0, AD_LIMIT - rest, 0),
        _ => (1, other_data, limit - rest),
    };

    let start = fitting_start(random);
    let set = set_of(start.set).expect("the start fits");
    let number = history.start(direction, &start);
    expect(number, 0);
    let place = [data, text][phase] % set.block;
    let numbers = [
        (72, phase),
        (80, data),
        (88, text),
        (96, place),
        (104, limit),
    ];
    history.damage("counts near a limit", |_, area| {
        for (at, number) in numbers {
            put(area, at, number as u64);
        }
    });

    if phase == 0 {
        fill(history, rest, |history, piece| history.data(piece));
        let text = history.random.bytes(20);
        expect(take_text(history, direction, &text), 0);
    } else {
        fill(history, rest, |history, piece| {
            take_text(history, direction, piece)
        });
    }
    let tag = right_tag(&history.area).expect("the stream is open");
    let (number, _) = history.finish(direction, &tag);
    expect(number, 0);
    history.record.damaged() && history.record.answered(5)
}

/// Hands over a piece of the text with just the room that it needs.
fn take_text(history: &mut History, direction: Direction, piece: &[u8]) -> u64 {
    history.text(direction, piece, piece.len()).0
}

/// Hands over pieces until no byte is left of what may still come, and between them pieces that are too long.
fn fill(history: &mut History, rest: usize, hand_over: impl Fn(&mut History, &[u8]) -> u64) {
    let first = history.random.below(rest + 1);
    let over = history.random.below(3);
    let lengths = [
        (rest + 1 + over, 5),
        (first, 0),
        (rest - first + 1, 5),
        (rest - first, 0),
        (1 + over, 5),
        (0, 0),
    ];
    for (length, answer) in lengths {
        let piece = history.random.bytes(length);
        let number = hand_over(history, &piece);
        expect(number, answer);
    }
}
