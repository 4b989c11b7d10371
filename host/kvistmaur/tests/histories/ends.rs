//! Histories about the ended state: how a stream comes to it, and that no call but a start leaves it.

use crate::any::{any_reading_call, make, open_stream, right_tag, READING};
use crate::cutting::Cutting;
use crate::damage;
use crate::history::{expect, History};
use crate::message::Message;
use crate::starts::refused_start;
use crate::states::DIRECTIONS;
use crate::taking::{right_message, take_pieces};
use second::area;
use second::random::Random;
use second::stream::Direction::{Checking, Opening, Sealing};
use second::stream::LARGEST_LIMIT;

/// A message of which something was changed on its way: its finish is answered 9, with the rounds of the whole message.
pub fn wrong_end(history: &mut History) -> bool {
    let random = &mut history.random;
    let mut message = Message::short(random);
    message.direction = [Checking, Opening][random.below(2)];
    message.limit = LARGEST_LIMIT;
    change(random, &mut message);
    let cutting = Cutting::any(random, &message);

    let taken = take_pieces(history, &message, &cutting, |_| ());
    let (number, _) = history.finish(message.direction, &message.tag);
    let rounds = taken.rounds + expect(number, 9);
    let whole = (9, rounds, vec![0; message.cipher.len()]);
    assert_eq!(message.opened_whole(), whole, "opened as a whole");
    calls_on_ended(history);
    history.record.answered(9)
}

/// Changes a part of a message.
fn change(random: &mut Random, message: &mut Message) {
    match random.below(7) {
        0 => damage::bit(random, &mut message.key),
        1 => damage::bit(random, &mut message.nonce),
        2 => damage::bit(random, &mut message.tag),
        3 | 4 => change_bytes(random, &mut message.data),
        _ => change_bytes(random, &mut message.cipher),
    }
}

/// Turns a bit of some bytes, or adds a byte to them, or takes the last one away.
fn change_bytes(random: &mut Random, bytes: &mut Vec<u8>) {
    match random.below(4) {
        0 => bytes.push(0),
        _ if bytes.is_empty() => bytes.push(0x80),
        1 => bytes.truncate(bytes.len() - 1),
        _ => damage::bit(random, bytes),
    }
}

/// A stream that is ended in one of the ways that there are; all further calls on it are refused.
pub fn ended(history: &mut History) -> bool {
    open_stream(history);
    let stream = area::read(&history.area).expect("the stream is open");
    let mut tag = right_tag(&history.area).expect("the stream is open");
    let (number, answer) = match history.random.below(4) {
        0 => (history.finish(stream.direction, &tag).0, 0),
        1 if stream.direction != Sealing => {
            tag[0] ^= 1;
            (history.finish(stream.direction, &tag).0, 9)
        }
        2 => {
            let (start, answer) = refused_start(&mut history.random);
            (history.start(stream.direction, &start), answer)
        }
        _ => (history.end(), 0),
    };
    expect(number, answer);
    calls_on_ended(history);
    seldom_damage(history);
    seldom_a_new_message(history);
    history.record.answered(7)
}

/// A stream that is given up at any point, a damaged one and an area without one, too.
pub fn given_up(history: &mut History) -> bool {
    let point = history.random.below(5);
    if point > 0 {
        open_stream(history);
    }
    if point == 1 {
        history.damage("before it was given up", |random, area| {
            damage::number(random, area);
        });
    }
    for _ in 0..1 + history.random.below(2) {
        let number = history.end();
        expect(number, 0);
    }
    calls_on_ended(history);
    seldom_a_new_message(history);
    history.record.answered(7)
}

/// Refused starts over an open stream, the ended state or any bytes.
pub fn refused_starts(history: &mut History) -> bool {
    match history.random.below(4) {
        0 => (),
        1 => drop(history.end()),
        _ => open_stream(history),
    }
    for _ in 0..1 + history.random.below(2) {
        let (start, answer) = refused_start(&mut history.random);
        let direction = DIRECTIONS[history.random.below(3)];
        let number = history.start(direction, &start);
        expect(number, answer);
    }
    calls_on_ended(history);
    seldom_a_new_message(history);
    history.record.refused()
}

/// A right message over an open stream, of which nothing is left.
pub fn started_over(history: &mut History) -> bool {
    open_stream(history);
    let message = Message::short(&mut history.random);
    right_message(history, &message, |_| ());
    history.record.came_right()
}

/// Makes calls on the ended state, which are refused with 7.
fn calls_on_ended(history: &mut History) {
    for _ in 0..1 + history.random.below(4) {
        let kind = READING[history.random.below(3)];
        let direction = DIRECTIONS[history.random.below(3)];
        let number = make(history, kind, direction);
        expect(number, 7);
    }
}

/// Every fourth time damages the ended state, and makes a call on what it has become.
fn seldom_damage(history: &mut History) {
    if history.random.below(4) == 0 {
        let damage = [damage::bit, damage::number][history.random.below(2)];
        history.damage("the ended state", |random, area| damage(random, area));
        any_reading_call(history);
    }
}

/// Every eighth time takes a right message through the same area.
fn seldom_a_new_message(history: &mut History) {
    if history.random.below(8) == 0 {
        let message = Message::short(&mut history.random);
        right_message(history, &message, |_| ());
    }
}
