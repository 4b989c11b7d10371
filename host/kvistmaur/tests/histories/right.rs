//! Histories of messages that come to their right end.

use crate::any::{any_call, open_stream};
use crate::history::History;
use crate::message::Message;
use crate::refused::refused_call;
use crate::taking::right_message;
use std::mem::{replace, swap};

/// A short message in pieces.
pub fn short(history: &mut History) -> bool {
    let message = Message::short(&mut history.random);
    right_message(history, &message, |_| ());
    history.record.came_right()
}

/// A short message in pieces, with refused calls between them.
pub fn with_refusals(history: &mut History) -> bool {
    let message = Message::short(&mut history.random);
    // Once more, until a call was refused.
    while !history.record.refused() {
        right_message(history, &message, |history| {
            while history.random.below(3) == 0 {
                refused_call(history);
            }
        });
    }
    history.record.came_right()
}

/// A short message in pieces, while other calls are made on another area.
pub fn beside_another(history: &mut History) -> bool {
    open_stream(history);
    let any = history.random.bytes(history.area.len());
    history.other_area = replace(&mut history.area, any);
    let message = Message::short(&mut history.random);
    right_message(history, &message, |history| {
        swap(&mut history.area, &mut history.other_area);
        any_call(history);
        swap(&mut history.area, &mut history.other_area);
    });
    history.record.came_right()
}

/// A message in pieces of several blocks.
pub fn several_blocks(history: &mut History) -> bool {
    of_up_to(history, 300)
}

/// A long message.
pub fn long(history: &mut History) -> bool {
    of_up_to(history, 5_000)
}

/// A message whose data and text have so many bytes at most.
fn of_up_to(history: &mut History, most: usize) -> bool {
    let random = &mut history.random;
    let (data, text) = (random.below(most + 1), random.below(most + 1));
    let message = Message::of_lengths(random, data, text);
    right_message(history, &message, |_| ());
    history.record.came_right()
}
