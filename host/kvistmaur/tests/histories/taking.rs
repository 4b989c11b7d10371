//! Messages taken through the stream of a history.

use crate::cutting::{pieces, Cutting};
use crate::history::{expect, History};
use crate::message::Message;
use second::random::Random;
use second::stream::Direction::{Checking, Sealing};

/// What is known when all pieces of a message are taken.
pub struct Taken {
    after_data: Vec<u8>,
    after_text: Vec<u8>,
    /// What came out of all text calls, joined.
    out: Vec<u8>,
    /// The rounds of all calls so far.
    pub rounds: u64,
}

/// What is done before each call behind a start.
pub type Between = fn(&mut History);

/// Starts the stream of a message, and hands over the pieces of a cutting; each call has to be done.
pub fn take_pieces(
    history: &mut History,
    message: &Message,
    cutting: &Cutting,
    between: Between,
) -> Taken {
    let started = history.start(message.direction, &message.start());
    let mut rounds = expect(started, 0);
    for piece in pieces(&message.data, &cutting.data) {
        between(history);
        let number = history.data(piece);
        rounds += expect(number, 0);
    }
    let after_data = history.area.clone();

    let mut out = Vec::new();
    for piece in pieces(message.body(), &cutting.text) {
        between(history);
        let room = piece.len() + more_room(&mut history.random);
        let (number, given) = history.text(message.direction, piece, room);
        rounds += expect(number, 0);
        if message.direction != Checking {
            out.extend(&given[..piece.len()]);
        }
    }
    between(history);
    Taken {
        after_data,
        after_text: history.area.clone(),
        out,
        rounds,
    }
}

/// By how much an output is longer than its piece.
fn more_room(random: &mut Random) -> usize {
    [0, 0, 1, random.below(20)][random.below(4)]
}

/// Takes a message to its end, and panics unless that is the end of the whole message.
fn take_whole(
    history: &mut History,
    message: &Message,
    cutting: &Cutting,
    between: Between,
) -> Taken {
    let taken = take_pieces(history, message, cutting, between);
    let (number, tag) = history.finish(message.direction, &message.tag);
    let rounds = taken.rounds + expect(number, 0);
    assert_eq!(taken.out, message.handed_out(), "the pieces, joined");
    assert_eq!(tag, message.tag, "the tag");
    assert_eq!(rounds, message.rounds, "the rounds of all calls");
    taken
}

/// Takes a message to its right end. Every second one is then cut in another way, which must leave the same areas behind the data and behind the text.
pub fn right_message(history: &mut History, message: &Message, between: Between) {
    if message.direction != Sealing {
        let whole = (0, message.rounds, message.text.clone());
        assert_eq!(message.opened_whole(), whole, "opened as a whole");
    }
    let cutting = Cutting::any(&mut history.random, message);
    let taken = take_whole(history, message, &cutting, between);
    let (direction, set) = (message.direction, message.set.number);
    history.tally.count_right(direction, set);
    history.record.right += 1;

    if history.tally.all_right() % 2 == 1 {
        let other = cutting.another(&mut history.random, message);
        let again = take_whole(history, message, &other, between);
        assert_eq!(again.after_data, taken.after_data, "cut in another way");
        assert_eq!(again.after_text, taken.after_text, "cut in another way");
        history.tally.cut_again += 1;
    }
}
