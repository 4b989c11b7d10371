//! Right logs of whole messages, cut in many ways, and of one that has not come to its end.

use crate::classes::mixed::every_row;
use crate::input::Input;
use crate::log::{message, startable, Handed};
use second::cipher::Set;
use second::replay::right_log;

/// A way to hand over so many bytes, by the lengths of the pieces; the set's block is given.
type Way = (&'static str, fn(usize, usize) -> Vec<usize>);

const WAYS: [Way; 6] = [
    ("at once", |_, length| in_pieces(256, length)),
    ("in ones", |_, length| in_pieces(1, length)),
    ("less than a block", |block, length| {
        in_pieces(block - 1, length)
    }),
    ("in blocks", in_pieces),
    ("more than a block", |block, length| {
        in_pieces(block + 1, length)
    }),
    ("with empty pieces", |_, length| {
        [&[0], &in_pieces(5, length)[..], &[0, 0]].concat()
    }),
];

/// Gives the lengths of pieces of at most this length, so many bytes in all.
fn in_pieces(most: usize, length: usize) -> Vec<usize> {
    let mut pieces = vec![most; length / most];
    pieces.extend([length % most].into_iter().filter(|rest| *rest > 0));
    pieces
}

/// Gives the input of right calls, which agrees.
fn right(what: String, calls: &[Handed]) -> Input {
    Input::agrees(what, right_log(calls), calls.len())
}

/// Gives messages with data and text of all lengths around a block, cut in each way; those of a set and two ways stand in a row.
pub fn cut() -> Vec<Input> {
    let mut inputs = Vec::new();
    for set in startable() {
        let block = set.block;
        let lengths = [0, 1, block - 1, block, block + 1, 2 * block + 1];
        for (data_way, cut_data) in WAYS {
            for (text_way, cut_text) in WAYS {
                let mut calls = Vec::new();
                for data in lengths {
                    for text in lengths {
                        let (data, text) = (cut_data(block, data), cut_text(block, text));
                        calls.extend(message(set, &data, &text));
                    }
                }
                let what = format!("set {} data {data_way} text {text_way}", set.number);
                inputs.push(right(what, &calls));
            }
        }
    }
    inputs
}

/// Gives messages with every row of one to three pieces of data or of text; those that begin with the same piece stand in a row.
pub fn rows() -> Vec<Input> {
    let mut inputs = Vec::new();
    for set in startable() {
        let sizes = [0, 1, set.block - 1, set.block, set.block + 1, 256];
        for (what, of_row) in [("data", of_data as OfRow), ("text", of_text)] {
            for first in sizes {
                let begins = |row: &Vec<usize>| row[0] == first;
                let rows = every_row(&sizes, 3).into_iter().filter(begins);
                let calls: Vec<Handed> = rows.flat_map(|row| of_row(set, &row)).collect();
                let what = format!("set {} {what} from {first}", set.number);
                inputs.push(right(what, &calls));
            }
        }
    }
    inputs
}

/// What makes the calls of a message with this row of pieces.
type OfRow = fn(&Set, &[usize]) -> Vec<Handed>;

/// Gives a message with these pieces of data and a short text.
fn of_data(set: &Set, row: &[usize]) -> Vec<Handed> {
    message(set, row, &[2])
}

/// Gives a message with short data and these pieces of text.
fn of_text(set: &Set, row: &[usize]) -> Vec<Handed> {
    message(set, &[3], row)
}

/// Gives a message behind another, up to each of its calls.
pub fn open() -> Vec<Input> {
    let mut inputs = Vec::new();
    for set in startable() {
        let block = set.block;
        let before = message(set, &[1], &[block]);
        let last = message(set, &[1, block, 0], &[block + 1, 0, 256]);
        let calls = [&before[..], &last].concat();
        for length in before.len()..=calls.len() {
            let what = format!("set {} the first {length} calls", set.number);
            inputs.push(right(what, &calls[..length]));
        }
    }
    inputs
}
