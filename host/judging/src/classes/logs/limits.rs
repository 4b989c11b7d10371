//! Messages as long as they may be, and calls that would make them longer.

use crate::input::Input;
use crate::log::{ad, bytes_of, finish, logged, start, startable, text, Handed, Line};
use second::calls::{AD_LIMIT, TEXT_LIMIT};
use second::cipher::Set;
use second::replay::right_log;

/// The most bytes of a piece.
const PIECE: usize = 256;

/// A kind of piece, and how many bytes of it a message may have.
type Limited = (fn(usize) -> Handed, usize);

const DATA: Limited = (ad, AD_LIMIT);
const TEXT: Limited = (text, TEXT_LIMIT);

/// Gives a start and as many whole pieces as a message may have, but for so many of them, and then pieces of these lengths and what ends the message.
fn calls(set: &Set, (piece, limit): Limited, fewer: usize, lengths: &[usize]) -> Vec<Handed> {
    let mut calls = vec![start(set)];
    calls.extend(vec![piece(PIECE); limit / PIECE - fewer]);
    calls.extend(lengths.iter().map(|length| piece(*length)));
    calls.extend([text(0), finish()]);
    calls
}

/// Gives the log of such calls, with the answers that each of the last pieces has, which our own stream has to give.
fn told(set: &Set, limited: Limited, fewer: usize, last: &[(usize, u64)]) -> Input {
    let (lengths, answers): (Vec<usize>, Vec<u64>) = last.iter().copied().unzip();
    let calls = calls(set, limited, fewer, &lengths);
    let before = calls.len() - 2 - answers.len();
    let entries = logged(&calls);
    let given = entries[before..].iter().map(|e| e.number_in(Line::Answer));
    let given: Vec<u64> = given.take(answers.len()).collect();
    assert_eq!(given, answers, "what the last pieces are answered");
    let what = format!("set {} last {lengths:?}", set.number);
    Input::agrees(what, bytes_of(&entries), entries.len())
}

/// Gives the log of a chip that answers one of the last pieces, by its place among them, with another number, as though it had been done or refused.
fn otherwise(set: &Set, limited: Limited, last: &[usize], place: usize, answer: &str) -> Input {
    let mut entries = logged(&calls(set, limited, 1, last));
    let entry = entries.len() - 2 - last.len() + place;
    entries[entry] = entries[entry].with_value(Line::Answer, answer);
    let what = format!(
        "set {} last {last:?} answer {answer} at {place}",
        set.number
    );
    Input::first_differs(what, bytes_of(&entries), entry + 1, "answer")
}

/// Gives messages with as much data as they may have, a byte or a piece more, and what follows a refusal.
pub fn of_data() -> Vec<Input> {
    let mut inputs = Vec::new();
    for set in startable() {
        inputs.extend([
            told(set, DATA, 0, &[(1, 5), (0, 0), (1, 5)]),
            told(set, DATA, 0, &[(256, 5), (256, 5)]),
            told(set, DATA, 1, &[(1, 0), (256, 5), (255, 0), (1, 5), (0, 0)]),
            otherwise(set, DATA, &[256, 1], 1, "0"),
            otherwise(set, DATA, &[256], 0, "5"),
            otherwise(set, DATA, &[255, 2, 1], 2, "5"),
            otherwise(set, DATA, &[256, 1, 0], 2, "5"),
        ]);
    }
    inputs
}

/// Gives messages with as much text as they may have, a byte or a piece more, and what follows a refusal, with the sets in turn.
pub fn of_text() -> Vec<Input> {
    let [one, two] = startable();
    let both = [DATA.1 / PIECE, TEXT.1 / PIECE];
    let mut full = vec![start(two)];
    full.extend(vec![ad(PIECE); both[0]]);
    full.extend(vec![text(PIECE); both[1]]);
    full.extend([text(1), text(0), finish()]);
    vec![
        told(one, TEXT, 0, &[(1, 5), (0, 0), (1, 5)]),
        told(two, TEXT, 0, &[(256, 5), (256, 5)]),
        told(one, TEXT, 1, &[(1, 0), (256, 5), (255, 0), (1, 5), (0, 0)]),
        told(two, TEXT, 1, &[(255, 0), (2, 5), (1, 0), (1, 5)]),
        otherwise(one, TEXT, &[256, 1], 1, "0"),
        otherwise(two, TEXT, &[256], 0, "5"),
        otherwise(one, TEXT, &[255, 2, 1], 2, "5"),
        otherwise(two, TEXT, &[256, 1, 0], 2, "5"),
        Input::agrees("as much data and text", right_log(&full), full.len()),
    ]
}
