//! Data and outs: their lengths, and characters that are no digits of theirs.

use crate::input::Input;
use crate::log::{bytes_of, logged, message, startable, Line, Logged};
use crate::text::column;
use second::cipher::Set;

/// Characters that are no digit: neighbours of digits, upper-case letters, blanks, signs, and bytes that are no text.
const NO_DIGITS: [u8; 19] = *b"/:@G`gAFZ \t\r\0\xff-+.x,";

/// Gives the right entries of a message: a start, data, text and an end.
fn entries(set: &Set) -> Vec<Logged> {
    logged(&message(set, &[3], &[5]))
}

/// Gives the log of the entries with this value in a line of the one at the place.
fn with_value(entries: &[Logged], place: usize, line: Line, value: Vec<u8>) -> Vec<u8> {
    let mut all = entries.to_vec();
    all[place] = all[place].with_value(line, value);
    bytes_of(&all)
}

/// Gives the starts of each set with more or fewer digits than those of its key and its nonce, as the first entry or as one that starts again.
pub fn of_starts() -> Vec<Input> {
    let mut inputs = Vec::new();
    for (turn, set) in startable().iter().enumerate() {
        let right = 4 * set.key;
        for digits in [
            0,
            1,
            2,
            right / 2,
            right - 2,
            right - 1,
            right + 1,
            right + 2,
            2 * right,
            // The other set's.
            4 * startable()[1 - turn].key,
            4 * 20,
            511,
            512,
            513,
            514,
            5_000,
        ] {
            let before = digits % 3;
            let all = [&entries(set)[..before], &entries(set)].concat();
            let bytes = with_value(&all, before, Line::Data, b"5".repeat(digits));
            let fault = [before + 1, 2, column(Line::Data, digits.min(right))];
            let what = format!("set {} {digits} digits", set.number);
            inputs.push(Input::first_breaks_at(what, bytes, fault));
        }
    }
    inputs
}

/// Gives ends with anything in their data, where a stream is open and where none is.
pub fn of_ends() -> Vec<Input> {
    let mut inputs = Vec::new();
    for (name, before) in [("open", 3), ("ended", 0)] {
        for (what, value) in [
            ("a digit", b"0".to_vec()),
            ("a byte", b"00".to_vec()),
            ("16 bytes", b"5a".repeat(16)),
            ("256 bytes", b"00".repeat(256)),
            ("257 bytes", b"00".repeat(257)),
            ("a blank", b" ".to_vec()),
            ("a carriage return", b"\r".to_vec()),
            ("a letter", b"g".to_vec()),
        ] {
            let right = entries(&startable()[value.len() % 2]);
            let all = [&right[..before], &right[3..]].concat();
            let bytes = with_value(&all, before, Line::Data, value);
            let what = format!("{what} {name}");
            inputs.push(Input::first_breaks_at(what, bytes, [before + 1, 2, 6]));
        }
    }
    inputs
}

/// Gives data and outs, of each call that may have them, of 256 bytes, more, or half a byte.
pub fn lengths() -> Vec<Input> {
    let mut inputs = Vec::new();
    for (turn, (place, line)) in [
        (1, Line::Data),
        (2, Line::Data),
        (0, Line::Out),
        (1, Line::Out),
        (2, Line::Out),
        (3, Line::Out),
    ]
    .into_iter()
    .enumerate()
    {
        let entries = entries(&startable()[turn % 2]);
        for digits in [1, 3, 511, 512, 513, 514, 1_025] {
            let bytes = with_value(&entries, place, line, b"c".repeat(digits));
            let what = format!("entry {} {line:?} {digits} digits", place + 1);
            let number = entries[place].number(line);
            let fault = [place + 1, number, column(line, digits.min(512))];
            inputs.push(match digits {
                512 => Input::told(what, bytes),
                _ => Input::first_breaks_at(what, bytes, fault),
            });
        }
    }
    inputs
}

/// Gives characters that are no digits at places of data and outs.
pub fn wrong_digits() -> Vec<Input> {
    let mut inputs = Vec::new();
    for (turn, character) in NO_DIGITS.into_iter().enumerate() {
        let entries = entries(&startable()[turn % 2]);
        for (entry, line) in [
            (0, Line::Data),
            (2, Line::Data),
            (2, Line::Out),
            (3, Line::Out),
        ] {
            let digits = entries[entry].value(line).len();
            let place = [0, 1, digits / 2, digits - 2, digits - 1][(turn + entry) % 5];
            let mut all = entries.clone();
            all[entry] = all[entry].with_character(line, place, character);
            let number = entries[entry].number(line);
            let what = format!("character {character} in entry {} {line:?}", entry + 1);
            let fault = [entry + 1, number, column(line, place)];
            inputs.push(Input::first_breaks_at(what, bytes_of(&all), fault));
        }
    }
    inputs
}

/// Gives each of the 256 characters as a digit, of a start's data, of a piece and of an out in turn.
pub fn each_character() -> Vec<Input> {
    let mut inputs = Vec::new();
    for character in 0..=u8::MAX {
        let turn = usize::from(character);
        let (entry, line) = [(0, Line::Data), (2, Line::Data), (2, Line::Out)][turn % 3];
        let mut all = entries(&startable()[turn % 2]);
        let place = 4 + turn % 2;
        all[entry] = all[entry].with_character(line, place, character);
        let number = all[entry].number(line);
        let what = format!("character {character}");
        let fault = [entry + 1, number, column(line, place)];
        let bytes = bytes_of(&all);
        inputs.push(match character {
            // These may leave a right line.
            b'0'..=b'9' | b'a'..=b'f' | b'\n' => Input::told(what, bytes),
            _ => Input::first_breaks_at(what, bytes, fault),
        });
    }
    inputs
}
