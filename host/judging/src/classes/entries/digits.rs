//! Hex values with every character in place of a digit, and with half a byte too few or too many.

use crate::entry::{short_up_to, Entry, BYTES};
use crate::input::Input;
use crate::text::column;
use second::cipher::Set;

/// The digits.
const DIGITS: &[u8] = b"0123456789ABCDEF";

/// A place among so many digits.
type Place = (&'static str, fn(usize) -> usize);

/// Where a wrong digit is put: at the first, the middle or the last one.
const PLACES: [Place; 3] = [
    ("first", |_| 0),
    ("in the middle", |digits| digits / 2),
    ("last", |digits| digits - 1),
];

/// The wrong digits, each at one of the places in turn; some are neighbours of right ones, or right ones with the high bit.
const WRONG: &[u8] = b"abcdefgG/:@`- \x00\xb0\xc1";

/// Gives each line with each wrong digit.
pub fn wrong(set: &Set) -> Vec<Input> {
    let entry = Entry::short(set, 1);
    let mut inputs = Vec::new();
    for (turn, line) in BYTES.into_iter().enumerate() {
        let number = entry.number(line);
        for (turns, digit) in WRONG.iter().enumerate() {
            let (at, place) = PLACES[(turn + turns) % 3];
            let place = place(entry.value(line).len());
            let what = format!("line {number} character {digit} {at}");
            let bytes = entry.with_character(line, place, *digit);
            let fault = [1, number, column(line, place)];
            inputs.push(Input::broken_at(what, bytes, set, fault));
        }
    }
    inputs
}

/// Gives each of the 256 characters as a digit, in each line in turn; of set 1 as the high digit of a byte, of set 2 as the low one.
pub fn each_character(set: &Set) -> Vec<Input> {
    let place = set.number as usize - 1;
    let mut inputs = Vec::new();
    for (character, line) in (0..=u8::MAX).zip(BYTES.into_iter().cycle()) {
        let entry = Entry::short(set, 1);
        let number = entry.number(line);
        let bytes = entry.with_character(line, place, character);
        let what = format!("character {character} in line {number}");
        inputs.push(match character {
            _ if DIGITS.contains(&character) => Input::done(what, bytes, set, 1),
            // A line feed may leave a right line, and break the next one.
            b'\n' => Input::told(what, bytes),
            _ => Input::broken_at(what, bytes, set, [1, number, column(line, place)]),
        });
    }
    inputs
}

/// Gives each line of the entry of this count with a digit fewer, a digit more, a digit alone, a sign of hex in front, and in lower case.
pub fn odd(set: &Set, count: usize) -> Vec<Input> {
    let before = short_up_to(set, count - 1);
    let entry = Entry::short(set, count);
    let mut inputs = Vec::new();
    for line in BYTES {
        let number = entry.number(line);
        let right = entry.value(line);
        for (what, value) in [
            ("one digit fewer", right[1..].to_vec()),
            ("one digit more", [right, b"0"].concat()),
            ("one digit alone", b"0".to_vec()),
            ("0x in front", [b"0x", right].concat()),
            (
                "an a at the end",
                [&right[..right.len() - 1], b"a"].concat(),
            ),
        ] {
            let what = format!("line {number} {what}");
            let broken = entry.with_value(line, value).bytes();
            let bytes = [&before[..], &broken].concat();
            inputs.push(Input::broken(what, bytes, set, [count, number]));
        }
    }
    inputs
}
