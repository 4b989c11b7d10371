//! Hex values with every character in place of a digit, and with half a byte too few or too many.

use crate::input::Input;
use crate::lines::{column, number, Lines, HEX};
use second::make::right_record;
use second::record::Form;

/// The digits, in the order of their values.
const DIGITS: [u8; 16] = *b"0123456789abcdef";

/// Where a wrong digit is put.
#[derive(Clone, Copy)]
enum Place {
    First,
    Middle,
    Last,
}

use Place::*;

/// The wrong digits; some are neighbours of right ones, or right ones with the high bit.
const WRONG: [(&str, Place, u8); 15] = [
    ("upper-case A first", First, b'A'),
    ("upper-case B in the middle", Middle, b'B'),
    ("upper-case F last", Last, b'F'),
    ("g first", First, b'g'),
    ("g in the middle", Middle, b'g'),
    ("g last", Last, b'g'),
    ("slash in the middle", Middle, b'/'),
    ("colon last", Last, b':'),
    ("backquote first", First, b'`'),
    ("at sign in the middle", Middle, b'@'),
    ("upper-case G last", Last, b'G'),
    ("minus first", First, b'-'),
    ("zero byte in the middle", Middle, 0),
    ("0 with the high bit first", First, b'0' | 0x80),
    ("a with the high bit in the middle", Middle, b'a' | 0x80),
];

/// Gives each line with each wrong digit.
pub fn wrong(form: Form) -> Vec<Input> {
    let mut inputs = Vec::new();
    for line in HEX {
        let number = number(form, line);
        for (turns, (what, place, digit)) in WRONG.into_iter().enumerate() {
            let lines = Lines::short(form, number + turns);
            let digits = lines.value(line).len();
            let place = match place {
                First => 0,
                Middle => digits / 2,
                Last => digits - 1,
            };
            let what = format!("line {number} {what}");
            let lines = lines.with_character(line, place, digit);
            inputs.push(Input::unread_at(what, lines, number, column(line, place)));
        }
    }
    inputs
}

/// Gives each of the 256 characters as the high and as the low digit of a byte. One that is a digit spells the text of a right record, which is
/// equal only where its value is right; any other stands in each line in turn.
pub fn each_character(form: Form) -> Vec<Input> {
    let mut inputs = Vec::new();
    for (character, line) in (0..=u8::MAX).zip(HEX.into_iter().cycle()) {
        let number = number(form, line);
        for (place, name) in ["high", "low"].into_iter().enumerate() {
            let what = format!("character {character} as a {name} digit");
            let value = (0..).zip(DIGITS).find(|(_, digit)| *digit == character);
            inputs.push(match value {
                Some((value, _)) => {
                    Input::equal(what, right_with(form, [value << 4, value][place]))
                }
                None => {
                    let lines = Lines::short(form, number);
                    let lines = lines.with_character(line, place, character);
                    match character {
                        // A line feed may leave a right line, and break the next one.
                        b'\n' => Input::told(what, lines),
                        _ => Input::unread_at(what, lines, number, column(line, place)),
                    }
                }
            });
        }
    }
    inputs
}

/// Gives a right record with this byte as its text.
fn right_with(form: Form, byte: u8) -> Lines {
    let record = right_record(1, &[0; 16], &[0; 16], &[], &[byte]);
    Lines::of(form, &record.expect("the message fits a record"))
}

/// Gives each line with a digit fewer, a digit more, a digit alone, and a sign of hex in front; sets 1 and 2 take turns from this one on.
pub fn odd(form: Form, turn: usize) -> Vec<Input> {
    let mut inputs = Vec::new();
    for line in HEX {
        let number = number(form, line);
        let lines = Lines::short(form, turn + number);
        let right = lines.value(line);
        for (what, value) in [
            ("one digit fewer", right[1..].to_vec()),
            ("one digit more", [right, b"0"].concat()),
            ("one digit alone", b"0".to_vec()),
            ("0x in front", [b"0x", right].concat()),
        ] {
            let what = format!("line {number} {what}");
            inputs.push(Input::unread(what, lines.with_value(line, value), number));
        }
    }
    inputs
}
