//! Fields and lines of other lengths than the rules give them.

use super::with_other_keys;
use crate::input::Input;
use crate::lines::{column, label, number, Lines, KEYED, UP_TO_256};
use second::cipher::SETS;
use second::record::{Form, Line};

/// Gives keys, nonces and tags of lengths that are not the set's.
pub fn exact(form: Form) -> Vec<Input> {
    let mut inputs = Vec::new();
    for set in &SETS {
        let other = with_other_keys(set);
        let lines = Lines::right(form, set, 3, 5);
        for line in KEYED {
            let number = lines.number(line);
            for (what, length) in [
                ("one byte fewer", set.key - 1),
                ("one byte more", set.key + 1),
                ("no byte", 0),
                ("twice as many", 2 * set.key),
                ("the other set's length", other.key),
            ] {
                let what = format!("set {} line {number} {what}", set.number);
                let lines = lines.with_value(line, "a5".repeat(length));
                let column = column(line, 2 * length.min(set.key));
                inputs.push(Input::unread_at(what, lines, number, column));
            }
        }
        let what = format!("set {} called {}", set.number, other.number);
        let renamed = lines.with_value(Line::Set, other.number.to_string());
        inputs.push(Input::unread(what, renamed, lines.number(Line::Key)));
    }
    inputs
}

/// Gives data, text and ciphers of none, of up to 256 bytes, and of more.
pub fn up_to_256(form: Form) -> Vec<Input> {
    let mut inputs = Vec::new();
    for set in &SETS {
        for (ad, text) in [(0, 0), (0, 256), (256, 0), (255, 255), (256, 256)] {
            let what = format!("set {} ad {ad} text {text}", set.number);
            inputs.push(Input::equal(what, Lines::right(form, set, ad, text)));
        }
    }
    for line in UP_TO_256 {
        let number = number(form, line);
        for (what, digits) in [
            ("257 bytes", 514),
            ("258 bytes", 516),
            ("512 bytes", 1_024),
            ("256 bytes and a digit", 513),
            ("255 bytes and a digit", 511),
        ] {
            let what = format!("line {number} {what}");
            let lines = Lines::short(form, number).with_value(line, "c".repeat(digits));
            let column = column(line, digits.min(512));
            inputs.push(Input::unread_at(what, lines, number, column));
        }
    }
    let short = Lines::short(form, 0);
    let all = UP_TO_256
        .into_iter()
        .fold(short, |lines, line| lines.with_value(line, "c".repeat(514)));
    let first = number(form, Line::Ad);
    inputs.push(Input::unread("257 bytes in all three", all, first));
    inputs
}

/// Gives each line far longer than a record: its digits, digits to the end, a long name, many empty lines.
pub fn far_too_long(form: Form) -> Vec<Input> {
    let mut inputs = Vec::new();
    for (number, line) in (1..).zip(form.lines()) {
        let lines = Lines::short(form, number);
        let digits = |count| [label(*line), &b"1".repeat(count)].concat();
        let ended = |count| [digits(count), b"\n".to_vec()].concat();
        let long_name = [&b"a".repeat(100_000), lines.line(*line)].concat();
        for (what, there) in [
            ("2000 digits", ended(2_000)),
            ("100000 digits", ended(100_000)),
            ("name of 100000 letters", long_name),
            ("100000 line feeds", b"\n".repeat(100_000)),
        ] {
            let what = format!("line {number} {what}");
            inputs.push(Input::unread(what, lines.with_line(*line, there), number));
        }
        let endless = [lines.before(*line), digits(100_000)].concat();
        let what = format!("line {number} digits to the end");
        inputs.push(Input::unread(what, endless, number));
    }
    inputs
}
