//! Damage that any line can have.

use crate::input::{Input, Said};
use crate::lines::{label, number, Lines};
use second::record::{Form, Line};

/// What is done to a line, and what then stands in its place, by its name and its value.
pub type Way = (&'static str, fn(&[u8], &[u8]) -> Vec<u8>);

#[rustfmt::skip]
pub const WAYS: [Way; 26] = [
    ("another name", |name, value| [b"x", &name[1..], b"=", value, b"\n"].concat()),
    ("longer name", |name, value| [name, b"s=", value, b"\n"].concat()),
    ("shorter name", |name, value| [&name[..name.len() - 1], b"=", value, b"\n"].concat()),
    ("upper-case name", |name, value| [&name.to_ascii_uppercase(), &b"="[..], value, b"\n"].concat()),
    ("upper-case letter", |name, value| [&name[..1].to_ascii_uppercase(), &name[1..], b"=", value, b"\n"].concat()),
    ("no name", |_, value| [b"=", value, b"\n"].concat()),
    ("no equals sign", |name, value| [name, value, b"\n"].concat()),
    ("two equals signs", |name, value| [name, b"==", value, b"\n"].concat()),
    ("colon for the equals sign", |name, value| [name, b":", value, b"\n"].concat()),
    ("name alone", |name, _| [name, b"\n"].concat()),
    ("blank before the line", |name, value| [b" ", name, b"=", value, b"\n"].concat()),
    ("blank before the equals sign", |name, value| [name, b" =", value, b"\n"].concat()),
    ("blank after the equals sign", |name, value| [name, b"= ", value, b"\n"].concat()),
    ("blank after the value", |name, value| [name, b"=", value, b" \n"].concat()),
    ("tab after the value", |name, value| [name, b"=", value, b"\t\n"].concat()),
    ("missing", |_, _| Vec::new()),
    ("no line feed", |name, value| [name, b"=", value].concat()),
    ("carriage return before the line feed", |name, value| [name, b"=", value, b"\r\n"].concat()),
    ("carriage return for the line feed", |name, value| [name, b"=", value, b"\r"].concat()),
    ("empty line before", |name, value| [b"\n", name, b"=", value, b"\n"].concat()),
    ("zero byte before the line", |name, value| [b"\0", name, b"=", value, b"\n"].concat()),
    ("zero byte after the value", |name, value| [name, b"=", value, b"\0\n"].concat()),
    ("zero byte for the line feed", |name, value| [name, b"=", value, b"\0"].concat()),
    ("high bit in the name", |name, value| [&[name[0] | 0x80], &name[1..], b"=", value, b"\n"].concat()),
    ("high bit in the line feed", |name, value| [name, b"=", value, b"\x8a"].concat()),
    ("high byte after the value", |name, value| [name, b"=", value, b"\xff\n"].concat()),
];

/// Gives the name of a line.
fn name(line: Line) -> &'static [u8] {
    label(line).strip_suffix(b"=").expect("a label")
}

/// Gives each line damaged in each way; sets 1 and 2 take turns from this one on.
pub fn damaged(form: Form, turn: usize) -> Vec<Input> {
    let mut inputs = Vec::new();
    for (number, line) in (1..).zip(form.lines()) {
        for (turns, (way, damaged)) in WAYS.iter().enumerate() {
            let lines = Lines::short(form, turn + number + turns);
            let there = damaged(name(*line), lines.value(*line));
            // What is left without a form line is of form 1, and its set is right.
            let missing = *line == Line::Form && there.is_empty();
            let broken = if missing { 2 } else { number };
            let what = format!("line {number} {way}");
            inputs.push(Input::unread(what, lines.with_line(*line, there), broken));
        }
    }
    inputs
}

/// Gives records in which a line stands twice or two lines have changed places; sets 1 and 2 take turns from this one on.
pub fn moved(form: Form, turn: usize) -> Vec<Input> {
    let mut inputs = Vec::new();
    for (number, line) in (1..).zip(form.lines()) {
        let lines = Lines::short(form, turn + number);
        let twice = lines.with_line(*line, lines.line(*line).repeat(2));
        let what = format!("line {number} doubled");
        inputs.push(match line {
            Line::Rounds => Input::of(what, twice, &[Said::Equal, Said::Unread(1)]),
            _ => Input::unread(what, twice, number + 1),
        });
    }
    let neighbours = form.lines().windows(2).map(|pair| (pair[0], pair[1]));
    for (one, other) in neighbours.chain([
        (form.lines()[0], Line::Rounds),
        (Line::Key, Line::Tag),
        (Line::Ad, Line::Cipher),
        (Line::Text, Line::Tag),
    ]) {
        let [first, second] = [one, other].map(|line| number(form, line));
        let lines = Lines::short(form, turn + first).swapped(one, other);
        // What then begins with its set is of form 1.
        let begins_with_set = one == Line::Form && other == Line::Set;
        let broken = if begins_with_set { 2 } else { first };
        let what = format!("lines {first} and {second} swapped");
        inputs.push(Input::unread(what, lines, broken));
    }
    inputs
}
