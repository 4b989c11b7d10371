//! Damage that any line of an entry can have, and what can stand in place of its empty line.

use crate::entry::{short_up_to, Entry, Part, PARTS};
use crate::input::Input;
use crate::text::label;
use second::cipher::Set;

/// What is done to a line, and what then stands in its place, by its name and its value.
type Way = (&'static str, fn(&[u8], &[u8]) -> Vec<u8>);

#[rustfmt::skip]
const WAYS: [Way; 34] = [
    ("another name", |name, value| [b"x", &name[1..], b" = ", value, b"\n"].concat()),
    ("longer name", |name, value| [name, b"s = ", value, b"\n"].concat()),
    ("shorter name", |name, value| [&name[..name.len() - 1], b" = ", value, b"\n"].concat()),
    ("first letter in the other case", |name, value| [&[name[0] ^ 0x20], &name[1..], b" = ", value, b"\n"].concat()),
    ("last letter in the other case", |name, value| [&name[..name.len() - 1], &[name[name.len() - 1] ^ 0x20], b" = ", value, b"\n"].concat()),
    ("no name", |_, value| [b" = ", value, b"\n"].concat()),
    ("value alone", |_, value| [value, b"\n"].concat()),
    ("name alone", |name, _| [name, b"\n"].concat()),
    ("name and equals sign alone", |name, _| [name, b" =\n"].concat()),
    ("as in a record", |name, value| [&name.to_ascii_lowercase(), &b"="[..], &value.to_ascii_lowercase(), b"\n"].concat()),
    ("no blanks", |name, value| [name, b"=", value, b"\n"].concat()),
    ("no blank before the equals sign", |name, value| [name, b"= ", value, b"\n"].concat()),
    ("no blank after the equals sign", |name, value| [name, b" =", value, b"\n"].concat()),
    ("two blanks before the equals sign", |name, value| [name, b"  = ", value, b"\n"].concat()),
    ("two blanks after the equals sign", |name, value| [name, b" =  ", value, b"\n"].concat()),
    ("a tab before the equals sign", |name, value| [name, b"\t= ", value, b"\n"].concat()),
    ("a tab after the equals sign", |name, value| [name, b" =\t", value, b"\n"].concat()),
    ("no equals sign", |name, value| [name, b"  ", value, b"\n"].concat()),
    ("two equals signs", |name, value| [name, b" == ", value, b"\n"].concat()),
    ("colon for the equals sign", |name, value| [name, b" : ", value, b"\n"].concat()),
    ("blank before the line", |name, value| [b" ", name, b" = ", value, b"\n"].concat()),
    ("blank after the value", |name, value| [name, b" = ", value, b" \n"].concat()),
    ("tab after the value", |name, value| [name, b" = ", value, b"\t\n"].concat()),
    ("missing", |_, _| Vec::new()),
    ("no line feed", |name, value| [name, b" = ", value].concat()),
    ("carriage return before the line feed", |name, value| [name, b" = ", value, b"\r\n"].concat()),
    ("carriage return for the line feed", |name, value| [name, b" = ", value, b"\r"].concat()),
    ("empty line before", |name, value| [b"\n", name, b" = ", value, b"\n"].concat()),
    ("empty line behind", |name, value| [name, b" = ", value, b"\n\n"].concat()),
    ("zero byte after the value", |name, value| [name, b" = ", value, b"\0\n"].concat()),
    ("zero byte for the line feed", |name, value| [name, b" = ", value, b"\0"].concat()),
    ("high bit in the name", |name, value| [&[name[0] | 0x80], &name[1..], b" = ", value, b"\n"].concat()),
    ("high bit in the line feed", |name, value| [name, b" = ", value, b"\x8a"].concat()),
    ("high byte after the value", |name, value| [name, b" = ", value, b"\xff\n"].concat()),
];

/// What can stand in place of the empty line of an entry that is not the last, with the fault's place: how many entries are right before it, its line, its column.
const ENDS: [(&str, &[u8], [usize; 3]); 11] = [
    ("missing", b"", [0, 7, 1]),
    ("a blank", b" \n", [0, 7, 1]),
    ("a tab", b"\t\n", [0, 7, 1]),
    ("a carriage return", b"\r\n", [0, 7, 1]),
    ("a carriage return alone", b"\r", [0, 7, 1]),
    ("a zero byte", b"\0\n", [0, 7, 1]),
    ("a high line feed", b"\x8a", [0, 7, 1]),
    ("a remark", b"# more\n", [0, 7, 1]),
    ("a tag line", b"Tag = 00\n", [0, 7, 1]),
    ("two empty lines", b"\n\n", [1, 1, 1]),
    ("three empty lines", b"\n\n\n", [1, 1, 1]),
];

/// What can stand in place of the empty line of the last entry, with the fault's place as above.
const LAST_ENDS: [(&str, &[u8], [usize; 3]); 6] = [
    ("missing", b"", [0, 7, 1]),
    ("a blank", b" ", [0, 7, 1]),
    ("a blank and a line feed", b" \n", [0, 7, 1]),
    ("a carriage return", b"\r\n", [0, 7, 1]),
    ("two empty lines", b"\n\n", [1, 1, 1]),
    ("three empty lines", b"\n\n\n", [1, 1, 1]),
];

/// Gives each named line of the entry of this count damaged in each way, behind right entries and before one.
pub fn damaged(set: &Set, count: usize) -> Vec<Input> {
    let mut inputs = Vec::new();
    let entry = Entry::short(set, count);
    for line in named() {
        let number = entry.number(line);
        let name = label(line).strip_suffix(b" = ").expect("a label");
        for (way, damaged) in WAYS {
            let there = damaged(name, entry.value(line));
            let place = match (way, line) {
                // The empty line is taken for the entry's own, whose own is then the next entry's first.
                ("empty line behind", Part::Ct) => [count + 1, 1],
                ("empty line behind", _) => [count, number + 1],
                // The empty line's own line feed ends it.
                ("no line feed", Part::Ct) => [count, 7],
                _ => [count, number],
            };
            let bytes = in_file(set, count, entry.with_line(line, there));
            inputs.push(Input::broken(
                format!("line {number} {way}"),
                bytes,
                set,
                place,
            ));
        }
    }
    inputs
}

/// Gives the lines that have a name.
fn named() -> impl Iterator<Item = Part> {
    PARTS.into_iter().filter(|line| *line != Part::End)
}

/// Gives the bytes of an entry of this count behind right entries and before one.
fn in_file(set: &Set, count: usize, entry: Entry) -> Vec<u8> {
    let after = Entry::short(set, count + 1).bytes();
    [short_up_to(set, count - 1), entry.bytes(), after].concat()
}

/// Gives files in which the entry of this count has a line twice, or two lines in each other's place.
pub fn moved(set: &Set, count: usize) -> Vec<Input> {
    let entry = Entry::short(set, count);
    let mut inputs = Vec::new();
    for line in PARTS {
        let number = entry.number(line);
        let twice = entry.with_line(line, entry.line(line).repeat(2));
        let place = match line {
            Part::End => [count + 1, 1, 1],
            _ => [
                count,
                number + 1,
                shared(set, number + 1, entry.line(line)) + 1,
            ],
        };
        let bytes = in_file(set, count, twice);
        let what = format!("line {number} doubled");
        inputs.push(Input::broken_at(what, bytes, set, place));
    }
    let neighbours = PARTS.windows(2).map(|pair| (pair[0], pair[1]));
    let others = [
        (Part::Count, Part::End),
        (Part::Key, Part::Ct),
        (Part::Pt, Part::Ct),
    ];
    for (one, other) in neighbours.chain(others) {
        let [first, second] = [one, other].map(|line| entry.number(line));
        let swapped = in_file(set, count, entry.swapped(one, other));
        let column = shared(set, first, entry.line(other)) + 1;
        let what = format!("lines {first} and {second} swapped");
        inputs.push(Input::broken_at(what, swapped, set, [count, first, column]));
    }
    inputs
}

/// Gives how many characters a line has in common with the beginning of the line that has this number.
fn shared(set: &Set, number: usize, found: &[u8]) -> usize {
    let own = Entry::short(set, 1);
    let wanted = own.line(PARTS[number - 1]);
    wanted.iter().zip(found).take_while(|(a, b)| a == b).count()
}

/// Gives files in which the entry of this count, before others or the last, has something else in place of its empty line.
pub fn ends(set: &Set, count: usize) -> Vec<Input> {
    let before = short_up_to(set, count - 1);
    let entry = Entry::short(set, count);
    let next = Entry::short(set, count + 1).bytes();
    let input = |at: &str, (what, there, place): (&str, &[u8], [usize; 3]), after: &[u8]| {
        let [right, line, column] = place;
        let ended = entry.with_line(Part::End, there.to_vec()).bytes();
        let bytes = [&before[..], &ended, after].concat();
        let place = [count + right, line, column];
        Input::broken_at(format!("{at} {what}"), bytes, set, place)
    };
    let before_others = ENDS.map(|end| input("before another", end, &next));
    let last = LAST_ENDS.map(|end| input("at the end", end, b""));
    before_others.into_iter().chain(last).collect()
}
