//! Several entries one after another.

use super::of_length::of_length;
use crate::classes::edges::BUFFERS;
use crate::classes::mixed::every_row;
use crate::classes::HELD;
use crate::entry::{short_up_to, Entry, Part, PARTS};
use crate::input::Input;
use crate::lines::Lines;
use second::cipher::Set;
use second::random::Random;
use second::record::Form::One;
use second::vectors::short_record;

/// What chooses the entries of long rows.
const SEED: u64 = 13;

/// Gives files of up to 1,500 entries, around each change in the number of digits of their counts.
pub fn right(set: &Set) -> Vec<Input> {
    let file = |count| {
        let mut random = Random::new(SEED);
        let entry = |count| Entry::of(count, &short_record(&mut random, set)).bytes();
        let bytes: Vec<u8> = (1..=count).flat_map(entry).collect();
        Input::done(format!("{count} entries"), bytes, set, count)
    };
    [
        1, 2, 3, 9, 10, 11, 12, 99, 100, 101, 999, 1_000, 1_001, 1_500,
    ]
    .map(file)
    .into()
}

/// Gives right entries of each data length below, with each of the lengths as text in turn.
pub fn around_block_edges(set: &Set) -> Vec<Input> {
    const LENGTHS: [usize; 13] = [0, 1, 7, 8, 9, 15, 16, 17, 31, 32, 33, 255, 256];
    let file = |ad| {
        let entry = |(count, text)| Entry::right(set, count, ad, text).bytes();
        let bytes: Vec<u8> = (1..).zip(LENGTHS).flat_map(entry).collect();
        Input::done(format!("ad {ad}"), bytes, set, LENGTHS.len())
    };
    LENGTHS.map(file).into()
}

/// Gives files as long as one may be, or almost.
pub fn as_much_as_is_held(set: &Set) -> Vec<Input> {
    let full = of_length(set, HELD);
    let with_byte = |place: usize| {
        let mut bytes = full.clone();
        bytes[place] = b'x';
        bytes
    };
    let shortest = as_many_as_fit(|count| Entry::right(set, count, 0, 0));
    let most = shortest.iter().filter(|byte| **byte == b'=').count() / 6;
    let record = Lines::short(One, 0).bytes();
    let again = Entry::short(set, most).bytes();
    let inputs = [
        ("all but a byte", of_length(set, HELD - 1)),
        ("all", full.clone()),
        ("the shortest entries", shortest.clone()),
        (
            "the largest entries",
            as_many_as_fit(|count| Entry::right(set, count, 256, 256)),
        ),
        (
            "the last entry cut by a byte",
            of_length(set, HELD + 1)[..HELD].to_vec(),
        ),
        ("the first byte wrong", with_byte(0)),
        ("the last byte wrong", with_byte(HELD - 1)),
        (
            "the last count again",
            [&shortest[..shortest.len() - 2 * again.len()], &again].concat(),
        ),
        (
            "a record at the end",
            [of_length(set, HELD - record.len()), record].concat(),
        ),
        ("line feeds", b"\n".repeat(HELD)),
    ];
    assert!(inputs.iter().all(|(_, bytes)| bytes.len() <= HELD));
    inputs.map(|(what, bytes)| Input::told(what, bytes)).into()
}

/// Gives as many entries as are held, from count 1 on.
fn as_many_as_fit(entry: impl Fn(usize) -> Entry) -> Vec<u8> {
    let mut bytes = Vec::new();
    for next in (1..).map(|count| entry(count).bytes()) {
        if bytes.len() + next.len() > HELD {
            break;
        }
        bytes.extend(next);
    }
    bytes
}

/// Gives right files that end at a likely buffer's end or beside it.
pub fn around_buffer_edges(set: &Set) -> Vec<Input> {
    let places = BUFFERS.into_iter().flat_map(|end| [end - 1, end, end + 1]);
    let input = |place| Input::told(format!("{place} bytes"), of_length(set, place));
    places.map(input).collect()
}

/// Gives three entries, the first, the second or the last broken in each of its lines.
pub fn broken(set: &Set) -> Vec<Input> {
    let mut inputs = Vec::new();
    for (number, line) in (1..).zip(PARTS) {
        for (place, what) in ["first", "second", "last"].into_iter().enumerate() {
            let mut entries = [1, 2, 3].map(|count| Entry::short(set, count));
            entries[place] = entries[place].with_value(line, "no");
            let what = format!("{what} broken in line {number}");
            let bytes = entries.map(|entry| entry.bytes()).concat();
            inputs.push(Input::broken(what, bytes, set, [place + 1, number]));
        }
    }
    inputs
}

/// Gives entries of which two named lines are broken, each pair of them; the first decides.
pub fn two_lines(set: &Set) -> Vec<Input> {
    let mut inputs = Vec::new();
    let named = &PARTS[..6];
    for (first, one) in (1..).zip(named) {
        for (second, other) in (1..).zip(named).skip(first) {
            let entry = Entry::short(set, 1);
            let entry = entry.with_value(*one, "x").with_value(*other, "x");
            let what = format!("lines {first} and {second}");
            inputs.push(Input::broken(what, entry, set, [1, first]));
        }
    }
    inputs
}

/// What can stand at a place of a file: its name, the line that is broken in it or 0, and how it is made of the right entry and its count.
type Kind = (&'static str, usize, fn(Entry, usize) -> Vec<u8>);

#[rustfmt::skip]
const KINDS: [Kind; 5] = [
    ("right", 0, |entry, _| entry.bytes()),
    ("key", 2, |entry, _| entry.with_value(Part::Key, "7").bytes()),
    ("end", 7, |entry, _| entry.with_line(Part::End, b" \n".to_vec()).bytes()),
    ("count", 1, |entry, count| entry.with_value(Part::Count, (count + 1).to_string()).bytes()),
    ("record", 1, |_, count| Lines::short(One, count).bytes()),
];

/// Gives every row of one to three of these.
pub fn first_decides(set: &Set) -> Vec<Input> {
    let input = |row: Vec<Kind>| {
        let names: Vec<&str> = row.iter().map(|(name, _, _)| *name).collect();
        let made = (1..).zip(&row);
        let made = made.flat_map(|(count, (_, _, make))| make(Entry::short(set, count), count));
        let (what, bytes) = (names.join(" "), made.collect::<Vec<u8>>());
        match row.iter().position(|(_, line, _)| *line > 0) {
            None => Input::done(what, bytes, set, row.len()),
            Some(place) => Input::broken(what, bytes, set, [place + 1, row[place].1]),
        }
    };
    every_row(&KINDS, 3).into_iter().map(input).collect()
}

/// Gives one entry and three, with bytes behind them that are no entry.
pub fn trailing(set: &Set) -> Vec<Input> {
    let mut inputs = Vec::new();
    for count in [1, 3] {
        let whole = Entry::short(set, count + 1).bytes();
        let half = &whole[..whole.len() / 2];
        let lines_in_half = half.iter().filter(|byte| **byte == b'\n').count();
        let next = format!("Count = {}", count + 1).into_bytes();
        let tails: [(&str, &[u8], usize); 18] = [
            ("a line feed", b"\n", 1),
            ("two line feeds", b"\n\n", 1),
            ("a carriage return and a line feed", b"\r\n", 1),
            ("the letter C", b"C", 1),
            ("the letter x", b"x", 1),
            ("a blank", b" ", 1),
            ("a zero byte", b"\0", 1),
            ("a high byte", b"\xff", 1),
            ("a substitute", b"\x1a", 1),
            ("a remark", b"# the end\n", 1),
            ("Count", b"Count", 1),
            ("Count and no value", b"Count = ", 1),
            ("the count and no line feed", &next, 1),
            ("the count line", &[&next[..], b"\n"].concat(), 2),
            ("half an entry", half, lines_in_half + 1),
            ("all but the empty line", &whole[..whole.len() - 1], 7),
            ("all but two line feeds", &whole[..whole.len() - 2], 6),
            ("all but the first letter", &whole[1..], 1),
        ];
        let before = short_up_to(set, count);
        for (what, tail, line) in tails {
            let bytes = [&before, tail].concat();
            let what = format!("{what} after {count}");
            inputs.push(Input::broken(what, bytes, set, [count + 1, line]));
        }
    }
    inputs
}

/// Gives files of up to 30 entries, all of them by chance, with data, text and cipher of any lengths.
pub fn by_chance(set: &Set) -> Vec<Input> {
    let mut random = Random::new(SEED + 1);
    let file = |number: usize| {
        let count = 1 + random.below(30);
        let mut entry = |count| {
            let [ad, text, cipher] = [(); 3].map(|()| random.below(257));
            let entry = Entry::right(set, count, ad, text);
            match random.below(3) {
                0 => entry.with_cipher(set, cipher),
                _ => entry,
            }
        };
        let bytes: Vec<u8> = (1..=count).flat_map(|count| entry(count).bytes()).collect();
        Input::done(
            format!("file {number} of {count} entries"),
            bytes,
            set,
            count,
        )
    };
    (0..40).map(file).collect()
}
