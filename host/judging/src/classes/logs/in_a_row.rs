//! Many entries one after another, and bytes behind the last or behind the one that decides.

use super::fields::{other, COMPARED};
use crate::classes::edges::BUFFERS;
use crate::input::Input;
use crate::log::{
    bytes_of, logged, many, message, of_all_kinds, of_length, startable, Line, Logged, LINES,
};

/// Numbers of entries, around each change in their digits and in their bytes.
const COUNTS: [usize; 18] = [
    1, 2, 9, 10, 11, 99, 100, 101, 255, 256, 257, 1_000, 9_999, 10_000, 10_001, 65_535, 65_537,
    100_000,
];

/// Gives right logs of as many entries.
pub fn agreeing() -> Vec<Input> {
    let log = |count| Input::agrees(format!("{count} entries"), many(count), count);
    COUNTS.map(log).into()
}

/// Gives right logs of as many entries but the last, which differs or is broken, each in another line.
pub fn deciding() -> Vec<Input> {
    let kinds = logged(&of_all_kinds());
    let mut inputs = Vec::new();
    for (turn, count) in COUNTS.into_iter().enumerate() {
        let last = &kinds[(count - 1) % kinds.len()];
        let (line, field) = COMPARED[turn % 3];
        let before = many(count - 1);
        let differs = [&before[..], &other(last, line).bytes()].concat();
        let what = format!("{count} entries and the last differs");
        inputs.push(Input::first_differs(what, differs, count, field));
        let number = turn % 5;
        let broken = last.with_value(LINES[number], "no");
        let bytes = [&before[..], &broken.bytes()].concat();
        let what = format!("{count} entries and the last is broken");
        inputs.push(Input::first_breaks(what, bytes, [count, number + 1]));
    }
    inputs
}

/// Gives logs whose second entry differs or is broken, with bytes behind it that are no entry, or that are.
pub fn behind() -> Vec<Input> {
    let entries = logged(&message(&startable()[1], &[3], &[5]));
    let right = bytes_of(&entries);
    let tails: [(&str, Vec<u8>); 7] = [
        ("nothing", vec![]),
        ("a line feed", b"\n".to_vec()),
        ("no text", b"\0\xff\x80\r".repeat(50)),
        ("half an entry", right[..60].to_vec()),
        ("right entries", right.clone()),
        (
            "another that differs",
            other(&entries[0], Line::Rounds).bytes(),
        ),
        ("a million letters", b"x".repeat(1_000_000)),
    ];
    let mut inputs = Vec::new();
    for (what, tail) in tails {
        let with = |second: Logged| {
            let mut bytes = [entries[0].bytes(), second.bytes()].concat();
            bytes.extend(&tail);
            bytes
        };
        for (line, field) in COMPARED {
            let bytes = with(other(&entries[1], line));
            let name = format!("{field} differs and {what}");
            inputs.push(Input::first_differs(name, bytes, 2, field));
        }
        for (number, line) in (1..).zip(LINES) {
            let bytes = with(entries[1].with_value(line, "no"));
            let name = format!("line {number} broken and {what}");
            inputs.push(Input::first_breaks(name, bytes, [2, number]));
        }
    }
    inputs
}

/// Gives a message, once and three times, with bytes behind it that are no entry.
pub fn trailing() -> Vec<Input> {
    let entries = logged(&message(&startable()[0], &[3], &[5]));
    let whole = entries[2].bytes();
    let half = &whole[..whole.len() / 2];
    let lines_in_half = half.iter().filter(|byte| **byte == b'\n').count();
    let tails: [(&str, &[u8], usize); 17] = [
        ("a line feed", b"\n", 1),
        ("two line feeds", b"\n\n", 1),
        ("a carriage return and a line feed", b"\r\n", 1),
        ("the letter c", b"c", 1),
        ("the letter x", b"x", 1),
        ("a blank", b" ", 1),
        ("a zero byte", b"\0", 1),
        ("a high byte", b"\xff", 1),
        ("a substitute", b"\x1a", 1),
        ("call", b"call", 1),
        ("call and no value", b"call=", 1),
        ("call and no line feed", b"call=ad", 1),
        ("a call line", b"call=ad\n", 2),
        ("a record", b"set=1\n", 1),
        ("half an entry", half, lines_in_half + 1),
        ("all but a line feed", &whole[..whole.len() - 1], 5),
        ("all but the first letter", &whole[1..], 1),
    ];
    let mut inputs = Vec::new();
    for times in [1, 3] {
        let log = bytes_of(&entries).repeat(times);
        for (what, tail, line) in tails {
            let bytes = [&log, tail].concat();
            let place = [times * entries.len() + 1, line];
            let what = format!("{what} after {times}");
            inputs.push(Input::first_breaks(what, bytes, place));
        }
    }
    inputs
}

/// Gives right logs that end at a likely buffer's end or beside it, and the same with an entry behind them that differs.
pub fn around_buffer_edges() -> Vec<Input> {
    let differs = other(&logged(&of_all_kinds())[0], Line::Answer).bytes();
    let places = BUFFERS.into_iter().flat_map(|end| [end - 1, end, end + 1]);
    let mut inputs = Vec::new();
    for place in places {
        let log = of_length(place);
        assert_eq!(log.len(), place);
        let lines = log.iter().filter(|byte| **byte == b'\n').count();
        let entries = lines / LINES.len();
        let more = [&log[..], &differs].concat();
        let what = format!("{place} bytes");
        inputs.push(Input::agrees(&what, log, entries));
        let what = format!("{what} and one that differs");
        inputs.push(Input::first_differs(what, more, entries + 1, "answer"));
    }
    inputs
}
