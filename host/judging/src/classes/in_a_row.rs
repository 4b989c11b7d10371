//! Several records one after another.

use crate::input::{Input, Said};
use crate::lines::Lines;
use second::cipher::SETS;
use second::random::Random;
use second::record::Form::{self, One};
use second::record::Line;
use second::vectors;

/// What chooses the records of long rows.
const SEED: u64 = 7;

/// Gives three records, the first, the second or the last broken in each of its lines.
pub fn broken(form: Form) -> Vec<Input> {
    let mut inputs = Vec::new();
    for (number, line) in (1..).zip(form.lines()) {
        for (place, what) in ["first", "second", "last"].into_iter().enumerate() {
            let mut records = [0, 1, 2].map(|turn| Lines::right(form, &SETS[turn % 2], turn, 9));
            records[place] = records[place].with_value(*line, "no");
            let mut said = vec![Said::Equal; place];
            said.push(Said::Unread(number));
            let what = format!("{what} broken in line {number}");
            let bytes = records.map(|lines| lines.bytes()).concat();
            inputs.push(Input::of(what, bytes, &said));
        }
    }
    inputs
}

/// Gives two right records, of sets 1 and 2.
pub fn two_right(form: Form) -> [Vec<u8>; 2] {
    [0, 1].map(|number| Lines::short(form, number).bytes())
}

/// Gives the inputs behind two right records of a form; only the second program tells their output.
pub fn behind_two(form: Form, inputs: Vec<Input>) -> Vec<Input> {
    let third = |Input { name, bytes, .. }| {
        let rows = [two_right(form).concat(), bytes].concat();
        Input::told(name, rows)
    };
    inputs.into_iter().map(third).collect()
}

/// Gives one record and three, with bytes behind them that are no record.
pub fn trailing(form: Form) -> Vec<Input> {
    let whole = Lines::right(form, &SETS[1], 2, 3).bytes();
    let half = &whole[..whole.len() / 2];
    let lines_in_half = half.iter().filter(|byte| **byte == b'\n').count();
    let tails: [(&str, &[u8], usize); 16] = [
        ("a line feed", b"\n", 1),
        ("two line feeds", b"\n\n", 1),
        ("a carriage return and a line feed", b"\r\n", 1),
        ("the letter s", b"s", 1),
        ("the letter x", b"x", 1),
        ("a blank", b" ", 1),
        ("a zero byte", b"\0", 1),
        ("a high byte", b"\xff", 1),
        ("a substitute", b"\x1a", 1),
        ("set", b"set", 1),
        ("set and no value", b"set=", 1),
        ("set and no line feed", b"set=1", 1),
        ("a set line", b"set=1\n", 2),
        ("half a record", half, lines_in_half + 1),
        (
            "all but a line feed",
            &whole[..whole.len() - 1],
            form.lines().len(),
        ),
        ("all but the first letter", &whole[1..], 1),
    ];
    let mut inputs = Vec::new();
    for count in [1, 3] {
        let records = Lines::right(form, &SETS[0], 5, 4).bytes().repeat(count);
        for (what, tail, line) in tails {
            let mut said = vec![Said::Equal; count];
            said.push(Said::Unread(line));
            let bytes = [&records, tail].concat();
            inputs.push(Input::of(format!("{what} after {count}"), bytes, &said));
        }
    }
    inputs
}

/// Gives rows so long that record numbers get up to five digits.
pub fn long(form: Form) -> Vec<Input> {
    let many = |count| many_in(|_| form, count, SEED);
    let shortest = Lines::right(form, &SETS[1], 0, 0).with_value(Line::Rounds, "7");
    let broken = [many(1_500), b"set=1\nkey=0\n".to_vec()].concat();
    vec![
        Input::told("12 records", many(12)),
        Input::told("101 records", many(101)),
        Input::told("1001 records", many(1_001)),
        Input::told("1500 records and a broken one", broken),
        Input::of(
            "2000 shortest",
            shortest.bytes().repeat(2_000),
            &[Said::Differs("rounds"); 2_000],
        ),
        Input::told("10000 records", many(10_000)),
    ]
}

/// Gives as many records of form 1, of all sets and of all lengths; three of seven differ, each in another field.
pub fn many(count: u64) -> Vec<u8> {
    many_in(|_| One, count, SEED)
}

/// Gives as many such records, the one with each number, counted from 0, in the form that is given for it; the seed chooses them.
pub fn many_in(form_of: impl Fn(u64) -> Form, count: u64, seed: u64) -> Vec<u8> {
    let mut random = Random::new(seed);
    let mut bytes = Vec::new();
    for index in 0..count {
        let form = form_of(index);
        let lines = Lines::of(form, &vectors::record_in(form, &mut random, index));
        let lines = match index % 7 {
            2 => lines.with_value(Line::Rounds, index.to_string()),
            4 => lines.with_other_digit(Line::Tag, random.below(24)),
            6 if !lines.value(Line::Cipher).is_empty() => {
                let place = random.below(lines.value(Line::Cipher).len());
                lines.with_other_digit(Line::Cipher, place)
            }
            _ => lines,
        };
        bytes.extend(lines.bytes());
    }
    bytes
}
