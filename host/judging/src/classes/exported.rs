//! What only those classes have that become entries: counts, sets in every order, rounds that are dropped, and what is no record of form 1.

use super::in_a_row::many_in;
use super::mixed::every_row;
use super::Own;
use crate::entry::{short_up_to, Entry};
use crate::input::Input;
use crate::lines::Lines;
use crate::program::Task;
use second::cipher::{Set, SETS};
use second::record::Form::{One, Two};
use second::record::Line;

/// The classes, with their numbers of inputs.
#[rustfmt::skip]
pub const OWN: [Own; 7] = [
    ("right records counted", 13, counted),
    ("sets 1 and 2 in every order", 62, two_sets),
    ("all sets in every order", 84, all_sets),
    ("rounds that are dropped", 96, wrong_rounds),
    ("no record of form 1", 18, no_records),
    ("a third record broken in each line", 32, third_broken),
    ("the first refused decides", 84, first_decides),
];

/// Gives an input of so many records that become entries.
fn done(what: String, bytes: Vec<u8>, records: usize) -> Input {
    Input::done(what, bytes, Task::Export, records)
}

/// Gives an input of which the record with this number is the first that is broken, in this line, at this column.
fn broken_at(what: &str, bytes: Vec<u8>, place: [usize; 3]) -> Input {
    Input::broken_at(what, bytes, Task::Export, place)
}

/// Gives rows of up to 1,001 records, around each change in the number of digits of their counts; some have wrong rounds.
fn counted() -> Vec<Input> {
    let row = |count| {
        let bytes = many_in(|_| One, count as u64, 17);
        done(format!("{count} records"), bytes, count)
    };
    [1, 2, 3, 9, 10, 11, 12, 99, 100, 101, 999, 1_000, 1_001]
        .map(row)
        .into()
}

/// Gives every row of one to five records of sets 1 and 2.
fn two_sets() -> Vec<Input> {
    rows_of_sets(&[0, 1], 5)
}

/// Gives every row of one to three records of any set.
fn all_sets() -> Vec<Input> {
    let places: Vec<usize> = (0..SETS.len()).collect();
    rows_of_sets(&places, 3)
}

/// Gives every row of up to so many records of the sets at these places.
fn rows_of_sets(places: &[usize], most: usize) -> Vec<Input> {
    let row = |row: Vec<usize>| {
        let names: Vec<String> = row.iter().map(usize::to_string).collect();
        let bytes = row.iter().flat_map(|place| of(&SETS[*place]).bytes());
        done(names.join(" "), bytes.collect(), row.len())
    };
    every_row(places, most).into_iter().map(row).collect()
}

/// Gives records of each set with rounds that no message takes, or another one, alone and as the second of three.
fn wrong_rounds() -> Vec<Input> {
    let mut inputs = Vec::new();
    for set in &SETS {
        let right = of(set);
        for rounds in [0, 1, 9, 10, 24, 29, 31, 99, 100, 255, 1_000_000, 9_999_999] {
            let wrong = right.with_value(Line::Rounds, rounds.to_string()).bytes();
            let what = format!("set {} rounds {rounds}", set.number);
            let three = [right.bytes(), wrong.clone(), right.bytes()].concat();
            inputs.push(done(format!("{what} alone"), wrong, 1));
            inputs.push(done(format!("{what} second"), three, 3));
        }
    }
    inputs
}

/// Gives a short right record of the set.
fn of(set: &Set) -> Lines {
    Lines::right(One, set, 3, 5)
}

/// Gives entries, records of form 2 and other texts, alone and behind records or before them.
fn no_records() -> Vec<Input> {
    let old = |place: usize| Lines::short(One, place).bytes();
    let new = |place: usize| Lines::short(Two, place).with_chip(0).bytes();
    let entry = |place: usize| Entry::short(&SETS[place], 1).bytes();
    let second = Entry::short(&SETS[0], 2).bytes();
    let chip = Lines::short(Two, 0).with_chip(7).bytes();
    let text = String::from_utf8(old(1)).expect("plain text");
    let first = [1, 1, 1];
    vec![
        broken_at("an entry of set 1", entry(0), first),
        broken_at("an entry of set 2", entry(1), first),
        broken_at("three entries", short_up_to(&SETS[0], 3), first),
        broken_at(
            "an entry behind a record",
            [old(0), second].concat(),
            [2, 1, 1],
        ),
        broken_at(
            "an entry behind two",
            [old(0), old(1), entry(1)].concat(),
            [3, 1, 1],
        ),
        broken_at(
            "an entry before a record",
            [entry(0), old(0)].concat(),
            first,
        ),
        broken_at("form 2 of set 1", new(0), first),
        broken_at("form 2 of set 2", new(1), first),
        broken_at("form 2 of chip 7", chip.clone(), first),
        broken_at(
            "form 2 behind form 1",
            [old(0), new(0), old(0)].concat(),
            [2, 1, 1],
        ),
        broken_at(
            "form 2 of chip 7 behind two",
            [old(0), old(1), chip].concat(),
            [3, 1, 1],
        ),
        broken_at("the form line alone", b"form=2\n".to_vec(), first),
        broken_at("upper-case names", text.to_ascii_uppercase().into(), first),
        broken_at(
            "upper-case digits",
            text.replace("\nkey=", "\nkey=A").into(),
            [1, 2, 5],
        ),
        broken_at("blanks", text.replace('=', " = ").into(), [1, 1, 4]),
        broken_at(
            "carriage returns",
            text.replace('\n', "\r\n").into(),
            [1, 1, 6],
        ),
        broken_at(
            "an empty line behind",
            [&old(1)[..], b"\n"].concat(),
            [2, 1, 1],
        ),
        broken_at("a line feed", b"\n".to_vec(), first),
    ]
}

/// Gives three records of which the third, of each set, lacks the value of each line or has one that no line has.
fn third_broken() -> Vec<Input> {
    let mut inputs = Vec::new();
    for set in &SETS {
        for (number, line) in (1..).zip(One.lines()) {
            let third = of(set).with_value(*line, "no").bytes();
            let bytes = [
                Lines::short(One, 0).bytes(),
                Lines::short(One, 1).bytes(),
                third,
            ];
            let what = format!("set {} line {number}", set.number);
            let column = line.label().len() + 1;
            inputs.push(broken_at(&what, bytes.concat(), [3, number, column]));
        }
    }
    inputs
}

/// A record: its name, the line and the column where it breaks, if it does, and its bytes.
type Known = (&'static str, Option<[usize; 2]>, Vec<u8>);

/// Gives every row of one to three records of which each is right, has wrong rounds, is broken or is of form 2.
fn first_decides() -> Vec<Input> {
    let right = of(&SETS[0]);
    let other = Lines::short(Two, 0).with_chip(0);
    let kinds: [Known; 4] = [
        ("right", None, right.bytes()),
        ("rounds", None, right.with_value(Line::Rounds, "7").bytes()),
        (
            "broken",
            Some([7, 6]),
            right.with_value(Line::Tag, "7").bytes(),
        ),
        ("other", Some([1, 1]), other.bytes()),
    ];
    let input = |row: Vec<Known>| {
        let names: Vec<&str> = row.iter().map(|(name, _, _)| *name).collect();
        let bytes: Vec<u8> = row.iter().flat_map(|(_, _, bytes)| bytes.clone()).collect();
        let places = row.iter().map(|(_, place, _)| *place);
        let first = (1..)
            .zip(places)
            .find_map(|(number, place)| Some((number, place?)));
        match first {
            None => done(names.join(" "), bytes, row.len()),
            Some((number, [line, column])) => {
                broken_at(&names.join(" "), bytes, [number, line, column])
            }
        }
    };
    every_row(&kinds, 3).into_iter().map(input).collect()
}
