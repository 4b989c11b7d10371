//! Records of both forms in one input.

use super::in_a_row::many_in;
use crate::input::{Input, Said};
use crate::lines::Lines;
use second::random::Random;
use second::record::Form::{self, One, Two};
use second::record::Line;
use std::slice::from_ref;

/// A record: its name, what is said of it, and its bytes.
type Known = (String, Said, Vec<u8>);

/// Gives every row of one to three records of which each is equal, differs or is unread, in either form.
pub fn orders() -> Vec<Input> {
    let known: Vec<Known> = [One, Two].into_iter().flat_map(three_of).collect();
    let rows = every_row(&known, 3);
    rows.iter().map(|row| in_this_order(row)).collect()
}

/// Gives every row of one to so many of these.
pub fn every_row<T: Clone>(all: &[T], most: usize) -> Vec<Vec<T>> {
    let mut longest = vec![vec![]];
    let mut rows = Vec::new();
    for _ in 0..most {
        let longer = |row: &Vec<T>| {
            let with = |one: &T| [&row[..], from_ref(one)].concat();
            all.iter().map(with).collect::<Vec<_>>()
        };
        longest = longest.iter().flat_map(longer).collect();
        rows.extend(longest.clone());
    }
    rows
}

/// Gives a record of the form that is equal, one that differs and one that is unread.
fn three_of(form: Form) -> [Known; 3] {
    let right = Lines::short(form, 1);
    let number = right.number(Line::Ad);
    let other_tag = right.with_other_digit(Line::Tag, 3);
    let broken = right.with_value(Line::Ad, "7");
    let fault = Said::UnreadAt(number, 5);
    [
        (format!("{form:?}-equal"), Said::Equal, right.bytes()),
        (
            format!("{form:?}-differs"),
            Said::Differs("tag"),
            other_tag.bytes(),
        ),
        (format!("{form:?}-unread"), fault, broken.bytes()),
    ]
}

/// Gives the records one after another; the first that is unread is the last of which anything is said.
fn in_this_order(row: &[Known]) -> Input {
    let names: Vec<&str> = row.iter().map(|(name, _, _)| &name[..]).collect();
    let bytes: Vec<&[u8]> = row.iter().map(|(_, _, bytes)| &bytes[..]).collect();
    let said: Vec<Said> = row.iter().map(|(_, said, _)| *said).collect();
    let read = said
        .iter()
        .position(|said| matches!(said, Said::UnreadAt(..)));
    let last = read.map_or(said.len(), |read| read + 1);
    Input::of(names.join(" "), bytes.concat(), &said[..last])
}

/// Gives long rows in which the other form comes late, the forms take turns, or a record of the other form is broken at the end.
pub fn long() -> Vec<Input> {
    let late = |first, then| {
        many_in(
            move |index| if index < 1_000 { first } else { then },
            1_020,
            8,
        )
    };
    let in_turn = |index| if index % 2 == 0 { One } else { Two };
    let broken = |form, line| Lines::short(form, 0).with_value(line, "x").bytes();
    vec![
        Input::told("1000 of form 1 and 20 of form 2", late(One, Two)),
        Input::told("1000 of form 2 and 20 of form 1", late(Two, One)),
        Input::told("2000 in turn", many_in(in_turn, 2_000, 9)),
        Input::told(
            "1020 and a chip broken",
            [late(One, One), broken(Two, Line::Chip)].concat(),
        ),
        Input::told(
            "1020 and a set broken",
            [late(Two, Two), broken(One, Line::Set)].concat(),
        ),
    ]
}

/// Gives files of up to sixteen records, all of them by chance and each of either form.
pub fn by_chance() -> Vec<Input> {
    let mut random = Random::new(10);
    let file = |number: u64| {
        let forms = random.number();
        let form_of = |index| if forms >> index & 1 == 0 { One } else { Two };
        let count = 1 + random.below(16) as u64;
        let bytes = many_in(form_of, count, random.number());
        Input::told(format!("file {number} of {count} records"), bytes)
    };
    (0..100).map(file).collect()
}
