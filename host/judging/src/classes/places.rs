//! A fault at every place of a record.

use super::in_a_row::two_right;
use crate::input::{Input, Said};
use crate::lines::{fault_column, Lines};
use second::cipher::SETS;
use second::record::Form;

/// Characters that no record has at any place: neighbours of digits, upper-case letters, blanks, and bytes that are no text.
const NOWHERE: [u8; 12] = *b"/:@G`ZF \t\r\0\xff";

/// A name, the bytes of an input with one place changed, and what is said when it breaks at that place.
type Changed = (String, Vec<u8>, Vec<Said>);

/// Gives records with a wrong character in place of each of their own.
pub fn wrong_characters(form: Form) -> Vec<Input> {
    let wrong = |line: &mut Vec<u8>, place| {
        line[place] = NOWHERE[(line.len() + place) % NOWHERE.len()];
    };
    let changed = at_each_place(form, [0, 2], wrong).into_iter();
    changed
        .map(|(what, bytes, said)| Input::of(what, bytes, &said))
        .collect()
}

/// Gives records with a line feed in front of each of their characters.
pub fn line_feeds(form: Form) -> Vec<Input> {
    // The line before it may be a right one; only the second program tells what breaks then.
    let changed = at_each_place(form, [2, 0], |line, place| line.insert(place, b'\n'));
    changed
        .into_iter()
        .map(|(what, bytes, _)| Input::told(what, bytes))
        .collect()
}

/// Gives a record of sets 1 and 2 each with a line changed at each of its places, that of its line feed too, behind as many right records as said for the set.
fn at_each_place(
    form: Form,
    before: [usize; 2],
    change: impl Fn(&mut Vec<u8>, usize),
) -> Vec<Changed> {
    let mut all = Vec::new();
    for (set, before) in SETS[..2].iter().zip(before) {
        let lines = Lines::right(form, set, 3, 4);
        for (number, line) in (1..).zip(form.lines()) {
            for place in 0..lines.line(*line).len() {
                let mut there = lines.line(*line).to_vec();
                change(&mut there, place);
                let record = lines.with_line(*line, there).bytes();
                let mut said = vec![Said::Equal; before];
                said.push(Said::UnreadAt(number, fault_column(*line, place)));
                let what = format!("set {} line {number} column {}", set.number, place + 1);
                let bytes = [two_right(form)[..before].concat(), record].concat();
                all.push((what, bytes, said));
            }
        }
    }
    all
}
