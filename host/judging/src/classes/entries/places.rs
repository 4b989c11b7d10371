//! A fault at every place of a file of two entries.

use crate::entry::{Entry, PARTS};
use crate::input::Input;
use second::cipher::Set;

/// A name, the bytes of a file changed at one place, and where that is: the entry, the line and the column.
type Changed = (String, Vec<u8>, [usize; 3]);

/// Gives files with a letter that no entry has in place of each character.
pub fn letters(set: &Set) -> Vec<Input> {
    wrong_there(set, |line, place| line[place] = b'g')
}

/// Gives files with each character in the other case, which is no letter where it is none.
pub fn other_case(set: &Set) -> Vec<Input> {
    wrong_there(set, |line, place| line[place] ^= 0x20)
}

/// Gives files with a carriage return in front of each character, that of each line feed too.
pub fn carriage_returns(set: &Set) -> Vec<Input> {
    wrong_there(set, |line, place| line.insert(place, b'\r'))
}

/// Gives files with a line feed in front of each character.
pub fn line_feeds(set: &Set) -> Vec<Input> {
    told(set, |line, place| line.insert(place, b'\n'))
}

/// Gives files that lack one character.
pub fn removed(set: &Set) -> Vec<Input> {
    told(set, |line, place| {
        line.remove(place);
    })
}

/// Gives the files changed at each place, where each is broken.
fn wrong_there(set: &Set, change: impl Fn(&mut Vec<u8>, usize)) -> Vec<Input> {
    let changed = at_each_place(set, change).into_iter();
    changed
        .map(|(what, bytes, fault)| Input::broken_at(what, bytes, set, fault))
        .collect()
}

/// Gives the files changed at each place; only the second program tells where each is broken.
fn told(set: &Set, change: impl Fn(&mut Vec<u8>, usize)) -> Vec<Input> {
    let changed = at_each_place(set, change).into_iter();
    changed
        .map(|(what, bytes, _)| Input::told(what, bytes))
        .collect()
}

/// Gives a file of two entries with a line changed at each of its places, that of its line feed too.
fn at_each_place(set: &Set, change: impl Fn(&mut Vec<u8>, usize)) -> Vec<Changed> {
    let entries =
        [(1, 2, 1), (2, 1, 2)].map(|(count, ad, text)| Entry::right(set, count, ad, text));
    let mut all = Vec::new();
    for (changed, entry) in entries.iter().enumerate() {
        for line in PARTS {
            for place in 0..entry.line(line).len() {
                let mut there = entry.line(line).to_vec();
                change(&mut there, place);
                let mut both = entries.clone();
                both[changed] = entry.with_line(line, there);
                let fault = [changed + 1, entry.number(line), place + 1];
                let [number, line, column] = fault;
                let what = format!("entry {number} line {line} column {column}");
                all.push((what, both.map(|entry| entry.bytes()).concat(), fault));
            }
        }
    }
    all
}
