//! Damage that any line of an entry can have.

use crate::classes::any_line::WAYS;
use crate::input::Input;
use crate::log::{bytes_of, logged, message, startable, Line, Logged, LINES};
use crate::text::label;

/// Gives the right entries of a message; the sets take turns.
fn entries(turn: usize) -> Vec<Logged> {
    logged(&message(&startable()[turn % 2], &[3], &[5]))
}

/// Gives each line of the entry with this number damaged in each way.
pub fn damaged(number: usize) -> Vec<Input> {
    let mut inputs = Vec::new();
    for line in LINES {
        for (turn, (way, damaged)) in WAYS.iter().enumerate() {
            let mut entries = entries(turn);
            let entry = &entries[number - 1];
            let name = label(line).strip_suffix(b"=").expect("a label");
            let there = damaged(name, entry.value(line));
            let own = entry.number(line);
            entries[number - 1] = entry.with_line(line, there);
            let what = format!("line {own} {way}");
            inputs.push(Input::first_breaks(what, bytes_of(&entries), [number, own]));
        }
    }
    inputs
}

/// Gives logs in which a line of the first or the third entry stands twice, or two lines are in each other's place.
pub fn moved() -> Vec<Input> {
    let mut inputs = Vec::new();
    for number in [1, 3] {
        let entries = entries(number / 2);
        let entry = &entries[number - 1];
        let with = |there: Logged| {
            let mut all = entries.clone();
            all[number - 1] = there;
            bytes_of(&all)
        };
        for line in LINES {
            let twice = with(entry.with_line(line, entry.line(line).repeat(2)));
            let own = entry.number(line);
            let fault = match line {
                Line::Rounds => [number + 1, 1, 1],
                _ => [number, own + 1, 1],
            };
            let what = format!("entry {number} line {own} doubled");
            inputs.push(Input::first_breaks_at(what, twice, fault));
        }
        for (one, other) in [
            (Line::Call, Line::Data),
            (Line::Data, Line::Answer),
            (Line::Answer, Line::Out),
            (Line::Out, Line::Rounds),
            (Line::Call, Line::Rounds),
            (Line::Data, Line::Out),
        ] {
            let [first, second] = [one, other].map(|line| entry.number(line));
            let swapped = with(entry.swapped(one, other));
            let what = format!("entry {number} lines {first} and {second} swapped");
            inputs.push(Input::first_breaks_at(what, swapped, [number, first, 1]));
        }
    }
    inputs
}
