//! Entries whose answer, out or rounds are not ours: the first of these in the first such entry is named.

use crate::input::Input;
use crate::log::{
    ad, bytes_of, finish, logged, of_all_kinds, start, startable, text, Handed, Line, Logged,
};

/// The lines whose fields are compared, in the order of comparison.
pub const COMPARED: [(Line, &str); 3] = [
    (Line::Answer, "answer"),
    (Line::Out, "out"),
    (Line::Rounds, "rounds"),
];

/// Gives the entry with another value in this line.
pub fn other(entry: &Logged, line: Line) -> Logged {
    let number = |line| (entry.number_in(line) + 1).to_string();
    match line {
        Line::Out if entry.value(line).is_empty() => entry.with_value(line, "00"),
        Line::Out => entry.with_other_digit(line, entry.value(line).len() - 1),
        _ => entry.with_value(line, number(line)),
    }
}

/// Gives a log with each choice of fields changed in each entry.
pub fn differing() -> Vec<Input> {
    let mut inputs = Vec::new();
    let entries = logged(&of_all_kinds());
    for place in 0..entries.len() {
        for choice in 1..8 {
            let bit = |bit: usize| choice >> bit & 1 == 1;
            let changed: Vec<_> = (0..3)
                .filter(|at| bit(*at))
                .map(|at| COMPARED[at])
                .collect();
            let mut all = entries.clone();
            for (line, _) in &changed {
                all[place] = other(&all[place], *line);
            }
            let names: Vec<&str> = changed.iter().map(|(_, field)| *field).collect();
            let what = format!("entry {} {}", place + 1, names.join(" "));
            let bytes = bytes_of(&all);
            inputs.push(Input::first_differs(what, bytes, place + 1, names[0]));
        }
    }
    inputs
}

/// Gives a log with two entries that differ, or of which one is broken: the first of the two is told.
pub fn two() -> Vec<Input> {
    let mut inputs = Vec::new();
    let entries = logged(&of_all_kinds());
    let broken = |entry: &Logged| entry.with_value(Line::Rounds, "x");
    for first in 0..entries.len() {
        for second in first + 1..entries.len() {
            let (line, field) = COMPARED[(first + second) % 3];
            let (later, _) = COMPARED[second % 3];
            let with = |one: Logged, two: Logged| {
                let mut all = entries.clone();
                (all[first], all[second]) = (one, two);
                bytes_of(&all)
            };
            let [one, two] = [&entries[first], &entries[second]];
            let both = with(other(one, line), other(two, later));
            let what = format!("entries {} and {}", first + 1, second + 1);
            inputs.push(Input::first_differs(&what, both, first + 1, field));
            if second == first + 1 {
                let then_broken = with(other(one, line), broken(two));
                let name = format!("{what} the second broken");
                inputs.push(Input::first_differs(name, then_broken, first + 1, field));
                let broken_first = with(broken(one), other(two, later));
                let name = format!("{what} the first broken");
                let fault = [first + 1, 5, 8];
                inputs.push(Input::first_breaks_at(name, broken_first, fault));
            }
        }
    }
    inputs
}

/// Gives the calls up to one of each kind, with the sets in turn: its name, and the calls.
fn up_to_each() -> [(&'static str, Vec<Handed>); 7] {
    let [one, two] = startable();
    [
        ("start1", vec![start(one)]),
        ("start2", vec![start(two)]),
        ("ad", vec![start(one), ad(17)]),
        ("text", vec![start(two), ad(1), text(9)]),
        ("finish", vec![start(one), ad(1), text(9), finish()]),
        ("refused text", vec![start(two), finish(), text(9)]),
        ("refused ad", vec![start(two), text(9), ad(9)]),
    ]
}

/// Gives logs whose last entry has another number in this line.
fn numbers(line: Line, field: &str, values: fn(u64) -> Vec<u64>) -> Vec<Input> {
    let mut inputs = Vec::new();
    for (call, calls) in up_to_each() {
        let entries = logged(&calls);
        let (last, others) = entries.split_last().expect("there is a call");
        let right = last.number_in(line);
        let mut all = values(right);
        all.sort_unstable();
        all.dedup();
        for value in all.into_iter().filter(|value| *value != right) {
            let there = last.with_value(line, value.to_string());
            let bytes = [bytes_of(others), there.bytes()].concat();
            let what = format!("{call} {field} {value}");
            inputs.push(Input::first_differs(what, bytes, entries.len(), field));
        }
    }
    inputs
}

/// Gives answers that another call has, that no call has, and that are ours in fewer bits.
pub fn answers() -> Vec<Input> {
    numbers(Line::Answer, "answer", |right| {
        let near = [0, 1, 5, 6, 7, 8, 10, 99].into_iter();
        near.chain([right + (1 << 8), right + (1 << 16), 9_999_999])
            .chain([10 * right + 1, 255])
            .collect()
    })
}

/// Gives rounds of other calls, that are one more or fewer, and that are ours in fewer bits.
pub fn rounds() -> Vec<Input> {
    numbers(Line::Rounds, "rounds", |right| {
        let near = [0, right + 1, right.saturating_sub(1), 12].into_iter();
        near.chain([right + (1 << 8), right + (1 << 16), 9_999_999])
            .chain([10 * right])
            .collect()
    })
}
