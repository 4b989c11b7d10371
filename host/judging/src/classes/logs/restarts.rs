//! Starts while a stream is open, and with the other set.

use crate::input::Input;
use crate::log::{ad, bytes_of, finish, logged, message, start, startable, text, Handed};
use second::cipher::Set;
use second::replay::right_log;

/// Gives what can stand before a restart: its name, and the calls.
fn before(set: &Set) -> [(&'static str, Vec<Handed>); 9] {
    let block = set.block;
    [
        ("nothing", vec![]),
        ("a start", vec![start(set)]),
        ("no data", vec![start(set), ad(0)]),
        ("some data", vec![start(set), ad(3)]),
        ("a block of data", vec![start(set), ad(block)]),
        ("no text", vec![start(set), ad(3), text(0)]),
        ("some text", vec![start(set), text(3)]),
        ("a block of text", vec![start(set), ad(1), text(block)]),
        ("an end", vec![start(set), text(3), finish()]),
    ]
}

/// Gives a message of each set behind each of these of each set.
pub fn right() -> Vec<Input> {
    let mut inputs = Vec::new();
    for old in startable() {
        for new in startable() {
            for (what, mut calls) in before(old) {
                calls.extend(message(new, &[3, 7], &[5, 9]));
                let what = format!("set {} behind {what} of {}", new.number, old.number);
                inputs.push(Input::agrees(what, right_log(&calls), calls.len()));
            }
        }
    }
    inputs
}

/// Gives logs of chips on whose stream a restart had no effect, or that restarted where there was no start.
pub fn otherwise() -> Vec<Input> {
    let mut inputs = Vec::new();
    for set in startable() {
        for (what, calls) in before(set) {
            let rest = [text(5), finish()];
            let [kept, made] = [vec![], vec![start(set)]]
                .map(|again| logged(&[&calls[..], &again, &rest].concat()));
            // The entries of one chip, and the last two of the other.
            let (one, other) = match set.number {
                1 => (&made, &kept),
                _ => (&kept, &made),
            };
            let last = [&one[..one.len() - 2], &other[other.len() - 2..]].concat();
            let what = format!("set {} behind {what}", set.number);
            inputs.push(Input::told(what, bytes_of(&last)));
        }
    }
    inputs
}
