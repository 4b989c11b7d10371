//! Calls in any order, with data of any length, and what chance does to their log.

use super::fields::{other, COMPARED};
use crate::input::Input;
use crate::log::{ad, bytes_of, finish, logged, start, startable, text, Handed, LINES};
use second::random::Random;

const INPUTS: usize = 150;

/// Gives logs of up to 60 calls: a third of them right, a third with a few other fields, a third with lines that are lost, doubled or in another's place.
pub fn calls() -> Vec<Input> {
    let mut random = Random::new(12);
    (0..INPUTS).map(|number| log(&mut random, number)).collect()
}

/// Gives one such log.
fn log(random: &mut Random, number: usize) -> Input {
    let count = 1 + random.below(60);
    let calls: Vec<Handed> = (0..count).map(|_| call(random)).collect();
    let mut entries = logged(&calls);
    match number % 3 {
        0 => Input::agrees(format!("{number:03} right"), bytes_of(&entries), count),
        1 => {
            for _ in 0..1 + random.below(3) {
                let place = random.below(count);
                let (line, _) = COMPARED[random.below(3)];
                entries[place] = other(&entries[place], line);
            }
            Input::told(format!("{number:03} other fields"), bytes_of(&entries))
        }
        _ => {
            let place = random.below(count);
            let (one, another) = (LINES[random.below(5)], LINES[random.below(5)]);
            let entry = &entries[place];
            entries[place] = match random.below(3) {
                0 => entry.with_line(one, vec![]),
                1 => entry.with_line(one, entry.line(another).to_vec()),
                _ => entry.swapped(one, another),
            };
            Input::told(format!("{number:03} other lines"), bytes_of(&entries))
        }
    }
}

/// Gives a call; there are more pieces than starts and ends.
fn call(random: &mut Random) -> Handed {
    let length = match random.below(4) {
        0 => 0,
        1 => random.below(5),
        2 => random.below(33),
        _ => random.below(257),
    };
    match random.below(9) {
        0 => start(&startable()[0]),
        1 => start(&startable()[1]),
        2 => finish(),
        3..=5 => ad(length),
        _ => text(length),
    }
}
