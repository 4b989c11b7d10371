//! Right texts for a task: what it reads, and takes to its end.

use crate::classes::{of_length, row};
use crate::entry::short_up_to;
use crate::lines::Lines;
use crate::log;
use crate::program::Task;
use second::cipher::{set_of, Set};
use second::moving::Direction;
use second::record::Form::{self, One, Two};

/// What a task reads: records of a form, entries of a set, or a log.
enum Read {
    Records(Form),
    Entries(&'static Set),
    Log,
}

/// Gives what a task reads.
fn read_by(task: Task) -> Read {
    match task {
        Task::Judge | Task::Move(Direction::Forward) | Task::Export => Read::Records(One),
        Task::Move(Direction::Back) => Read::Records(Two),
        Task::Import(set) => Read::Entries(set_of(set).expect("there is such a set")),
        Task::Replay => Read::Log,
    }
}

/// Gives so many short records or entries, one after another.
pub fn right_text(task: Task, count: usize) -> Vec<u8> {
    match read_by(task) {
        Read::Records(form) => {
            let record = |turn| Lines::short(form, turn).with_chip(0).bytes();
            (0..count).flat_map(record).collect()
        }
        Read::Entries(set) => short_up_to(set, count),
        Read::Log => log::many(count),
    }
}

/// Gives records or entries with exactly as many bytes in all.
pub fn right_text_of_length(task: Task, length: usize) -> Vec<u8> {
    match read_by(task) {
        Read::Records(form) => row(form, length),
        Read::Entries(set) => of_length(set, length),
        Read::Log => log::of_length(length),
    }
}
