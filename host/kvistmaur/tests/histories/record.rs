//! What has happened in a history: for its class, and for whoever reads of a failure.

use crate::call::Call;
use crate::lending::Arguments;
use crate::words::number_in_words;
use kvistmaur::boundary;

/// Which history it is, and what has happened in it.
pub struct Record {
    seed: u64,
    number: usize,
    class: &'static str,
    /// The answers of all calls, in their order.
    answers: Vec<u64>,
    /// How many damages a call has looked at.
    pub damages: usize,
    /// How many messages came to their right end.
    pub right: usize,
    /// A line for each call and each damage.
    lines: Vec<String>,
}

impl Record {
    /// The record of a history in which nothing has happened; histories are counted from 1.
    pub fn new(seed: u64, number: usize, class: &'static str) -> Record {
        Record {
            seed,
            number,
            class,
            answers: Vec::new(),
            damages: 0,
            right: 0,
            lines: Vec::new(),
        }
    }

    /// Writes down a call that both programs have made.
    pub fn write_call(&mut self, call: Call, given: &Arguments, number: u64) {
        self.answers.push(boundary::answer(number));
        let what = match call {
            Call::StartSealing | Call::StartChecking | Call::StartOpening => format!(
                "set {}, limit {}, key {}, nonce {}",
                given.set,
                given.limit,
                given.key.len(),
                given.nonce.len()
            ),
            _ => format!(
                "piece {}, output {}, tag {}",
                given.piece.len(),
                given.room,
                given.tag.len()
            ),
        };
        let (state, number) = (given.state.len(), number_in_words(number));
        self.write(format!("{call:?}, {what}, state {state}: {number}"));
    }

    /// Writes down a line.
    pub fn write(&mut self, line: String) {
        self.lines.push(line);
    }

    /// How many calls were made.
    pub fn calls(&self) -> usize {
        self.answers.len()
    }

    /// Whether a call was given this answer.
    pub fn answered(&self, answer: u64) -> bool {
        self.answers.contains(&answer)
    }

    /// Whether a call was refused.
    pub fn refused(&self) -> bool {
        self.answers.iter().any(|answer| *answer != 0)
    }

    /// Whether a call has looked at a damaged area.
    pub fn damaged(&self) -> bool {
        self.damages > 0
    }

    /// Whether a message came to its right end.
    pub fn came_right(&self) -> bool {
        self.right > 0
    }
}

impl Drop for Record {
    /// Prints the record when the history fails, by whatever panic.
    fn drop(&mut self) {
        if std::thread::panicking() {
            let (seed, number, class) = (self.seed, self.number, self.class);
            eprintln!("KVISTMAUR_SEED={seed}, history {number}, of the class: {class}");
            eprintln!("Before it failed, this had happened:");
            for (line, place) in self.lines.iter().zip(1..) {
                eprintln!("{place}. {line}");
            }
        }
    }
}
