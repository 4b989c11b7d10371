//! What is counted over all histories.

use crate::call::Call::{self, *};
use crate::call::CALLS;
use kvistmaur::boundary;
use second::area;
use second::stream::Direction;
use std::collections::BTreeMap;

/// A count for each direction and set, in the order of their numbers.
pub type Kinds = [[usize; 4]; 3];

/// The counts.
#[derive(Default)]
pub struct Tally {
    /// All calls.
    pub calls: usize,
    /// How often a call gave an answer.
    answers: BTreeMap<(Call, u64), usize>,
    /// How many starts, pieces and finishes were done.
    pub done: Kinds,
    /// How many messages came to their right end.
    pub right: Kinds,
    /// How many of them were cut in another way, too.
    pub cut_again: usize,
    /// How many calls the types made, too.
    pub typed: usize,
    /// How often a kind of damage broke the state, and how often it did not.
    pub damages: BTreeMap<&'static str, [usize; 2]>,
}

impl Tally {
    /// Counts a call by its number, and by the state before it and after it.
    pub fn count(&mut self, call: Call, number: u64, before: &[u8], after: &[u8]) {
        let answer = boundary::answer(number);
        self.calls += 1;
        *self.answers.entry((call, answer)).or_default() += 1;
        let of_stream = match call {
            StartSealing | StartChecking | StartOpening => after,
            End => return,
            _ => before,
        };
        if let (0, Some(stream)) = (answer, area::read(of_stream)) {
            count_kind(&mut self.done, stream.direction, stream.set);
        }
    }

    /// Counts a damage by the number of the call that looked at it.
    pub fn count_damage(&mut self, damage: &'static str, number: u64) {
        let sound = boundary::answer(number) != 8;
        self.damages.entry(damage).or_default()[usize::from(sound)] += 1;
    }

    /// Counts a message that came to its right end.
    pub fn count_right(&mut self, direction: Direction, set: u64) {
        count_kind(&mut self.right, direction, set);
    }

    /// How many messages came to their right end, of all kinds.
    pub fn all_right(&self) -> usize {
        self.right.iter().flatten().sum()
    }

    /// How often a call gave an answer.
    pub fn times_by(&self, call: Call, answer: u64) -> usize {
        self.answers.get(&(call, answer)).copied().unwrap_or(0)
    }

    /// How often an answer was given, by all calls.
    pub fn times(&self, answer: u64) -> usize {
        let by_calls = CALLS.map(|call| self.times_by(call, answer));
        by_calls.iter().sum()
    }
}

/// Adds one to the count of a direction and a set.
fn count_kind(kinds: &mut Kinds, direction: Direction, set: u64) {
    kinds[direction as usize][set as usize - 1] += 1;
}
