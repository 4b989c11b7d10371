//! Runs calls on the model and on the second program, compares all that they leave, and counts.

use crate::call::{Call, Direction, Memory};
use crate::common::say;
use crate::program::{Program, BOUNDARY, SECOND, TYPES};
use second::random::Random;
use std::collections::BTreeMap;

/// After how many calls a line says how far the run is.
const STEP: usize = 100_000;

/// The comparison and its counts.
pub struct Harness {
    pub random: Random,
    /// The calls compared so far.
    pub calls: usize,
    answers: BTreeMap<(&'static str, Direction, u64), usize>,
}

impl Harness {
    /// A harness that takes its bytes from the given seed and has compared nothing.
    pub fn new(seed: u64) -> Harness {
        Harness {
            random: Random::new(seed),
            calls: 0,
            answers: BTreeMap::new(),
        }
    }

    /// Runs a call on both programs and panics unless answer, rounds and all bytes agree, and the answer is the one that
    /// is expected.
    pub fn expect(&mut self, call: &Call, answer: u64) {
        let got = self.compare(call);
        assert_eq!(
            got,
            answer,
            "not the answer that the case was made for: {}",
            call.shown()
        );
    }

    /// Runs a call on both programs, panics unless answer, rounds and all bytes agree, and gives the answer.
    pub fn compare(&mut self, call: &Call) -> u64 {
        let mut memory = call.memory(|| self.random.below(8));
        self.compare_in(call, &mut memory) % 16
    }

    /// Does so in a given memory, which then holds what the model left by its boundary, and gives the number that was
    /// returned.
    pub fn compare_in(&mut self, call: &Call, model: &mut Memory) -> u64 {
        let mut second = model.clone();
        let wanted = call.run(&SECOND, &mut second);
        if call.has_types() {
            self.agree(&TYPES, call, &mut model.clone(), wanted, &second);
        }
        self.agree(&BOUNDARY, call, model, wanted, &second);
        self.calls += 1;
        if self.calls.is_multiple_of(STEP) {
            say(&format!("{} calls agree", self.calls));
        }
        wanted
    }

    /// Runs a call on the model, in one of its two ways, and panics unless it gives and leaves what the second program did.
    fn agree(&mut self, way: &Program, call: &Call, own: &mut Memory, wanted: u64, left: &Memory) {
        let given = call.run(way, own);

        let shown = format!("call {}, {}: {}", self.calls + 1, way.name, call.shown());
        assert_eq!(
            given, wanted,
            "the model's number and the second program's; {shown}"
        );
        if let Some((slice, place)) = own.difference(left) {
            panic!("{slice} differs at byte {place}; {shown}");
        }
        let answer = wanted % 16;
        if answer == 9 {
            // Said here too, so that it does not rest on the second program.
            let zeros = vec![0; call.body.len()];
            assert!(own.output().starts_with(&zeros), "text is left; {shown}");
        }
        let counted = (way.name, call.direction, answer);
        *self.answers.entry(counted).or_default() += 1;
    }

    /// How often the model gave an answer in a direction, in one of its two ways.
    pub fn times(&self, way: &Program, direction: Direction, answer: u64) -> usize {
        let counted = (way.name, direction, answer);
        self.answers.get(&counted).copied().unwrap_or(0)
    }
}
