//! Runs stream calls on the model and on the second program, compares all that they leave, and counts.

use crate::call::{Call, MODEL, SECOND};
use crate::common::say;
use crate::lending::Arguments;
use second::random::Random;
use std::collections::BTreeMap;

/// After how many calls a line says how far the run is.
const STEP: usize = 500_000;

/// The comparison and its counts.
pub struct Harness {
    pub random: Random,
    /// The calls compared so far.
    pub calls: usize,
    answers: BTreeMap<(Call, u64), usize>,
}

impl Harness {
    /// A harness that takes its bytes from the given seed and has compared nothing.
    pub fn new(seed: u64) -> Harness {
        Harness {
            random: Random::new(seed),
            calls: 0,
            answers: BTreeMap::new(),
        }
    }

    /// Makes a call on both programs, panics unless the number and all bytes agree, and gives the answer.
    pub fn compare(&mut self, call: Call, arguments: &Arguments) -> u64 {
        let mut model = arguments.memory(|| self.random.below(8));
        let mut second = model.clone();
        let wanted = SECOND(call, &mut second);
        let given = MODEL(call, &mut model);

        let shown = || format!("call {}, {call:?}: {}", self.calls + 1, arguments.shown());
        assert_eq!(
            given,
            wanted,
            "the model's number and the second program's; {}",
            shown()
        );
        if let Some((slice, place)) = model.difference(&second) {
            panic!("{slice} differs at byte {place}; {}", shown());
        }
        let answer = wanted % 16;
        *self.answers.entry((call, answer)).or_default() += 1;
        self.calls += 1;
        if self.calls.is_multiple_of(STEP) {
            say(&format!("{} stream calls agree", self.calls));
        }
        answer
    }

    /// Makes a call on both programs, and panics unless they agree, and the answer is the one that is expected.
    pub fn expect(&mut self, call: Call, arguments: &Arguments, answer: u64) {
        let got = self.compare(call, arguments);
        assert_eq!(
            got,
            answer,
            "not the answer that the case was made for: {call:?}, {}",
            arguments.shown()
        );
    }

    /// How often a call gave an answer.
    pub fn times(&self, call: Call, answer: u64) -> usize {
        self.answers.get(&(call, answer)).copied().unwrap_or(0)
    }
}
