//! Every stream call of the boundary on every kind of state, beside the second program's; numbers and every lent byte are compared.
//!
//! `KVISTMAUR_CALLS` and `KVISTMAUR_SEED` are those of the test `differential`; without the first, 420,000 calls are made.

mod call;
mod classes;
#[path = "../common/mod.rs"]
mod common;
mod harness;
mod lending;
mod mixture;
mod states;

use call::CALLS;
use classes::CLASSES;
use common::{number_or, say, seed, Plan};
use harness::Harness;
use mixture::any_call;

/// The calls that a run makes when nobody says how many.
const ALL: usize = 420_000;

const PLAN: Plan<Harness> = Plan {
    classes: &CLASSES,
    any: any_call,
    fewest: 100_000,
    made: |harness| harness.calls,
};

#[test]
fn stream_calls_do_what_the_second_programs_do() {
    let (calls, seed) = (number_or("KVISTMAUR_CALLS", ALL), seed());
    say(&format!(
        "streams, KVISTMAUR_SEED={seed} KVISTMAUR_CALLS={calls}"
    ));

    let mut harness = Harness::new(seed);
    PLAN.run(&mut harness, calls);
    every_answer_was_given(&harness);
    say(&format!(
        "{} stream calls agree, all classes",
        harness.calls
    ));
}

/// Panics when a call never gave one of its answers, or gave one that it does not have.
fn every_answer_was_given(harness: &Harness) {
    for call in CALLS {
        for answer in 0..16 {
            let times = harness.times(call, answer);
            let listed = call.answers().contains(&answer);
            assert_eq!(times > 0, listed, "{call:?}, answer {answer}");
            if listed {
                println!("{times} times: {call:?}, answer {answer}");
            }
        }
    }
}
