//! Every kind of whole-message call on the model, by its boundary and by its types, and on the second program; answers, rounds and every lent byte are compared.
//!
//! `KVISTMAUR_CALLS` says how many calls to make at least (24,000 when it isn't there), `KVISTMAUR_SEED` from which seed
//! (the clock's when it isn't there). The long run, in `host/`:
//!
//!     KVISTMAUR_CALLS=1000000 cargo test -p kvistmaur --test differential

mod call;
mod classes;
#[path = "../common/mod.rs"]
mod common;
mod fault;
mod harness;
mod message;
mod mixture;
mod program;

use call::Direction;
use classes::CLASSES;
use common::{number_or, say, seed, Plan};
use harness::Harness;
use mixture::any_call;
use program::{BOUNDARY, TYPES};

/// The calls that a run makes when nobody says how many.
const CALLS: usize = 24_000;

const PLAN: Plan<Harness> = Plan {
    classes: &CLASSES,
    any: any_call,
    fewest: 10_000,
    made: |harness| harness.calls,
};

#[test]
fn the_model_does_what_the_second_program_does() {
    let (calls, seed) = (number_or("KVISTMAUR_CALLS", CALLS), seed());
    say(&format!("KVISTMAUR_SEED={seed} KVISTMAUR_CALLS={calls}"));

    let mut harness = Harness::new(seed);
    PLAN.run(&mut harness, calls);
    every_answer_was_given(&harness);
    say(&format!("{} calls agree, all classes", harness.calls));
}

/// Panics when a direction never gave one of its answers. By the types there is no unknown set, and no sealing with another tag's length.
fn every_answer_was_given(harness: &Harness) {
    for (way, direction, answers) in [
        (&BOUNDARY, Direction::Seal, &[0, 1, 2, 3, 4, 5, 6][..]),
        (&BOUNDARY, Direction::Open, &[0, 1, 2, 3, 4, 5, 6, 9]),
        (&TYPES, Direction::Seal, &[0, 2, 3, 5, 6]),
        (&TYPES, Direction::Open, &[0, 2, 3, 4, 5, 6, 9]),
    ] {
        for answer in answers {
            let times = harness.times(way, direction, *answer);
            let what = format!("{direction:?} by {}, answer {answer}", way.name);
            println!("{times} times: {what}");
            assert!(times > 0, "never given: {what}");
        }
    }
}
