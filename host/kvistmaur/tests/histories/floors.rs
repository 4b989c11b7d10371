//! How much of everything a run must have had, so that it can't pass by refusing.

use crate::call::CALLS;
use crate::states::DIRECTIONS;
use crate::tally::{Kinds, Tally};
use crate::TURNS;
use second::cipher::SETS;

/// In a gate's run: all calls, those that the types made, too, and the messages that came to their right end, of which every second one is cut in two ways.
const CALLS_MADE: usize = 900_000;
const TYPED: usize = 7_500;
const ALL_RIGHT: usize = 45_600;

/// In a gate's run, for each direction and set: calls that were done, and messages that came to their right end.
const DONE: usize = 48_000;
const RIGHT: usize = 3_400;

/// In a gate's run, how often each call was done, in the order of `CALLS`.
const DONE_BY_CALL: [usize; 11] = [
    38_500, 41_000, 41_000, 250_000, 73_000, 84_000, 83_000, 28_000, 27_500, 27_300, 11_000,
];

/// In a gate's run, how often each of the answers 0 to 9 was given; and at least how often by each call that has it.
const ANSWERS: [usize; 10] = [
    650_000, 2_700, 1_500, 1_000, 20_000, 60_000, 7_000, 80_000, 55_000, 8_000,
];
const ANSWERS_OF_A_CALL: usize = 250;

/// In a gate's run, how often a damage broke the state, and how often it left one that the call took.
const DAMAGES: [(&str, usize, usize); 10] = [
    ("a bit", 5_000, 3_500),
    ("a byte", 2_000, 1_500),
    ("a number", 8_000, 1_800),
    ("another length", 1_600, 0),
    ("counts near a limit", 0, 6_000),
    ("made up", 0, 2_000),
    ("noise", 1_600, 25),
    ("swapped", 2_000, 700),
    ("the ended state", 300, 5),
    ("turned around", 250, 550),
];

/// Panics when a count of a run of so many turns is under its floor.
pub fn all_floors_hold(tally: &Tally, turns: usize) {
    let floor = |what: &str, times: usize, in_gate: usize| {
        let least = in_gate * turns / TURNS;
        println!("{times} times, at least {least}: {what}");
        assert!(times >= least, "{times} times, not {least}: {what}");
    };
    floor("a call", tally.calls, CALLS_MADE);
    floor("a call by the types", tally.typed, TYPED);
    floor("a right message", tally.all_right(), ALL_RIGHT);
    floor(
        "a right message that was cut again",
        tally.cut_again,
        ALL_RIGHT / 2,
    );
    for direction in DIRECTIONS {
        for set in &SETS {
            let of = |kinds: Kinds| kinds[direction as usize][set.number as usize - 1];
            let stream = format!("{direction:?}, set {}", set.number);
            floor(&format!("a call done, {stream}"), of(tally.done), DONE);
            floor(
                &format!("a right message, {stream}"),
                of(tally.right),
                RIGHT,
            );
        }
    }
    for (answer, in_gate) in (0..).zip(ANSWERS) {
        floor(&format!("answer {answer}"), tally.times(answer), in_gate);
    }
    for (call, done) in CALLS.into_iter().zip(DONE_BY_CALL) {
        for answer in call.answers() {
            let in_gate = if *answer == 0 {
                done
            } else {
                ANSWERS_OF_A_CALL
            };
            let what = format!("{call:?}, answer {answer}");
            floor(&what, tally.times_by(call, *answer), in_gate);
        }
    }
    for (damage, broken, sound) in DAMAGES {
        let [broke, left_sound] = tally.damages.get(damage).copied().unwrap_or_default();
        floor(&format!("broken by {damage}"), broke, broken);
        floor(&format!("not broken by {damage}"), left_sound, sound);
    }
}
