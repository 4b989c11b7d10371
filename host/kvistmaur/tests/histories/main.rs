//! Histories of stream calls, each on an area of its own, by the boundary and by the second program; numbers and every lent byte are compared call by call.
//!
//! `KVISTMAUR_HISTORIES` says how many histories to make at least (100,000 when it isn't there), `KVISTMAUR_SEED` from which
//! seed (the clock's when it isn't there). The long run, in `host/`:
//!
//!     KVISTMAUR_HISTORIES=1000000 cargo test -p kvistmaur --test histories

mod any;
#[allow(dead_code)]
#[path = "../stream_calls/call.rs"]
mod call;
mod classes;
#[allow(dead_code, unused_imports)]
#[path = "../common/mod.rs"]
mod common;
mod compare;
mod cutting;
mod damage;
mod damaged;
mod ends;
mod floors;
mod history;
#[path = "../stream_calls/lending.rs"]
mod lending;
mod limits;
mod message;
mod record;
mod refused;
mod right;
mod rules;
mod starts;
#[allow(dead_code)]
#[path = "../stream_calls/states.rs"]
mod states;
mod taking;
mod tally;
mod typed;
#[allow(dead_code)]
#[path = "../streams/walk.rs"]
mod walk;
mod words;

use classes::CLASSES;
use common::{number_or, say, seed};
use floors::all_floors_hold;
use history::History;
use record::Record;
use second::random::Random;
use tally::Tally;

/// The histories of a gate's run, and the turns in which they are made. A turn has some of every class.
const HISTORIES: usize = 100_000;
const TURNS: usize = 100;

#[test]
fn histories_do_what_the_second_programs_do() {
    let (turns, seed) = (turns(), seed());
    let histories = HISTORIES / TURNS * turns;
    say(&format!(
        "histories, KVISTMAUR_SEED={seed} KVISTMAUR_HISTORIES={histories}"
    ));

    let mut tally = Tally::default();
    let mut seeds = Random::new(seed);
    let mut made = [0; CLASSES.len()];
    let mut number = 0;
    for turn in 1..=turns {
        for (row, made) in CLASSES.iter().zip(&mut made) {
            for _ in 0..row.histories / TURNS {
                number += 1;
                let record = Record::new(seed, number, row.name);
                let random = Random::new(seeds.number());
                let mut history = History::new(record, random, &mut tally);
                *made += usize::from((row.run)(&mut history));
            }
        }
        if turn % TURNS == 0 && turn < turns {
            say(&format!("{number} histories agree"));
        }
    }

    for (row, made) in CLASSES.iter().zip(made) {
        println!("{made} histories: {}", row.name);
        let set_out = row.histories / TURNS * turns;
        assert_eq!(made, set_out, "so many were set out: {}", row.name);
    }
    assert_eq!(made.iter().sum::<usize>(), histories);
    all_floors_hold(&tally, turns);
    let calls = tally.calls;
    say(&format!(
        "{histories} histories of {calls} calls agree, all classes"
    ));
}

/// How many turns make as many histories as `KVISTMAUR_HISTORIES` asks for, and a gate's run at least.
fn turns() -> usize {
    let asked = number_or("KVISTMAUR_HISTORIES", HISTORIES);
    asked.max(HISTORIES).div_ceil(HISTORIES / TURNS)
}
