//! Histories in which somebody else writes to the area between two calls.

use crate::any::{any_call, any_reading_call, open_stream};
use crate::damage;
use crate::history::{expect, History};
use kvistmaur::boundary;
use second::area::LENGTH;
use second::random::Random;

/// What somebody else does to an area.
type Damage = fn(&mut Random, &mut [u8]);

/// A stream with a bit of its state turned.
pub fn bit(history: &mut History) -> bool {
    damaged(history, "a bit", damage::bit)
}

/// A stream with another byte in its state.
pub fn byte(history: &mut History) -> bool {
    damaged(history, "a byte", damage::byte)
}

/// A stream with another number in its state.
pub fn number(history: &mut History) -> bool {
    damaged(history, "a number", damage::number)
}

/// A stream with two parts of its state in each other's place, or with one part the wrong way around.
pub fn moved(history: &mut History) -> bool {
    match history.random.below(4) {
        0 => damaged(history, "turned around", damage::turned_around),
        _ => damaged(history, "swapped", damage::swap),
    }
}

/// A stream whose area gets another length: all calls are refused until it has its own again.
pub fn length(history: &mut History) -> bool {
    open_stream(history);
    let kept = history.area.clone();
    history.damage("another length", |random, area| {
        area.resize(damage::another_length(random), 0);
    });
    for _ in 0..2 + history.random.below(3) {
        let number = any_call(history);
        expect(number, 8);
    }
    history.area.resize(LENGTH, 0);
    any_reading_call(history);
    history.area = kept;
    some_calls(history);
    history.record.answered(8)
}

/// An area of noise.
pub fn noise(history: &mut History) -> bool {
    history.damage("noise", |random, area| damage::noise(random, area));
    some_calls(history);
    history.record.damaged()
}

/// A made-up state that breaks no rule, so that no call says that it does.
pub fn made_up(history: &mut History) -> bool {
    history.damage("made up", |random, area| damage::sound(random, area));
    let number = some_calls(history);
    assert_ne!(boundary::answer(number), 8, "no rule is broken");
    history.record.damaged()
}

/// A stream that is damaged once or twice.
fn damaged(history: &mut History, name: &'static str, damage: Damage) -> bool {
    open_stream(history);
    for _ in 0..1 + history.random.below(2) {
        history.damage(name, |random, area| damage(random, area));
        some_calls(history);
    }
    history.record.damaged()
}

/// Makes a call that looks at the state, whose number it gives, and up to three calls of any kind.
fn some_calls(history: &mut History) -> u64 {
    let number = any_reading_call(history);
    for _ in 0..history.random.below(4) {
        any_call(history);
    }
    number
}
