//! The same calls by two programs, timed in turn.

use std::hint::black_box;
use std::time::Instant;

const REPETITIONS: usize = 25;

/// What both programs left, and the nanoseconds that a call took each of them.
pub struct Raced<T> {
    pub left: T,
    pub model: f64,
    pub plain: f64,
}

/// Prints the nanoseconds that a call takes by the model and by the plain program, and gives them with what both left.
///
/// A repetition is `calls` calls in a row, and the best one counts. Before each the place is cleared, outside the time.
pub fn race<T: Clone + PartialEq>(
    what: &str,
    calls: usize,
    cleared: &T,
    model: impl Fn(&mut T),
    plain: impl Fn(&mut T),
) -> Raced<T> {
    let (mut by_model, mut by_plain) = (cleared.clone(), cleared.clone());
    let (mut model_best, mut plain_best) = (f64::MAX, f64::MAX);
    for _ in 0..REPETITIONS {
        by_model.clone_from(cleared);
        model_best = model_best.min(nanoseconds(calls, &mut by_model, &model));
        by_plain.clone_from(cleared);
        plain_best = plain_best.min(nanoseconds(calls, &mut by_plain, &plain));
        assert!(by_model == by_plain, "{what}: the two programs differ");
    }
    let ratio = model_best / plain_best;
    println!("{what}: model {model_best:.1} ns, plain {plain_best:.1} ns, ratio {ratio:.2}");
    Raced {
        left: by_model,
        model: model_best,
        plain: plain_best,
    }
}

/// The nanoseconds that a call takes, over many calls in a row at one place.
fn nanoseconds<T>(calls: usize, place: &mut T, call: impl Fn(&mut T)) -> f64 {
    let start = Instant::now();
    for _ in 0..calls {
        call(black_box(place));
    }
    start.elapsed().as_nanos() as f64 / calls as f64
}
