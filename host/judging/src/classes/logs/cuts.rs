//! Logs that end too early.

use crate::input::Input;
use crate::log::{ad, finish, many, start, startable, text, LINES};
use second::random::Random;
use second::replay::right_log;

/// Gives the log cut behind so many bytes, and told what its last line is cut at; every line that is whole is right.
fn cut(log: &[u8], length: usize) -> Input {
    let bytes = &log[..length];
    let parts: Vec<&[u8]> = bytes.split(|byte| *byte == b'\n').collect();
    let (whole, rest) = (parts.len() - 1, parts[parts.len() - 1]);
    let (entries, lines) = (whole / LINES.len(), whole % LINES.len());
    let what = format!("the first {length} bytes");
    match (lines, rest.len()) {
        (0, 0) => Input::agrees(what, bytes, entries),
        _ => Input::first_breaks_at(what, bytes, [entries + 1, lines + 1, rest.len() + 1]),
    }
}

/// Gives a log of both sets cut at each of its bytes, from none of them to all.
pub fn every() -> Vec<Input> {
    let [one, two] = startable();
    let log = right_log(&[
        start(one),
        ad(1),
        ad(0),
        text(2),
        finish(),
        start(two),
        text(1),
        ad(1),
        finish(),
    ]);
    (0..=log.len()).map(|length| cut(&log, length)).collect()
}

/// Gives a long log cut at some of its bytes.
pub fn by_chance() -> Vec<Input> {
    let log = many(2_000);
    let mut random = Random::new(12);
    let mut places: Vec<usize> = (0..40).map(|_| random.below(log.len())).collect();
    places.sort_unstable();
    places.into_iter().map(|length| cut(&log, length)).collect()
}
