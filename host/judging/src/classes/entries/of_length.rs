//! Right files of exactly as many bytes as wanted.

use crate::entry::{Entry, Part};
use second::cipher::Set;

/// About how many bytes an entry of such a file has.
const ABOUT: usize = 300;

/// The most bytes that text, data and cipher hold together.
const MOST: usize = 3 * 256;

/// Gives entries in form with exactly as many bytes in all.
pub fn of_length(set: &Set, length: usize) -> Vec<u8> {
    let about = length / ABOUT;
    // Digits come in pairs, so not every number of entries can have as many bytes.
    let counts = (1..=about).rev().chain(about + 1..);
    let (count, spare) = counts
        .take(length)
        .find_map(|count| Some((count, spare(set, count, length)?)))
        .expect("some number of entries has as many bytes");
    let share = |place: usize| spare / count + usize::from(place <= spare % count);
    let entry = |place| with_bytes(set, place, share(place)).bytes();
    (1..=count).flat_map(entry).collect()
}

/// Gives how many bytes the fields of so many entries hold when they are as long in all, if they can be.
fn spare(set: &Set, count: usize, length: usize) -> Option<usize> {
    let shortest = with_bytes(set, 1, 0).bytes().len();
    let digits_more = (1..=count).map(|place| place.ilog10() as usize);
    let fixed = count * shortest + digits_more.sum::<usize>();
    let digits = length.checked_sub(fixed)?;
    let fits = digits.is_multiple_of(2) && digits / 2 <= MOST * count;
    fits.then_some(digits / 2)
}

/// Gives an entry in form whose text, data and cipher hold so many bytes together.
fn with_bytes(set: &Set, count: usize, bytes: usize) -> Entry {
    let text = bytes.min(256);
    let data = (bytes - text).min(256);
    Entry::short(set, count)
        .with_value(Part::Pt, "A5".repeat(text))
        .with_value(Part::Ad, "3C".repeat(data))
        .with_cipher(set, bytes - text - data)
}
