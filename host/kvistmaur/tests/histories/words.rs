//! Numbers and places as a failure tells them.

use crate::lending::Memory;
use kvistmaur::boundary;
use second::area::LENGTH;

/// The numbers of a state, in their order; the first begins at byte 56.
const NUMBERS: [&str; 7] = [
    "set",
    "direction",
    "phase",
    "count of data",
    "count of text",
    "place",
    "limit",
];

/// A returned number: its answer and its rounds.
pub fn number_in_words(number: u64) -> String {
    let (answer, rounds) = (boundary::answer(number), boundary::rounds(number));
    format!("answer {answer} with {rounds} rounds")
}

/// The place at which two memories differ, counted from the slice's start, and the byte that each has there.
pub fn difference_in_words(one: (&str, &Memory), two: (&str, &Memory)) -> Option<String> {
    let (slice, place) = one.1.difference(two.1)?;
    let [left, right] = [one.1, two.1].map(|memory| slice_of(memory, slice));
    let words = match usize::try_from(place) {
        Err(_) => format!("the guard before the {slice}, at byte {place} from its start"),
        Ok(place) if place >= left.len() => {
            format!("the guard behind the {slice}, at byte {place} from its start")
        }
        Ok(place) => {
            let part = match left.len() {
                LENGTH if slice == "state" => format!(", which is {}", part_of_state(place)),
                _ => String::new(),
            };
            format!(
                "byte {place} of the {slice}{part}: {} {:#04x}, {} {:#04x}",
                one.0, left[place], two.0, right[place]
            )
        }
    };
    Some(words)
}

/// The lent bytes of the slice that has this name in `Memory::difference`.
fn slice_of<'a>(memory: &'a Memory, slice: &str) -> &'a [u8] {
    match slice {
        "key" => memory.key.get(),
        "nonce" => memory.nonce.get(),
        "state" => memory.state.get(),
        "piece" => memory.piece.get(),
        "tag" => memory.tag.get(),
        _ => memory.out.get(),
    }
}

/// The part of a state in which a byte lies.
fn part_of_state(byte: usize) -> String {
    match byte {
        0..40 => format!("byte {} of word x{}", byte % 8, byte / 8),
        40..56 => format!("byte {} of the key", byte - 40),
        _ => format!("byte {} of the {}", byte % 8, NUMBERS[byte / 8 - 7]),
    }
}
