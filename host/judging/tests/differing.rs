//! What the program `differing` is held to, computed again by the second program.

use second::judge::{first_difference, Difference};

/// What the gate compares the program's output with.
const EXPECTED: &str = include_str!("../../../crates/differing/stdout");

/// Gives what the second program tells of two texts, as the program has to print it.
fn told(wanted: &str, found: &str) -> String {
    let (place, part) = match first_difference(wanted.as_bytes(), found.as_bytes()) {
        Difference::Same { part } => ("same".to_string(), part),
        Difference::At { place, part } => (format!("at={place}"), part),
    };
    let part = std::str::from_utf8(part).expect("letters");
    format!("wanted={wanted} found={found} {place} part={part}\n")
}

/// Gives the texts of `a` and `b` with at most three letters: the binary digits below the highest, the lowest first.
fn short_texts() -> Vec<String> {
    let letters = |number: u32| {
        (0..number.ilog2()).map(move |place| if number >> place & 1 == 0 { 'a' } else { 'b' })
    };
    (1..16).map(|number| letters(number).collect()).collect()
}

/// Says that the program's 286 pairs have the places and parts that the second program tells.
#[test]
fn the_pairs_are_the_second_programs() {
    let mut pairs = Vec::new();
    for wanted in short_texts() {
        pairs.extend(
            short_texts()
                .into_iter()
                .map(|found| (wanted.clone(), found)),
        );
    }
    let text = "abcdefghijklmnopqrst";
    for end in 0..text.len() {
        pairs.push((text.to_string(), text[..end].to_string()));
        pairs.push((text[..end].to_string(), text.to_string()));
    }
    pairs.push((text.to_string(), text.to_string()));
    for place in 0..20 {
        let changed = ["a".repeat(place), "b".to_string(), "a".repeat(19 - place)].concat();
        pairs.push(("a".repeat(20), changed));
    }
    assert_eq!(pairs.len(), 286);
    let lines: String = pairs
        .iter()
        .map(|(wanted, found)| told(wanted, found))
        .collect();
    assert_eq!(EXPECTED, lines);
}
