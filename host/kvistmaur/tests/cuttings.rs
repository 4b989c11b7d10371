//! What the program `cuttings` is held to, computed again by the second program.

use second::stream::{finish_checking, finish_opening, open, start, Direction, LARGEST_LIMIT};
use second::{calls::seal, cases::named_cases, cipher::Set, cipher::SETS, hex::written};

/// What the gate compares the program's output with.
const EXPECTED: &str = include_str!("../../../crates/cuttings/stdout");

/// The cases that the program prints behind its messages, in its order.
const PRINTED: [&str; 9] = [
    "65537 bytes of data",
    "65536 bytes of data",
    "1048576 bytes of text",
    "1048577 bytes of text",
    "room one byte short",
    "finishing twice",
    "data after an empty text call",
    "key of 15 bytes",
    "key of 15 bytes, nonce of 15",
];

/// The points of the program's message: before each byte of its data and of its text, and behind the last.
const POINTS: usize = 37 + 53 + 1;

/// So many bytes counting up from one.
fn counting(from: u8, length: usize) -> Vec<u8> {
    (from..).take(length).collect()
}

/// Bytes as digits.
fn hex(bytes: &[u8]) -> String {
    String::from_utf8(written(bytes)).expect("digits")
}

/// The first bytes of the program's data and text, sealed by the second program in a set: ciphertext, tag and rounds.
fn sealed(set: &Set, data: usize, length: usize) -> (Vec<u8>, Vec<u8>, u64) {
    let (key, nonce) = (counting(0, set.key), counting(16, set.key));
    let ad: Vec<u8> = (0..data).map(|i| (1 + 7 * i) as u8).collect();
    let text: Vec<u8> = (0..length).map(|i| (3 + 11 * i) as u8).collect();
    let (mut out, mut tag) = (vec![0; length], vec![0; set.key]);
    let answer = seal(set.number, &key, &nonce, &ad, &text, &mut out, &mut tag);
    assert_eq!(answer.number, 0);
    (out, tag, answer.rounds)
}

/// What the program has to print of its message in a set: it counts 216 cuttings, and those of a message that was tampered with in both directions that are given one.
fn message(set: &Set) -> String {
    let (cipher, tag, rounds) = sealed(set, 37, 53);
    let whole = format!(
        "cipher={}\ntag={}\nrounds={rounds}\n",
        hex(&cipher),
        hex(&tag)
    );
    let right = ["sealed alike", "checked right", "opened right"].map(|what| (what, 216));
    let wrong = ["another tag", "another ciphertext", "other data"].map(|what| (what, 2 * 216));
    let right: String = right.map(|(what, n)| format!("{what}={n}\n")).concat();
    let wrong: String = wrong
        .map(|(what, n)| format!("{what} refused={n}\n"))
        .concat();
    format!("set={}\n{whole}{right}{wrong}", set.number)
}

/// What it has to print of a point.
fn point(set: &Set, point: usize) -> String {
    let data = point.min(37);
    let (_, tag, rounds) = sealed(set, data, point - data);
    format!("point={point} rounds={rounds} tag={}\n", hex(&tag))
}

/// The cases of an opening stream, which is at its start.
fn openings() -> String {
    let begun = start(
        Direction::Opening,
        1,
        LARGEST_LIMIT,
        &counting(0, 16),
        &counting(16, 16),
    )
    .2;
    let (cipher, tag) = ([0; 53], [0; 16]);
    let ended = finish_opening(begun, &tag);
    let cases = [
        ("room one byte short", open(begun, &cipher, &mut [0; 52])),
        ("room enough", open(begun, &cipher, &mut [0; 53])),
        ("finished as a checking", finish_checking(begun, &tag)),
        ("another tag", ended),
        ("finishing twice", finish_opening(ended.2, &tag)),
    ];
    let said = cases.map(|(name, given)| format!("opening, {name}={}\n", given.0));
    said.concat()
}

/// A case by the second program's streams, as the program has to print it.
fn case(name: &str, cases: &[(String, u64)]) -> String {
    let found: Vec<_> = cases.iter().filter(|case| case.0 == name).collect();
    assert_eq!(found.len(), 1, "{name}");
    format!("{name}={}\n", found[0].1)
}

#[test]
fn messages_and_cases_are_the_second_programs() {
    let cases = named_cases();
    let printed: String = PRINTED.iter().map(|name| case(name, &cases)).collect();
    let mut messages = String::new();
    let mut points = 0;
    for set in &SETS {
        messages += &message(set);
        for each in 0..POINTS {
            messages += &point(set, each);
            points += 1;
        }
    }
    assert_eq!((SETS.len(), points), (4, 364));
    assert_eq!(EXPECTED, messages + &printed + &openings());
}
