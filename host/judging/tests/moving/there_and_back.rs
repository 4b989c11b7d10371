//! What is moved there and back by the program is the same bytes.

use super::left;
use judging::entry::Entry;
use judging::lines::Lines;
use judging::program::{Task, Tried};
use second::cipher::{Set, SETS};
use second::moving::Direction::{Back, Forward};
use second::record::Form::{One, Two};
use second::record::Line;

/// The lengths of data, one for each text, and those of text, one for each record or entry of it.
const AD: [usize; 6] = [0, 1, 8, 17, 255, 256];
const TEXT: [usize; 5] = [0, 1, 7, 16, 256];

/// Panics unless a text of five is moved to another, and comes back.
fn comes_back(name: &str, there: Task, back: Task, text: &[u8]) {
    let moved = left(Tried::Program, there, &format!("{name}-there"), text);
    let name = format!("{name}-back");
    let returned = left(Tried::Program, back, &name, &moved.stdout);
    assert!(moved.stdout != text, "it was moved");
    assert!(returned.stdout == text, "it came back");
    for output in [moved, returned] {
        assert_eq!(output.stderr, b"bench: done: records=5\n");
    }
}

/// Gives entries of the set with data of this length, and where it is said with ciphers of other lengths than their texts.
fn entries(set: &Set, ad: usize, other: bool) -> Vec<u8> {
    let entry = |(count, text)| {
        let right = Entry::right(set, count, ad, text);
        match other {
            true => right.with_cipher(set, 256 - text).bytes(),
            false => right.bytes(),
        }
    };
    (1..).zip(TEXT).flat_map(entry).collect()
}

/// Gives records of the set with data of this length, and where it is said with ciphers of other lengths than their texts.
fn records(set: &Set, ad: usize, other: bool) -> Vec<u8> {
    let record = |text: usize| {
        let right = Lines::right(One, set, ad, text);
        match other {
            true => right
                .with_value(Line::Cipher, "5a".repeat(256 - text))
                .bytes(),
            false => right.bytes(),
        }
    };
    TEXT.into_iter().flat_map(record).collect()
}

/// Says that records moved there and back are the same bytes, in both directions, for data and text of many lengths in each set.
#[test]
fn forms() {
    let mut ran = 0;
    for (there, back, form) in [(Forward, Back, One), (Back, Forward, Two)] {
        for set in &SETS {
            for ad in AD {
                let right = |text| Lines::right(form, set, ad, text).with_chip(0).bytes();
                let records = TEXT.map(right).concat();
                comes_back("forms", Task::Move(there), Task::Move(back), &records);
                ran += 1;
            }
        }
    }
    assert_eq!(ran, 48);
}

/// Says that the records of a test file become the same file again, and right records of a set, written as a file and read with the set, the same records.
#[test]
fn test_files() {
    let mut ran = 0;
    for set in &SETS {
        let import = Task::Import(set.number);
        for ad in AD {
            for other in [false, true] {
                comes_back("files", import, Task::Export, &entries(set, ad, other));
                comes_back("files", Task::Export, import, &records(set, ad, other));
                ran += 2;
            }
        }
    }
    assert_eq!(ran, 96);
}

/// Says that what comes back for wrong rounds is the right record.
#[test]
fn wrong_rounds() {
    let mut ran = 0;
    for set in &SETS {
        let right = records(set, 8, false);
        let wrong = String::from_utf8(right.clone()).expect("plain text");
        for rounds in ["0", "1", "25", "9999999"] {
            let wrong: Vec<String> = wrong.lines().map(|line| dropped(line, rounds)).collect();
            let file = left(
                Tried::Program,
                Task::Export,
                "rounds-there",
                wrong.concat().as_bytes(),
            );
            let import = Task::Import(set.number);
            let returned = left(Tried::Program, import, "rounds-back", &file.stdout);
            assert!(returned.stdout == right, "rounds {rounds}");
            ran += 1;
        }
    }
    assert_eq!(ran, 16);
}

/// Gives the line, or that of these rounds in place of another's.
fn dropped(line: &str, rounds: &str) -> String {
    match line.starts_with("rounds=") {
        true => format!("rounds={rounds}\n"),
        false => format!("{line}\n"),
    }
}
