//! Words that ask the program for nothing that it does, and those that name a set in another way.

use judging::classes::many;
use judging::end::Whole;
use judging::layout::file_of;
use judging::program::{run, Task, Tried};
use judging::right_texts::right_text;
use std::process::Stdio;

/// Words that are no decimal of up to 2^64 - 1.
const NO_NUMBERS: [&str; 30] = [
    "",
    " ",
    "x",
    "one",
    "-",
    "-1",
    "-0",
    "+1",
    " 1",
    "1 ",
    "1\n",
    "\t1",
    "1 1",
    "1.",
    "1.0",
    "1,",
    "1e0",
    "0x1",
    "1x",
    "x1",
    "a",
    "A",
    "1/",
    "1:",
    "\u{661}",
    "18446744073709551616",
    "18446744073709551617",
    "18446744073709551626",
    "28446744073709551616",
    "100000000000000000000000000000000000000001",
];

/// Says that any other words, and more of them, are no task of the program: it prints nothing and says neither that it is done nor that anything was refused.
#[test]
fn other_words() {
    let mut ran = 0;
    for words in [
        &["Forward"] as &[&str],
        &["forwards"],
        &["backward"],
        &["bac"],
        &["judge"],
        &["-"],
        &["forward back"],
        &["back\n"],
        &[""],
        &["forwardforwardforward"],
        &["forward", "back"],
        &["forward", "1"],
        &["", ""],
        &["", "1"],
        &["1"],
        &["1", "import"],
        &["import"],
        &["Import", "1"],
        &["imports", "1"],
        &["impor", "1"],
        &["import1"],
        &["import 1"],
        &["import", "1", "1"],
        &["import", "1", ""],
        &["import", "1", "export"],
        &["export", "1"],
        &["export", ""],
        &["export", "export"],
        &["Export"],
        &["exports"],
        &["expor"],
        &["export\n"],
        &["Replay"],
        &["replays"],
        &["repla"],
        &["replay\n"],
        &["replay 1"],
        &["replay", "1"],
        &["replay", ""],
        &["replay", "replay"],
        &["import", "replay"],
        &["replayreplayreplay"],
    ] {
        is_no_task("words", words);
        ran += 1;
    }
    assert_eq!(ran, 42);
}

/// Says that a word which is no decimal of up to 2^64 - 1 is no set's number: the program has no such task.
#[test]
fn words_that_are_no_number() {
    let mut ran = 0;
    for word in NO_NUMBERS {
        is_no_task("numbers", &["import", word]);
        ran += 1;
    }
    assert_eq!(ran, 30);
}

/// Panics unless the program says that these words are no task.
fn is_no_task(kind: &str, words: &[&str]) {
    let mut command = Tried::Program.start();
    command.args(words);
    let input = file_of(&format!("moving-{kind}"), &many(3));
    let output = run(command, input, Stdio::piped()).expect("it ends");
    assert!(output.stdout.is_empty(), "{words:?}");
    assert_eq!(output.stderr, b"bench: unknown task\n", "{words:?}");
}

/// The most characters of a word that the program holds.
const HELD: usize = 32;

/// Says that zeros in front of a number change nothing, by the program where it holds the word, and by the command, however many they are.
#[test]
fn zeros_in_front_of_the_set() {
    let mut ran = 0;
    let file = right_text(Task::Import(1), 20);
    for (number, set) in [
        ("1", 1),
        ("2", 2),
        ("3", 3),
        ("4", 4),
        ("0", 0),
        ("18446744073709551615", u64::MAX),
    ] {
        let wanted = Whole::of(Task::Import(set), &file);
        for (tried, length) in [
            (Tried::Program, 20),
            (Tried::Program, 21),
            (Tried::Program, HELD),
            (Tried::Command, 20),
            (Tried::Command, 21),
            (Tried::Command, HELD + 1),
            (Tried::Command, 1_000),
        ] {
            let word = format!("{number:0>length$}");
            let mut command = tried.start();
            command.args(["import", &word]);
            let output = run(command, file_of("moving-zeros", &file), Stdio::piped());
            let output = output.expect("it ends");
            assert!(output.stdout == wanted.report, "{word}");
            assert_eq!(output.stderr, wanted.words.as_bytes(), "{word}");
            assert_eq!(output.status.code(), Some(tried.status(wanted.status)));
            ran += 1;
        }
    }
    assert_eq!(ran, 42);
}
