//! Records moved to form 2 and back, test files read into records and written from them, by the program and the command: what they print and say,
//! beside the second program.

mod by_hand;
mod streams;
mod there_and_back;
mod words;

use judging::classes::{classes_of, many, HELD};
use judging::comparing::all_agree;
use judging::end::{Whole, NOT_MOVED};
use judging::entry::Entry;
use judging::layout::file_of;
use judging::program::{run, Task, Tried};
use judging::right_texts::right_text_of_length;
use second::cipher::{set_numbers, SETS};
use second::moving::Direction::{Back, Forward};
use second::random::Random;
use second::vectors::short_record;
use std::io::{self, Write};
use std::path::Path;
use std::process::{Output, Stdio};

/// What is said where there is no such set.
const UNKNOWN_SET: &str = "bench: refused: answer=1\n";

/// What is said of an input that is longer than what can be held.
const TOO_LONG: &str = "bench: the input has more than 1048576 bytes\n";

/// Runs what is tried with this task on these bytes, kept in a file of this name.
fn left(tried: Tried, task: Task, name: &str, bytes: &[u8]) -> Output {
    let input = file_of(name, bytes);
    run(tried.start_to(task), input, Stdio::piped()).expect("it ends")
}

/// Panics unless for each input of each class for the task all that is printed and said is what the second program says.
fn all_agree_in(task: Task) {
    let name = task.words().join("-");
    let folder = Path::new(env!("CARGO_TARGET_TMPDIR")).join(format!("moved-{name}"));
    let said = all_agree(task, &classes_of(task), &folder);
    // Past the test runner, which would keep it back.
    writeln!(io::stderr(), "{name}: {said}").expect("it can be said");
}

/// Says that the program moves records forward and back as the second program does.
#[test]
fn the_program_moves_as_the_second_program_moves() {
    for direction in [Forward, Back] {
        all_agree_in(Task::Move(direction));
    }
}

/// Says that the program makes records of test files of each set as the second program does.
#[test]
fn the_program_imports_as_the_second_program_imports() {
    let mut ran = 0;
    for set in set_numbers() {
        all_agree_in(Task::Import(set));
        ran += 1;
    }
    assert_eq!(ran, 4);
}

/// Says that the program makes test files of records as the second program does.
#[test]
fn the_program_exports_as_the_second_program_exports() {
    all_agree_in(Task::Export);
}

/// Says that a set which there is not is answered alike whatever the file is, be its last byte or its last four bytes those of a set.
#[test]
fn no_such_set() {
    let mut ran = 0;
    for set in [
        0,
        5,
        10,
        11,
        12,
        255,
        256,
        257,
        258,
        259,
        260,
        65_537,
        4_294_967_297,
        4_294_967_298,
        4_294_967_299,
        4_294_967_300,
        9_223_372_036_854_775_809,
        18_446_744_073_709_551_615,
    ] {
        let task = Task::Import(set);
        for input in classes_of(task).iter().flat_map(|class| (class.make)()) {
            assert_eq!(Whole::of(task, &input.bytes).words, UNKNOWN_SET);
        }
        all_agree_in(task);
        ran += 1;
    }
    assert_eq!(ran, 18);
}

/// Says that an input of a byte more than can be held, or of far more, is an error and no cut: nothing is printed, whatever stands in it.
#[test]
fn an_input_that_is_too_long() {
    let mut ran = 0;
    for task in Task::MOVES {
        let row = |length| right_text_of_length(task, length);
        let mut broken = row(HELD + 1);
        broken[0] = b'x';
        for (tried, bytes) in [
            (Tried::Program, row(HELD + 1)),
            (Tried::Command, row(HELD + 1)),
            (Tried::Program, row(3_000_000)),
            (Tried::Command, row(3_000_000)),
            (Tried::Program, broken),
            (Tried::Program, b"\n".repeat(2 * HELD)),
            // The first bytes would be records, and the end a broken one.
            (Tried::Program, [row(HELD), b"x".to_vec()].concat()),
        ] {
            let output = left(tried, task, "moving-too-long", &bytes);
            let rest = match tried {
                Tried::Program => String::new(),
                Tried::Command => format!("{NOT_MOVED}\n"),
            };
            let said = String::from_utf8_lossy(&output.stderr);
            assert_eq!(said, format!("{TOO_LONG}{rest}"), "{} bytes", bytes.len());
            assert_eq!(output.status.code(), Some(tried.status(2)));
            assert!(output.stdout.is_empty(), "nothing is printed");
            ran += 1;
        }
    }
    assert_eq!(ran, 28);
}

/// Says that the longest input is moved by the command, too, to all of the records that the second program gives.
#[test]
fn an_input_as_long_as_it_may_be() {
    for task in Task::MOVES {
        let records = right_text_of_length(task, HELD);
        let output = left(Tried::Command, task, "moving-longest", &records);
        let wanted = Whole::of(task, &records);
        assert_eq!((wanted.status, output.status.code()), (0, Some(0)));
        assert!(output.stdout == wanted.report);
        assert_eq!(output.stderr, wanted.words.as_bytes());
    }
}

/// Says that moved records are judged as they were before, by the program.
#[test]
fn moved_records_are_judged_alike() {
    let records = many(100);
    let forward = left(Tried::Program, Task::MOVES[0], "moving-judged", &records);
    let judged = left(Tried::Program, Task::Judge, "moved-judged", &forward.stdout);
    let wanted = Whole::on(&records);
    assert!(judged.stdout == wanted.report);
    assert_eq!(judged.stderr, wanted.words.as_bytes());
}

/// Says that each record which a right entry becomes, of each set, is judged equal: its rounds are those of the message.
#[test]
fn records_of_right_entries_are_judged_equal() {
    let mut ran = 0;
    for set in &SETS {
        let mut random = Random::new(set.number);
        let entry = |count| Entry::of(count, &short_record(&mut random, set)).bytes();
        let file: Vec<u8> = (1..=100).flat_map(entry).collect();
        let task = Task::Import(set.number);
        let records = left(Tried::Program, task, "moving-right", &file);
        let name = "moved-right";
        let judged = left(Tried::Program, Task::Judge, name, &records.stdout);
        let said = String::from_utf8_lossy(&judged.stderr);
        let wanted = "bench: 100 records: 100 equal, 0 differ, 0 unread\n";
        assert_eq!(said, wanted, "set {}", set.number);
        ran += 1;
    }
    assert_eq!(ran, 4);
}
