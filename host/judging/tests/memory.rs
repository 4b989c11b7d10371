//! The program's memory: it doesn't grow with the input.

use judging::classes::many;
use judging::end::Whole;
use judging::log::{message, startable};
use judging::program::{Task, Tried};
use judging::session::Session;
use second::judge::judge_all;
use second::replay::right_log;

const RECORDS: usize = 10_000;

/// How many records are sent at a time; so many always fit into a pipe.
const AT_A_TIME: usize = 25;

/// The records after which the memory is first looked at.
const FIRST: usize = 100;

/// By how many KiB the memory may have grown at the end.
const GROWTH: u64 = 1_024;

/// Says that the program has as much memory after 10,000 records as after 100, and right reports on all.
#[test]
fn it_does_not_grow() {
    let records = many(RECORDS as u64);
    let wanted = judge_all(&records);
    let input = parts(&records, 8 * AT_A_TIME);
    let output = parts(&wanted, 3 * AT_A_TIME);
    assert_eq!(
        (input.len(), output.len()),
        (RECORDS / AT_A_TIME, RECORDS / AT_A_TIME)
    );

    let mut session = Session::start(Tried::Program);
    let (mut length, mut early) = (0, 0);
    for (number, (records, reports)) in (1..).zip(input.iter().zip(&output)) {
        session.feed(records);
        length += reports.len();
        assert_eq!(session.wait_for(length), length, "part {number}");
        if number * AT_A_TIME == FIRST {
            early = session.peak();
        }
    }
    let late = session.peak();
    println!("{early} KiB after {FIRST} records, {late} KiB after {RECORDS}");
    assert!(
        early > 0 && late - early < GROWTH,
        "from {early} KiB to {late} KiB"
    );
    assert!(session.close().as_bytes() == wanted, "the reports differ");
}

/// How many messages of each set that a log can start it has, and after how many the memory is first looked at; a pipe holds little more than one of each.
const MESSAGES: usize = 150;
const FIRST_MESSAGES: usize = 5;

/// Says that the program has as much memory after a log of more than 8,000,000 bytes as after the first of them, and tells that it agrees.
#[test]
fn a_replay_does_not_grow() {
    let calls = startable()
        .each_ref()
        .map(|set| message(set, &[256; 10], &[256; 20]));
    let part = right_log(&calls.concat());
    let log = part.repeat(MESSAGES);
    assert!(log.len() > 8_000_000, "{} bytes", log.len());

    let mut session = Session::start_to(Tried::Program, Task::Replay);
    let mut early = 0;
    for number in 1..=MESSAGES {
        session.feed(&part);
        if number == FIRST_MESSAGES {
            early = session.peak();
        }
    }
    let late = session.peak();
    println!(
        "{early} KiB after {FIRST_MESSAGES} messages of each set, {late} KiB after {MESSAGES}"
    );
    assert!(
        early > 0 && late - early < GROWTH,
        "from {early} KiB to {late} KiB"
    );
    let wanted = Whole::of(Task::Replay, &log).report;
    assert_eq!(session.close().as_bytes(), wanted);
    assert_eq!(wanted, b"entry=9600\nverdict=agrees\nfield=none\n");
}

/// Gives the bytes in parts of so many lines.
fn parts(bytes: &[u8], lines: usize) -> Vec<Vec<u8>> {
    let all: Vec<&[u8]> = bytes.split_inclusive(|byte| *byte == b'\n').collect();
    all.chunks(lines).map(|part| part.concat()).collect()
}
