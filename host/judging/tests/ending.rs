//! How the program and the command end: with the end's line behind every report, and never with it when they were broken off.

use judging::classes::many;
use judging::end::{ends_whole, Whole};
use judging::layout::file_of;
use judging::lines::Lines;
use judging::program::{run_on, Task, Tried};
use judging::session::{Session, SIGNALS};
use second::cipher::SETS;
use second::judge::judge_all;
use second::record::Form::One;
use std::io::{pipe, Read, Write};
use std::os::fd::OwnedFd;
use std::os::unix::net::UnixStream;
use std::os::unix::process::ExitStatusExt;
use std::process::Stdio;
use std::thread::{sleep, spawn};
use std::time::Duration;

const EQUAL: &str = "record=1\nverdict=equal\nfield=none\n";

/// Long enough for the program to come to its next read or write.
const PAUSE: Duration = Duration::from_millis(60);

/// A time for which no read or write of a test waits; where one is set, a stop breaks them off.
const NEVER: Option<Duration> = Some(Duration::from_secs(600));

/// Gives one right record.
fn record() -> Vec<u8> {
    Lines::right(One, &SETS[0], 9, 20).bytes()
}

/// Says that on one pipe for both streams the place of an unread record and the end's line come behind every report.
#[test]
fn the_line_comes_last() {
    let mut ran = 0;
    for tried in Tried::BOTH {
        for (name, records) in [
            ("none", Vec::new()),
            ("one", record()),
            ("many", many(300)),
            ("unread", [many(20), b"set=5\n".to_vec()].concat()),
            ("cut", record()[..100].to_vec()),
        ] {
            let (mut reader, writer) = pipe().expect("a pipe");
            let both = writer.try_clone().expect("a second end");
            let all = spawn(move || {
                let mut bytes = Vec::new();
                reader.read_to_end(&mut bytes).map(|_| bytes)
            });
            let input = file_of(&format!("last-{name}"), &records);
            let output = run_on(tried.start(), input, writer, both).expect("it ends");
            let found = all.join().expect("it ends").expect("it can be read");
            let whole = Whole::on(&records);
            let wanted = [whole.report, whole.words.into_bytes()].concat();
            assert_eq!(
                String::from_utf8_lossy(&found),
                String::from_utf8_lossy(&wanted)
            );
            assert_eq!(output.status.code(), Some(tried.status(whole.status)));
            ran += 1;
        }
    }
    assert_eq!(ran, 10);
}

/// Says that a program which a signal ends has not come to its end.
#[test]
fn a_program_ended_in_the_middle() {
    let mut ran = 0;
    for tried in Tried::BOTH {
        for signal in SIGNALS {
            let mut session = Session::start(tried);
            session.feed(&record());
            session.feed(&record()[..50]);
            assert_eq!(session.printed(EQUAL.len()), EQUAL);
            assert_eq!(session.ended_by(signal), EQUAL);
            ran += 1;
        }
    }
    assert_eq!(ran, 6);
}

/// Says that a signal to the command itself ends it at once, by that signal, with no end's line.
#[test]
fn a_command_ended_in_the_middle() {
    let mut ran = 0;
    for (name, number) in [("TERM", 15), ("KILL", 9)] {
        let mut session = Session::start(Tried::Command);
        session.feed(&record());
        assert_eq!(session.printed(EQUAL.len()), EQUAL);
        session.signal(name);
        let (status, printed, said) = session.end();
        assert_eq!(
            (status.signal(), &printed[..], &said[..]),
            (Some(number), EQUAL, "")
        );
        ran += 1;
    }
    assert_eq!(ran, 2);
}

/// Says that reads which stops break off are tried again: no byte is lost, and none is taken for the last.
#[test]
fn stopped_while_it_reads() {
    for tried in Tried::BOTH {
        let (mut ours, theirs) = UnixStream::pair().expect("a pair of sockets");
        theirs.set_read_timeout(NEVER).expect("it can be set");
        let mut session =
            Session::start_on(tried, Task::Judge, OwnedFd::from(theirs), Stdio::piped());
        let bytes = record().repeat(3);
        let (first, others) = bytes.split_at(record().len());
        ours.write_all(first).expect("the socket has room");
        assert_eq!(session.printed(EQUAL.len()), EQUAL);
        for part in others.chunks(others.len() / 4) {
            ours.write_all(part).expect("the socket has room");
            sleep(PAUSE);
            session.signal_program("STOP");
            session.signal_program("CONT");
        }
        let wanted = String::from_utf8(judge_all(&bytes)).expect("plain text");
        assert_eq!(session.printed(wanted.len()), wanted);
        drop(ours);
        let (status, printed, said) = session.end();
        ends_whole(tried, Task::Judge, status, &said, &bytes);
        assert_eq!(printed, wanted);
    }
}

/// Says that writes which stops break off are tried again, and that a reader who takes a few bytes at a time gets all.
#[test]
fn stopped_while_it_writes() {
    let records = many(1_000);
    let wanted = judge_all(&records);
    for tried in Tried::BOTH {
        let (mut ours, theirs) = UnixStream::pair().expect("a pair of sockets");
        theirs.set_write_timeout(NEVER).expect("it can be set");
        let input = file_of("stopped-while-it-writes", &records);
        let session = Session::start_on(tried, Task::Judge, input, OwnedFd::from(theirs));
        let mut found: Vec<u8> = Vec::new();
        let mut room = [0; 7];
        while let Ok(count @ 1..) = ours.read(&mut room) {
            found.extend(&room[..count]);
            if [1_400, 7_000, 14_000].contains(&found.len()) {
                sleep(PAUSE);
                session.signal_program("STOP");
                session.signal_program("CONT");
            }
        }
        assert!(found == wanted, "{tried:?}");
        let (status, _, said) = session.end();
        ends_whole(tried, Task::Judge, status, &said, &records);
    }
}
