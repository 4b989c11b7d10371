//! Every task that gives a text for a text, on streams that fail, stall or trickle, and with signals in between: all is moved, or it is said that it was not.

use judging::end::{ends_whole, Whole};
use judging::failing::{broke_off, full, reset_after, undisturbed, UNDISTURBED};
use judging::layout::{file_of, place};
use judging::program::{run, run_on, Task, Tried};
use judging::right_texts::right_text;
use judging::session::{Session, SIGNALS};
use std::fs::{self, File};
use std::io::{pipe, Read, Write};
use std::os::fd::OwnedFd;
use std::os::unix::net::UnixStream;
use std::os::unix::process::ExitStatusExt;
use std::process::{Command, Stdio};
use std::thread::{sleep, spawn};
use std::time::Duration;

/// Long enough for the program to print whatever it would print.
const PAUSE: Duration = Duration::from_millis(60);

/// A time for which no read or write of a test waits; where one is set, a stop breaks them off.
const NEVER: Option<Duration> = Some(Duration::from_secs(600));

/// What is tried, with each task.
fn all() -> Vec<(Tried, Task)> {
    let both = |task| Tried::BOTH.map(|tried| (tried, task));
    Task::MOVES.into_iter().flat_map(both).collect()
}

/// Gives more records or entries than a pipe or a socket holds: when all of them but the last are handed over, the program is at its reads.
fn more_than_fit(task: Task) -> Vec<u8> {
    right_text(task, 3_000)
}

/// Panics unless nothing is printed, and it is said that reading failed.
fn fails_to_read(tried: Tried, task: Task, command: Command, input: impl Into<Stdio>) {
    let output = run(command, input, Stdio::piped()).expect("it ends");
    assert!(output.stdout.is_empty(), "nothing is printed");
    broke_off(tried, task, &output, "bench: reading failed");
}

/// Panics unless it is said that writing failed, and not that it is done.
fn fails_to_write(
    tried: Tried,
    task: Task,
    command: Command,
    input: File,
    output: impl Into<Stdio>,
) {
    let output = run(command, input, output).expect("it ends");
    broke_off(tried, task, &output, "bench: writing failed");
}

/// Says that a folder, a closed input, one that can only be written, and one that has nothing yet and doesn't wait, are no empty input and no end.
#[test]
fn an_input_that_cannot_be_read() {
    let mut ran = 0;
    for (tried, task) in all() {
        let folder = File::open(".").expect("the folder opens");
        fails_to_read(tried, task, tried.start_to(task), folder);
        let write_only = File::create(place("moving-write-only")).expect("a file for the test");
        fails_to_read(tried, task, tried.start_to(task), write_only);
        let (mut ours, theirs) = UnixStream::pair().expect("a pair of sockets");
        theirs.set_nonblocking(true).expect("it can be set");
        ours.write_all(&right_text(task, 2))
            .expect("the socket has room");
        fails_to_read(tried, task, tried.start_to(task), OwnedFd::from(theirs));
        ran += 3;
    }
    for task in Task::MOVES {
        let closed = Tried::Program.in_shell_to(task, r#"exec "$@" <&-"#);
        fails_to_read(Tried::Program, task, closed, Stdio::null());
        ran += 1;
    }
    assert_eq!(ran, 28);
}

/// Says that a read which fails after some bytes is no end of the input: nothing is moved, be it after whole records.
#[test]
fn an_input_that_fails_later() {
    let mut ran = 0;
    for (tried, task) in all() {
        let twice = right_text(task, 2);
        let one = right_text(task, 1).len();
        for length in [
            0,
            1,
            one / 2,
            one - 1,
            one,
            one + 1,
            twice.len() - 1,
            twice.len(),
        ] {
            let input = reset_after(&twice[..length]);
            fails_to_read(tried, task, tried.start_to(task), input);
            ran += 1;
        }
    }
    assert_eq!(ran, 64);
}

/// Says that records which can't be written, all of them or the last bytes, are never said to be moved.
#[test]
fn an_output_that_cannot_be_written() {
    let mut ran = 0;
    for (tried, task) in all() {
        let input = |count| file_of("moving-unwritten", &right_text(task, count));
        for count in [1, 30] {
            fails_to_write(tried, task, tried.start_to(task), input(count), full());
            ran += 1;
        }
        let read_only = File::open("Cargo.toml").expect("the file opens");
        fails_to_write(tried, task, tried.start_to(task), input(1), read_only);
        let (ours, theirs) = UnixStream::pair().expect("a pair of sockets");
        theirs.set_nonblocking(true).expect("it can be set");
        let theirs = OwnedFd::from(theirs);
        fails_to_write(tried, task, tried.start_to(task), input(4_000), theirs);
        drop(ours);
        ran += 2;
        if tried == Tried::Program {
            let closed = tried.in_shell_to(task, r#"exec "$@" >&-"#);
            fails_to_write(tried, task, closed, input(1), Stdio::null());
            ran += 1;
        }
    }
    assert_eq!(ran, 36);
}

/// Says that a reader who has gone, or goes in the middle, is a failed write, where the signal for it is ignored; the command does that.
#[test]
fn a_reader_who_goes() {
    let mut ran = 0;
    for task in Task::MOVES {
        for taken in [0, 1_000] {
            for (tried, command) in undisturbed(task) {
                let (mut reader, writer) = pipe().expect("a pipe");
                let reading = spawn(move || reader.read_exact(&mut vec![0; taken]));
                let input = file_of("moving-unread", &right_text(task, 4_000));
                fails_to_write(tried, task, command, input, writer);
                reading.join().expect("it ends").expect("so much is read");
                ran += 1;
            }
        }
    }
    assert_eq!(ran, 16);
}

/// Says that a file which may not grow any more gets a beginning of the records, and counts as not moved.
#[test]
fn a_file_that_may_not_grow() {
    let mut ran = 0;
    for (tried, task) in all() {
        let (path, input) = (place("moving-limited"), right_text(task, 30));
        let output = File::create(&path).expect("a file for the test");
        let limited = tried.in_shell_to(task, &format!("ulimit -f 1; {UNDISTURBED}"));
        fails_to_write(
            tried,
            task,
            limited,
            file_of("moving-grown", &input),
            output,
        );
        let left = fs::read(&path).expect("the file can be read");
        let wanted = Whole::of(task, &input).report;
        assert_eq!((left.len(), &left[..]), (512, &wanted[..512]));
        ran += 1;
    }
    assert_eq!(ran, 8);
}

/// Says that a refusal and an empty input need no room for records, and that what can't be said is status 2.
#[test]
fn full_disks() {
    let mut ran = 0;
    for (tried, task) in all() {
        for (input, output, errors, status) in [
            (b"x".to_vec(), Stdio::from(full()), Stdio::null(), 1),
            (Vec::new(), Stdio::from(full()), Stdio::null(), 0),
            (right_text(task, 3), Stdio::null(), Stdio::null(), 0),
            (right_text(task, 3), Stdio::null(), Stdio::from(full()), 2),
            (
                right_text(task, 3),
                Stdio::from(full()),
                Stdio::from(full()),
                2,
            ),
            (b"x".to_vec(), Stdio::null(), Stdio::from(full()), 2),
            (Vec::new(), Stdio::null(), Stdio::from(full()), 2),
        ] {
            let input = file_of("moving-full", &input);
            let output = run_on(tried.start_to(task), input, output, errors).expect("it ends");
            let status = Some(tried.status(status));
            assert_eq!(output.status.code(), status, "{tried:?} {task:?}");
            ran += 1;
        }
    }
    assert_eq!(ran, 56);
}

/// Says that nothing is printed before the input has ended, also where the first record is broken, and that pieces of any length give the same.
#[test]
fn pieces_and_pauses() {
    let mut ran = 0;
    for (tried, task) in all() {
        let right = right_text(task, 3);
        let broken = [b"x", &right[1..]].concat();
        for (bytes, piece) in [
            (&right, 1),
            (&right, 7),
            (&right, 63),
            (&right, 200),
            (&broken, 64),
        ] {
            Session::in_pieces(tried, task, bytes, piece, PAUSE);
            ran += 1;
        }
    }
    assert_eq!(ran, 40);
}

/// Says that on one pipe for both streams what is said comes behind every record.
#[test]
fn the_line_comes_last() {
    let mut ran = 0;
    for (tried, task) in all() {
        for count in [0, 1, 300] {
            let (mut reader, writer) = pipe().expect("a pipe");
            let both = writer.try_clone().expect("a second end");
            let found = spawn(move || {
                let mut bytes = Vec::new();
                reader.read_to_end(&mut bytes).map(|_| bytes)
            });
            let input = right_text(task, count);
            let file = file_of("moving-last", &input);
            let output = run_on(tried.start_to(task), file, writer, both).expect("it ends");
            let found = found.join().expect("it ends").expect("it can be read");
            let whole = Whole::of(task, &input);
            assert!(found == [whole.report, whole.words.into_bytes()].concat());
            assert_eq!(output.status.code(), Some(0));
            ran += 1;
        }
    }
    assert_eq!(ran, 24);
}

/// Says that a program which a signal ends while it reads has moved nothing, and that the command says so.
#[test]
fn a_program_ended_in_the_middle() {
    let mut ran = 0;
    for (tried, task) in all() {
        for signal in SIGNALS {
            let mut session = Session::start_to(tried, task);
            session.feed(&more_than_fit(task));
            assert_eq!(session.after(PAUSE), "");
            assert_eq!(session.ended_by(signal), "");
            ran += 1;
        }
    }
    assert_eq!(ran, 24);
}

/// Says that a signal to the command itself ends it at once, by that signal, and that nothing is said; the program it leaves behind still moves all or nothing.
#[test]
fn a_command_ended_in_the_middle() {
    let mut ran = 0;
    for task in Task::MOVES {
        for (name, number) in [("TERM", 15), ("KILL", 9)] {
            let mut session = Session::start_to(Tried::Command, task);
            session.feed(&more_than_fit(task));
            assert_eq!(session.after(PAUSE), "");
            session.signal(name);
            let (status, printed, said) = session.end();
            assert_eq!((status.signal(), &said[..]), (Some(number), ""));
            let all = Whole::of(task, &more_than_fit(task)).report;
            assert!(printed.is_empty() || printed.as_bytes() == all, "{name}");
            ran += 1;
        }
    }
    assert_eq!(ran, 8);
}

/// Says that reads which stops break off are tried again: no byte is lost, and none is taken for the last.
#[test]
fn stopped_while_it_reads() {
    for (tried, task) in all() {
        let (mut ours, theirs) = UnixStream::pair().expect("a pair of sockets");
        theirs.set_read_timeout(NEVER).expect("it can be set");
        let session = Session::start_on(tried, task, OwnedFd::from(theirs), Stdio::piped());
        let bytes = more_than_fit(task);
        let (first, others) = bytes.split_at(bytes.len() - 400);
        for part in [&[first][..], &others.chunks(100).collect::<Vec<_>>()].concat() {
            ours.write_all(part).expect("the socket is read");
            sleep(PAUSE);
            session.signal_program("STOP");
            session.signal_program("CONT");
        }
        drop(ours);
        let (status, printed, said) = session.end();
        ends_whole(tried, task, status, &said, &bytes);
        assert!(printed.as_bytes() == Whole::of(task, &bytes).report);
    }
}

/// Says that writes which stops break off are tried again, and that a reader who takes a few bytes at a time gets all.
#[test]
fn stopped_while_it_writes() {
    for (tried, task) in all() {
        let (mut ours, theirs) = UnixStream::pair().expect("a pair of sockets");
        theirs.set_write_timeout(NEVER).expect("it can be set");
        let bytes = more_than_fit(task);
        let input = file_of("moving-stopped", &bytes);
        let session = Session::start_on(tried, task, input, OwnedFd::from(theirs));
        let mut found: Vec<u8> = Vec::new();
        let mut room = [0; 700];
        while let Ok(count @ 1..) = ours.read(&mut room) {
            found.extend(&room[..count]);
            if [7_000, 70_000, 140_000].contains(&found.len()) {
                sleep(PAUSE);
                session.signal_program("STOP");
                session.signal_program("CONT");
            }
        }
        assert!(
            found == Whole::of(task, &bytes).report,
            "{tried:?} {task:?}"
        );
        let (status, _, said) = session.end();
        ends_whole(tried, task, status, &said, &bytes);
    }
}
