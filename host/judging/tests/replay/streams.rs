//! Replays on streams that fail, stall or trickle, and with signals in between: a report is printed whole, or it is said that there is none.

use judging::end::{ends_whole, Whole};
use judging::failing::{broke_off, full, reset_after, undisturbed, UNDISTURBED};
use judging::layout::{file_of, place};
use judging::log::{bytes_of, logged, many, message, Line, Logged, LINES};
use judging::program::{run, run_on, Task, Tried};
use judging::session::{Session, SIGNALS};
use second::cipher::SETS;
use second::log::read;
use std::fs::{self, File};
use std::io::{pipe, Read, Write};
use std::os::fd::OwnedFd;
use std::os::unix::net::UnixStream;
use std::os::unix::process::ExitStatusExt;
use std::process::{Command, Stdio};
use std::thread::{sleep, spawn};
use std::time::Duration;

/// Long enough for the program to print whatever it would print.
const PAUSE: Duration = Duration::from_millis(60);

/// A time for which no read of a test waits; where one is set, a stop breaks it off.
const NEVER: Option<Duration> = Some(Duration::from_secs(600));

/// Gives the right entries of a message.
fn entries() -> Vec<Logged> {
    logged(&message(&SETS[1], &[3], &[5]))
}

/// Gives logs that agree, differ and are unread, the last two in their third entry.
fn of_each_verdict() -> [Vec<u8>; 3] {
    let with = |third: Logged| bytes_of(&[&entries()[..2], &[third]].concat());
    let text = &entries()[2];
    [
        bytes_of(&entries()),
        with(text.with_other_digit(Line::Out, 3)),
        with(text.with_value(Line::Answer, "00")),
    ]
}

/// Panics unless nothing is printed, and it is said that reading failed.
fn fails_to_read(tried: Tried, command: Command, input: impl Into<Stdio>) {
    let output = run(command, input, Stdio::piped()).expect("it ends");
    assert!(output.stdout.is_empty(), "nothing is printed");
    broke_off(tried, Task::Replay, &output, "bench: reading failed");
}

/// Panics unless it is said that writing failed, and not that it is done.
fn fails_to_write(tried: Tried, command: Command, log: &[u8], output: impl Into<Stdio>) {
    let input = file_of("replay-unwritten", log);
    let output = run(command, input, output).expect("it ends");
    broke_off(tried, Task::Replay, &output, "bench: writing failed");
}

/// Gives what is tried, started to replay.
fn start(tried: Tried) -> Command {
    tried.start_to(Task::Replay)
}

/// Says that a folder, a closed input, one that can only be written, and one that has nothing yet and doesn't wait, are no empty log and no end.
#[test]
fn an_input_that_cannot_be_read() {
    let mut ran = 0;
    for tried in Tried::BOTH {
        let folder = File::open(".").expect("the folder opens");
        fails_to_read(tried, start(tried), folder);
        let write_only = File::create(place("replay-write-only")).expect("a file for the test");
        fails_to_read(tried, start(tried), write_only);
        let (mut ours, theirs) = UnixStream::pair().expect("a pair of sockets");
        theirs.set_nonblocking(true).expect("it can be set");
        ours.write_all(&many(2)).expect("the socket has room");
        fails_to_read(tried, start(tried), OwnedFd::from(theirs));
        ran += 3;
    }
    let closed = Tried::Program.in_shell_to(Task::Replay, r#"exec "$@" <&-"#);
    fails_to_read(Tried::Program, closed, Stdio::null());
    ran += 1;
    assert_eq!(ran, 7);
}

/// Says that a read which fails before a verdict leaves none, be it between two entries that agree or right before the byte that decides.
#[test]
fn an_input_that_fails_later() {
    let [agrees, differs, unread] = of_each_verdict();
    let one = entries()[0].bytes().len();
    let two = bytes_of(&entries()[..2]).len();
    // The last zero of this answer decides.
    let decides = two + b"call=text\ndata=0011223344\nanswer=0".len();
    let mut ran = 0;
    for tried in Tried::BOTH {
        for bytes in [
            &agrees[..0],
            &agrees[..1],
            &agrees[..one / 2],
            &agrees[..one - 1],
            &agrees[..one],
            &agrees[..one + 1],
            &agrees[..two],
            &agrees[..agrees.len() - 1],
            &agrees,
            &differs[..differs.len() - 1],
            &unread[..decides],
        ] {
            fails_to_read(tried, start(tried), reset_after(bytes));
            ran += 1;
        }
    }
    assert_eq!(ran, 22);
}

/// Says that a read which would fail behind the byte that decides is none any more.
#[test]
fn an_input_that_fails_behind_the_verdict() {
    let [_, differs, unread] = of_each_verdict();
    let mut ran = 0;
    for tried in Tried::BOTH {
        for log in [&differs, &unread] {
            for behind in [&b""[..], b"call=te"] {
                let bytes = [log, behind].concat();
                let output = run(start(tried), reset_after(&bytes), Stdio::piped());
                let output = output.expect("it ends");
                let said = String::from_utf8_lossy(&output.stderr);
                ends_whole(tried, Task::Replay, output.status, &said, log);
                assert_eq!(output.stdout, Whole::of(Task::Replay, log).report);
                ran += 1;
            }
        }
    }
    assert_eq!(ran, 8);
}

/// Says that a report which can't be written is never said to be done, whatever its verdict.
#[test]
fn an_output_that_cannot_be_written() {
    let mut ran = 0;
    for log in of_each_verdict() {
        for tried in Tried::BOTH {
            fails_to_write(tried, start(tried), &log, full());
            let read_only = File::open("Cargo.toml").expect("the file opens");
            fails_to_write(tried, start(tried), &log, read_only);
            let (kept, no_room) = without_room();
            fails_to_write(tried, start(tried), &log, no_room);
            drop(kept);
            ran += 3;
        }
        for (tried, command) in undisturbed(Task::Replay) {
            let (reader, writer) = pipe().expect("a pipe");
            drop(reader);
            fails_to_write(tried, command, &log, writer);
            ran += 1;
        }
        let closed = Tried::Program.in_shell_to(Task::Replay, r#"exec "$@" >&-"#);
        fails_to_write(Tried::Program, closed, &log, Stdio::null());
        ran += 1;
    }
    assert_eq!(ran, 27);
}

/// Gives an output that has no room left and doesn't wait for any, behind its other end, which keeps it open.
fn without_room() -> (UnixStream, OwnedFd) {
    let (ours, mut theirs) = UnixStream::pair().expect("a pair of sockets");
    theirs.set_nonblocking(true).expect("it can be set");
    while theirs.write(&[0; 1]).is_ok() {}
    (ours, theirs.into())
}

/// Says that a file which may grow by twelve bytes gets the first twelve of the report, and that this counts as not replayed.
#[test]
fn a_file_that_may_not_grow() {
    let log = bytes_of(&entries());
    let report = Whole::of(Task::Replay, &log).report;
    for tried in Tried::BOTH {
        let path = place("replay-limited");
        fs::write(&path, [b'-'; 500]).expect("a file for the test");
        let output = File::options().append(true).open(&path);
        let limited = tried.in_shell_to(Task::Replay, &format!("ulimit -f 1; {UNDISTURBED}"));
        fails_to_write(tried, limited, &log, output.expect("the file opens"));
        let left = fs::read(&path).expect("the file can be read");
        assert_eq!(left[500..], report[..12], "{tried:?}");
    }
}

/// Says that a report needs room also where the log is empty, and that what can't be said is status 2.
#[test]
fn full_disks() {
    let [agrees, differs, unread] = of_each_verdict();
    let mut ran = 0;
    for tried in Tried::BOTH {
        for (log, output, errors, status) in [
            (&agrees, Stdio::null(), Stdio::null(), 0),
            (&differs, Stdio::null(), Stdio::null(), 1),
            (&unread, Stdio::null(), Stdio::null(), 1),
            (&vec![], Stdio::from(full()), Stdio::null(), 2),
            (&differs, Stdio::from(full()), Stdio::null(), 2),
            (&agrees, Stdio::null(), Stdio::from(full()), 2),
            (&differs, Stdio::null(), Stdio::from(full()), 2),
            (&unread, Stdio::null(), Stdio::from(full()), 2),
            (&agrees, Stdio::from(full()), Stdio::from(full()), 2),
        ] {
            let input = file_of("replay-full", log);
            let output = run_on(start(tried), input, output, errors).expect("it ends");
            assert_eq!(output.status.code(), Some(tried.status(status)));
            ran += 1;
        }
    }
    assert_eq!(ran, 18);
}

/// Says that a log which agrees is reported only where it ends, and that pieces of any length give the same.
#[test]
fn pieces_and_pauses() {
    let log = many(9);
    let mut ran = 0;
    for tried in Tried::BOTH {
        for piece in [1, 2, 7, 61, 200] {
            Session::in_pieces(tried, Task::Replay, &log, piece, PAUSE);
            ran += 1;
        }
    }
    assert_eq!(ran, 10);
}

/// Says that a pause within an entry, in each of its lines or between two, is no end, and that one which ends there is unread in that line.
#[test]
fn a_pause_and_the_end() {
    let mut ran = 0;
    for tried in Tried::BOTH {
        for line in LINES {
            let entries = entries();
            let (text, half) = (&entries[2], entries[2].line(line).len() / 2);
            let begun = [&text.before(line), &text.line(line)[..half]].concat();
            let log = [bytes_of(&entries[..2]), begun].concat();
            let mut session = Session::start_to(tried, Task::Replay);
            session.feed(&log);
            assert_eq!(session.after(PAUSE), "", "{line:?}");
            let number = text.number(line);
            let wanted = format!("entry=3\nverdict=unread\nfield={number}\n");
            assert_eq!(session.close(), wanted);
            ran += 1;
        }
    }
    assert_eq!(ran, 10);
}

/// Says that an entry which differs is reported with its last line feed, and a broken one with the byte that breaks it, while the input is still open.
#[test]
fn the_byte_that_decides() {
    let text = &entries()[2];
    let with = |line, value: &str| text.with_value(line, value).bytes();
    let cases = [
        text.with_other_digit(Line::Out, 0).bytes(),
        with(Line::Answer, "1"),
        with(Line::Rounds, "9999999"),
        with(Line::Call, "texts"),
        with(Line::Call, "start3"),
        with(Line::Data, "0g"),
        with(Line::Data, "000"),
        with(Line::Data, &"5a".repeat(257)),
        with(Line::Answer, "07"),
        with(Line::Answer, "12345678"),
        with(Line::Out, "0A"),
        with(Line::Out, &"5a".repeat(257)),
        with(Line::Rounds, ""),
        with(Line::Rounds, "6\r"),
    ];
    let mut ran = 0;
    for (turn, entry) in cases.iter().enumerate() {
        for tried in Tried::BOTH {
            // The command adds nothing of its own, so some of them are enough.
            if tried == Tried::Command && turn % 4 != 0 {
                continue;
            }
            let (last, others) = up_to_the_decision(entry).split_last().expect("a byte");
            let mut session = Session::start_to(tried, Task::Replay);
            session.feed(&bytes_of(&entries()[..2]));
            session.feed(others);
            assert_eq!(session.after(PAUSE), "", "it is not decided");
            session.feed(&[*last]);
            let log = [bytes_of(&entries()[..2]), entry.clone()].concat();
            let wanted = String::from_utf8(Whole::of(Task::Replay, &log).report);
            assert_eq!(session.ended_by_itself(), wanted.expect("plain text"));
            ran += 1;
        }
    }
    assert_eq!(ran, 18);
}

/// Gives the shortest beginning of an entry that is one, or that none goes on from, by the second program.
fn up_to_the_decision(entry: &[u8]) -> &[u8] {
    let decided = |length: &usize| {
        let bytes = &entry[..*length];
        let Err(broken) = read(bytes) else {
            return true;
        };
        let lines = bytes.split_inclusive(|byte| *byte == b'\n');
        let before: usize = lines.take(broken.line as usize - 1).map(<[u8]>::len).sum();
        before + (broken.column as usize) <= *length
    };
    let length = (1..=entry.len()).find(decided);
    &entry[..length.expect("the entry is decided")]
}

/// Says that on one pipe for both streams what is said comes behind the report.
#[test]
fn the_line_comes_last() {
    let mut ran = 0;
    for tried in Tried::BOTH {
        for log in [&of_each_verdict()[..], &[vec![]]].concat() {
            let (mut reader, writer) = pipe().expect("a pipe");
            let both = writer.try_clone().expect("a second end");
            let found = spawn(move || {
                let mut bytes = Vec::new();
                reader.read_to_end(&mut bytes).map(|_| bytes)
            });
            let file = file_of("replay-last", &log);
            let output = run_on(start(tried), file, writer, both).expect("it ends");
            let found = found.join().expect("it ends").expect("it can be read");
            let whole = Whole::of(Task::Replay, &log);
            assert_eq!(found, [whole.report, whole.words.into_bytes()].concat());
            assert_eq!(
                output.status.code(),
                Some(tried.status(whole.status)),
                "{tried:?}"
            );
            ran += 1;
        }
    }
    assert_eq!(ran, 8);
}

/// Says that a program which a signal ends while it reads has no verdict, and that the command says so.
#[test]
fn a_program_ended_in_the_middle() {
    let mut ran = 0;
    for tried in Tried::BOTH {
        for signal in SIGNALS {
            let mut session = Session::start_to(tried, Task::Replay);
            session.feed(&many(3_000));
            assert_eq!(session.after(PAUSE), "");
            assert_eq!(session.ended_by(signal), "");
            ran += 1;
        }
    }
    assert_eq!(ran, 6);
}

/// Says that a signal to the command itself ends it at once, by that signal, and that nothing is printed or said.
#[test]
fn a_command_ended_in_the_middle() {
    for (name, number) in [("TERM", 15), ("KILL", 9)] {
        let mut session = Session::start_to(Tried::Command, Task::Replay);
        session.feed(&many(3_000));
        assert_eq!(session.after(PAUSE), "");
        session.signal(name);
        let (status, printed, said) = session.end();
        assert_eq!(
            (status.signal(), &printed[..], &said[..]),
            (Some(number), "", "")
        );
    }
}

/// Says that reads which stops break off are tried again: no byte is lost, and none is taken for the last.
#[test]
fn stopped_while_it_reads() {
    for tried in Tried::BOTH {
        let (mut ours, theirs) = UnixStream::pair().expect("a pair of sockets");
        theirs.set_read_timeout(NEVER).expect("it can be set");
        let theirs = OwnedFd::from(theirs);
        let session = Session::start_on(tried, Task::Replay, theirs, Stdio::piped());
        // More than a socket holds: when all but the last bytes are handed over, the program is at its reads.
        let log = many(10_000);
        let (first, others) = log.split_at(log.len() - 400);
        for part in [&[first][..], &others.chunks(100).collect::<Vec<_>>()].concat() {
            ours.write_all(part).expect("the socket is read");
            sleep(PAUSE);
            session.signal_program("STOP");
            session.signal_program("CONT");
        }
        drop(ours);
        let (status, printed, said) = session.end();
        ends_whole(tried, Task::Replay, status, &said, &log);
        assert_eq!(printed.as_bytes(), Whole::of(Task::Replay, &log).report);
    }
}
