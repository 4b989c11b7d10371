//! The program and the command with streams that fail: they say so, report no more, end by themselves, and never say the end's line.

use judging::classes::many;
use judging::end::Whole;
use judging::failing::{broke_off, full, reset_after, undisturbed, UNDISTURBED};
use judging::layout::{file_of, place};
use judging::lines::Lines;
use judging::program::{run, run_on, Task, Tried};
use second::cipher::SETS;
use second::judge::judge_all;
use second::record::Form::One;
use second::record::Line;
use std::fs::{self, File};
use std::io::{self, pipe, PipeReader, PipeWriter, Read, Write};
use std::os::fd::OwnedFd;
use std::os::unix::net::UnixStream;
use std::path::{Path, PathBuf};
use std::process::{Command, Stdio};
use std::thread::spawn;

const EQUAL: &str = "record=1\nverdict=equal\nfield=none\n";

/// Panics unless exactly this is printed, and then said that reading failed.
fn fails_to_read(tried: Tried, input: impl Into<Stdio>, wanted: &str) {
    let output = run(tried.start(), input, Stdio::piped()).expect("it ends");
    assert_eq!(String::from_utf8_lossy(&output.stdout), wanted);
    broke_off(tried, Task::Judge, &output, "bench: reading failed");
}

/// Panics unless it ends, though more input could come, and says that writing failed.
fn fails_to_write(tried: Tried, command: Command, output: impl Into<Stdio>) {
    let (input, feeder) = open_input();
    let output = run(command, input, output).expect("it ends");
    drop(feeder);
    broke_off(tried, Task::Judge, &output, "bench: writing failed");
}

/// Gives a pipe with some 30 records in it, which stays open as long as its other end is kept.
fn open_input() -> (PipeReader, PipeWriter) {
    let (reader, mut writer) = pipe().expect("a pipe");
    writer.write_all(&many(30)).expect("the pipe has room");
    (reader, writer)
}

/// Gives as many right records of which each is equal.
fn equal(count: usize) -> Vec<u8> {
    Lines::right(One, &SETS[0], 9, 20).bytes().repeat(count)
}

/// Says that a folder is no empty input.
#[test]
fn a_folder_as_input() {
    for tried in Tried::BOTH {
        fails_to_read(tried, File::open(".").expect("the folder opens"), "");
    }
}

/// Says that an input which is closed, can only be written, or has nothing yet and doesn't wait, is no empty input.
#[test]
fn an_input_that_cannot_be_read() {
    let closed = Tried::Program.in_shell(r#"exec "$@" <&-"#);
    let output = run(closed, Stdio::null(), Stdio::piped()).expect("it ends");
    broke_off(
        Tried::Program,
        Task::Judge,
        &output,
        "bench: reading failed",
    );
    for tried in Tried::BOTH {
        let write_only = File::create(place("write-only")).expect("a file for the test");
        fails_to_read(tried, write_only, "");
        let (mut ours, theirs) = UnixStream::pair().expect("a pair of sockets");
        theirs.set_nonblocking(true).expect("it can be set");
        ours.write_all(&equal(1)).expect("the socket has room");
        fails_to_read(tried, OwnedFd::from(theirs), EQUAL);
    }
}

/// Says that a read which fails after some bytes is no end of the input: what was whole is reported, the rest is not.
#[test]
fn an_input_that_fails_later() {
    let twice = equal(2);
    let length = twice.len() / 2;
    let mut ran = 0;
    for tried in Tried::BOTH {
        for (length, wanted) in [
            (0, ""),
            (1, ""),
            (length / 2, ""),
            (length - 1, ""),
            (length, EQUAL),
            (length + 1, EQUAL),
            (length + length / 2, EQUAL),
            (twice.len() - 1, EQUAL),
        ] {
            fails_to_read(tried, reset_after(&twice[..length]), wanted);
            ran += 1;
        }
    }
    assert_eq!(ran, 16);
}

/// Says that a full disk is a failed write.
#[test]
fn a_full_disk() {
    for tried in Tried::BOTH {
        fails_to_write(tried, tried.start(), full());
    }
}

/// Says that a report counts as broken off, too, when only its last record could not be written, whatever is said of that.
#[test]
fn a_full_disk_at_the_last_record() {
    let differs = Lines::short(One, 0).with_other_digit(Line::Tag, 3).bytes();
    let mut ran = 0;
    for tried in Tried::BOTH {
        for (name, record) in [
            ("last-equal", equal(1)),
            ("last-differs", differs.clone()),
            ("last-unread", b"set=5\n".to_vec()),
        ] {
            let output = run(tried.start(), file_of(name, &record), full()).expect("it ends");
            broke_off(tried, Task::Judge, &output, "bench: writing failed");
            ran += 1;
        }
    }
    assert_eq!(ran, 6);
}

/// Says that where nothing can be said, since both streams or standard error alone are full, the command has status 2, and 0 where neither is.
#[test]
fn full_disks_for_all() {
    let mut ran = 0;
    for tried in Tried::BOTH {
        for (count, output, errors, status) in [
            (3, Stdio::from(full()), Stdio::from(full()), 2),
            (3, Stdio::null(), Stdio::from(full()), 2),
            (0, Stdio::from(full()), Stdio::from(full()), 2),
            (0, Stdio::null(), Stdio::from(full()), 2),
            (3, Stdio::null(), Stdio::null(), 0),
        ] {
            let input = file_of(&format!("equal-{count}"), &equal(count));
            let output = run_on(tried.start(), input, output, errors).expect("it ends");
            assert_eq!(
                output.status.code(),
                Some(tried.status(status)),
                "{tried:?}"
            );
            ran += 1;
        }
    }
    assert_eq!(ran, 10);
}

/// Says that an output which is closed, or can only be read, or is full and doesn't wait, is a failed write.
#[test]
fn an_output_that_cannot_be_written() {
    let closed = Tried::Program.in_shell(r#"exec "$@" >&-"#);
    fails_to_write(Tried::Program, closed, Stdio::null());
    for tried in Tried::BOTH {
        let read_only = File::open("Cargo.toml").expect("the file opens");
        fails_to_write(tried, tried.start(), read_only);
        let (ours, theirs) = UnixStream::pair().expect("a pair of sockets");
        theirs.set_nonblocking(true).expect("it can be set");
        let input = file_of("too-many-for-a-socket", &many(4_000));
        let output = run(tried.start(), input, OwnedFd::from(theirs)).expect("it ends");
        broke_off(tried, Task::Judge, &output, "bench: writing failed");
        drop(ours);
    }
}

/// Says that a reader who has gone is a failed write, where the signal for it is ignored; the command does that.
#[test]
fn a_reader_who_has_gone() {
    for (tried, command) in undisturbed(Task::Judge) {
        let (reader, writer) = pipe().expect("a pipe");
        drop(reader);
        fails_to_write(tried, command, writer);
    }
}

/// Says that a reader who goes in the middle is a failed write, too.
#[test]
fn a_reader_who_goes() {
    for (tried, command) in undisturbed(Task::Judge) {
        let (mut reader, writer) = pipe().expect("a pipe");
        let reading = spawn(move || reader.read_exact(&mut [0; 1_000]));
        let input = file_of("too-many-for-a-pipe", &many(4_000));
        let output = run(command, input, writer).expect("it ends");
        reading.join().expect("it ends").expect("so much is read");
        broke_off(tried, Task::Judge, &output, "bench: writing failed");
    }
}

/// Says that a file which may not grow any more gets a beginning of the report, be it all but the end of one record, and counts as broken off.
#[test]
fn a_file_that_may_not_grow() {
    let mut ran = 0;
    for tried in Tried::BOTH {
        for (name, records, whole) in [
            ("limited", many(30), false),
            // The reports on 14 such records have 481 bytes, those on 15 have 516, and 512 may be written.
            ("limited-last", equal(15), false),
            ("unlimited", equal(14), true),
        ] {
            let (path, wanted) = (place(name), Whole::on(&records));
            let output = File::create(&path).expect("a file for the test");
            let limited = tried.in_shell(&format!("ulimit -f 1; {UNDISTURBED}"));
            let input = file_of("limited-input", &records);
            let output = run(limited, input, output).expect("it ends");
            let left = fs::read(&path).expect("the file can be read");
            if whole {
                assert_eq!(String::from_utf8_lossy(&output.stderr), wanted.words);
                assert!(output.status.success() && left == wanted.report);
            } else {
                broke_off(tried, Task::Judge, &output, "bench: writing failed");
                assert_eq!((left.len(), &left[..]), (512, &wanted.report[..512]));
            }
            ran += 1;
        }
    }
    assert_eq!(ran, 6);
}

/// Says that a report on a small disk, which also has the folder for temporary files, breaks off when the disk is full.
#[test]
fn a_small_disk() {
    let room = place("small-disk");
    fs::create_dir_all(&room).expect("a folder for the disk");
    let (kind, words) = small_disk(&room);
    let wanted = judge_all(&many(400));
    for tried in Tried::BOTH {
        let script = r#"TMPDIR=$ROOM; export TMPDIR; trap "" PIPE XFSZ
            "$@" >"$ROOM/report"; status=$?; cat "$ROOM/report"; exit "$status""#;
        let inner = tried.in_shell(script);
        let mut command = Command::new(&words[0]);
        command.args(&words[1..]).arg(inner.get_program());
        command.args(inner.get_args()).env("ROOM", &room);
        let input = file_of("small-disk-input", &many(400));
        let output = run(command, input, Stdio::piped()).expect("it ends");
        broke_off(tried, Task::Judge, &output, "bench: writing failed");
        assert_eq!(
            (output.stdout.len(), &output.stdout[..]),
            (8_192, &wanted[..8_192])
        );
    }
    // Past the test runner, which would keep it back.
    writeln!(io::stderr(), "small disk: 2 ran on {kind}").expect("it can be said");
}

/// Gives the words behind which a command has a disk of 8 KiB at the folder, or a limit of 8 KiB on each file where it may not mount one.
fn small_disk(room: &Path) -> (&'static str, Vec<PathBuf>) {
    let mount = r#"mount -t tmpfs -o size=8k tmpfs "$0" && exec "$@""#;
    let limit = r#"ulimit -f 16; exec "$@""#;
    for (kind, words) in [
        ("a disk of 8 KiB", &["unshare", "-m", "sh", "-c", mount][..]),
        (
            "a disk of 8 KiB of its user's own",
            &["unshare", "-r", "-m", "sh", "-c", mount],
        ),
        ("files limited to 8 KiB", &["sh", "-c", limit]),
    ] {
        let mut words: Vec<PathBuf> = words.iter().map(PathBuf::from).collect();
        words.push(room.to_path_buf());
        let mut trial = Command::new(&words[0]);
        trial.args(&words[1..]).arg("true");
        let trial = run(trial, Stdio::null(), Stdio::null());
        if trial.is_ok_and(|output| output.status.success()) {
            return (kind, words);
        }
    }
    panic!("neither a disk nor a limit can be had");
}
