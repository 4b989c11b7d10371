//! The words of `./bench replay`, its samples and its status.

use judging::command::{bench, ends, named_sample};
use judging::end::{Whole, NOT_REPLAYED};
use judging::layout::{file_of, place};
use judging::program::{root, Task, Tried};
use std::fs::{self, File};
use std::process::Stdio;

/// What is printed and said of the sample that agrees, and of the one that differs.
const SAMPLES: [(&str, i32, &str, &str); 2] = [
    (
        "log.txt",
        0,
        "entry=14\nverdict=agrees\nfield=none\n",
        "bench: done: entries=14\n",
    ),
    (
        "log-differs.txt",
        1,
        "entry=10\nverdict=differs\nfield=out\n",
        "bench: done: entries=10\n",
    ),
];

/// Says that the samples are replayed as they were made, however the command is given them.
#[test]
fn the_samples() {
    let mut ran = 0;
    for (name, status, report, words) in SAMPLES {
        let path = root().join("samples").join(name);
        let opened = || Stdio::from(File::open(&path).expect("it opens"));
        let path = path.to_str().expect("a plain path");
        for (words_of, input) in [
            (&["replay", path][..], Stdio::null()),
            (&["replay", "--", path], Stdio::null()),
            (&["replay", "-"], opened()),
            (&["replay", "--", "-"], opened()),
            (&["replay"], opened()),
        ] {
            let output = ends(bench("", words_of), input, status);
            assert_eq!(String::from_utf8_lossy(&output.stdout), report);
            assert_eq!(String::from_utf8_lossy(&output.stderr), words);
            ran += 1;
        }
        let output = ends(bench("samples", &["replay", name]), Stdio::null(), status);
        assert_eq!(String::from_utf8_lossy(&output.stdout), report);
        ran += 1;
        let whole = Whole::of(Task::Replay, &named_sample(name));
        assert_eq!(whole.report, report.as_bytes());
    }
    assert_eq!(ran, 12);
}

/// Says which status each verdict has, and that what stands behind `&&` is done for no other than 0.
#[test]
fn the_status() {
    let log = named_sample("log.txt");
    let mut ran = 0;
    for (bytes, status) in [
        (&b""[..], 0),
        (&log, 0),
        (&log.repeat(2), 0),
        (&log[..log.len() - 1], 1),
        (&named_sample("log-differs.txt"), 1),
        (&named_sample("records.txt"), 1),
        (b"\n", 1),
    ] {
        let path = place("replay-status");
        fs::write(&path, bytes).expect("a file for the test");
        let mut command = Tried::Command.in_shell_to(Task::Replay, r#""$@" && echo shipped"#);
        command.arg(&path);
        let output = ends(command, Stdio::null(), status);
        let whole = Whole::of(Task::Replay, bytes);
        let mut report = whole.report;
        if status == 0 {
            report.extend(b"shipped\n");
        }
        assert_eq!(output.stdout, report);
        assert_eq!(String::from_utf8_lossy(&output.stderr), whole.words);
        assert_eq!(whole.status, status);
        ran += 1;
    }
    assert_eq!(ran, 7);
}

/// Says that the name of a file may be any, behind `--` or in a folder, and that the word asks for a replay, also where a file has its name.
#[test]
fn names_of_files() {
    let folder = place("replay-names");
    fs::create_dir_all(&folder).expect("a folder for the test");
    let log = named_sample("log.txt");
    let report = Whole::of(Task::Replay, &log).report;
    let mut ran = 0;
    for (name, words) in [
        ("replay", &["replay", "replay"][..]),
        ("replay", &["replay", "./replay"]),
        ("judge", &["replay", "judge"]),
        ("import", &["replay", "import"]),
        ("1", &["replay", "1"]),
        ("two words", &["replay", "two words"]),
        (" a $HOME * \"x\" ", &["replay", " a $HOME * \"x\" "]),
        ("-x", &["replay", "--", "-x"]),
        ("-h", &["replay", "--", "-h"]),
        ("-x", &["replay", "./-x"]),
    ] {
        fs::write(folder.join(name), &log).expect("a file for the test");
        let mut command = bench("", words);
        command.current_dir(&folder);
        let output = ends(command, Stdio::null(), 0);
        assert_eq!(output.stdout, report, "{words:?}");
        ran += 1;
    }
    assert_eq!(ran, 10);
}

/// Says that a file which can't be opened and words that aren't understood are status 2, with no report.
#[test]
fn what_cannot_be_done() {
    let mut ran = 0;
    for words in [
        &["replay", "samples/no-such-file"][..],
        &["replay", "samples/log.txt/no-folder"],
        &["replay", ""],
        &["replay", "-x"],
        &["replay", "--"],
        &["replay", "-h", "samples/log.txt"],
        &["replay", "replay", "samples/log.txt"],
        &["replay", "1", "samples/log.txt"],
        &["replay", "samples/log.txt", "samples/log.txt"],
        &["replay", "--", "samples/log.txt", "samples/log.txt"],
        &["replay", "forward", "samples/log.txt"],
        &["judge", "replay", "samples/log.txt"],
        &["forward", "replay", "samples/log.txt"],
        &["import", "1", "replay", "samples/log.txt"],
        &["replays", "samples/log.txt"],
        &["Replay", "samples/log.txt"],
        &["repla", "samples/log.txt"],
        &["--", "replay", "samples/log.txt"],
        &["-", "replay"],
        &["samples/log.txt", "replay"],
    ] {
        let output = ends(bench("", words), Stdio::null(), 2);
        assert!(output.stdout.is_empty() && !output.stderr.is_empty());
        ran += 1;
    }
    assert_eq!(ran, 20);
}

/// Says that a folder is no log, and that a failed read is passed on.
#[test]
fn what_fails() {
    let output = ends(bench("", &["replay", "samples"]), Stdio::null(), 2);
    assert!(output.stdout.is_empty());
    let said = String::from_utf8_lossy(&output.stderr);
    assert!(
        said.starts_with("bench: reading failed") && said.ends_with(&format!("\n{NOT_REPLAYED}\n")),
        "{said}"
    );
}

/// Says that a closed stream is status 2, whichever it is; a file needs no standard input.
#[test]
fn closed_streams() {
    let (no_input, no_output) = ("standard input is closed", "standard output is closed");
    let mut ran = 0;
    for (closed, status, said) in [
        ("<&-", 2, no_input),
        ("- <&-", 2, no_input),
        (">&-", 2, no_output),
        (r#""$SAMPLE" <&-"#, 0, "done: entries=14"),
        (r#""$SAMPLE" >&-"#, 2, no_output),
        (r#""$SAMPLE" <&- >&-"#, 2, no_output),
        (r#""$SAMPLE" 2>&-"#, 2, ""),
        (r#""$SAMPLE" <&- >&- 2>&-"#, 2, ""),
    ] {
        let mut command = Tried::Command.in_shell_to(Task::Replay, &format!(r#""$@" {closed}"#));
        command.env("SAMPLE", root().join("samples/log.txt"));
        let output = ends(command, Stdio::null(), status);
        // Some shells have the script itself under the number of a closed standard error, and notice only when they write.
        if !said.is_empty() {
            assert_eq!(output.stderr, format!("bench: {said}\n").as_bytes());
            assert_eq!(output.stdout.is_empty(), status == 2, "{closed}");
        }
        ran += 1;
    }
    assert_eq!(ran, 8);
}

/// Says that help tells of a replay, and is printed when it is asked for with one.
#[test]
fn help() {
    for word in ["-h", "--help"] {
        let output = ends(bench("", &["replay", word]), Stdio::null(), 0);
        let usage = String::from_utf8_lossy(&output.stdout);
        for named in [
            "\n       bench replay [FILE]\n",
            "bench: entry 3: line 2, column 9",
            "bench: done: entries=12",
        ] {
            assert!(usage.contains(named), "{named}");
        }
    }
}

/// Says that a log on standard input is no record, and a record no log: each is unread in its first line.
#[test]
fn the_wrong_task() {
    let log = file_of("replay-judged", &named_sample("log.txt"));
    let output = ends(bench("", &[]), log.into(), 1);
    assert_eq!(output.stdout, b"record=1\nverdict=unread\nfield=1\n");
    let records = file_of("records-replayed", &named_sample("records.txt"));
    let output = ends(bench("", &["replay"]), records.into(), 1);
    assert_eq!(output.stdout, b"entry=1\nverdict=unread\nfield=1\n");
    let words = "bench: entry 1: line 1, column 1\nbench: done: entries=1\n";
    assert_eq!(String::from_utf8_lossy(&output.stderr), words);
}
