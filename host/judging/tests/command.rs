//! The words of the command for people, `./bench`, and its status.

use judging::command::{bench, ends, named_sample, sample};
use judging::end::{Whole, NOT_MOVED};
use judging::failing::full;
use judging::layout::{file_of, place};
use judging::program::{root, run, Task, Tried};
use second::judge::judge_all;
use second::moving::Direction::{Back, Forward};
use std::fs::{self, File};
use std::io::pipe;
use std::process::Stdio;

/// What is said of the sample's records, one after another.
const SAMPLE: [&str; 6] = [
    "verdict=equal field=none",
    "verdict=equal field=none",
    "verdict=differs field=rounds",
    "verdict=differs field=cipher",
    "verdict=differs field=tag",
    "verdict=equal field=none",
];

/// Says that the sample is judged as it was made, however the command is given it.
#[test]
fn the_sample() {
    let wanted = Whole::on(&sample());
    let opened = || Stdio::from(File::open(root().join("samples/records.txt")).expect("it opens"));
    let mut ran = 0;
    for (command, input) in [
        (bench("", &["samples/records.txt"]), Stdio::null()),
        (bench("", &["judge", "samples/records.txt"]), Stdio::null()),
        (bench("", &["--", "samples/records.txt"]), Stdio::null()),
        (bench("samples", &["records.txt"]), Stdio::null()),
        (bench("", &["-"]), opened()),
        (bench("", &["judge", "-"]), opened()),
        (bench("", &["judge"]), opened()),
        (bench("", &[]), opened()),
    ] {
        let output = ends(command, input, 1);
        assert!(output.stdout == wanted.report);
        assert_eq!(output.stderr, wanted.words.as_bytes());
        ran += 1;
    }
    assert_eq!(ran, 8);

    let reports = String::from_utf8(wanted.report).expect("plain text");
    let lines: Vec<&str> = reports.lines().collect();
    assert_eq!(lines.len(), 3 * SAMPLE.len());
    for (number, (report, said)) in (1..).zip(lines.chunks(3).zip(SAMPLE)) {
        assert_eq!(report.join(" "), format!("record={number} {said}"));
    }
}

/// Says that the sample whose cipher ends after three right bytes differs in its cipher, and is equal with the other two.
#[test]
fn the_cut_off_sample() {
    let output = ends(bench("", &["samples/cut-off.txt"]), Stdio::null(), 1);
    assert_eq!(output.stdout, b"record=1\nverdict=differs\nfield=cipher\n");
    let counts = b"bench: 1 records: 0 equal, 1 differ, 0 unread\n";
    assert_eq!(output.stderr, counts);

    let cut = fs::read_to_string(root().join("samples/cut-off.txt")).expect("it can be read");
    let whole = cut.replace("cipher=06bf4b\n", "cipher=06bf4bf2a4\n");
    let path = place("whole");
    fs::write(&path, whole).expect("a file for the test");
    let mut command = bench("", &[]);
    command.arg(&path);
    let output = ends(command, Stdio::null(), 0);
    assert_eq!(output.stdout, b"record=1\nverdict=equal\nfield=none\n");
}

/// Says that the sample with a letter for a digit is unread there, by line and column, in a file and on standard input, and is equal without it.
#[test]
fn the_broken_sample() {
    let report = "record=1\nverdict=equal\nfield=none\nrecord=2\nverdict=equal\nfield=none\nrecord=3\nverdict=unread\nfield=4\n";
    let words =
        "bench: record 3: line 4, column 17\nbench: 3 records: 2 equal, 0 differ, 1 unread\n";
    let path = root().join("samples/broken.txt");
    let opened = || Stdio::from(File::open(&path).expect("it opens"));
    let mut ran = 0;
    for (command, input) in [
        (bench("", &["samples/broken.txt"]), Stdio::null()),
        (bench("", &["judge", "samples/broken.txt"]), Stdio::null()),
        (bench("", &["-"]), opened()),
        (bench("", &[]), opened()),
    ] {
        let output = ends(command, input, 1);
        assert_eq!(String::from_utf8_lossy(&output.stdout), report);
        assert_eq!(String::from_utf8_lossy(&output.stderr), words);
        ran += 1;
    }
    assert_eq!(ran, 4);

    let broken = fs::read_to_string(&path).expect("it can be read");
    let whole = file_of("unbroken", broken.replace('l', "1").as_bytes());
    let output = ends(bench("", &[]), whole.into(), 0);
    let words = b"bench: 3 records: 3 equal, 0 differ, 0 unread\n";
    assert_eq!(output.stderr, words);
}

/// Says that the sample of form 2 is judged whatever its chips are, and is refused going back for the first that isn't 0.
#[test]
fn the_sample_of_chips() {
    let wanted = Whole::on(&named_sample("chips.txt"));
    let output = ends(bench("", &["samples/chips.txt"]), Stdio::null(), 1);
    assert!(output.stdout == wanted.report);
    let counts = "bench: 4 records: 3 equal, 1 differ, 0 unread\n";
    assert_eq!(
        (&wanted.words[..], &output.stderr[..]),
        (counts, counts.as_bytes())
    );

    let refused = b"bench: refused: answer=11 record=2\n";
    let output = ends(bench("", &["back", "samples/chips.txt"]), Stdio::null(), 1);
    assert_eq!(
        (&output.stdout[..], &output.stderr[..]),
        (&b""[..], &refused[..])
    );
    let refused = b"bench: refused: answer=10 record=1 line=1 column=1\n";
    let output = ends(
        bench("", &["forward", "samples/chips.txt"]),
        Stdio::null(),
        1,
    );
    assert_eq!(
        (&output.stdout[..], &output.stderr[..]),
        (&b""[..], &refused[..])
    );
}

/// Says that the sample is moved forward, however the command is given it, and that moving the result back gives the sample's own bytes.
#[test]
fn the_sample_moved() {
    let path = place("moved-sample");
    let forward = Whole::of(Task::Move(Forward), &sample());
    let back = Whole::of(Task::Move(Back), &forward.report);
    fs::write(&path, &forward.report).expect("a file for the test");
    let (old, new) = (root().join("samples/records.txt"), path);
    let mut ran = 0;
    for (word, path, wanted) in [("forward", &old, &forward), ("back", &new, &back)] {
        let named = path.to_str().expect("a plain path");
        let opened = || Stdio::from(File::open(path).expect("it opens"));
        for (words, input) in [
            (&[word, named][..], Stdio::null()),
            (&[word, "--", named], Stdio::null()),
            (&[word, "-"], opened()),
            (&[word, "--", "-"], opened()),
            (&[word], opened()),
        ] {
            let output = ends(bench("", words), input, 0);
            assert!(output.stdout == wanted.report, "{words:?}");
            assert_eq!(output.stderr, b"bench: done: records=6\n");
            ran += 1;
        }
    }
    assert_eq!(ran, 10);
    assert!(back.report == sample());
}

/// Says that the broken sample is not moved, and where it is broken.
#[test]
fn the_broken_sample_is_not_moved() {
    let output = ends(
        bench("", &["forward", "samples/broken.txt"]),
        Stdio::null(),
        1,
    );
    let refused = b"bench: refused: answer=10 record=3 line=4 column=17\n";
    assert_eq!(
        (&output.stdout[..], &output.stderr[..]),
        (&b""[..], &refused[..])
    );
}

/// Says which status each kind of report has, and that what stands behind `&&` is done for no other than 0.
#[test]
fn the_status() {
    let sample = sample();
    let records: Vec<&[u8]> = sample.split_inclusive(|byte| *byte == b'\n').collect();
    let records: Vec<Vec<u8>> = records.chunks(8).map(|lines| lines.concat()).collect();
    let (equal, differs) = (&records[0], &records[3]);
    let mut ran = 0;
    for (records, status) in [
        (vec![], 0),
        (vec![equal], 0),
        (vec![equal; 20], 0),
        (vec![differs], 1),
        (vec![equal, differs, equal], 1),
        (vec![equal, &equal[..100].to_vec()], 1),
        (vec![&b"\n".to_vec()], 1),
    ] {
        let path = place("status");
        fs::write(
            &path,
            records.into_iter().flatten().copied().collect::<Vec<u8>>(),
        )
        .expect("a file for the test");
        let mut command = Tried::Command.in_shell(r#""$@" && echo shipped"#);
        command.arg(&path);
        let output = ends(command, Stdio::null(), status);
        assert_eq!(output.stdout.ends_with(b"shipped\n"), status == 0);
        ran += 1;
    }
    assert_eq!(ran, 7);
}

/// Says which status a moving has, that what stands behind `&&` is done for no other than 0, and that a refusal prints nothing.
#[test]
fn the_status_of_a_moving() {
    let (one, chips) = (sample(), named_sample("chips.txt"));
    let file = named_sample("published.txt");
    let [forward, back] = [Forward, Back].map(Task::Move);
    let mut ran = 0;
    for (task, bytes, status) in [
        (forward, &b""[..], 0),
        (forward, &one, 0),
        (forward, &chips, 1),
        (forward, &one[..100], 1),
        (forward, b"\n", 1),
        (back, b"", 0),
        (back, &chips[..chips.len() / 5], 1),
        (back, &chips, 1),
        (back, &one, 1),
        (back, b"\n", 1),
        (Task::Import(1), b"", 0),
        (Task::Import(1), &file, 0),
        (Task::Import(1), &file[..file.len() - 1], 1),
        (Task::Import(1), &one, 1),
        (Task::Import(1), b"\n", 1),
        (Task::Import(2), b"", 0),
        (Task::Import(2), &file, 1),
        (Task::Import(5), b"", 1),
        (Task::Import(5), &file, 1),
        (Task::Export, b"", 0),
        (Task::Export, &one, 0),
        (Task::Export, &one[..one.len() - 1], 1),
        (Task::Export, &chips, 1),
        (Task::Export, &file, 1),
    ] {
        let path = place("status-moved");
        fs::write(&path, bytes).expect("a file for the test");
        let mut command = Tried::Command.in_shell_to(task, r#""$@" && echo shipped"#);
        command.arg(&path);
        let output = ends(command, Stdio::null(), status);
        let Whole {
            mut report, words, ..
        } = Whole::of(task, bytes);
        if status == 0 {
            report.extend(b"shipped\n");
        }
        assert!(output.stdout == report, "{words}");
        assert_eq!(output.stderr, words.as_bytes());
        ran += 1;
    }
    assert_eq!(ran, 24);
}

/// Says that the name of a file may have blanks, begin with a minus behind `--` or in a folder, or be a word of the command in a folder.
#[test]
fn names_of_files() {
    let folder = place("names");
    fs::create_dir_all(&folder).expect("a folder for the test");
    let mut ran = 0;
    for (name, words) in [
        ("two words", &["two words"][..]),
        (" a $HOME * \"x\" ", &[" a $HOME * \"x\" "]),
        ("-x", &["--", "-x"]),
        ("-x", &["./-x"]),
        ("--help", &["judge", "--", "--help"]),
        ("judge", &["./judge"]),
        ("judge", &["judge", "judge"]),
        ("forward", &["--", "forward"]),
        ("forward", &["judge", "forward"]),
        ("forward", &["./forward"]),
        ("back", &["--", "back"]),
        ("back", &["judge", "back"]),
        ("import", &["--", "import"]),
        ("import", &["judge", "import"]),
        ("import", &["./import"]),
        ("export", &["--", "export"]),
        ("export", &["judge", "export"]),
        ("export", &["./export"]),
        ("replay", &["--", "replay"]),
        ("replay", &["judge", "replay"]),
        ("replay", &["./replay"]),
        ("1", &["1"]),
    ] {
        fs::write(folder.join(name), sample()).expect("a file for the test");
        let mut command = bench("", words);
        command.current_dir(&folder);
        let output = ends(command, Stdio::null(), 1);
        assert!(output.stdout == judge_all(&sample()));
        ran += 1;
    }
    assert_eq!(ran, 22);
    let file = named_sample("published.txt");
    for (task, name, words) in [
        (Task::Move(Forward), "forward", &["forward", "forward"][..]),
        (Task::Move(Forward), "judge", &["forward", "judge"]),
        (Task::Move(Forward), "import", &["forward", "import"]),
        (Task::Move(Forward), "back", &["forward", "--", "back"]),
        (Task::Move(Forward), "-h", &["forward", "--", "-h"]),
        (Task::Export, "export", &["export", "export"]),
        (Task::Export, "import", &["export", "import"]),
        (Task::Export, "1", &["export", "1"]),
        (Task::Export, "-h", &["export", "--", "-h"]),
        (Task::Import(1), "import", &["import", "1", "import"]),
        (Task::Import(1), "export", &["import", "1", "export"]),
        (Task::Import(1), "1", &["import", "1", "1"]),
        (Task::Import(1), "two words", &["import", "1", "two words"]),
        (Task::Import(1), "-h", &["import", "1", "--", "-h"]),
        (Task::Import(1), "import", &["import", "1", "./import"]),
    ] {
        let bytes = match task {
            Task::Import(_) => &file,
            _ => &sample(),
        };
        fs::write(folder.join(name), bytes).expect("a file for the test");
        let mut command = bench("", words);
        command.current_dir(&folder);
        let output = ends(command, Stdio::null(), 0);
        assert!(output.stdout == Whole::of(task, bytes).report, "{words:?}");
        ran += 1;
    }
    assert_eq!(ran, 37);
    // The word asks for a task, also where a file has its name.
    let mut command = bench("", &["import"]);
    command.current_dir(&folder);
    let output = ends(command, Stdio::null(), 2);
    assert!(output.stdout.is_empty());
}

/// Says that a file which can't be opened and words that aren't understood are status 2, with no report.
#[test]
fn what_cannot_be_done() {
    let mut ran = 0;
    for words in [
        &["samples/no-such-file"][..],
        &["samples/records.txt/no-folder"],
        &[""],
        &["-x"],
        &["--"],
        &["judges", "samples/records.txt"],
        &["judge", "judge", "samples/records.txt"],
        &["samples/records.txt", "samples/records.txt"],
        &["--", "samples/records.txt", "samples/records.txt"],
        &["-h", "samples/records.txt"],
        &["forward", "samples/no-such-file"],
        &["back", "samples/no-such-file"],
        &["forward", ""],
        &["forward", "-x"],
        &["forward", "--"],
        &["back", "--"],
        &["back", "-x"],
        &["forward", "forward", "samples/records.txt"],
        &["forward", "back", "samples/records.txt"],
        &["judge", "forward", "samples/records.txt"],
        &["samples/records.txt", "forward"],
        &["forward", "samples/records.txt", "samples/records.txt"],
        &["forward", "-h", "samples/records.txt"],
        &["forwards", "samples/records.txt"],
        &["Forward", "samples/records.txt"],
        &["backward", "samples/chips.txt"],
        &["--", "forward", "samples/records.txt"],
        &["-", "forward"],
        &["import", "1", "samples/no-such-file"],
        &["import", "1", ""],
        &["import", "1", "-x"],
        &["import", "1", "--"],
        &["import", "1", "1", "samples/published.txt"],
        &[
            "import",
            "1",
            "samples/published.txt",
            "samples/published.txt",
        ],
        &["import", "1", "-h", "samples/published.txt"],
        &["import", "1", "import", "samples/published.txt"],
        &["1", "import", "samples/published.txt"],
        &["imports", "1", "samples/published.txt"],
        &["Import", "1", "samples/published.txt"],
        &["import1", "samples/published.txt"],
        &["judge", "import", "1"],
        &["--", "import", "1"],
        &["-", "import", "1"],
        &["export", "samples/no-such-file"],
        &["export", ""],
        &["export", "-x"],
        &["export", "--"],
        &["export", "1", "samples/records.txt"],
        &["export", "export", "samples/records.txt"],
        &["export", "samples/records.txt", "samples/records.txt"],
        &["exports", "samples/records.txt"],
        &["Export", "samples/records.txt"],
        &["--", "export", "samples/records.txt"],
        &["samples/records.txt", "export"],
    ] {
        let output = ends(bench("", words), Stdio::null(), 2);
        assert!(output.stdout.is_empty() && !output.stderr.is_empty());
        ran += 1;
    }
    assert_eq!(ran, 54);
}

/// Says that importing needs a set, and that a word which is no decimal of up to 2^64 - 1 is none: status 2 and the usage, whatever follows.
#[test]
fn no_number_of_a_set() {
    let output = ends(bench("", &["-h"]), Stdio::null(), 0);
    let usage = String::from_utf8(output.stdout).expect("plain text");
    let mut ran = 0;
    for word in [
        "",
        " ",
        "x",
        "one",
        "-",
        "--",
        "-1",
        "-0",
        "+1",
        " 1",
        "1 ",
        "1\n",
        "1 1",
        "1.",
        "1.0",
        "1e0",
        "0x1",
        "1x",
        "*",
        "?",
        "[1]",
        "$(echo 1)",
        "\u{661}",
        "samples/published.txt",
        "18446744073709551616",
        "18446744073709551617",
        "28446744073709551615",
        "100000000000000000001",
        "100000000000000000000000000000000000000001",
    ] {
        for more in [&[][..], &["-"], &["samples/published.txt"]] {
            let words = [&["import", word][..], more].concat();
            let input = file_of("no-number", &named_sample("published.txt"));
            let output = ends(bench("", &words), input.into(), 2);
            assert!(output.stdout.is_empty(), "{words:?}");
            assert_eq!(String::from_utf8_lossy(&output.stderr), usage, "{words:?}");
            ran += 1;
        }
    }
    assert_eq!(ran, 87);
    let output = ends(bench("", &["import"]), Stdio::null(), 2);
    assert_eq!(String::from_utf8_lossy(&output.stderr), usage);
}

/// Says that help is printed when it is asked for, or is status 2 where it can't be.
#[test]
fn help() {
    for words in [
        &["-h"][..],
        &["--help"],
        &["judge", "-h"],
        &["forward", "-h"],
        &["back", "--help"],
        &["import", "-h"],
        &["import", "--help"],
        &["import", "1", "-h"],
        &["export", "-h"],
        &["export", "--help"],
    ] {
        let output = ends(bench("", words), Stdio::null(), 0);
        let usage = String::from_utf8_lossy(&output.stdout);
        assert!(usage.starts_with("usage: bench [judge] [FILE]\n"));
        for named in [
            "\n       bench forward [FILE]\n",
            "\n       bench back [FILE]\n",
            "\n       bench import SET [FILE]\n",
            "\n       bench export [FILE]\n",
            "\n       bench replay [FILE]\n",
            "bench: record 3: line 4, column 17",
            "bench: done: records=6",
            "bench: refused: answer=10 record=2 line=4 column=7",
        ] {
            assert!(usage.contains(named), "{named}");
        }
        let output = run(bench("", words), Stdio::null(), full()).expect("it ends");
        assert_eq!(output.status.code(), Some(2));
    }
}

/// Says that what the program says of failed reads and writes is passed on, with status 2.
#[test]
fn what_fails() {
    let output = ends(bench("", &["samples"]), Stdio::null(), 2);
    assert!(output.stdout.is_empty());
    assert!(output.stderr.starts_with(b"bench: reading failed"));

    let (reader, writer) = pipe().expect("a pipe");
    drop(reader);
    let command = bench("", &["samples/records.txt"]);
    let output = run(command, Stdio::null(), writer).expect("it ends");
    assert!(output.stderr.starts_with(b"bench: writing failed"));
    assert_eq!(output.status.code(), Some(2));

    for words in [
        &["forward", "samples"][..],
        &["import", "1", "samples"],
        &["export", "samples"],
    ] {
        let output = ends(bench("", words), Stdio::null(), 2);
        assert!(output.stdout.is_empty());
        let said = String::from_utf8_lossy(&output.stderr);
        assert!(
            said.starts_with("bench: reading failed")
                && said.ends_with(&format!("\n{NOT_MOVED}\n"))
        );
    }
}

/// Says that a closed stream is status 2, whichever it is; a file needs no standard input.
#[test]
fn closed_streams() {
    let mut ran = 0;
    let (no_input, no_output) = ("standard input is closed", "standard output is closed");
    let counts = "6 records: 3 equal, 3 differ, 0 unread";
    for (closed, status, said) in [
        ("<&-", 2, no_input),
        ("- <&-", 2, no_input),
        (">&-", 2, no_output),
        ("<&- >&-", 2, no_output),
        (r#""$SAMPLE" <&-"#, 1, counts),
        (r#""$SAMPLE" >&-"#, 2, no_output),
        (r#""$SAMPLE" <&- >&-"#, 2, no_output),
        ("2>&-", 2, ""),
        (">&- 2>&-", 2, ""),
        ("<&- >&- 2>&-", 2, ""),
        (r#""$SAMPLE" 2>&-"#, 2, ""),
        (r#""$SAMPLE" <&- 2>&-"#, 2, ""),
        (r#""$SAMPLE" <&- >&- 2>&-"#, 2, ""),
    ] {
        let mut command = Tried::Command.in_shell(&format!(r#""$@" {closed}"#));
        command.env("SAMPLE", root().join("samples/records.txt"));
        let output = ends(command, Stdio::null(), status);
        // Some shells have the script itself under the number of a closed standard error, and notice only when they write.
        if !said.is_empty() {
            let wanted = [judge_all(&sample()), vec![]];
            assert!(
                output.stdout == wanted[usize::from(status == 2)],
                "{closed}"
            );
            assert_eq!(output.stderr, format!("bench: {said}\n").as_bytes());
        }
        ran += 1;
    }
    assert_eq!(ran, 13);
}

/// Says that a closed stream is status 2 for a moving, too.
#[test]
fn closed_streams_of_a_moving() {
    let mut ran = 0;
    let (no_input, no_output) = ("standard input is closed", "standard output is closed");
    for (task, name) in [
        (Task::Move(Forward), "samples/records.txt"),
        (Task::Import(1), "samples/published.txt"),
        (Task::Export, "samples/records.txt"),
    ] {
        for (closed, status, said) in [
            ("<&-", 2, no_input),
            (">&-", 2, no_output),
            (r#""$SAMPLE" <&-"#, 0, "done: records=6"),
            (r#""$SAMPLE" >&-"#, 2, no_output),
            (r#""$SAMPLE" 2>&-"#, 2, ""),
        ] {
            let mut command = Tried::Command.in_shell_to(task, &format!(r#""$@" {closed}"#));
            command.env("SAMPLE", root().join(name));
            let output = ends(command, Stdio::null(), status);
            if !said.is_empty() {
                assert_eq!(output.stderr, format!("bench: {said}\n").as_bytes());
                assert_eq!(output.stdout.is_empty(), status == 2, "{closed}");
            }
            ran += 1;
        }
    }
    assert_eq!(ran, 15);
}
