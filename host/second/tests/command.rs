//! The program itself: each command, bad command lines, failed reads and writes.

use second::judge::judge_all;
use std::fs::File;
use std::io::Write;
use std::process::{Command, Output, Stdio};

/// Gives what the program does with the given arguments and input.
fn run(arguments: &[&str], input: &[u8]) -> Output {
    let mut child = Command::new(env!("CARGO_BIN_EXE_second"))
        .args(arguments)
        .stdin(Stdio::piped())
        .stdout(Stdio::piped())
        .stderr(Stdio::piped())
        .spawn()
        .expect("the program starts");
    let mut pipe = child.stdin.take().expect("a pipe");
    let input = input.to_vec();
    // A program that doesn't read its input closes the pipe, which is no fault here.
    let feeder = std::thread::spawn(move || pipe.write_all(&input).is_ok());
    let output = child.wait_with_output().expect("the program ends");
    feeder.join().expect("the input was fed");
    output
}

/// Gives the standard output of a run that must be done.
fn done(arguments: &[&str], input: &[u8]) -> String {
    let output = run(arguments, input);
    assert_eq!(output.status.code(), Some(0), "{arguments:?}");
    assert!(output.stderr.is_empty());
    String::from_utf8(output.stdout).expect("plain text")
}

/// Gives standard output and standard error of judging an input with a broken record.
fn judged_broken(input: &[u8]) -> (String, String) {
    let output = run(&["judge"], input);
    assert_eq!(output.status.code(), Some(0));
    let text = |bytes| String::from_utf8(bytes).expect("plain text");
    (text(output.stdout), text(output.stderr))
}

/// Says that made records are right, the same for the same seed, and of all sets.
#[test]
fn vectors_and_judge() {
    let records = done(&["vectors", "500", "42"], b"");
    assert_eq!(records, done(&["vectors", "500", "42"], b""));
    assert_ne!(records, done(&["vectors", "500", "43"], b""));
    for set in ["set=1\n", "set=2\n", "set=3\n", "set=4\n"] {
        assert_eq!(records.matches(set).count(), 125);
    }
    assert_eq!(records.lines().count(), 500 * 8);
    let report = done(&["judge"], records.as_bytes());
    assert_eq!(report.as_bytes(), judge_all(records.as_bytes()));
    assert_eq!(report.matches("verdict=equal\nfield=none\n").count(), 500);
    assert_eq!(report.lines().count(), 1_500);
    assert_eq!(done(&["vectors", "0", "1"], b""), "");
    assert_eq!(done(&["judge"], b""), "");
}

/// Says that made records of form 2 are right, the same for the same seed, and of many chips.
#[test]
fn vectors_of_form_2_and_judge() {
    let records = done(&["vectors2", "400", "42"], b"");
    assert_eq!(records, done(&["vectors2", "400", "42"], b""));
    assert_ne!(records, done(&["vectors2", "400", "43"], b""));
    for set in [1, 2, 3, 4] {
        let front = format!("form=2\nset={set}\nchip=");
        assert_eq!(records.matches(&front).count(), 100);
        // Each set has each kind of chip.
        for chip in ["0\n", "65535\n"] {
            let line = format!("{front}{chip}");
            assert!(records.matches(&line).count() >= 25, "{line}");
        }
    }
    assert_eq!(records.lines().count(), 400 * 10);
    let of_chip_0 = records.matches("\nchip=0\n").count();
    let of_chip_65535 = records.matches("\nchip=65535\n").count();
    assert!(of_chip_0 >= 100 && of_chip_65535 >= 100);
    assert!(of_chip_0 + of_chip_65535 < 250);
    let report = done(&["judge"], records.as_bytes());
    assert_eq!(report.matches("verdict=equal\nfield=none\n").count(), 400);
    assert_eq!(report.lines().count(), 1_200);
    let mixed = done(&["vectors", "5", "1"], b"") + &records;
    let report = done(&["judge"], mixed.as_bytes());
    assert_eq!(report.matches("verdict=equal\nfield=none\n").count(), 405);
    assert_eq!(done(&["vectors2", "0", "1"], b""), "");
}

/// Gives status, standard output and standard error of moving or replaying an input by those words.
fn moved_by(words: &[&str], input: &str) -> (Option<i32>, String, String) {
    let output = run(words, input.as_bytes());
    let text = |bytes| String::from_utf8(bytes).expect("plain text");
    (
        output.status.code(),
        text(output.stdout),
        text(output.stderr),
    )
}

/// Gives status, standard output and standard error of moving or replaying an input by a command of one word.
fn moved(command: &str, input: &str) -> (Option<i32>, String, String) {
    moved_by(&[command], input)
}

/// Says what moving prints, letter for letter, done and refused.
#[test]
fn forward_and_back() {
    let zeros = "00".repeat(12);
    let rest = format!("key={zeros}\nnonce={zeros}\nad=\ntext=\ncipher=\ntag={zeros}\nrounds=24\n");
    let old = format!("set=2\n{rest}");
    let new = format!("form=2\nset=2\nchip=0\n{rest}");
    let other = format!("form=2\nset=2\nchip=12\n{rest}");
    let cases = [
        ("forward", String::new(), "", "done: records=0", 0),
        ("back", String::new(), "", "done: records=0", 0),
        ("forward", old.clone(), &new, "done: records=1", 0),
        ("back", new.clone(), &old, "done: records=1", 0),
        (
            "forward",
            old.repeat(3),
            &new.repeat(3),
            "done: records=3",
            0,
        ),
        ("back", new.repeat(3), &old.repeat(3), "done: records=3", 0),
        (
            "forward",
            old.clone() + &old.replace("ad=", "ad=abC"),
            "",
            "refused: answer=10 record=2 line=4 column=6",
            1,
        ),
        (
            "forward",
            new.clone(),
            "",
            "refused: answer=10 record=1 line=1 column=1",
            1,
        ),
        (
            "back",
            new.clone() + &old,
            "",
            "refused: answer=10 record=2 line=1 column=1",
            1,
        ),
        (
            "back",
            new.clone() + &new + &other + &old,
            "",
            "refused: answer=11 record=3",
            1,
        ),
        (
            "back",
            other.replace("rounds=24", "rounds=x"),
            "",
            "refused: answer=10 record=1 line=10 column=8",
            1,
        ),
    ];
    let mut ran = 0;
    for (command, input, output, said, status) in cases {
        let wanted = (Some(status), output.to_string(), format!("bench: {said}\n"));
        assert_eq!(moved(command, &input), wanted, "{command}");
        ran += 1;
    }
    assert_eq!(ran, 11);
}

/// Says that made records moved forward and back are the same, and one chip anywhere stops it.
#[test]
fn made_records_there_and_back() {
    let records = done(&["vectors", "300", "9"], b"");
    let (status, newer, said) = moved("forward", &records);
    assert_eq!((status, &said[..]), (Some(0), "bench: done: records=300\n"));
    assert_eq!(newer.matches("\nchip=0\nkey=").count(), 300);
    let done_again = (
        Some(0),
        records.clone(),
        "bench: done: records=300\n".to_string(),
    );
    assert_eq!(moved("back", &newer), done_again);
    let mut ran = 0;
    for number in [1, 2, 150, 300] {
        let places: Vec<_> = newer.match_indices("chip=0").collect();
        let (place, _) = places[number - 1];
        let input = format!("{}chip=8{}", &newer[..place], &newer[place + 6..]);
        let said = format!("bench: refused: answer=11 record={number}\n");
        assert_eq!(moved("back", &input), (Some(1), String::new(), said));
        ran += 1;
    }
    assert_eq!(ran, 4);
}

/// Says what import and export print, letter for letter, done and refused.
#[test]
fn import_and_export() {
    let zeros = "00".repeat(12);
    let rest = format!("Key = {zeros}\nNonce = {zeros}\nPT = AB\nAD = \nCT = CDEF{zeros}\n\n");
    let [one, two] = [1, 2].map(|count| format!("Count = {count}\n{rest}"));
    let record = format!(
        "set=2\nkey={zeros}\nnonce={zeros}\nad=\ntext=ab\ncipher=cdef\ntag={zeros}\nrounds=24\n"
    );
    let both = one.clone() + &two;
    let import_2: &[&str] = &["import", "2"];
    let cases: [(&[&str], String, &str, &str, i32); 24] = [
        (import_2, String::new(), "", "done: records=0", 0),
        (&["import", "1"], String::new(), "", "done: records=0", 0),
        (&["export"], String::new(), "", "done: records=0", 0),
        (import_2, one.clone(), &record, "done: records=1", 0),
        (
            &["import", "02"],
            one.clone(),
            &record,
            "done: records=1",
            0,
        ),
        (&["export"], record.clone(), &one, "done: records=1", 0),
        (
            import_2,
            both.clone(),
            &record.repeat(2),
            "done: records=2",
            0,
        ),
        (&["export"], record.repeat(2), &both, "done: records=2", 0),
        (
            &["export"],
            record.replace("rounds=24", "rounds=7"),
            &one,
            "done: records=1",
            0,
        ),
        (
            import_2,
            one.clone() + &two.replace("PT = AB", "PT = ABc"),
            "",
            "refused: answer=10 record=2 line=4 column=8",
            1,
        ),
        (
            import_2,
            one.clone() + &two.replace("PT = AB", "PT ="),
            "",
            "refused: answer=10 record=2 line=4 column=5",
            1,
        ),
        (
            import_2,
            two.clone(),
            "",
            "refused: answer=10 record=1 line=1 column=9",
            1,
        ),
        (
            import_2,
            one.trim_end().to_string() + "\n",
            "",
            "refused: answer=10 record=1 line=7 column=1",
            1,
        ),
        (
            &["import", "1"],
            both.clone(),
            "",
            "refused: answer=10 record=1 line=2 column=31",
            1,
        ),
        (
            import_2,
            record.clone(),
            "",
            "refused: answer=10 record=1 line=1 column=1",
            1,
        ),
        (
            &["export"],
            record.clone() + &record.replace("ad=", "ad=abC"),
            "",
            "refused: answer=10 record=2 line=4 column=6",
            1,
        ),
        (
            &["export"],
            record.replace("set=2\n", "form=2\nset=2\nchip=0\n"),
            "",
            "refused: answer=10 record=1 line=1 column=1",
            1,
        ),
        (
            &["export"],
            one.clone(),
            "",
            "refused: answer=10 record=1 line=1 column=1",
            1,
        ),
        (&["import", "0"], both.clone(), "", "refused: answer=1", 1),
        (&["import", "5"], both.clone(), "", "refused: answer=1", 1),
        (&["import", "5"], String::new(), "", "refused: answer=1", 1),
        (&["import", "12"], two.clone(), "", "refused: answer=1", 1),
        (
            &["import", "4294967299"],
            one.clone(),
            "",
            "refused: answer=1",
            1,
        ),
        (
            &["import", "18446744073709551615"],
            one.clone(),
            "",
            "refused: answer=1",
            1,
        ),
    ];
    let mut ran = 0;
    for (words, input, output, said, status) in cases {
        let wanted = (Some(status), output.to_string(), format!("bench: {said}\n"));
        assert_eq!(moved_by(words, &input), wanted, "{words:?}");
        ran += 1;
    }
    assert_eq!(ran, 24);
}

/// The right entries of a message of nothing at all in set 2.
const NOTHING: [&str; 2] = [
    "call=start2\ndata=000102030405060708090a0b101112131415161718191a1b\nanswer=0\nout=\nrounds=12\n",
    "call=finish\ndata=\nanswer=0\nout=0e87aae4e9bb6249b525b394\nrounds=12\n",
];

/// Says what replay prints, letter for letter, for logs that agree, differ or break.
#[test]
fn replay() {
    let log = NOTHING.concat();
    let refused = "call=text\ndata=00\nanswer=7\nout=\nrounds=0\n";
    let cases: [(String, &str, u64, &str, &str, i32); 15] = [
        (String::new(), "", 0, "agrees", "none", 0),
        (log.clone(), "", 2, "agrees", "none", 0),
        (log.repeat(3) + refused, "", 7, "agrees", "none", 0),
        (NOTHING[0].to_string(), "", 1, "agrees", "none", 0),
        (NOTHING[1].to_string(), "", 1, "differs", "answer", 1),
        (log.replace("0e87", "0e86"), "", 2, "differs", "out", 1),
        (log.replace("b394", "b3"), "", 2, "differs", "out", 1),
        (
            log.replace("rounds=12", "rounds=11"),
            "",
            1,
            "differs",
            "rounds",
            1,
        ),
        (
            log.clone() + &refused.replace("7", "99") + "x",
            "",
            3,
            "differs",
            "answer",
            1,
        ),
        (
            "\n".to_string(),
            "bench: entry 1: line 1, column 1\n",
            1,
            "unread",
            "1",
            1,
        ),
        (
            log.clone() + "call=start3\n",
            "bench: entry 3: line 1, column 11\n",
            3,
            "unread",
            "1",
            1,
        ),
        (
            log.replace("data=\n", "data=00\n"),
            "bench: entry 2: line 2, column 6\n",
            2,
            "unread",
            "2",
            1,
        ),
        (
            log.replace("answer=0", "answer=00"),
            "bench: entry 1: line 3, column 9\n",
            1,
            "unread",
            "3",
            1,
        ),
        (
            log.replace("b394", "B394"),
            "bench: entry 2: line 4, column 25\n",
            2,
            "unread",
            "4",
            1,
        ),
        (
            log.trim_end().to_string(),
            "bench: entry 2: line 5, column 10\n",
            2,
            "unread",
            "5",
            1,
        ),
    ];
    let mut ran = 0;
    for (input, fault, entry, verdict, field, status) in cases {
        let report = format!("entry={entry}\nverdict={verdict}\nfield={field}\n");
        let said = format!("{fault}bench: done: entries={entry}\n");
        assert_eq!(moved("replay", &input), (Some(status), report, said));
        ran += 1;
    }
    assert_eq!(ran, 15);
}

/// Says that a replay that can't be told of on standard error is a failed write, even where all agree.
#[test]
fn nowhere_to_tell_of_a_replay() {
    let path = std::path::Path::new(env!("CARGO_TARGET_TMPDIR")).join("log");
    std::fs::write(&path, NOTHING.concat()).expect("a file for the test");
    let output = Command::new(env!("CARGO_BIN_EXE_second"))
        .arg("replay")
        .stdin(Stdio::from(File::open(&path).expect("the file opens")))
        .stdout(Stdio::piped())
        // A file opened for reading takes no output.
        .stderr(Stdio::from(File::open(&path).expect("the file opens")))
        .output()
        .expect("the program starts");
    assert_eq!(output.stdout, b"entry=2\nverdict=agrees\nfield=none\n");
    assert_eq!(output.status.code(), Some(1));
}

/// Says that made entries are right, counted, of the asked set, and the same for the same seed.
#[test]
fn made_entries_there_and_back() {
    let mut ran = 0;
    for (set, other) in [("1", "2"), ("2", "1"), ("3", "2"), ("4", "2"), ("2", "4")] {
        let entries = done(&["entries", set, "300", "42"], b"");
        assert_eq!(entries, done(&["entries", set, "300", "42"], b""));
        assert_ne!(entries, done(&["entries", set, "300", "43"], b""));
        assert_eq!(entries.lines().count(), 300 * 7);
        assert!(entries.starts_with("Count = 1\nKey = "));
        assert!(entries.contains("\n\nCount = 300\nKey = "));
        assert!(entries.contains("\nPT = \n") && entries.contains("\nAD = \n"));
        let (status, records, said) = moved_by(&["import", set], &entries);
        assert_eq!((status, &said[..]), (Some(0), "bench: done: records=300\n"));
        assert_eq!(records.matches(&format!("set={set}\nkey=")).count(), 300);
        let report = done(&["judge"], records.as_bytes());
        assert_eq!(report.matches("verdict=equal\nfield=none\n").count(), 300);
        assert_eq!(moved("export", &records), (Some(0), entries.clone(), said));
        let (status, records, said) = moved_by(&["import", other], &entries);
        assert_eq!((status, &records[..]), (Some(1), ""));
        // The 25th digit of a key of 16 bytes is too many in set 2; a key of set 2 ends before it.
        assert_eq!(
            said,
            "bench: refused: answer=10 record=1 line=2 column=31\n"
        );
        assert_eq!(done(&["entries", set, "0", "1"], b""), "");
        ran += 1;
    }
    assert_eq!(ran, 5);
}

/// Says that the printed case of the rules comes out through the program.
#[test]
fn the_printed_case() {
    let zeros = "00".repeat(16);
    let input =
        format!("set=1\nkey={zeros}\nnonce={zeros}\nad=\ntext=\ncipher=\ntag={zeros}\nrounds=25\n");
    let report = done(&["judge"], input.as_bytes());
    assert_eq!(report, "record=1\nverdict=differs\nfield=rounds\n");
}

/// Says that a broken record is reported as ever, and its line and column told on standard error.
#[test]
fn broken_records() {
    let key = "00".repeat(12);
    let right = done(&["seal", "2", &key, &key, "", ""], b"");
    let equal = |number| format!("record={number}\nverdict=equal\nfield=none\n");
    let unread = |number, line| format!("record={number}\nverdict=unread\nfield={line}\n");
    let cases = [
        (
            "set=1\nkey".to_string(),
            unread(1, 2),
            "bench: record 1: line 2, column 4\n",
        ),
        (
            right.clone() + "set=12\n" + &right,
            equal(1) + &unread(2, 1),
            "bench: record 2: line 1, column 6\n",
        ),
        (
            right.repeat(2) + &right.replace("ad=\n", "ad=0011223344556G77\n"),
            equal(1) + &equal(2) + &unread(3, 4),
            "bench: record 3: line 4, column 17\n",
        ),
        (
            right.replace("rounds=24", "rounds=024"),
            unread(1, 8),
            "bench: record 1: line 8, column 9\n",
        ),
        (
            right.replace('\n', "\r\n"),
            unread(1, 1),
            "bench: record 1: line 1, column 6\n",
        ),
    ];
    let mut ran = 0;
    for (input, report, said) in cases {
        let wanted = (report, said.to_string());
        assert_eq!(judged_broken(input.as_bytes()), wanted);
        ran += 1;
    }
    assert_eq!(ran, 5);
}

/// Says that standard error out of use is a failed write only when there is something to tell on it.
#[test]
fn nowhere_to_tell_a_fault() {
    let key = "00".repeat(12);
    let right = done(&["seal", "2", &key, &key, "", ""], b"");
    let broken = right.clone() + "set=5\n";
    let equal = "record=1\nverdict=equal\nfield=none\n".to_string();
    let unread = equal.clone() + "record=2\nverdict=unread\nfield=1\n";
    let mut ran = 0;
    for (input, report, status) in [(right, equal, 0), (broken, unread, 1)] {
        let path = std::path::Path::new(env!("CARGO_TARGET_TMPDIR")).join("records");
        std::fs::write(&path, input).expect("a file for the test");
        let output = Command::new(env!("CARGO_BIN_EXE_second"))
            .arg("judge")
            .stdin(Stdio::from(File::open(&path).expect("the file opens")))
            .stdout(Stdio::piped())
            // A file opened for reading takes no output.
            .stderr(Stdio::from(File::open(&path).expect("the file opens")))
            .output()
            .expect("the program starts");
        assert_eq!(output.stdout, report.as_bytes());
        assert_eq!(output.status.code(), Some(status));
        ran += 1;
    }
    assert_eq!(ran, 2);
}

/// Gives the value of a line of the given label in the text.
fn value<'a>(text: &'a str, label: &str) -> &'a str {
    let mut lines = text.lines().filter_map(|line| line.strip_prefix(label));
    lines.next().expect("the line is there")
}

/// Says that a sealed record is equal when judged and opens to its text, unless damaged.
#[test]
fn seal_then_open() {
    let mut ran = 0;
    for (set, length) in [("1", 16), ("2", 12), ("3", 16), ("4", 16)] {
        for (ad, text) in [
            ("", ""),
            ("00ff", ""),
            ("", "616263"),
            ("0123456789abcdef", "ee"),
        ] {
            let key = "5a".repeat(length);
            let nonce = "c3".repeat(length);
            let record = done(&["seal", set, &key, &nonce, ad, text], b"");
            let report = done(&["judge"], record.as_bytes());
            assert_eq!(report, "record=1\nverdict=equal\nfield=none\n");
            let (cipher, tag) = (value(&record, "cipher="), value(&record, "tag="));
            let rounds = value(&record, "rounds=");
            let opened = done(&["open", set, &key, &nonce, ad, cipher, tag], b"");
            assert_eq!(opened, format!("answer=0\nrounds={rounds}\ntext={text}\n"));
            let other = "00".repeat(length);
            let refused = done(&["open", set, &key, &nonce, ad, cipher, &other], b"");
            assert_eq!(refused, format!("answer=9\nrounds={rounds}\ntext=\n"));
            ran += 1;
        }
    }
    assert_eq!(ran, 16);
    let refused = done(&["open", "5", "", "", "", "", ""], b"");
    assert_eq!(refused, "answer=1\nrounds=0\ntext=\n");
    let refused = done(&["open", "1", "00", "", "", "", ""], b"");
    assert_eq!(refused, "answer=2\nrounds=0\ntext=\n");
}

/// Says that a cipher cut after right bytes, or with bytes too many, is reported as different.
#[test]
fn ciphers_of_another_length() {
    let mut ran = 0;
    for (set, length) in [("1", 16), ("2", 12), ("3", 16), ("4", 16)] {
        let key = "5a".repeat(length);
        let record = done(&["seal", set, &key, &key, "00ff", "6162636465"], b"");
        let cipher = value(&record, "cipher=");
        let right = format!("cipher={cipher}\n");
        for found in [&cipher[..6], "", &format!("{cipher}00")] {
            let input = record.replace(&right, &format!("cipher={found}\n"));
            let report = done(&["judge"], input.as_bytes());
            assert_eq!(report, "record=1\nverdict=differs\nfield=cipher\n");
            ran += 1;
        }
    }
    assert_eq!(ran, 12);
}

/// Says that the rounds command prints the counted rounds.
#[test]
fn rounds() {
    let cases = [
        (["1", "0", "0"], "24\n"),
        (["1", "7", "7"], "30\n"),
        (["1", "8", "0"], "36\n"),
        (["1", "1", "8"], "36\n"),
        (["2", "16", "15"], "40\n"),
        (["1", "65536", "1048576"], "835614\n"),
        (["3", "8", "0"], "36\n"),
        (["3", "65536", "1048576"], "835614\n"),
        (["4", "16", "15"], "40\n"),
        (["4", "65536", "1048576"], "557088\n"),
    ];
    let mut ran = 0;
    for ([set, ad, text], wanted) in cases {
        assert_eq!(done(&["rounds", set, ad, text], b""), wanted);
        ran += 1;
    }
    assert_eq!(ran, 10);
}

/// Says that a bad command line prints usage on standard error only, with status 2.
#[test]
fn bad_command_lines() {
    let key = "00".repeat(16);
    let cases: [&[&str]; 48] = [
        &[],
        &["replay", "more"],
        &["Replay"],
        &["replay", ""],
        &["import"],
        &["import", "1", "more"],
        &["import", ""],
        &["import", "one"],
        &["import", "+1"],
        &["import", "-1"],
        &["import", " 1"],
        &["import", "1 "],
        &["import", "0x1"],
        &["import", "1.0"],
        &["import", "18446744073709551616"],
        &["import", "99999999999999999999"],
        &["Import", "1"],
        &["export", "1"],
        &["Export"],
        &["entries"],
        &["entries", "1", "5"],
        &["entries", "x", "5", "1"],
        &["entries", "1", "x", "1"],
        &["entries", "1", "5", "x"],
        &["forward", "more"],
        &["back", "more"],
        &["Forward"],
        &["backward"],
        &["vectors2"],
        &["vectors2", "5"],
        &["vectors2", "5", "x"],
        &["help"],
        &["judge", "more"],
        &["Judge"],
        &["seal"],
        &["seal", "1", &key, &key, ""],
        &["seal", "1", &key, &key, "", "", ""],
        &["seal", "one", &key, &key, "", ""],
        &["seal", "1", &key, &key, "0", ""],
        &["seal", "1", &key, &key, "", "AB"],
        &["seal", "1", &key, &key, "", "0g"],
        &["open", "1", &key, &key, "", ""],
        &["vectors", "5"],
        &["vectors", "-5", "1"],
        &["vectors", "", "1"],
        &["rounds", "1", "0"],
        &["rounds", "1", "+1", "0"],
        &["rounds", "1", "0", "99999999999999999999"],
    ];
    let mut ran = 0;
    for arguments in cases {
        let output = run(arguments, b"");
        assert_eq!(output.status.code(), Some(2), "{arguments:?}");
        assert!(output.stdout.is_empty());
        assert!(output.stderr.starts_with(b"usage:"));
        ran += 1;
    }
    assert_eq!(ran, 48);
}

/// Says that refused messages are said on standard error with status 1.
#[test]
fn refused_messages() {
    let key = "00".repeat(16);
    let long = "00".repeat(257);
    let cases: [(&[&str], &str); 10] = [
        (&["entries", "0", "5", "1"], "refused with answer 1"),
        (&["entries", "5", "5", "1"], "refused with answer 1"),
        (&["seal", "5", &key, &key, "", ""], "refused with answer 1"),
        (&["seal", "2", &key, &key, "", ""], "refused with answer 2"),
        (&["seal", "1", &key, "00", "", ""], "refused with answer 3"),
        (&["seal", "1", &key, &key, &long, ""], "too long for line 4"),
        (&["seal", "1", &key, &key, "", &long], "too long for line 5"),
        (&["rounds", "0", "0", "0"], "refused with answer 1"),
        (&["rounds", "1", "65537", "0"], "refused with answer 5"),
        (
            &["rounds", "2", "0", "18446744073709551615"],
            "refused with answer 5",
        ),
    ];
    let mut ran = 0;
    for (arguments, words) in cases {
        let output = run(arguments, b"");
        assert_eq!(output.status.code(), Some(1), "{arguments:?}");
        assert!(output.stdout.is_empty());
        assert!(String::from_utf8_lossy(&output.stderr).contains(words));
        ran += 1;
    }
    assert_eq!(ran, 10);
}

/// Gives an empty file that can be written but not read.
fn write_only() -> File {
    let path = std::path::Path::new(env!("CARGO_TARGET_TMPDIR")).join("write-only");
    File::create(path).expect("a file for the test")
}

/// Says that a failed read is said with a nonzero status and isn't the end of the input.
#[test]
fn failed_reads() {
    let mut ran = 0;
    let commands: [&[&str]; 6] = [
        &["judge"],
        &["replay"],
        &["forward"],
        &["back"],
        &["import", "1"],
        &["export"],
    ];
    for command in commands {
        let folder = File::open(".").expect("the folder opens");
        for input in [folder, write_only()] {
            let output = Command::new(env!("CARGO_BIN_EXE_second"))
                .args(command)
                .stdin(Stdio::from(input))
                .output()
                .expect("the program starts");
            assert_eq!(output.status.code(), Some(1));
            assert!(output.stdout.is_empty());
            assert!(output.stderr.starts_with(b"second: reading failed"));
            ran += 1;
        }
    }
    assert_eq!(ran, 12);
}

/// Says that moved records or a report that can't be written are a failed write, of which nothing else is told.
#[test]
fn results_unwritten() {
    let records = done(&["vectors", "3", "1"], b"");
    let path = std::path::Path::new(env!("CARGO_TARGET_TMPDIR")).join("unwritten");
    let mut ran = 0;
    for (command, input) in [("forward", records), ("replay", NOTHING.concat())] {
        std::fs::write(&path, input).expect("a file for the test");
        let output = Command::new(env!("CARGO_BIN_EXE_second"))
            .arg(command)
            .stdin(Stdio::from(File::open(&path).expect("the file opens")))
            // A file opened for reading takes no output.
            .stdout(Stdio::from(File::open(&path).expect("the file opens")))
            .stderr(Stdio::piped())
            .output()
            .expect("the program starts");
        assert_eq!(output.status.code(), Some(1));
        assert!(output.stderr.starts_with(b"second: writing failed"));
        assert_eq!(
            output.stderr.iter().filter(|byte| **byte == b'\n').count(),
            1
        );
        ran += 1;
    }
    assert_eq!(ran, 2);
}

/// Says that a failed write is said with a nonzero status.
#[test]
fn failed_writes() {
    let cases: [&[&str]; 7] = [
        &["entries", "1", "3", "1"],
        &["entries", "2", "300", "1"],
        &["vectors2", "3", "1"],
        &["vectors", "3", "1"],
        &["vectors", "300", "1"],
        &["rounds", "1", "0", "0"],
        &["open", "5", "", "", "", "", ""],
    ];
    let mut ran = 0;
    for arguments in cases {
        // A file opened for reading takes no output.
        let readable = File::open("Cargo.toml").expect("the file opens");
        let output = Command::new(env!("CARGO_BIN_EXE_second"))
            .args(arguments)
            .stdout(Stdio::from(readable))
            .stderr(Stdio::piped())
            .output()
            .expect("the program starts");
        assert_eq!(output.status.code(), Some(1), "{arguments:?}");
        assert!(output.stderr.starts_with(b"second: writing failed"));
        ran += 1;
    }
    assert_eq!(ran, 7);
}
