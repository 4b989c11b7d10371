//! The command with programs that do not replay as the program does: only a whole and right report with the right last words gives a status below 2, and is printed.

use judging::end::NOT_REPLAYED;
use judging::failing::{unwritable, WRONG_ENDS};
use judging::layout::{lay_out, place};
use judging::program::{run, run_on};
use std::fs::File;
use std::io::{pipe, Write};
use std::path::Path;
use std::process::{Command, Output, Stdio};

/// A program that prints, says and does what the environment tells it.
const PROGRAM: &str = r#"printf '%s' "$PRINTED"
printf '%s' "$SAID" >&2
[ -z "${SIGNAL-}" ] || kill -s "$SIGNAL" $$
exit "${STATUS-0}""#;

/// What is printed and said where twelve entries agree.
const AGREES: [&str; 2] = [
    "entry=12\nverdict=agrees\nfield=none\n",
    "bench: done: entries=12\n",
];

/// What is printed and said where the third entry is broken.
const UNREAD: [&str; 2] = [
    "entry=3\nverdict=unread\nfield=2\n",
    "bench: entry 3: line 2, column 9\nbench: done: entries=3\n",
];

/// What is printed and said where the twelfth entry differs.
const DIFFERS: [&str; 2] = [
    "entry=12\nverdict=differs\nfield=out\n",
    "bench: done: entries=12\n",
];

/// Gives the command with that program, which prints and says this.
fn leaving(command: &Path, [printed, said]: [&str; 2]) -> Command {
    let mut command = Command::new(command);
    command
        .arg("replay")
        .env("PRINTED", printed)
        .env("SAID", said);
    command
}

/// Panics unless the command ends with this status, passes on what the program says, and prints what it prints where the status is below 2, else nothing.
fn ends(command: Command, [printed, said]: [&str; 2], status: i32) -> Output {
    let output = run(command, Stdio::null(), Stdio::piped()).expect("it ends");
    let words = String::from_utf8_lossy(&output.stderr);
    let whole = format!("{printed:?} and {said:?} gave {words:?}");
    assert_eq!(output.status.code(), Some(status), "{whole}");
    assert!(words.starts_with(said), "{whole}");
    assert_eq!(words.contains(NOT_REPLAYED), status == 2, "{whole}");
    if status < 2 {
        assert_eq!(words, said);
    }
    let wanted = if status < 2 { printed } else { "" };
    assert_eq!(String::from_utf8_lossy(&output.stdout), wanted, "{whole}");
    output
}

/// Says that right reports with right last words give the status that they tell, whatever stands before these that isn't the program's own.
#[test]
fn right_ends() {
    let command = lay_out("replay-right", PROGRAM);
    let long = "123456789012345678901234567890";
    let mut ran = 0;
    for (entry, verdict, field, place, status) in [
        ("0", "agrees", "none", "", 0),
        ("1", "agrees", "none", "", 0),
        ("12", "agrees", "none", "", 0),
        ("18446744073709551615", "agrees", "none", "", 0),
        (long, "agrees", "none", "", 0),
        ("1", "differs", "answer", "", 1),
        ("10", "differs", "out", "", 1),
        ("100000", "differs", "rounds", "", 1),
        ("18446744073709551615", "differs", "rounds", "", 1),
        (long, "differs", "out", "", 1),
        ("1", "unread", "1", "line 1, column 1", 1),
        ("2", "unread", "2", "line 2, column 518", 1),
        ("3", "unread", "3", "line 3, column 15", 1),
        ("10", "unread", "4", "line 4, column 5", 1),
        ("100000", "unread", "5", "line 5, column 15", 1),
        (long, "unread", "5", &format!("line 5, column {long}"), 1),
    ] {
        let report = format!("entry={entry}\nverdict={verdict}\nfield={field}\n");
        let fault = match place {
            "" => String::new(),
            _ => format!("bench: entry {entry}: {place}\n"),
        };
        let said = format!("{fault}bench: done: entries={entry}\n");
        for said in [said.clone(), format!("a loader's warning\n\n{said}")] {
            let both = [&report[..], &said];
            ends(leaving(&command, both), both, status);
            ran += 1;
        }
    }
    assert_eq!(ran, 32);
}

/// Says that a report cut at any byte is none, and neither are the last words.
#[test]
fn cut_ends() {
    let command = lay_out("replay-cut", PROGRAM);
    let mut ran = 0;
    for [report, said] in [AGREES, UNREAD, DIFFERS] {
        for length in 0..report.len() {
            let both = [&report[..length], said];
            ends(leaving(&command, both), both, 2);
            ran += 1;
        }
        for length in 0..said.len() {
            let both = [report, &said[..length]];
            ends(leaving(&command, both), both, 2);
            ran += 1;
        }
    }
    assert_eq!(ran, 205);
}

/// Says that what is no report, or not all that is printed, is status 2, though the last words are right.
#[test]
fn wrong_reports() {
    let command = lay_out("replay-reports", PROGRAM);
    let mut ran = 0;
    for printed in [
        "",
        "\n",
        ".",
        "Killed\n",
        // Lines are missing, or there are more.
        "entry=12\nverdict=agrees\n",
        "entry=12\nfield=none\n",
        "verdict=agrees\nfield=none\n",
        "entry=12\nverdict=agrees\nfield=none",
        "\nentry=12\nverdict=agrees\nfield=none\n",
        "entry=12\nverdict=agrees\nfield=none\n\n",
        "entry=12\nverdict=agrees\nfield=none\n.",
        "entry=12\nverdict=agrees\nfield=none\nmore",
        "entry=12\nverdict=agrees\nfield=none\nmore\n",
        "more\nentry=12\nverdict=agrees\nfield=none\n",
        "entry=12\n\nverdict=agrees\nfield=none\n",
        "entry=12\nmore\nverdict=agrees\nfield=none\n",
        "entry=12\nverdict=agrees\nmore\nfield=none\n",
        "entry=12\nverdict=agrees\nfield=none\nentry=12\nverdict=agrees\nfield=none\n",
        "entry=11\nverdict=agrees\nfield=none\nentry=12\nverdict=agrees\nfield=none\n",
        "entry=12\nverdict=differs\nfield=out\nentry=12\nverdict=agrees\nfield=none\n",
        // The lines stand in another order, or have other names.
        "verdict=agrees\nentry=12\nfield=none\n",
        "entry=12\nfield=none\nverdict=agrees\n",
        "record=12\nverdict=agrees\nfield=none\n",
        "entries=12\nverdict=agrees\nfield=none\n",
        "Entry=12\nverdict=agrees\nfield=none\n",
        "entry=12\nVerdict=agrees\nfield=none\n",
        "entry=12\nverdict=agrees\nFIELD=none\n",
        "entry=12 verdict=agrees field=none\n",
        "entry: 12\nverdict: agrees\nfield: none\n",
        "entry=12\r\nverdict=agrees\r\nfield=none\r\n",
        // The number is another, or none.
        "entry=11\nverdict=agrees\nfield=none\n",
        "entry=13\nverdict=agrees\nfield=none\n",
        "entry=0\nverdict=agrees\nfield=none\n",
        "entry=120\nverdict=agrees\nfield=none\n",
        "entry=1\nverdict=agrees\nfield=none\n",
        "entry=012\nverdict=agrees\nfield=none\n",
        "entry=\nverdict=agrees\nfield=none\n",
        "entry= 12\nverdict=agrees\nfield=none\n",
        "entry=12 \nverdict=agrees\nfield=none\n",
        "entry=+12\nverdict=agrees\nfield=none\n",
        "entry=0xc\nverdict=agrees\nfield=none\n",
        "entry=*\nverdict=agrees\nfield=none\n",
        "entry=??\nverdict=agrees\nfield=none\n",
        // The verdict is none, or has another field.
        "entry=12\nverdict=\nfield=none\n",
        "entry=12\nverdict=agree\nfield=none\n",
        "entry=12\nverdict=agreess\nfield=none\n",
        "entry=12\nverdict=Agrees\nfield=none\n",
        "entry=12\nverdict=agrees \nfield=none\n",
        "entry=12\nverdict=equal\nfield=none\n",
        "entry=12\nverdict=*\nfield=none\n",
        "entry=12\nverdict=agrees\nfield=\n",
        "entry=12\nverdict=agrees\nfield=answer\n",
        "entry=12\nverdict=agrees\nfield=1\n",
        "entry=12\nverdict=agrees\nfield=none \n",
        "entry=12\nverdict=agrees\nfield=*\n",
        "entry=12\nverdict=differs\nfield=\n",
        "entry=12\nverdict=differs\nfield=none\n",
        "entry=12\nverdict=differs\nfield=tag\n",
        "entry=12\nverdict=differs\nfield=cipher\n",
        "entry=12\nverdict=differs\nfield=data\n",
        "entry=12\nverdict=differs\nfield=3\n",
        "entry=12\nverdict=differs\nfield=answer,out\n",
        "entry=12\nverdict=agrees,none\nfield=\n",
        "entry=12\nverdict=differs,out\nfield=\n",
        // An unread entry's place is not said.
        "entry=12\nverdict=unread\nfield=2\n",
        "entry=12\nverdict=unread\nfield=none\n",
        "entry=12\nverdict=unread\nfield=\n",
    ] {
        let both = [printed, AGREES[1]];
        ends(leaving(&command, both), both, 2);
        ran += 1;
    }
    assert_eq!(ran, 67);
}

/// Says that a number which is none is status 2, though it stands in both.
#[test]
fn wrong_numbers() {
    let command = lay_out("replay-numbers", PROGRAM);
    let mut ran = 0;
    for number in [
        "", "00", "012", "-1", "+1", " 1", "1 ", "1 2", "1.", "1,", "0x1", "x", "*", "?", "1\r",
    ] {
        for verdict in ["agrees\nfield=none", "differs\nfield=out"] {
            let printed = format!("entry={number}\nverdict={verdict}\n");
            let said = format!("bench: done: entries={number}\n");
            ends(leaving(&command, [&printed, &said]), [&printed, &said], 2);
            ran += 1;
        }
    }
    assert_eq!(ran, 30);
}

/// Says that no entry before the first differs or is unread, and that an unread one's line is that of its place.
#[test]
fn wrong_places() {
    let command = lay_out("replay-places", PROGRAM);
    let mut ran = 0;
    for [printed, said] in [
        [
            "entry=0\nverdict=differs\nfield=out\n",
            "bench: done: entries=0\n",
        ],
        [
            "entry=0\nverdict=unread\nfield=1\n",
            "bench: entry 0: line 1, column 1\nbench: done: entries=0\n",
        ],
    ] {
        ends(leaving(&command, [printed, said]), [printed, said], 2);
        ran += 1;
    }
    for field in [
        "0", "1", "3", "6", "10", "02", "2 ", " 2", "22", "*", "?", "none", "data", "",
    ] {
        let printed = format!("entry=3\nverdict=unread\nfield={field}\n");
        let both = [&printed[..], UNREAD[1]];
        ends(leaving(&command, both), both, 2);
        ran += 1;
    }
    for verdict in [
        "unread,", "unread ", " unread", "Unread", "unreads", "unrea", "*", "", "agrees", "differs",
    ] {
        let printed = format!("entry=3\nverdict={verdict}\nfield=2\n");
        let both = [&printed[..], UNREAD[1]];
        ends(leaving(&command, both), both, 2);
        ran += 1;
    }
    for printed in [
        "entry=3\nverdict=unread,2\nfield=\n",
        "entry=3\nverdict=agrees\nfield=none\n",
        "entry=3\nverdict=differs\nfield=out\n",
    ] {
        let both = [printed, UNREAD[1]];
        ends(leaving(&command, both), both, 2);
        ran += 1;
    }
    for place in [
        "",
        "bench: entry 2: line 2, column 9\n",
        "bench: entry 4: line 2, column 9\n",
        "bench: entry 03: line 2, column 9\n",
        "bench: entry 33: line 2, column 9\n",
        "bench: entry : line 2, column 9\n",
        "bench: entry *: line 2, column 9\n",
        "bench: record 3: line 2, column 9\n",
        "bench: entry 3: line 1, column 9\n",
        "bench: entry 3: line 3, column 9\n",
        "bench: entry 3: line 02, column 9\n",
        "bench: entry 3: line 22, column 9\n",
        "bench: entry 3: line ?, column 9\n",
        "bench: entry 3: line , column 9\n",
        "bench: entry 3: line 2, column 0\n",
        "bench: entry 3: line 2, column 09\n",
        "bench: entry 3: line 2, column -9\n",
        "bench: entry 3: line 2, column \n",
        "bench: entry 3: line 2, column 9 \n",
        "bench: entry 3: line 2, column 9.\n",
        "bench: entry 3: line 2, column 9\r\n",
        "bench: entry 3: line 2 column 9\n",
        "bench: entry 3: line=2 column=9\n",
        "bench: entry 3: column 9, line 2\n",
        "bench: entry 3: line 2\n",
        "bench: Entry 3: line 2, column 9\n",
        " bench: entry 3: line 2, column 9\n",
        "entry 3: line 2, column 9\n",
        // Another line stands between the two.
        "bench: entry 3: line 2, column 9\n\n",
        "bench: entry 3: line 2, column 9\na loader's warning\n",
        // The program says more than that.
        "bench: entry 3: line 2, column 9\nbench: entry 3: line 2, column 9\n",
        "bench: writing failed: Broken pipe\nbench: entry 3: line 2, column 9\n",
        "bench: done: entries=3\nbench: entry 3: line 2, column 9\n",
    ] {
        let said = format!("{place}bench: done: entries=3\n");
        let both = [UNREAD[0], &said];
        ends(leaving(&command, both), both, 2);
        ran += 1;
    }
    // An entry has five lines.
    for line in ["0", "6", "9", "10", "55"] {
        let printed = format!("entry=3\nverdict=unread\nfield={line}\n");
        let said = format!("bench: entry 3: line {line}, column 9\nbench: done: entries=3\n");
        ends(leaving(&command, [&printed, &said]), [&printed, &said], 2);
        ran += 1;
    }
    assert_eq!(ran, 67);
}

/// Says that any other last line, or another one of the program's own before it, is status 2, though the report is right.
#[test]
fn wrong_words() {
    let command = lay_out("replay-words", PROGRAM);
    let mut ran = 0;
    for said in [
        "",
        "\n",
        "Killed\n",
        "bench: reading failed: Input/output error\n",
        "bench: writing failed: No space left on device\n",
        "bench: too many entries\n",
        "bench: too many turns\n",
        "bench: unknown task\n",
        // The end of another task.
        "bench: 12 records: 12 equal, 0 differ, 0 unread\n",
        "bench: done: records=12\n",
        "bench: refused: answer=10 record=12 line=1 column=1\n",
        "bench: refused: answer=1\n",
        // The number is another, or none.
        "bench: done: entries=11\n",
        "bench: done: entries=13\n",
        "bench: done: entries=0\n",
        "bench: done: entries=1\n",
        "bench: done: entries=120\n",
        "bench: done: entries=012\n",
        "bench: done: entries=\n",
        "bench: done: entries=-12\n",
        "bench: done: entries=+12\n",
        "bench: done: entries= 12\n",
        "bench: done: entries=12 \n",
        "bench: done: entries=12.\n",
        "bench: done: entries=12\r\n",
        "bench: done: entries=*\n",
        // The line has another form.
        "bench: done: entry=12\n",
        "bench: done: 12\n",
        "bench: done\n",
        "bench: done entries=12\n",
        "bench:  done: entries=12\n",
        " bench: done: entries=12\n",
        "Bench: done: entries=12\n",
        "done: entries=12\n",
        "bench: bench: done: entries=12\n",
        // It is not the last, not alone, or not ended.
        "bench: done: entries=12",
        "bench: done: entries=12\n\n",
        "bench: done: entries=12\n ",
        "bench: done: entries=12\nmore\n",
        "bench: done: entries=12\nbench: done: entries=12\n",
        "bench: done: entries=11\nbench: done: entries=12\n",
        "bench: done: entries=12\nbench: writing failed: Broken pipe\n",
        "bench: writing failed: Broken pipe\nbench: done: entries=12\n",
        "bench: entry 12: line 2, column 9\nbench: done: entries=12\n",
        // What belongs on standard output is said.
        "entry=12\nverdict=agrees\nfield=none\n",
        "bench: done: entries=12\n\n12\nagrees\nnone\n",
    ] {
        for [printed, _] in [AGREES, DIFFERS] {
            ends(leaving(&command, [printed, said]), [printed, said], 2);
            ran += 1;
        }
    }
    assert_eq!(ran, 92);
}

/// Says that a report which is said, all of it or a part, is not printed.
#[test]
fn reports_on_the_wrong_stream() {
    let command = lay_out("replay-wrong-stream", PROGRAM);
    let mut ran = 0;
    for (report, said) in [(AGREES[0], AGREES[1]), (DIFFERS[0], DIFFERS[1])] {
        for length in 0..report.len() {
            let (printed, rest) = report.split_at(length);
            for words in [
                format!("{rest}{said}"),
                format!("{rest}\n{said}"),
                format!("{said}{rest}"),
                format!("{said}\n{rest}"),
            ] {
                ends(leaving(&command, [printed, &words]), [printed, &words], 2);
                ran += 1;
            }
        }
        let all = format!("{report}{said}");
        ends(leaving(&command, [&all, ""]), [&all, ""], 2);
        ends(leaving(&command, [&all, said]), [&all, said], 2);
        ran += 2;
    }
    assert_eq!(ran, 284);
}

/// Says that a program which ends with a status or by a signal has not come to its end, though it said so.
#[test]
fn wrong_statuses() {
    let command = lay_out("replay-statuses", PROGRAM);
    let mut ran = 0;
    for (name, value) in WRONG_ENDS {
        for both in [AGREES, DIFFERS, UNREAD, ["", ""]] {
            let mut command = leaving(&command, both);
            command.env(name, value);
            ends(command, both, 2);
            ran += 1;
        }
    }
    assert_eq!(ran, 28);
}

/// Says that a right report or right words which can't be passed on are status 2, and that the words are not said without the report.
#[test]
fn what_cannot_be_passed_on() {
    let command = lay_out("replay-passing", PROGRAM);
    let mut ran = 0;
    for both in [AGREES, DIFFERS, UNREAD] {
        for stream in [1, 2] {
            for closed in unwritable() {
                let command = leaving(&command, both);
                let output = match stream {
                    1 => run(command, Stdio::null(), closed),
                    _ => run_on(command, Stdio::null(), Stdio::piped(), closed),
                };
                let output = output.expect("it ends");
                assert_eq!(output.status.code(), Some(2));
                let said = String::from_utf8_lossy(&output.stderr);
                if stream == 1 {
                    assert_eq!(said, format!("bench: writing failed\n{NOT_REPLAYED}\n"));
                }
                ran += 1;
            }
        }
        for (script, stderr) in [
            (r#"exec "$0" replay 2>&-"#, Stdio::null()),
            (
                r#"ulimit -f 0; exec "$0" replay"#,
                Stdio::from(File::create(place("replay-no-room")).expect("a file for the test")),
            ),
        ] {
            let mut shell = Command::new("sh");
            shell.args(["-c", script]).arg(&command);
            shell.env("PRINTED", both[0]).env("SAID", both[1]);
            let output = run_on(shell, Stdio::null(), Stdio::null(), stderr).expect("it ends");
            assert_eq!(output.status.code(), Some(2), "{script}");
            ran += 1;
        }
    }
    assert_eq!(ran, 24);
}

/// Says that the program gets the one word, the input of the command, and no other stream than the three.
#[test]
fn what_the_program_gets() {
    let script = r#"printf '%s,' "$@" >&2
printf '\n%s\n' "$(cat)" >&2
for number in 3 4 5 6 7 8 9; do
    (: >&"$number") 2>/dev/null && echo "bench: $number is open" >&2
done
printf 'entry=0\nverdict=agrees\nfield=none\n'
echo 'bench: done: entries=0' >&2"#;
    let command = lay_out("replay-gets", script);
    let mut ran = 0;
    for words in [&["replay"][..], &["replay", "-"], &["replay", "--", "-"]] {
        let mut command = Command::new(&command);
        command.args(words);
        let (input, mut writer) = pipe().expect("a pipe");
        writer.write_all(b"a log").expect("the pipe has room");
        drop(writer);
        let output = run(command, input, Stdio::piped()).expect("it ends");
        let said = String::from_utf8_lossy(&output.stderr);
        assert_eq!(said, "bench,replay,\na log\nbench: done: entries=0\n");
        assert_eq!(output.status.code(), Some(0));
        ran += 1;
    }
    assert_eq!(ran, 3);
}
