//! The command with programs that do not end as the program does: only a whole and right last line gives a status below 2.

use judging::classes::many;
use judging::end::broken_off;
use judging::failing::{unwritable, WRONG_ENDS};
use judging::layout::{file_of, lay_out, place};
use judging::program::{run, run_on, Task, Tried};
use second::judge::judge_all;
use second::moving::Direction::{Back, Forward};
use std::fs::File;
use std::path::PathBuf;
use std::process::{Command, Output, Stdio};

/// A program that prints a report on two records and then says and does what the environment tells it.
const PROGRAM: &str = r#"printf 'record=1\nverdict=equal\nfield=none\nrecord=2\nverdict=equal\nfield=none\n'
printf '%s' "$SAID" >&2
[ -z "${SIGNAL-}" ] || kill -s "$SIGNAL" $$
exit "${STATUS-0}""#;

/// The end's line of that report.
const RIGHT: &str = "bench: 2 records: 2 equal, 0 differ, 0 unread\n";

/// The last lines of a report with an unread record: its place, and the end's line.
const UNREAD: [&str; 2] = [
    "bench: record 3: line 4, column 17\n",
    "bench: 3 records: 2 equal, 0 differ, 1 unread\n",
];

/// The last line where twelve records were moved.
const DONE: &str = "bench: done: records=12\n";

/// The last lines where a record was refused: it is broken, or of another chip than 0.
const REFUSED: [&str; 2] = [
    "bench: refused: answer=10 record=2 line=4 column=17\n",
    "bench: refused: answer=11 record=12\n",
];

/// The last line where there is no such set.
const NO_SET: &str = "bench: refused: answer=1\n";

/// The tasks, by what their last lines can be.
const FORWARD: Task = Task::Move(Forward);
const BACK: Task = Task::Move(Back);
const IMPORT: Task = Task::Import(1);
const EXPORT: Task = Task::Export;

/// Gives the command with that program, which says this.
fn saying(command: &PathBuf, said: &str) -> Command {
    saying_to(Task::Judge, command, said)
}

/// Gives the command with this task and that program, which says this.
fn saying_to(task: Task, command: &PathBuf, said: &str) -> Command {
    let mut command = Command::new(command);
    command.args(task.words()).env("SAID", said);
    command
}

/// Panics unless the command ends with this status, and passes on what the program says before anything of its own.
fn ends(command: Command, said: &str, status: i32) -> Output {
    ends_to(Task::Judge, command, said, status)
}

/// Panics unless the command with this task ends with this status, and passes on what the program says before anything of its own.
fn ends_to(task: Task, command: Command, said: &str, status: i32) -> Output {
    let output = run(command, Stdio::null(), Stdio::piped()).expect("it ends");
    let words = String::from_utf8_lossy(&output.stderr);
    assert_eq!(output.status.code(), Some(status), "{words}");
    assert!(words.starts_with(said), "{words}");
    assert_eq!(words.contains(broken_off(task)), status == 2, "{words}");
    output
}

/// Says that the program itself, run in this way, has the end that the others lack.
#[test]
fn the_program_itself() {
    let command = lay_out("unfinished-right", &Tried::Program.script());
    let records = many(3);
    let input = file_of("unfinished-records", &records);
    let output = run(Command::new(command), input, Stdio::piped()).expect("it ends");
    assert_eq!(output.stdout, judge_all(&records));
    assert_eq!(output.status.code(), Some(1));
}

/// Says that right end's lines give the status that they tell, whatever stands before them.
#[test]
fn right_lines() {
    let command = lay_out("unfinished-right-lines", PROGRAM);
    let mut ran = 0;
    for (said, status) in [
        (RIGHT, 0),
        ("bench: 0 records: 0 equal, 0 differ, 0 unread\n", 0),
        ("bench: 1 records: 1 equal, 0 differ, 0 unread\n", 0),
        ("bench: 1 records: 0 equal, 1 differ, 0 unread\n", 1),
        (
            "bench: record 1: line 1, column 1\nbench: 1 records: 0 equal, 0 differ, 1 unread\n",
            1,
        ),
        (
            "bench: record 1: line 9, column 1\nbench: 1 records: 0 equal, 0 differ, 1 unread\n",
            1,
        ),
        (
            "bench: record 12: line 10, column 15\nbench: 12 records: 9 equal, 2 differ, 1 unread\n",
            1,
        ),
        (
            "bench: record 6000: line 8, column 15\nbench: 6000 records: 5990 equal, 9 differ, 1 unread\n",
            1,
        ),
        ("bench: 1000 records: 999 equal, 1 differ, 0 unread\n", 1),
        (
            "bench: 18446744073709551615 records: 18446744073709551615 equal, 0 differ, 0 unread\n",
            0,
        ),
        (
            "bench: record 18446744073709551615: line 2, column 18446744073709551615\n\
             bench: 18446744073709551615 records: 18446744073709551613 equal, 1 differ, 1 unread\n",
            1,
        ),
        (
            "a loader's warning\nbench: 2 records: 2 equal, 0 differ, 0 unread\n",
            0,
        ),
        (&format!("a loader's warning\n{}", UNREAD.concat()), 1),
    ] {
        ends(saying(&command, said), said, status);
        ran += 1;
    }
    assert_eq!(ran, 13);
}

/// Says that the end's line cut at any byte is none, and that the place of an unread record before it is none either.
#[test]
fn cut_lines() {
    let command = lay_out("unfinished-cut", PROGRAM);
    let [place, end] = UNREAD;
    let mut cut = Vec::new();
    cut.extend((0..RIGHT.len()).map(|length| RIGHT[..length].to_string()));
    cut.extend((0..end.len()).map(|length| [place, &end[..length]].concat()));
    cut.extend((0..place.len()).map(|length| [&place[..length], end].concat()));
    // With its line feed, and without the last digit alone, it is another place.
    cut.extend((0..place.len() - 2).map(|length| [&place[..length], "\n", end].concat()));
    let mut ran = 0;
    for said in &cut {
        ends(saying(&command, said), said, 2);
        ran += 1;
    }
    assert_eq!(ran, 160);
}

/// Says that the place of an unread record has one form, stands once and right before the end's line, and only where that counts one.
#[test]
fn wrong_places() {
    let command = lay_out("unfinished-places", PROGRAM);
    let [place, end] = UNREAD;
    let mut ran = 0;
    for said in [
        "",
        "bench: record 2: line 4, column 17\n",
        "bench: record 4: line 4, column 17\n",
        "bench: record 03: line 4, column 17\n",
        "bench: record 30: line 4, column 17\n",
        "bench: record : line 4, column 17\n",
        "bench: record *: line 4, column 17\n",
        "bench: record 3: line 0, column 17\n",
        "bench: record 3: line 11, column 17\n",
        "bench: record 3: line 100, column 17\n",
        "bench: record 3: line 010, column 17\n",
        "bench: record 3: line 04, column 17\n",
        "bench: record 3: line 14, column 17\n",
        "bench: record 3: line 44, column 17\n",
        "bench: record 3: line , column 17\n",
        "bench: record 3: line ?, column 17\n",
        "bench: record 3: line 4, column 0\n",
        "bench: record 3: line 4, column 00\n",
        "bench: record 3: line 4, column 017\n",
        "bench: record 3: line 4, column -1\n",
        "bench: record 3: line 4, column +1\n",
        "bench: record 3: line 4, column 1 7\n",
        "bench: record 3: line 4, column 0x11\n",
        "bench: record 3: line 4, column \n",
        "bench: record 3: line 4, column 17 \n",
        "bench: record 3: line 4, column 17.\n",
        "bench: record 3: line 4, column 17\r\n",
        "bench: record 3: line 4, column  17\n",
        "bench: record 3: line 4 column 17\n",
        "bench: record 3, line 4, column 17\n",
        "bench: record 3: column 17, line 4\n",
        "bench: record 3: line 4\n",
        "bench: Record 3: line 4, column 17\n",
        "bench:  record 3: line 4, column 17\n",
        " bench: record 3: line 4, column 17\n",
        "record 3: line 4, column 17\n",
        "17\n",
        "bench: reading failed: Input/output error\n",
        // Another line stands between the two.
        "bench: record 3: line 4, column 17\n\n",
        "bench: record 3: line 4, column 17\na loader's warning\n",
        // The program says more than that.
        "bench: record 3: line 4, column 17\nbench: record 3: line 4, column 17\n",
        "bench: record 3: line 4, column 18\nbench: record 3: line 4, column 17\n",
        "bench: writing failed: Broken pipe\nbench: record 3: line 4, column 17\n",
        "bench: 3 records: 2 equal, 0 differ, 1 unread\nbench: record 3: line 4, column 17\n",
    ] {
        let said = [said, end].concat();
        ends(saying(&command, &said), &said, 2);
        ran += 1;
    }
    for said in [
        [place, RIGHT].concat(),
        [&place.replace('3', "2"), RIGHT].concat(),
        [end, place].concat(),
        [place, end, place].concat(),
        [RIGHT, place].concat(),
        place.to_string(),
    ] {
        ends(saying(&command, &said), &said, 2);
        ran += 1;
    }
    assert_eq!(ran, 50);
}

/// Says that lines which are no end's line, or not the last, or whose counts don't fit, are status 2.
#[test]
fn wrong_lines() {
    let command = lay_out("unfinished-wrong", PROGRAM);
    let mut ran = 0;
    for said in [
        "bench: reading failed: Input/output error\n",
        "bench: writing failed: No space left on device\n",
        "bench: too many records\n",
        "Killed\n",
        "\n",
        // The line isn't the last, or isn't alone.
        "bench: 2 records: 2 equal, 0 differ, 0 unread\n\n",
        "bench: 2 records: 2 equal, 0 differ, 0 unread\n ",
        "bench: 2 records: 2 equal, 0 differ, 0 unread\nbench: writing failed: Broken pipe\n",
        "bench: 2 records: 2 equal, 0 differ, 0 unread\nmore\n",
        "bench: writing failed: Broken pipe\nbench: 2 records: 2 equal, 0 differ, 0 unread\n",
        "bench: 2 records: 2 equal, 0 differ, 0 unread\nbench: 2 records: 2 equal, 0 differ, 0 unread\n",
        // The line has another form.
        " bench: 2 records: 2 equal, 0 differ, 0 unread\n",
        "bench: 2 records: 2 equal, 0 differ, 0 unread \n",
        "bench: 2 records: 2 equal, 0 differ, 0 unread\r\n",
        "bench:  2 records: 2 equal, 0 differ, 0 unread\n",
        "bench: 2\trecords: 2 equal, 0 differ, 0 unread\n",
        "bench: 2 records: 2 equal 0 differ 0 unread\n",
        "bench: 2 records: 2 equal, 0 differ, 0 unread.\n",
        "bench: 2 records: 2 equal, 0 differ\n",
        "bench: 2 records\n",
        "bench: 2 record: 2 equal, 0 differ, 0 unread\n",
        "Bench: 2 records: 2 equal, 0 differ, 0 unread\n",
        "2 records: 2 equal, 0 differ, 0 unread\n",
        "bench: bench: 2 records: 2 equal, 0 differ, 0 unread\n",
        // The counts are no decimals.
        "bench: 02 records: 2 equal, 0 differ, 0 unread\n",
        "bench: 2 records: 02 equal, 0 differ, 0 unread\n",
        "bench: 2 records: 2 equal, 00 differ, 0 unread\n",
        "bench: 2 records: 2 equal, -0 differ, 0 unread\n",
        "bench: +2 records: 2 equal, 0 differ, 0 unread\n",
        "bench: 0x2 records: 0x2 equal, 0 differ, 0 unread\n",
        "bench: two records: two equal, 0 differ, 0 unread\n",
        "bench: * records: * equal, 0 differ, 0 unread\n",
        "bench:  records:  equal, 0 differ, 0 unread\n",
        "bench: 2 records: 2 equal,  differ, 0 unread\n",
        // The counts don't fit each other.
        "bench: 3 records: 2 equal, 0 differ, 0 unread\n",
        "bench: 1 records: 2 equal, 0 differ, 0 unread\n",
        "bench: 2 records: 0 equal, 0 differ, 0 unread\n",
        "bench: 0 records: 0 equal, 1 differ, 0 unread\n",
        "bench: 3 records: 2 equal, 2 differ, 0 unread\n",
        "bench: 3 records: 1 equal, 0 differ, 2 unread\n",
        "bench: 20 records: 2 equal, 0 differ, 0 unread\n",
        "bench: 0 records: 18446744073709551615 equal, 1 differ, 0 unread\n",
        "bench: 1 records: 18446744073709551616 equal, 1 differ, 0 unread\n",
        "bench: 18446744073709551616 records: 0 equal, 0 differ, 0 unread\n",
        "bench: 9223372036854775808 records: 9223372036854775807 equal, 0 differ, 0 unread\n",
        "bench: 18446744073709551615 records: 18446744073709551614 equal, 0 differ, 0 unread\n",
    ] {
        ends(saying(&command, said), said, 2);
        ran += 1;
    }
    assert_eq!(ran, 46);
}

/// Says that a program which ends with a status or by a signal has not come to its end, though it said so.
#[test]
fn wrong_ends() {
    let command = lay_out("unfinished-ends", PROGRAM);
    let mut ran = 0;
    for (name, value) in WRONG_ENDS {
        for (task, said) in [
            (Task::Judge, RIGHT),
            (FORWARD, DONE),
            (BACK, DONE),
            (IMPORT, DONE),
            (IMPORT, NO_SET),
            (EXPORT, DONE),
        ] {
            let mut command = saying_to(task, &command, said);
            command.env(name, value);
            ends_to(task, command, said, 2);
            ran += 1;
        }
    }
    assert_eq!(ran, 42);
}

/// Says that a right line which can't be passed on is status 2.
#[test]
fn lines_that_cannot_be_passed_on() {
    let command = lay_out("unfinished-passing", PROGRAM);
    let mut ran = 0;
    for (task, said) in [(Task::Judge, RIGHT), (BACK, DONE), (IMPORT, NO_SET)] {
        for stderr in unwritable() {
            let command = saying_to(task, &command, said);
            let output = run_on(command, Stdio::null(), Stdio::null(), stderr).expect("it ends");
            assert_eq!(output.status.code(), Some(2));
            ran += 1;
        }
        for (script, stderr) in [
            (r#"exec "$0" "$@" 2>&-"#, Stdio::null()),
            (r#"ulimit -f 0; exec "$0" "$@""#, Stdio::from(limited())),
        ] {
            let mut shell = Command::new("sh");
            shell.args(["-c", script]).arg(&command);
            shell.args(task.words()).env("SAID", said);
            let output = run_on(shell, Stdio::null(), Stdio::null(), stderr).expect("it ends");
            assert_eq!(output.status.code(), Some(2), "{script}");
            ran += 1;
        }
    }
    assert_eq!(ran, 15);
}

/// Gives an empty file.
fn limited() -> File {
    File::create(place("unfinished-limited")).expect("a file for the test")
}

/// Says that the folder for temporary files doesn't matter.
#[test]
fn no_temporary_files() {
    let command = lay_out("unfinished-temporary", PROGRAM);
    let mut ran = 0;
    for folder in ["/dev/full", "/no/such/folder", "/proc", ""] {
        let mut command = saying(&command, RIGHT);
        command.env("TMPDIR", folder);
        let output = ends(command, RIGHT, 0);
        assert_eq!(output.stderr, RIGHT.as_bytes());
        ran += 1;
    }
    assert_eq!(ran, 4);
}

/// Says that a program, or what runs it, which is missing or can't be run is status 2.
#[test]
fn missing_parts() {
    let mut ran = 0;
    for (name, script) in [
        ("host-run", r#"rm "$0/host/run""#),
        ("host", r#"rm -r "$0/host""#),
        ("right", r#"chmod -x "$0/host/run""#),
        ("interpreter", r#"echo '#!/no/such/shell' >"$0/host/run""#),
        ("loader", r#"echo 'exec /no/such/loader' >"$0/host/run""#),
    ] {
        let command = lay_out(&format!("unfinished-without-{name}"), PROGRAM);
        let folder = command.parent().expect("a folder");
        let shell = Command::new("sh").args(["-c", script]).arg(folder).status();
        assert!(shell.expect("the shell starts").success());
        let output = ends(saying(&command, RIGHT), "", 2);
        assert!(output.stdout.is_empty(), "{name}");
        ran += 1;
    }
    assert_eq!(ran, 5);
}

/// Says that what the program says at the end of a moving gives the status that it tells, whatever stands before it that isn't the program's own.
#[test]
fn right_lines_of_a_moving() {
    let command = lay_out("unfinished-moving-right", PROGRAM);
    let [broken, chip] = REFUSED;
    let mut ran = 0;
    for (tasks, said, status) in [
        (&Task::MOVES[..], DONE, 0),
        (&Task::MOVES, "bench: done: records=0\n", 0),
        (
            &Task::MOVES,
            "bench: done: records=18446744073709551615\n",
            0,
        ),
        (
            &Task::MOVES,
            "a loader's warning\nbench: done: records=1\n",
            0,
        ),
        (&Task::MOVES, broken, 1),
        (
            &Task::MOVES,
            "bench: refused: answer=10 record=1 line=1 column=1\n",
            1,
        ),
        (
            &Task::MOVES,
            "bench: refused: answer=10 record=6000 line=7 column=1\n",
            1,
        ),
        (
            &[FORWARD, BACK, EXPORT],
            "bench: refused: answer=10 record=6000 line=8 column=15\n",
            1,
        ),
        (
            &[BACK],
            "bench: refused: answer=10 record=1 line=9 column=5\n",
            1,
        ),
        (
            &[BACK],
            "bench: refused: answer=10 record=1 line=10 column=15\n",
            1,
        ),
        (&[BACK], chip, 1),
        (&[BACK], "bench: refused: answer=11 record=1\n", 1),
        (
            &[BACK],
            "a loader's warning\nbench: refused: answer=11 record=1\n",
            1,
        ),
        (&[IMPORT, Task::Import(5)], NO_SET, 1),
        (
            &[IMPORT],
            "a loader's warning\nbench: refused: answer=1\n",
            1,
        ),
    ] {
        for task in tasks {
            let output = ends_to(*task, saying_to(*task, &command, said), said, status);
            assert_eq!(output.stderr, said.as_bytes());
            ran += 1;
        }
    }
    assert_eq!(ran, 39);
}

/// Says that the last line of a moving cut at any byte is none, be it with a line feed behind it.
#[test]
fn cut_lines_of_a_moving() {
    let command = lay_out("unfinished-moving-cut", PROGRAM);
    let mut ran = 0;
    for (task, lines) in [
        (BACK, [DONE, REFUSED[0], REFUSED[1]]),
        (IMPORT, [DONE, REFUSED[0], NO_SET]),
    ] {
        let mut cut = Vec::new();
        for line in lines {
            cut.extend((0..line.len()).map(|length| line[..length].to_string()));
            // Without its last digit alone it may be another number.
            cut.extend((0..line.len() - 2).map(|length| format!("{}\n", &line[..length])));
        }
        // An answer 10 can be cut so that it is all of another line.
        cut.retain(|said| task != IMPORT || said != NO_SET);
        for said in &cut {
            ends_to(task, saying_to(task, &command, said), said, 2);
            ran += 1;
        }
    }
    assert_eq!(ran, 413);
}

/// Says that any other line, or another one of the program's own before it, is status 2.
#[test]
fn wrong_lines_of_a_moving() {
    let command = lay_out("unfinished-moving-wrong", PROGRAM);
    let mut ran = 0;
    for said in [
        "",
        "\n",
        "Killed\n",
        "bench: reading failed: Input/output error\n",
        "bench: writing failed: No space left on device\n",
        "bench: the input has more than 1048576 bytes\n",
        "bench: unknown task\n",
        "bench: too many turns\n",
        // The end of another task.
        RIGHT,
        "bench: 0 records: 0 equal, 0 differ, 0 unread\n",
        "bench: record 1: line 1, column 1\nbench: 1 records: 0 equal, 0 differ, 1 unread\n",
        // The number of records is none.
        "bench: done: records=\n",
        "bench: done: records=02\n",
        "bench: done: records=00\n",
        "bench: done: records=-1\n",
        "bench: done: records=+1\n",
        "bench: done: records=0x2\n",
        "bench: done: records=two\n",
        "bench: done: records=*\n",
        "bench: done: records=1 \n",
        "bench: done: records= 1\n",
        "bench: done: records=1 2\n",
        "bench: done: records=1.\n",
        "bench: done: records=1\r\n",
        // The line has another form.
        "bench: done: record=2\n",
        "bench: done: 2\n",
        "bench: done:\n",
        "bench: done\n",
        "bench: done records=2\n",
        "bench: done:  records=2\n",
        "bench:  done: records=2\n",
        " bench: done: records=2\n",
        "Bench: done: records=2\n",
        "done: records=2\n",
        "bench: bench: done: records=2\n",
        "bench: refused: done: records=2\n",
        // The answer is no refusal of a moving.
        "bench: refused: answer=0 record=2\n",
        "bench: refused: answer=6 record=2\n",
        "bench: refused: answer=1 record=2 line=4 column=17\n",
        "bench: refused: answer=12 record=2\n",
        "bench: refused: answer=100 record=2 line=4 column=17\n",
        "bench: refused: answer=010 record=2 line=4 column=17\n",
        "bench: refused: answer= record=2 line=4 column=17\n",
        "bench: refused: record=2 line=4 column=17\n",
        "bench: refused: record=2\n",
        "bench: refused:\n",
        "bench: refused\n",
        "bench: refused: answer=1 record=1\n",
        "bench: refused: answer=1 record=\n",
        "bench: refused: answer=1 record=0\n",
        "bench: refused: answer=1 line=1 column=1\n",
        "bench: refused: answer=1 record=1 line=1 column=1\n",
        "bench: refused: answer=1 line=0 column=0\n",
        "bench: refused: answer=1 \n",
        "bench: refused: answer=1\r\n",
        "bench: refused: answer=1.\n",
        "bench: refused: answer=1 set=3\n",
        "bench: refused: answer=01\n",
        "bench: refused: answer=+1\n",
        "bench: refused: answer= 1\n",
        "bench: refused:  answer=1\n",
        "bench: refused: answer=\n",
        "bench: refused: answer=2\n",
        "bench: refused: answer=6\n",
        "bench: refused: answer=12\n",
        "bench: refused: 1\n",
        "refused: answer=1\n",
        " bench: refused: answer=1\n",
        // What belongs to it is missing, or more stands there.
        "bench: refused: answer=10\n",
        "bench: refused: answer=10 record=2\n",
        "bench: refused: answer=10 record=2 line=4\n",
        "bench: refused: answer=10 record=2 column=17\n",
        "bench: refused: answer=10 line=4 column=17\n",
        "bench: refused: answer=10 record=2 column=17 line=4\n",
        "bench: refused: answer=10 line=4 column=17 record=2\n",
        "bench: refused: answer=10 record=2 record=2 line=4 column=17\n",
        "bench: refused: answer=10 record=2, line=4, column=17\n",
        "bench: refused: answer=10 record=2  line=4 column=17\n",
        "bench: refused: answer=10 record=2 line=4 column=17 \n",
        "bench: refused: answer=10 record=2 line=4 column=17 more\n",
        "bench: refused: answer=10 record=2 line=4 column=17\r\n",
        "bench: refused: answer=11\n",
        "bench: refused: answer=11 record=\n",
        "bench: refused: answer=11 record=2 line=3\n",
        "bench: refused: answer=11 record=2 line=3 column=6\n",
        "bench: refused: answer=11 record=2 line=0 column=0\n",
        "bench: refused: answer=11 record=2 record=2\n",
        // The numbers are none that a record has.
        "bench: refused: answer=10 record=0 line=4 column=17\n",
        "bench: refused: answer=10 record=02 line=4 column=17\n",
        "bench: refused: answer=10 record=x line=4 column=17\n",
        "bench: refused: answer=10 record= line=4 column=17\n",
        "bench: refused: answer=10 record=2 line=0 column=17\n",
        "bench: refused: answer=10 record=2 line=04 column=17\n",
        "bench: refused: answer=10 record=2 line=11 column=17\n",
        "bench: refused: answer=10 record=2 line=44 column=17\n",
        "bench: refused: answer=10 record=2 line=100 column=17\n",
        "bench: refused: answer=10 record=2 line= column=17\n",
        "bench: refused: answer=10 record=2 line=* column=17\n",
        "bench: refused: answer=10 record=2 line=? column=17\n",
        "bench: refused: answer=10 record=2 line=-4 column=17\n",
        "bench: refused: answer=10 record=2 line=18446744073709551616 column=17\n",
        "bench: refused: answer=10 record=2 line=4 column=0\n",
        "bench: refused: answer=10 record=2 line=4 column=017\n",
        "bench: refused: answer=10 record=2 line=4 column=\n",
        "bench: refused: answer=10 record=2 line=4 column=x\n",
        "bench: refused: answer=11 record=0\n",
        "bench: refused: answer=11 record=02\n",
        "bench: refused: answer=11 record=x\n",
        // Another line of the program's own stands before it, or any line behind it.
        "bench: done: records=2\nbench: done: records=2\n",
        "bench: refused: answer=11 record=2\nbench: refused: answer=11 record=2\n",
        "bench: refused: answer=11 record=2\nbench: done: records=2\n",
        "bench: refused: answer=1\nbench: refused: answer=1\n",
        "bench: refused: answer=1\nbench: done: records=2\n",
        "bench: done: records=2\nbench: refused: answer=1\n",
        "bench: unknown task\nbench: refused: answer=1\n",
        "bench: writing failed: Broken pipe\nbench: done: records=2\n",
        "bench: record 2: line 4, column 17\nbench: refused: answer=10 record=2 line=4 column=17\n",
        "bench: done: records=2\nbench: writing failed: Broken pipe\n",
        "bench: done: records=2\nmore\n",
        "bench: done: records=2\n\n",
        "bench: done: records=2\n ",
    ] {
        for task in Task::MOVES {
            ends_to(task, saying_to(task, &command, said), said, 2);
            ran += 1;
        }
    }
    assert_eq!(ran, 484);
}

/// Says that no record of form 1 has lines 9 and 10 or a chip, no entry a line 8, only importing names a set, and the end of a moving is none of a judging.
#[test]
fn lines_of_another_task() {
    let command = lay_out("unfinished-other-task", PROGRAM);
    let line = |number| format!("bench: refused: answer=10 record=2 line={number} column=1\n");
    let mut ran = 0;
    for (task, said) in [
        (FORWARD, line(9)),
        (FORWARD, line(10)),
        (FORWARD, REFUSED[1].to_string()),
        (FORWARD, NO_SET.to_string()),
        (BACK, NO_SET.to_string()),
        (IMPORT, line(8)),
        (IMPORT, line(9)),
        (IMPORT, line(10)),
        (IMPORT, line(70)),
        (IMPORT, REFUSED[1].to_string()),
        (EXPORT, line(9)),
        (EXPORT, line(10)),
        (EXPORT, line(80)),
        (EXPORT, REFUSED[1].to_string()),
        (EXPORT, NO_SET.to_string()),
        (Task::Judge, DONE.to_string()),
        (Task::Judge, REFUSED[0].to_string()),
        (Task::Judge, REFUSED[1].to_string()),
        (Task::Judge, NO_SET.to_string()),
    ] {
        ends_to(task, saying_to(task, &command, &said), &said, 2);
        ran += 1;
    }
    assert_eq!(ran, 19);
}

/// A program that says its words and nothing else.
const WORDS: &str = r#"printf '%s,' "$@" >&2
printf '\nbench: done: records=0\n' >&2"#;

/// Says that the program gets the words of the command as they are, and no others.
#[test]
fn the_words_are_passed_on() {
    let command = lay_out("unfinished-words", WORDS);
    let mut ran = 0;
    for (words, passed) in [
        (&["forward"][..], "bench,forward,"),
        (&["back", "-"], "bench,back,"),
        (&["import", "1"], "bench,import,1,"),
        (&["import", "2", "-"], "bench,import,2,"),
        (&["import", "2", "/dev/null"], "bench,import,2,"),
        (&["import", "2", "--", "/dev/null"], "bench,import,2,"),
        (
            &["import", "18446744073709551615"],
            "bench,import,18446744073709551615,",
        ),
        (&["export"], "bench,export,"),
        (&["export", "-"], "bench,export,"),
        (&["export", "/dev/null"], "bench,export,"),
    ] {
        let mut command = Command::new(&command);
        command.args(words);
        let output = run(command, Stdio::null(), Stdio::piped()).expect("it ends");
        let said = String::from_utf8_lossy(&output.stderr);
        assert_eq!(said, format!("{passed}\nbench: done: records=0\n"));
        assert_eq!(output.status.code(), Some(0));
        ran += 1;
    }
    assert_eq!(ran, 10);
}
