//! The program `rewriting` on many records: every byte that it prints is compared with what the second program's writer says.

mod classes;
mod wanted;

use classes::{Class, CLASSES};
use judging::program::{rewriting, run};
use std::collections::BTreeMap;
use std::fs::{self, File};
use std::io::{self, Write};
use std::path::Path;
use std::process::{Command, Stdio};
use wanted::{wanted, PLACES};

/// What the gate runs the program on, and what it compares the output with.
const INPUT: &[u8] = include_bytes!("../../../../crates/rewriting/stdin");
const OUTPUT: &[u8] = include_bytes!("../../../../crates/rewriting/stdout");

/// How many times a record is written in both forms; once less where form 1 can't hold its chip, since it then has no length in it.
const ATTEMPTS: usize = 98;

/// What the program said of writings, and how often: the words from the answer on, without the length.
type Answers = BTreeMap<String, usize>;

/// Says that the gate's output is what the second program says of the gate's input.
#[test]
fn the_gate_compares_with_the_second_program() {
    assert!(!OUTPUT.is_empty());
    if let Some(difference) = difference(&wanted(INPUT), OUTPUT) {
        panic!("crates/rewriting/stdout: {difference}");
    }
}

/// Says that the program prints for every input what the second program says, and nothing else.
#[test]
fn the_writer_writes_what_the_second_program_writes() {
    let mut answers = Answers::new();
    let (mut records, mut chips) = (0, 0);
    for class in &CLASSES {
        let (agreed, of_chips) = run_class(class, &mut answers);
        println!("{agreed} records agree: {}", class.name);
        assert_eq!(agreed, class.records, "records set out: {}", class.name);
        records += agreed;
        chips += of_chips;
    }
    let attempts: usize = answers.values().sum();
    assert!(records > 0);
    assert_eq!(attempts, records * ATTEMPTS - chips);
    every_answer_was_given(&answers);
    // Past the test runner, which would keep it back.
    writeln!(
        io::stderr(),
        "rewriting: {records} records agree, written {attempts} times, all classes"
    )
    .expect("it can be said");
}

/// Runs the program on the inputs of a class, panics where it prints anything else than it should, and gives how many
/// records it read, and how many of them are of another chip than 0.
fn run_class(class: &Class, answers: &mut Answers) -> (usize, usize) {
    let inputs = (class.make)(class.form);
    let of_chip = format!("as read: room={PLACES} answer=11 ");
    assert_eq!(inputs.len(), class.inputs, "inputs of: {}", class.name);
    let (mut records, mut chips) = (0, 0);
    for (number, input) in (1..).zip(inputs) {
        let output = compare(rewriting(), &input, "rewriting")
            .unwrap_or_else(|why| panic!("{}, input {number}: {why}", class.name));
        for line in String::from_utf8_lossy(&output).lines() {
            records += usize::from(line.starts_with("record="));
            records -= usize::from(line.starts_with("unread: "));
            chips += usize::from(line.starts_with(&of_chip));
            if let Some((_, said)) = line.split_once(" answer=") {
                let answer = said.split(" written=").next().expect("a first part");
                *answers.entry(answer.to_string()).or_default() += 1;
            }
        }
    }
    (records, chips)
}

/// Panics when one of the writer's answers was never given.
fn every_answer_was_given(answers: &Answers) {
    let others = [0, 6, 11].map(|answer| format!("{answer} line=0 column=0"));
    let broken = (1..=10).map(|line| format!("10 line={line} column=0"));
    let all: Vec<String> = others.into_iter().chain(broken).collect();
    for answer in &all {
        let times = answers.get(answer).copied().unwrap_or(0);
        println!("{times} times: answer={answer}");
        assert!(times > 0, "never given: answer={answer}");
    }
    assert_eq!(answers.len(), all.len());
}

/// Runs a command on an input, kept in a file of this name, and gives its output, or says why that is not all as it
/// should be.
fn compare(command: Command, input: &[u8], name: &str) -> Result<Vec<u8>, String> {
    let place = Path::new(env!("CARGO_TARGET_TMPDIR")).join(name);
    fs::write(&place, input).expect("the input can be written");
    let file = File::open(&place).expect("the input can be opened");
    let output = run(command, file, Stdio::piped())?;
    if !output.status.success() {
        return Err(format!("it ended with {}", output.status));
    }
    if !output.stderr.is_empty() {
        return Err(format!(
            "on standard error: {:?}",
            String::from_utf8_lossy(&output.stderr)
        ));
    }
    match difference(&wanted(input), &output.stdout) {
        Some(difference) => Err(difference),
        None => Ok(output.stdout),
    }
}

/// Gives the first line that differs, as it should be and as it is.
fn difference(wanted: &[u8], found: &[u8]) -> Option<String> {
    if wanted == found {
        return None;
    }
    let place = wanted.iter().zip(found).take_while(|(a, b)| a == b).count();
    let start = wanted[..place]
        .iter()
        .rposition(|byte| *byte == b'\n')
        .map_or(0, |feed| feed + 1);
    let line = |bytes: &[u8]| {
        let line = bytes[start..].split(|byte| *byte == b'\n').next();
        String::from_utf8_lossy(line.expect("a first line")).into_owned()
    };
    Some(format!(
        "wanted {:?}, found {:?}",
        line(wanted),
        line(found)
    ))
}

/// Says that a program which can't be started, ends badly, speaks on standard error or prints nothing is found out.
#[test]
fn a_run_that_went_wrong_is_no_pass() {
    let shell = |script: &str| {
        let mut command = Command::new("sh");
        command.args(["-c", script]);
        command
    };
    for (command, why) in [
        (Command::new("./no such program"), "it could not be started"),
        (shell("exit 1"), "it ended with"),
        (shell("kill -9 $$"), "it ended with"),
        (shell("echo no >&2"), "on standard error"),
        (shell(":"), "wanted"),
        (shell("cat"), "wanted"),
    ] {
        let said = compare(command, b"set=1\n", "rewriting-wrong").expect_err("it went wrong");
        assert!(said.starts_with(why), "{said}");
    }
}
