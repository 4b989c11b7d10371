//! The command for people, `./bench`, called with words, and the samples.

use crate::program::{root, run, Tried};
use std::fs;
use std::process::{Command, Output, Stdio};

/// Gives the command, called in a folder of the repository with these words.
pub fn bench(folder: &str, words: &[&str]) -> Command {
    let mut command = Tried::Command.start();
    command.current_dir(root().join(folder)).args(words);
    command
}

/// Panics unless the command ends with this status, and gives what it leaves.
pub fn ends(command: Command, input: Stdio, status: i32) -> Output {
    let output = run(command, input, Stdio::piped()).expect("the command ends");
    let words = String::from_utf8_lossy(&output.stderr);
    assert_eq!(output.status.code(), Some(status), "{words}");
    output
}

/// Gives the sample.
pub fn sample() -> Vec<u8> {
    named_sample("records.txt")
}

/// Gives the sample of this name.
pub fn named_sample(name: &str) -> Vec<u8> {
    fs::read(root().join("samples").join(name)).expect("the sample can be read")
}
