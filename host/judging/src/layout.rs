//! A repository of its own for the command, with something else in place of the program.

use crate::program::root;
use std::fs::{create_dir_all, write, File};
use std::path::{Path, PathBuf};
use std::process::Command;

/// Lays a repository out. A shell does it: a script that this process had open for writing could not be run by another thread's child.
const LAY_OUT: &str = r#"set -e
rm -rf "$1"
mkdir -p "$1/host" "$1/crates/bench" "$1/target/bin" "$1/target/stamp"
cp "$2" "$1/bench"
cp "$4" "$1/host/build"
printf '#!/bin/sh\n%s\n' "$3" >"$1/host/run"
chmod +x "$1/host/run"
for file in crates.txt target/bin/bench target/stamp/bench; do : >"$1/$file"; done"#;

/// Gives a place for what a test makes.
pub fn place(name: &str) -> PathBuf {
    let folder = Path::new(env!("CARGO_MANIFEST_DIR")).join("../target/tmp");
    create_dir_all(&folder).expect("a folder for the tests");
    folder.join(name)
}

/// Gives a file of this name with these bytes, opened to be read.
pub fn file_of(name: &str, bytes: &[u8]) -> File {
    let path = place(name);
    write(&path, bytes).expect("a file for the test");
    File::open(path).expect("the file opens")
}

/// Lays out a repository of this name, in which the program counts as built and this script runs it, and gives the command.
pub fn lay_out(name: &str, script: &str) -> PathBuf {
    let folder = place(name);
    let mut shell = Command::new("sh");
    shell.args(["-c", LAY_OUT, "sh"]).arg(&folder);
    shell.arg(root().join("bench")).arg(script);
    shell.arg(root().join("host/build"));
    let status = shell.status().expect("the shell starts");
    assert!(status.success(), "the repository can be laid out");
    folder.join("bench")
}
