//! C programs that know only `include/kvistmaur.h`, compiled, linked with the archive and run.

mod messages;
mod prototypes;
mod streams;

use second::hex::written;
use std::path::{Path, PathBuf};
use std::process::Command;
use std::sync::LazyLock;

/// The lines of the programs: in each set; and in each set and direction, of which those that compare tags have one more.
const MESSAGES: usize = 4 * 13;
const STREAMS: usize = 4 * (97 + 98 + 98);

/// Bytes as the programs print them.
fn hex(bytes: &[u8]) -> String {
    String::from_utf8(written(bytes)).expect("digits are text")
}

/// The archive, which proving everything anew removes without cargo noticing. It is written once, whatever tests run.
static ARCHIVE: LazyLock<PathBuf> = LazyLock::new(|| {
    let host = Path::new(env!("CARGO_MANIFEST_DIR")).join("..");
    let archive = host.join("../target/native/libkvistmaur.a");
    if !archive.exists() {
        let written = Command::new(host.join("archive")).arg("gateway").status();
        let done = written.is_ok_and(|status| status.success());
        assert!(done, "`host/archive gateway` wrote no library");
    }
    archive
});

/// What a program prints, of which the source lies beside this file.
fn printed(name: &str) -> String {
    let own = Path::new(env!("CARGO_MANIFEST_DIR"));
    let program = Path::new(env!("CARGO_TARGET_TMPDIR")).join(name);
    let compiled = Command::new("cc")
        .args("-std=c99 -pedantic -Wall -Wextra -Werror -I".split(' '))
        .arg(own.join("../../include"))
        .arg(own.join("tests/header").join(format!("{name}.c")))
        .arg(&*ARCHIVE)
        .arg("-o")
        .arg(&program)
        .status()
        .expect("this test needs a C compiler named cc");
    assert!(compiled.success(), "cc did not compile {name}.c");

    let ran = Command::new(&program).output().expect("cc wrote a program");
    assert!(ran.status.success(), "the program: {}", ran.status);
    String::from_utf8(ran.stdout).expect("the program prints text")
}

/// Panics unless a program prints these lines, so many, and nothing else.
fn prints(name: &str, lines: usize, wanted: &str) {
    assert_eq!(wanted.lines().count(), lines);
    let printed = printed(name);
    for (printed, wanted) in printed.lines().zip(wanted.lines()) {
        assert_eq!(printed, wanted);
    }
    assert_eq!(
        printed.len(),
        wanted.len(),
        "lines are missing, or too many"
    );
}

#[test]
fn a_c_program_gets_what_the_header_says() {
    prints("messages", MESSAGES, &messages::wanted());
}

#[test]
fn a_c_program_with_streams_gets_what_the_header_says() {
    prints("streams", STREAMS, &streams::wanted());
}

#[test]
fn the_header_declares_what_rust_calls() {
    let [header, boundary] = prototypes::both();
    assert_eq!(header.len(), 13);
    assert_eq!(header, boundary);
}
