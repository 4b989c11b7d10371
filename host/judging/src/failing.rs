//! Streams and programs that fail, and what the program and the command then have to leave.

use crate::end::broken_off;
use crate::program::{Task, Tried};
use std::fs::File;
use std::io::{pipe, Write};
use std::os::fd::OwnedFd;
use std::os::unix::net::UnixStream;
use std::process::{Command, Output, Stdio};

/// A script in which the signals for failed writes are ignored, as the command does by itself.
pub const UNDISTURBED: &str = r#"trap "" PIPE XFSZ; exec "$@""#;

/// How a program of a test ends wrongly, as its environment tells it: with a status, or by a signal.
pub const WRONG_ENDS: [(&str, &str); 7] = [
    ("STATUS", "1"),
    ("STATUS", "2"),
    ("STATUS", "127"),
    ("STATUS", "255"),
    ("SIGNAL", "KILL"),
    ("SIGNAL", "TERM"),
    ("SIGNAL", "USR1"),
];

/// Panics unless the program said why in one line, which the command passes on, and the run counts as broken off.
pub fn broke_off(tried: Tried, task: Task, output: &Output, why: &str) {
    let words = String::from_utf8_lossy(&output.stderr);
    let lines: Vec<&str> = words.split_inclusive('\n').collect();
    let rest = match tried {
        Tried::Program => vec![],
        Tried::Command => vec![format!("{}\n", broken_off(task))],
    };
    assert!(words.starts_with(why), "{tried:?} said {words:?}");
    assert!(
        words.ends_with('\n') && lines[1..] == rest,
        "{tried:?} said {words:?}"
    );
    assert_eq!(output.status.code(), Some(tried.status(2)), "{tried:?}");
}

/// Gives the device that is always full.
pub fn full() -> File {
    let device = File::options().write(true).open("/dev/full");
    device.expect("the device opens")
}

/// Gives streams that take no write: a full one, one to be read alone, and one whose reader is gone.
pub fn unwritable() -> [Stdio; 3] {
    let read_only = File::open("Cargo.toml").expect("the file opens");
    let (reader, gone) = pipe().expect("a pipe");
    drop(reader);
    [full().into(), read_only.into(), gone.into()]
}

/// Gives an input whose reads give these bytes and then fail, once.
pub fn reset_after(bytes: &[u8]) -> OwnedFd {
    let (mut ours, mut theirs) = UnixStream::pair().expect("a pair of sockets");
    ours.write_all(bytes).expect("the socket has room");
    // A socket closed with unread bytes resets its peer.
    theirs.write_all(b"unread").expect("the socket has room");
    theirs.into()
}

/// Gives the program behind a shell that ignores the signals for failed writes, and the command as it is.
pub fn undisturbed(task: Task) -> [(Tried, Command); 2] {
    let behind_shell = Tried::Program.in_shell_to(task, UNDISTURBED);
    [
        (Tried::Program, behind_shell),
        (Tried::Command, Tried::Command.start_to(task)),
    ]
}
