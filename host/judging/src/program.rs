//! What is tried, the program or the command that runs it: how it is found, started and waited for.

use crate::layout::lay_out;
use second::cipher::Set;
use second::moving::Direction;
use std::ffi::{OsStr, OsString};
use std::io::Read;
use std::path::{Path, PathBuf};
use std::process::{Child, Command, ExitStatus, Output, Stdio};
use std::sync::mpsc::{channel, Receiver};
use std::sync::OnceLock;
use std::thread::{sleep, spawn};
use std::time::{Duration, Instant};

/// How long a run may take; one that takes longer is ended and has failed.
pub const LIMIT: Duration = Duration::from_secs(40);

/// Gives the executable that stands in for the program, if the environment names one; panics when no file has that name.
fn stand_in() -> Option<PathBuf> {
    let path = PathBuf::from(std::env::var_os("KVISTMAUR_BENCH")?);
    assert!(
        path.is_absolute() && path.is_file(),
        "KVISTMAUR_BENCH is no whole path of a file: {path:?}"
    );
    Some(path)
}

/// Gives the folder of the repository.
pub fn root() -> PathBuf {
    Path::new(env!("CARGO_MANIFEST_DIR")).join("../..")
}

/// Gives the file of the program: the one that the kit built, or what stands in for it.
pub fn file() -> PathBuf {
    stand_in().unwrap_or_else(|| root().join("target/bin/bench"))
}

/// Gives the words that start the program of a checkout, in which `host/build bench` built it.
fn words_in(folder: &Path) -> Vec<PathBuf> {
    vec![folder.join("host/run"), "bench".into()]
}

/// Gives the command that starts the program of another checkout.
pub fn program_of(folder: &Path) -> Command {
    program_by(&words_in(folder))
}

/// Gives the command that starts a program by these words, and says where the kit is: to ask for it takes as long as a small input.
fn program_by(words: &[PathBuf]) -> Command {
    let mut command = started_by(words);
    command.env("RATTLE_HOME", kit());
    command
}

/// Gives the folder of the kit that runs programs.
pub fn kit() -> &'static OsStr {
    static KIT: OnceLock<OsString> = OnceLock::new();
    let asked = || {
        let output = Command::new("rt").arg("doc").output().expect("the kit");
        let guide = String::from_utf8(output.stdout).expect("a path");
        let docs = Path::new(guide.trim()).parent().expect("a folder");
        docs.parent().expect("a folder").into()
    };
    KIT.get_or_init(|| std::env::var_os("RATTLE_HOME").unwrap_or_else(asked))
}

/// Gives the command of these words.
fn started_by(words: &[PathBuf]) -> Command {
    let mut command = Command::new(&words[0]);
    command.args(&words[1..]);
    command
}

/// Gives the command for people, after a first run that builds the program where a source is newer.
fn built() -> PathBuf {
    let path = root().join("bench");
    let mut first = Command::new(&path);
    first.stdin(Stdio::null()).stderr(Stdio::null());
    let status = first.status().expect("the command starts");
    assert!(status.success(), "on no records it ended with {status}");
    path
}

/// What is asked: to judge the records, to move them, to read them from a test file of this set, to write one from them, or to replay a log.
#[derive(Clone, Copy, Debug, PartialEq, Eq)]
pub enum Task {
    Judge,
    Move(Direction),
    Import(u64),
    Export,
    Replay,
}

impl Task {
    /// Each task that gives a text for a text.
    pub const MOVES: [Task; 4] = [
        Task::Move(Direction::Forward),
        Task::Move(Direction::Back),
        Task::Import(1),
        Task::Export,
    ];

    /// Gives the words that ask for it, of which judging needs none.
    pub fn words(self) -> Vec<String> {
        match self {
            Task::Judge => vec![],
            Task::Move(Direction::Forward) => vec!["forward".to_string()],
            Task::Move(Direction::Back) => vec!["back".to_string()],
            Task::Import(set) => vec!["import".to_string(), set.to_string()],
            Task::Export => vec!["export".to_string()],
            Task::Replay => vec!["replay".to_string()],
        }
    }
}

impl From<&Set> for Task {
    /// Gives the task that reads a test file of the set.
    fn from(set: &Set) -> Task {
        Task::Import(set.number)
    }
}

/// What is tried: the program, or the command for people, which runs it.
#[derive(Clone, Copy, Debug, PartialEq, Eq)]
pub enum Tried {
    Program,
    Command,
}

impl Tried {
    pub const BOTH: [Tried; 2] = [Tried::Program, Tried::Command];

    /// Gives the words that start it; a stand-in is run by a copy of the command, which has no other way to another program.
    fn words(self) -> Vec<PathBuf> {
        static BUILT: OnceLock<PathBuf> = OnceLock::new();
        static AROUND: OnceLock<PathBuf> = OnceLock::new();
        let around = || lay_out("around-the-stand-in", &Tried::Program.script());
        match (self, stand_in()) {
            (Tried::Program, None) => words_in(&root()),
            (Tried::Program, Some(path)) => vec![path],
            (Tried::Command, None) => vec![BUILT.get_or_init(built).clone()],
            (Tried::Command, Some(_)) => vec![AROUND.get_or_init(around).clone()],
        }
    }

    /// Gives a shell script that runs it in the shell's place, with the words that stand behind the name of the program.
    pub fn script(self) -> String {
        let words = self.words();
        let quoted = words.iter().map(|word| format!("'{}'", word.display()));
        let quoted: Vec<_> = quoted.collect();
        format!("shift\nexec {} \"$@\"", quoted.join(" "))
    }

    /// Gives the command that starts it to judge.
    pub fn start(self) -> Command {
        self.start_to(Task::Judge)
    }

    /// Gives the command that starts it with this task.
    pub fn start_to(self, task: Task) -> Command {
        let mut command = match self {
            Tried::Program => program_by(&self.words()),
            Tried::Command => started_by(&self.words()),
        };
        command.args(task.words());
        command
    }

    /// Gives the command that has a shell run the script, in which `"$@"` are the words that start it to judge.
    pub fn in_shell(self, script: &str) -> Command {
        self.in_shell_to(Task::Judge, script)
    }

    /// Gives the command that has a shell run the script, in which `"$@"` are the words that start it with this task.
    pub fn in_shell_to(self, task: Task, script: &str) -> Command {
        let mut command = Command::new("sh");
        command.args(["-c", script, "sh"]).args(self.words());
        command.args(task.words());
        command
    }

    /// Gives the status with which it ends when the command would say this; the program itself has none.
    pub fn status(self, said: i32) -> i32 {
        match self {
            Tried::Program => 0,
            Tried::Command => said,
        }
    }
}

/// Gives the command that starts the program which writes records again, or what stands in for it.
pub fn rewriting() -> Command {
    match std::env::var_os("KVISTMAUR_REWRITING") {
        Some(path) => Command::new(path),
        None => {
            let mut command = Command::new(root().join("host/run"));
            command.arg("rewriting");
            command
        }
    }
}

/// Runs a command to its end and gives what it left, or why there is nothing to compare.
pub fn run(
    command: Command,
    stdin: impl Into<Stdio>,
    stdout: impl Into<Stdio>,
) -> Result<Output, String> {
    run_on(command, stdin, stdout, Stdio::piped())
}

/// Runs a command to its end on these three streams and gives what it left, or why there is nothing to compare.
pub fn run_on(
    mut command: Command,
    stdin: impl Into<Stdio>,
    stdout: impl Into<Stdio>,
    stderr: impl Into<Stdio>,
) -> Result<Output, String> {
    let mut child = command
        .stdin(stdin)
        .stdout(stdout)
        .stderr(stderr)
        .spawn()
        .map_err(|error| format!("it could not be started: {error}"))?;
    // What the command still holds of the streams would keep them open.
    drop(command);
    let stdout = child.stdout.take().map(collected);
    let stderr = child.stderr.take().map(collected);
    let status = ended(&mut child)?;
    let whole = |pipe: Option<Receiver<Vec<u8>>>| match pipe {
        Some(pipe) => pipe
            .recv_timeout(LIMIT)
            .map_err(|_| "it ended and left its output open".to_string()),
        None => Ok(Vec::new()),
    };
    Ok(Output {
        status,
        stdout: whole(stdout)?,
        stderr: whole(stderr)?,
    })
}

/// Gives a place at which all bytes of the pipe arrive once it is closed.
fn collected(mut pipe: impl Read + Send + 'static) -> Receiver<Vec<u8>> {
    let (sender, receiver) = channel();
    spawn(move || {
        let mut bytes = Vec::new();
        if pipe.read_to_end(&mut bytes).is_ok() {
            // Whoever waited for them may have given up.
            let _ = sender.send(bytes);
        }
    });
    receiver
}

/// Gives the status with which a child ends, or ends it when the limit is past.
pub fn ended(child: &mut Child) -> Result<ExitStatus, String> {
    let start = Instant::now();
    loop {
        match child.try_wait() {
            Ok(Some(status)) => return Ok(status),
            Ok(None) if start.elapsed() < LIMIT => sleep(Duration::from_millis(1)),
            Ok(None) => {
                child.kill().expect("a child can be ended");
                child.wait().expect("an ended child can be waited for");
                return Err(format!("it was still running after {LIMIT:?}"));
            }
            Err(error) => return Err(format!("it can't be waited for: {error}")),
        }
    }
}
