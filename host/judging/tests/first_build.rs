//! The first run of the command, which has the kit prove and build the program; a script stands in for the kit.

use judging::layout::lay_out;
use judging::program::{ended, kit, root, Tried, LIMIT};
use second::judge::judge_all;
use std::fs;
use std::io::{BufRead, BufReader, Read};
use std::path::PathBuf;
use std::process::{Child, ChildStderr, Command, Output, Stdio};
use std::time::Instant;

/// A kit that proves two crates as the kit does: it says much of each, waits some seconds between them for the file `go`, and takes a stamp
/// for a built program. With the file `wrong` it finds something wrong in the second, with the file `killed` it is killed there;
/// with the file `refused` it does nothing.
const KIT: &str = r#"cd ../..
echo "$@" >>asked
exec >&2
[ ! -f refused ] || {
    echo 'rt: crates.txt: a line is wrong'
    exit 2
}
echo 'fn digits::put: proved'
echo 'crate digits: modules loaded=0 checked=1'
echo 'logic=proved functions=1'
waited=0
while [ ! -f go ]; do
    [ $((waited += 1)) -lt 500 ] || exit 1
    sleep 0.01
done
[ ! -f crates/bench/out/bench.stamp ] || {
    echo 'rt: nothing has changed since the last proved build'
    exit 0
}
: >crates/bench/out/bench
echo 'fn bench::turn: a place to look at'
[ ! -f wrong ] || {
    echo 'logic=not-proved'
    exit 1
}
[ ! -f killed ] || kill -s KILL $$
echo 'crate bench: modules loaded=1 checked=1'
echo 'logic=proved functions=1'
echo 'rt: running out/bench'
echo 'bench: 0 records: 0 equal, 0 differ, 0 unread'
: >crates/bench/out/bench.stamp"#;

/// What the command says when it begins to build.
const BEGINS: &str =
    "bench: proving and building the program; this happens once and takes some minutes\n";

/// What it says while another one builds.
const WAITS: &str = "bench: another command is building the program; waiting for it\n";

/// What it says when nothing was built.
const NOT_BUILT: &str = "bench: the program was not built\n";

/// The end's line for the sample.
const END: &str = "bench: 6 records: 3 equal, 3 differ, 0 unread\n";

/// A repository of its own with a script as its kit.
struct Repository(PathBuf);

impl Repository {
    /// Lays one out in which nothing is built, and the program behind it is the one that is tried.
    fn fresh(name: &str) -> Repository {
        let command = lay_out(&format!("first-build-{name}"), &Tried::Program.script());
        let repository = Repository(command.parent().expect("a folder").to_path_buf());
        let script = r#"rm -r target/bin/* target/stamp/*
            mkdir kit && printf '#!/bin/sh\n%s\n' "$0" >kit/rt && chmod +x kit/rt"#;
        repository.shell(script, KIT);
        repository
    }

    /// Has a shell do something in the folder.
    fn shell(&self, script: &str, word: &str) {
        let mut shell = Command::new("sh");
        shell.args(["-c", script, word]).current_dir(&self.0);
        assert!(shell.status().expect("the shell starts").success());
    }

    /// Makes an empty file.
    fn make(&self, name: &str) {
        fs::write(self.0.join(name), "").expect("a file for the test");
    }

    /// Starts the command on the sample, with the kit in front of all other tools.
    fn start(&self) -> Child {
        let others = std::env::var("PATH").expect("a path");
        self.start_with(format!("{}:{others}", self.0.join("kit").display()))
    }

    /// Starts the command on the sample, with the tools of this path.
    fn start_with(&self, path: String) -> Child {
        let mut command = Command::new(self.0.join("bench"));
        command.arg(root().join("samples/records.txt"));
        command.env("PATH", path).env("RATTLE_HOME", kit());
        command.stdin(Stdio::null());
        command.stdout(Stdio::piped()).stderr(Stdio::piped());
        command.spawn().expect("the command starts")
    }

    /// Runs the command and gives its status and all that it says on standard error.
    fn run(&self) -> (Option<i32>, String) {
        left(self.start())
    }

    /// Gives how often the kit was asked.
    fn asked(&self) -> usize {
        let asked = fs::read_to_string(self.0.join("asked")).unwrap_or_default();
        assert!(asked.lines().all(|words| words == "run"), "{asked}");
        asked.lines().count()
    }
}

/// Gives the status with which a command ends and all that it says on standard error; panics unless it reports exactly when it doesn't fail.
fn left(mut child: Child) -> (Option<i32>, String) {
    let status = ended(&mut child).expect("the command ends");
    let output = child.wait_with_output().expect("it can be read");
    reported(&output, status.code() != Some(2));
    (status.code(), text(&output.stderr))
}

/// Panics unless the output is the report on the sample, or is empty where there is none.
fn reported(output: &Output, whole: bool) {
    let sample = fs::read(root().join("samples/records.txt")).expect("the sample can be read");
    let wanted = if whole { judge_all(&sample) } else { vec![] };
    assert_eq!(text(&output.stdout), text(&wanted));
}

/// Gives the bytes as text.
fn text(bytes: &[u8]) -> String {
    String::from_utf8_lossy(bytes).into_owned()
}

/// Gives the lines of standard error up to this one, as soon as it is there.
fn lines_up_to(errors: &mut BufReader<ChildStderr>, line: &str) -> String {
    let start = Instant::now();
    let mut said = String::new();
    while !said.ends_with(line) {
        let count = errors.read_line(&mut said).expect("it can be read");
        assert!(count > 0 && start.elapsed() < LIMIT, "it said {said:?}");
    }
    said
}

/// Gives all that is left of standard error, and panics unless the command then ends with status 1, after its report.
fn rest(mut child: Child, mut errors: BufReader<ChildStderr>) -> String {
    let mut said = String::new();
    errors.read_to_string(&mut said).expect("it can be read");
    let status = ended(&mut child).expect("the command ends");
    assert_eq!(status.code(), Some(1), "{said}");
    let output = child.wait_with_output().expect("it can be read");
    reported(&output, true);
    said
}

/// Says that the first run tells what it does as it goes, a line a crate, and that the next ones don't build again.
#[test]
fn it_says_what_it_proves() {
    let repository = Repository::fresh("says");
    let mut child = repository.start();
    let mut errors = BufReader::new(child.stderr.take().expect("a pipe"));
    let first = lines_up_to(&mut errors, "bench: digits is proved\n");
    assert_eq!(first, format!("{BEGINS}bench: digits is proved\n"));
    repository.make("go");
    let said = rest(child, errors);
    assert_eq!(said, format!("bench: bench is proved\n{END}"));
    for _ in 0..2 {
        assert_eq!(repository.run(), (Some(1), END.to_string()));
    }
    assert_eq!(repository.asked(), 1);
}

/// Says that of two commands at once one builds and the other says that it waits, and finds the program built.
#[test]
fn two_at_once() {
    let repository = Repository::fresh("two");
    let mut one = repository.start();
    let mut of_one = BufReader::new(one.stderr.take().expect("a pipe"));
    lines_up_to(&mut of_one, "bench: digits is proved\n");
    let mut other = repository.start();
    let mut of_other = BufReader::new(other.stderr.take().expect("a pipe"));
    assert_eq!(lines_up_to(&mut of_other, WAITS), WAITS);
    repository.make("go");
    assert_eq!(rest(one, of_one), format!("bench: bench is proved\n{END}"));
    assert_eq!(rest(other, of_other), END);
    assert_eq!(repository.asked(), 1);
}

/// Says that the program doesn't hold the lock.
#[test]
fn the_lock_ends_with_the_build() {
    let repository = Repository::fresh("lock");
    repository.make("go");
    let script = r##"{ echo '#!/bin/sh'; echo 'flock -n "${0%/host/run}/crates.txt" true || exit 3'; sed 1d host/run; } >new
        cat new >host/run"##;
    repository.shell(script, "sh");
    let (status, said) = repository.run();
    assert_eq!(status, Some(1), "{said}");
    assert_eq!(repository.asked(), 1);
}

/// Says that a check which fails shows what it said of the crate that isn't proved, and that no program is run: not the one that it
/// left behind, and not an earlier one.
#[test]
fn a_check_that_fails() {
    let repository = Repository::fresh("fails");
    repository.make("go");
    repository.make("wrong");
    let shown = "fn bench::turn: a place to look at\nlogic=not-proved\n";
    for asked in 1..=2 {
        let (status, said) = repository.run();
        assert_eq!(status, Some(2));
        let wanted = format!("{BEGINS}bench: digits is proved\n{shown}{NOT_BUILT}");
        assert_eq!((said, repository.asked()), (wanted, asked));
    }
    repository.shell("rm wrong", "sh");
    assert_eq!(repository.run().0, Some(1));
    repository.shell("sleep 0.05; : >crates/new; : >refused", "sh");
    for asked in 4..=5 {
        let wanted = format!("{BEGINS}rt: crates.txt: a line is wrong\n{NOT_BUILT}");
        assert_eq!(repository.run(), (Some(2), wanted));
        assert_eq!(repository.asked(), asked);
    }
    repository.shell("rm refused crates/bench/out/bench.stamp; : >wrong", "sh");
    assert_eq!(repository.run().0, Some(2));
    assert_eq!(repository.asked(), 6);
}

/// Says that a build which was broken off is none.
#[test]
fn a_build_broken_off() {
    let repository = Repository::fresh("broken-off");
    repository.make("go");
    repository.make("killed");
    assert_eq!(repository.run().0, Some(2));
    repository.shell("rm killed", "sh");
    let (status, said) = repository.run();
    assert_eq!((status, said.starts_with(BEGINS)), (Some(1), true));
    assert_eq!(repository.asked(), 2);
}

/// Says that a source which is newer has the kit asked again, and so has a program that is missing, which is then built.
#[test]
fn what_has_changed() {
    let repository = Repository::fresh("changed");
    repository.make("go");
    assert_eq!(repository.run().0, Some(1));
    for (asked, script) in [
        (2, "sleep 0.05; : >crates/new"),
        (3, "sleep 0.05; echo >>crates.txt"),
        (4, "rm target/bin/bench"),
        (5, "rm target/stamp/bench"),
        (6, "rm -r target/bin/bench target/stamp/bench"),
    ] {
        repository.shell(script, "sh");
        assert_eq!(repository.run().0, Some(1), "{script}");
        assert_eq!(repository.run().0, Some(1), "{script}");
        assert_eq!(repository.asked(), asked, "{script}");
    }
}

/// Says that a missing tool, list or folder of crates is status 2, and says what is missing.
#[test]
fn what_is_missing() {
    let tools = r#"for tool in sh readlink dirname find date touch rm flock sleep cp mkdir; do ln -s "$(command -v "$tool")" kit; done"#;
    let mut ran = 0;
    for missing in ["kit/rt", "kit/flock", "crates.txt", "crates"] {
        let name = missing.replace('/', "-");
        let repository = Repository::fresh(&format!("without-{name}"));
        repository.make("go");
        repository.shell(&format!("{tools}; rm -r {missing}"), "sh");
        let path = repository.0.join("kit").display().to_string();
        let (status, said) = left(repository.start_with(path));
        assert_eq!(status, Some(2), "{missing}: {said}");
        let what = missing.trim_start_matches("kit/");
        assert!(said.contains(what), "{missing}: {said}");
        ran += 1;
    }
    assert_eq!(ran, 4);
}
