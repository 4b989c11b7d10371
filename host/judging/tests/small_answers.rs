//! The program where each read delivers one byte, each write takes few, and signals come in between: what it prints and its last words are the same.

use judging::classes::{many, many_in};
use judging::end::Whole;
use judging::layout::file_of;
use judging::program::{run, Task, Tried};
use judging::right_texts::right_text;
use second::moving::Direction::{Back, Forward};
use second::record::Form::Two;
use std::path::{Path, PathBuf};
use std::process::{Command, Stdio};

/// How many bytes a write takes at the most, case by case.
const TAKES: [usize; 4] = [1, 2, 7, 64];

/// Gives the library that makes the answers small, compiled from the C file beside this one.
fn small_answers() -> PathBuf {
    let source = Path::new(env!("CARGO_MANIFEST_DIR")).join("tests/small_answers.c");
    let library = Path::new(env!("CARGO_TARGET_TMPDIR")).join("small_answers.so");
    let mut compiler = Command::new("cc");
    compiler.args(["-shared", "-fPIC", "-O1", "-o"]);
    let status = compiler.arg(&library).arg(source).status();
    assert!(status.expect("a C compiler").success(), "it compiles");
    library
}

/// Gives what the program prints and says where a write takes at most so many bytes.
fn printed_and_said(library: &Path, task: Task, records: &[u8], takes: usize) -> [String; 2] {
    let mut command = Tried::Program.start_to(task);
    command
        .env("LD_PRELOAD", library)
        .env("BENCH_TAKES", takes.to_string());
    let input = file_of("small-answers", records);
    let output = run(command, input, Stdio::piped()).expect("it ends");
    [output.stdout, output.stderr].map(|bytes| String::from_utf8_lossy(&bytes).into_owned())
}

/// Says that the smallest answers change neither what is printed nor the last words, and that writes which take nothing leave neither.
#[test]
fn all_is_the_same() {
    // Where the program runs in an emulator, no library can be loaded in front of its own.
    if !cfg!(target_arch = "x86_64") {
        println!("not run: the program is emulated on this machine");
        return;
    }
    let library = small_answers();
    let mut ran = 0;
    let broken = [many(5), b"set=5\n".to_vec()].concat();
    for (task, records) in [
        (Task::Judge, Vec::new()),
        (Task::Judge, many(20)),
        (Task::Judge, broken.clone()),
        (Task::Move(Forward), Vec::new()),
        (Task::Move(Forward), many(20)),
        (Task::Move(Forward), broken),
        (Task::Move(Back), many_in(|_| Two, 2, 7)),
        (Task::Move(Back), many_in(|_| Two, 20, 7)),
        (Task::Import(1), right_text(Task::Import(1), 20)),
        (Task::Import(2), b"Count = 1\nKey = 0\n".to_vec()),
        (Task::Import(5), right_text(Task::Import(1), 2)),
        (Task::Export, many(20)),
        (Task::Replay, right_text(Task::Replay, 26)),
        (Task::Replay, b"call=start1\ndata=0".to_vec()),
    ] {
        let Whole { report, words, .. } = Whole::of(task, &records);
        let wanted = [String::from_utf8_lossy(&report).into_owned(), words];
        for takes in TAKES {
            let found = printed_and_said(&library, task, &records, takes);
            assert_eq!(found, wanted, "writes of at most {takes} bytes");
            ran += 1;
        }
        let nothing = printed_and_said(&library, task, &records, 0);
        assert_eq!(nothing, [String::new(), String::new()]);
        ran += 1;
    }
    assert_eq!(ran, 70);
}
