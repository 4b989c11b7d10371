//! Times the program and the second program on the same records, in one run, and prints the ratios of the best times.
//!
//! `times [FOLDER]`: with the folder of another checkout, say of the commit before a change, the program that `host/build bench` built there is timed
//! in turn with them.

use judging::classes::many;
use judging::end::Counts;
use judging::program::{program_of, run, Tried};
use second::judge::judge_all;
use std::fs::{self, File};
use std::path::{Path, PathBuf};
use std::process::{Command, Stdio};
use std::time::{Duration, Instant};

const RECORDS: u64 = 10_000;

const REPETITIONS: usize = 5;

/// A way to judge records: its name, and what it prints for a file.
type Way<'a> = (&'a str, Box<dyn Fn(&Path) -> Vec<u8> + 'a>);

fn main() {
    let mut words = std::env::args_os().skip(1);
    let folder = words.next().map(PathBuf::from);
    assert!(words.next().is_none(), "usage: times [FOLDER]");

    let path = std::env::temp_dir().join(format!("records-{}", std::process::id()));
    let records = many(RECORDS);
    fs::write(&path, &records).expect("a file for the records");

    let program = |file: &Path| printed(Tried::Program.start(), file);
    let mut ways: Vec<Way> = vec![
        ("program", Box::new(program)),
        ("second program", Box::new(|_: &Path| judge_all(&records))),
    ];
    if let Some(folder) = folder {
        let other = move |file: &Path| printed(program_of(&folder), file);
        ways.push(("program of the other folder", Box::new(other)));
    }

    let mut start = Duration::MAX;
    let mut best = vec![Duration::MAX; ways.len()];
    for _ in 0..REPETITIONS {
        let (nothing, time) = timed(|| program(Path::new("/dev/null")));
        assert!(nothing.is_empty(), "no records, and yet a report");
        start = start.min(time);
        let mut first = None;
        for ((name, judged), best) in ways.iter().zip(&mut best) {
            let (reports, time) = timed(|| judged(&path));
            *best = time.min(*best);
            let first = first.get_or_insert_with(|| reports.clone());
            assert!(reports == *first, "the {name} prints other reports");
        }
    }
    fs::remove_file(&path).expect("the file can be removed");

    println!(
        "{RECORDS} records, {} bytes, best of {REPETITIONS}",
        records.len()
    );
    println!("start of the program: {:.1} ms", 1e3 * start.as_secs_f64());
    for ((name, _), best) in ways.iter().zip(&best) {
        let seconds = best.as_secs_f64();
        println!(
            "{name}: {seconds:.3} s, {:.0} records a second",
            RECORDS as f64 / seconds
        );
    }
    for ((name, _), other) in ways.iter().zip(&best).skip(1) {
        let ratio = best[0].as_secs_f64() / other.as_secs_f64();
        println!("ratio to the {name}: {ratio:.2}");
    }
}

/// Gives what a program prints for a file.
fn printed(program: Command, path: &Path) -> Vec<u8> {
    let file = File::open(path).expect("the input opens");
    let output = run(program, file, Stdio::piped()).expect("the program ends");
    let end = Counts::of(&output.stdout).line();
    let said = String::from_utf8_lossy(&output.stderr);
    assert!(
        output.status.success() && said == end,
        "a program failed: {said}"
    );
    output.stdout
}

/// Gives what the work gives, and how long it took.
fn timed<T>(work: impl FnOnce() -> T) -> (T, Duration) {
    let start = Instant::now();
    let result = work();
    (result, start.elapsed())
}
