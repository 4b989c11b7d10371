//! The program on every input of a folder, and the command on the first of each class: what they leave is compared with what the second
//! program says.

use crate::classes::Class;
use crate::end::Whole;
use crate::folder::{write, Case};
use crate::program::{run, Task, Tried};
use std::fs::{self, File};
use std::path::Path;
use std::process::Stdio;
use std::sync::atomic::{AtomicUsize, Ordering};
use std::thread;

/// How many programs run at a time.
const AT_A_TIME: usize = 2;

/// After how many runs that came to no end no more are started.
const ENOUGH: usize = 4;

/// How many failures are printed of a class.
const SHOWN: usize = 3;

/// What became of the inputs of a class: runs that came to an end, those that agree, and why others don't.
#[derive(Clone, Default)]
struct Tally {
    ran: usize,
    agree: usize,
    failures: Vec<String>,
}

/// Says how many inputs agree, all of them by the program and some by the command; panics unless those of every class do.
pub fn all_agree(task: Task, classes: &[Class], folder: &Path) -> String {
    let cases = write(folder, classes);
    let tallies = run_all(task, &cases, classes.len());

    let mut short = Vec::new();
    let mut agreed = 0;
    for (Class { name, inputs, .. }, tally) in classes.iter().zip(&tallies) {
        let Tally {
            ran,
            agree,
            failures,
        } = tally;
        println!("{inputs} set out, {ran} ran, {agree} agree: {name}");
        for failure in failures.iter().take(SHOWN) {
            println!("    {failure}");
        }
        if agree != inputs {
            short.push(&name[..]);
        }
        agreed += agree;
    }
    assert!(
        short.is_empty(),
        "{agreed} agree; short in: {}",
        short.join(", ")
    );
    let by_command = run_command(task, &cases, classes.len());
    format!("{agreed} inputs agree, all classes; by the command {by_command}")
}

/// Runs the command on the first case of each class, panics unless all agree, and gives how many.
fn run_command(task: Task, cases: &[Case], classes: usize) -> usize {
    let mut agreed = 0;
    for class in 0..classes {
        let case = cases.iter().find(|case| case.class == class);
        let path = &case.expect("the class has an input").path;
        if let Err(Failure::Unended(why) | Failure::Other(why)) =
            compare(Tried::Command, task, path)
        {
            panic!("{}: {why}", path.display());
        }
        agreed += 1;
    }
    agreed
}

/// Runs the program on each case, some at a time, and gives what became of each class.
fn run_all(task: Task, cases: &[Case], classes: usize) -> Vec<Tally> {
    let (next, endless) = (AtomicUsize::new(0), AtomicUsize::new(0));
    let work = || {
        let mut results = Vec::new();
        while endless.load(Ordering::Relaxed) < ENOUGH {
            let Some(case) = cases.get(next.fetch_add(1, Ordering::Relaxed)) else {
                break;
            };
            let result = compare(Tried::Program, task, &case.path);
            if matches!(result, Err(Failure::Unended(_))) {
                endless.fetch_add(1, Ordering::Relaxed);
            }
            results.push((case, result));
        }
        results
    };
    let results = thread::scope(|scope| {
        let workers = [(); AT_A_TIME].map(|()| scope.spawn(work));
        workers.map(|worker| worker.join().expect("the worker ends"))
    });

    let mut tallies = vec![Tally::default(); classes];
    for (case, result) in results.into_iter().flatten() {
        let tally = &mut tallies[case.class];
        tally.ran += usize::from(!matches!(result, Err(Failure::Unended(_))));
        tally.agree += usize::from(result.is_ok());
        if let Err(Failure::Unended(why) | Failure::Other(why)) = result {
            let name = case.path.file_name().expect("a file").to_string_lossy();
            tally.failures.push(format!("{name}: {why}"));
        }
    }
    tallies
}

/// Why a run is no pass.
enum Failure {
    /// It couldn't be started or came to no end.
    Unended(String),
    Other(String),
}

/// Runs what is tried on a file and compares all that it leaves.
fn compare(tried: Tried, task: Task, path: &Path) -> Result<(), Failure> {
    let input = fs::read(path).expect("the input can be read");
    let file = File::open(path).expect("the input can be opened");
    let output = run(tried.start_to(task), file, Stdio::piped()).map_err(Failure::Unended)?;
    let wanted = Whole::of(task, &input);
    if output.status.code() != Some(tried.status(wanted.status)) {
        return Err(Failure::Other(format!("it ended with {}", output.status)));
    }
    if output.stdout != wanted.report {
        return Err(Failure::Other(difference(&wanted.report, &output.stdout)));
    }
    if output.stderr != wanted.words.as_bytes() {
        let said = String::from_utf8_lossy(&output.stderr);
        let why = format!(
            "on standard error wanted {:?}, found {said:?}",
            wanted.words
        );
        return Err(Failure::Other(why));
    }
    Ok(())
}

/// Gives the part from a few lines before the first difference, as it should be and as it is.
fn difference(wanted: &[u8], found: &[u8]) -> String {
    let place = wanted.iter().zip(found).take_while(|(a, b)| a == b).count();
    let part = |bytes: &[u8]| {
        let end = bytes.len().min(place + 40);
        String::from_utf8_lossy(&bytes[place.saturating_sub(40)..end]).into_owned()
    };
    format!("wanted {:?}, found {:?}", part(wanted), part(found))
}
