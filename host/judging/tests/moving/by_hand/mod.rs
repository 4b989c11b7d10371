//! Cases written out with all that is printed and said, so that both programs are held to the requests themselves.

mod entries;
mod forms;

use super::left;
use judging::end::Whole;
use judging::program::{Task, Tried};

/// A case: its name, the task, the input, and what is printed and said.
type Case = (&'static str, Task, String, String, &'static str);

/// Gives a case of a text that becomes another.
fn moved(
    name: &'static str,
    task: Task,
    input: &[&str],
    output: &[&str],
    said: &'static str,
) -> Case {
    (name, task, input.concat(), output.concat(), said)
}

/// Gives a case that is refused.
fn refused(name: &'static str, task: Task, input: &[&str], said: &'static str) -> Case {
    moved(name, task, input, &[], said)
}

/// Says what becomes of records that are moved from one form to the other.
#[test]
fn forms_written_by_hand() {
    assert_eq!(run_all("forms", forms::cases()), 72);
}

/// Says what becomes of test files, and of records that are written as one.
#[test]
fn entries_written_by_hand() {
    assert_eq!(run_all("entries", entries::cases()), 116);
}

/// Panics unless exactly this is printed and said, by the second program, the program and the command, with the status that it means; gives how many ran.
fn run_all(kind: &str, cases: Vec<Case>) -> usize {
    let mut ran = 0;
    for (name, task, input, output, said) in cases {
        let said = format!("bench: {said}\n");
        let status = i32::from(said.contains("refused"));
        let second = Whole::of(task, input.as_bytes());
        assert_eq!(String::from_utf8_lossy(&second.report), output, "{name}");
        assert_eq!((&second.words, second.status), (&said, status), "{name}");
        for tried in Tried::BOTH {
            let found = left(tried, task, &format!("by-hand-{kind}"), input.as_bytes());
            assert_eq!(String::from_utf8_lossy(&found.stdout), output, "{name}");
            assert_eq!(String::from_utf8_lossy(&found.stderr), said, "{name}");
            assert_eq!(found.status.code(), Some(tried.status(status)), "{name}");
            ran += 1;
        }
    }
    ran
}
