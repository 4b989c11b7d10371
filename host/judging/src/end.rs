//! What a run leaves that comes to its end, and what the command says of one that doesn't.

use crate::program::{Task, Tried};
use second::exchange::{export_all, import_all};
use second::judge::{fault_line, judge_all};
use second::moving::{move_all, Moved};
use second::replay::replay;
use std::process::ExitStatus;

/// What the command says of a report that broke off.
pub const NOT_WHOLE: &str = "bench: the report is not whole";

/// What the command says of a text that was not moved.
pub const NOT_MOVED: &str = "bench: the text was not moved";

/// What the command says of a log that was not replayed.
pub const NOT_REPLAYED: &str = "bench: the log was not replayed";

/// Gives what the command says of a run with this task that came to no end.
pub fn broken_off(task: Task) -> &'static str {
    match task {
        Task::Judge => NOT_WHOLE,
        Task::Move(_) | Task::Import(_) | Task::Export => NOT_MOVED,
        Task::Replay => NOT_REPLAYED,
    }
}

/// What a whole run leaves, by the second program.
pub struct Whole {
    /// What is printed: the report, or the records or entries that the input became.
    pub report: Vec<u8>,
    /// What is said on standard error: of a report the place of an unread record and the counts, of a moved text how many records or entries it had, or why
    /// there is none, of a replay the place of an unread entry and the number of the one that decides.
    pub words: String,
    /// The command's status.
    pub status: i32,
}

impl Whole {
    /// Gives what a run with this task on this input leaves.
    pub fn of(task: Task, input: &[u8]) -> Whole {
        match task {
            Task::Judge => Whole::on(input),
            Task::Move(direction) => Whole::moved(move_all(direction, input)),
            Task::Import(set) => Whole::moved(import_all(set, input)),
            Task::Export => Whole::moved(export_all(input)),
            Task::Replay => Whole::replayed(input),
        }
    }

    /// Gives what a text leaves that was moved so.
    fn moved(moved: Moved) -> Whole {
        Whole {
            report: moved.output,
            words: moved.said,
            status: moved.status.into(),
        }
    }

    /// Gives what replaying this log leaves.
    fn replayed(log: &[u8]) -> Whole {
        let replay = replay(log);
        Whole {
            report: replay.report().into_bytes(),
            words: replay.said(),
            status: replay.status().into(),
        }
    }

    /// Gives what judging this input leaves.
    pub fn on(input: &[u8]) -> Whole {
        let report = judge_all(input);
        let counts = Counts::of(&report);
        Whole {
            report,
            words: fault_line(input) + &counts.line(),
            status: counts.status(),
        }
    }
}

/// How many records of a report have each verdict.
pub struct Counts {
    equal: usize,
    differ: usize,
    unread: usize,
}

impl Counts {
    /// Counts the verdicts of a report.
    pub fn of(report: &[u8]) -> Counts {
        let count = |verdict: &[u8]| {
            let lines = report.split(|byte| *byte == b'\n');
            lines.filter(|line| *line == verdict).count()
        };
        Counts {
            equal: count(b"verdict=equal"),
            differ: count(b"verdict=differs"),
            unread: count(b"verdict=unread"),
        }
    }

    /// Gives the line that the program says at its end.
    pub fn line(&self) -> String {
        let Counts {
            equal,
            differ,
            unread,
        } = self;
        let records = equal + differ + unread;
        format!("bench: {records} records: {equal} equal, {differ} differ, {unread} unread\n")
    }

    /// Gives the command's status.
    fn status(&self) -> i32 {
        i32::from(self.differ + self.unread > 0)
    }
}

/// Panics unless a run with this task on this input has the end, on standard error and in its status, by which what it printed is whole.
pub fn ends_whole(tried: Tried, task: Task, status: ExitStatus, said: &str, input: &[u8]) {
    let whole = Whole::of(task, input);
    assert_eq!(said, whole.words, "{tried:?}, on standard error");
    let wanted = tried.status(whole.status);
    assert_eq!(status.code(), Some(wanted), "{tried:?}");
}
