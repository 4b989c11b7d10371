//! One input of the program, and what it was made for: its output and the place where a record breaks, how its moving ends, or what its replay tells.

use crate::program::Task;

/// What is said of one record, written down when an input is made.
#[derive(Clone, Copy)]
pub enum Said {
    Equal,
    Differs(&'static str),
    /// It breaks in this line, at a column that only the second program tells.
    Unread(usize),
    /// It breaks in this line, at this column.
    UnreadAt(usize, usize),
}

use Said::*;

/// An input: its name, its bytes and, where no program has to be asked, the whole output of judging it and the line that tells where a record
/// breaks, which is empty where none does; or a task and what the line begins with that ends it; or the report of its replay and what the words begin with behind that.
pub struct Input {
    pub name: String,
    pub bytes: Vec<u8>,
    pub output: Option<String>,
    pub fault: Option<String>,
    pub ends: Option<(Task, String)>,
    pub replayed: Option<[String; 2]>,
}

impl Input {
    /// Gives an input of which exactly this is said, record by record.
    pub fn of(name: impl Into<String>, bytes: impl Into<Vec<u8>>, said: &[Said]) -> Input {
        let reports = (1..).zip(said).map(|(number, said)| report(number, *said));
        Input {
            name: name.into(),
            bytes: bytes.into(),
            output: Some(reports.collect()),
            fault: fault(said),
            ends: None,
            replayed: None,
        }
    }

    /// Gives an input that is one right record.
    pub fn equal(name: impl Into<String>, bytes: impl Into<Vec<u8>>) -> Input {
        Input::of(name, bytes, &[Equal])
    }

    /// Gives an input that is one record, which differs in this field.
    pub fn differs(
        name: impl Into<String>,
        bytes: impl Into<Vec<u8>>,
        field: &'static str,
    ) -> Input {
        Input::of(name, bytes, &[Differs(field)])
    }

    /// Gives an input whose first record is broken in this line.
    pub fn unread(name: impl Into<String>, bytes: impl Into<Vec<u8>>, line: usize) -> Input {
        Input::of(name, bytes, &[Unread(line)])
    }

    /// Gives an input whose first record is broken in this line, at this column.
    pub fn unread_at(
        name: impl Into<String>,
        bytes: impl Into<Vec<u8>>,
        line: usize,
        column: usize,
    ) -> Input {
        Input::of(name, bytes, &[UnreadAt(line, column)])
    }

    /// Gives an input whose output only the second program tells.
    pub fn told(name: impl Into<String>, bytes: impl Into<Vec<u8>>) -> Input {
        Input {
            name: name.into(),
            bytes: bytes.into(),
            output: None,
            fault: None,
            ends: None,
            replayed: None,
        }
    }

    /// Gives an input of so many records or entries, all of them right for the task, or for reading a test file of the set.
    pub fn done(
        name: impl Into<String>,
        bytes: impl Into<Vec<u8>>,
        task: impl Into<Task>,
        count: usize,
    ) -> Input {
        let said = format!("bench: done: records={count}\n");
        Input::told(name, bytes).ending(task.into(), said)
    }

    /// Gives an input of which the record or entry with this number is the first that is broken for the task, in this line.
    pub fn broken(
        name: impl Into<String>,
        bytes: impl Into<Vec<u8>>,
        task: impl Into<Task>,
        [record, line]: [usize; 2],
    ) -> Input {
        let said = format!("bench: refused: answer=10 record={record} line={line} column=");
        Input::told(name, bytes).ending(task.into(), said)
    }

    /// Gives an input of which the record or entry with this number is the first that is broken for the task, in this line, at this column.
    pub fn broken_at(
        name: impl Into<String>,
        bytes: impl Into<Vec<u8>>,
        task: impl Into<Task>,
        [record, line, column]: [usize; 3],
    ) -> Input {
        let said =
            format!("bench: refused: answer=10 record={record} line={line} column={column}\n");
        Input::told(name, bytes).ending(task.into(), said)
    }

    /// Gives a log of so many entries, which agrees.
    pub fn agrees(name: impl Into<String>, bytes: impl Into<Vec<u8>>, entries: usize) -> Input {
        Input::told(name, bytes).replaying(entries, ["agrees", "none"], done(entries))
    }

    /// Gives a log whose entry with this number is the first that differs, in this field.
    pub fn first_differs(
        name: impl Into<String>,
        bytes: impl Into<Vec<u8>>,
        entry: usize,
        field: &str,
    ) -> Input {
        Input::told(name, bytes).replaying(entry, ["differs", field], done(entry))
    }

    /// Gives a log whose entry with this number is the first that is broken, in this line.
    pub fn first_breaks(
        name: impl Into<String>,
        bytes: impl Into<Vec<u8>>,
        [entry, line]: [usize; 2],
    ) -> Input {
        let said = format!("bench: entry {entry}: line {line}, column ");
        Input::told(name, bytes).replaying(entry, ["unread", &line.to_string()], said)
    }

    /// Gives a log whose entry with this number is the first that is broken, in this line, at this column.
    pub fn first_breaks_at(
        name: impl Into<String>,
        bytes: impl Into<Vec<u8>>,
        [entry, line, column]: [usize; 3],
    ) -> Input {
        let said = format!("bench: entry {entry}: line {line}, column {column}\n");
        let said = said + &done(entry);
        Input::told(name, bytes).replaying(entry, ["unread", &line.to_string()], said)
    }

    /// Gives the input, of whose replay this is told of this entry, and then said.
    fn replaying(self, entry: usize, [verdict, field]: [&str; 2], said: String) -> Input {
        let report = format!("entry={entry}\nverdict={verdict}\nfield={field}\n");
        Input {
            replayed: Some([report, said]),
            ..self
        }
    }

    /// Gives the input, of which this task ends with a line that begins so.
    fn ending(self, task: Task, said: String) -> Input {
        Input {
            ends: Some((task, said)),
            ..self
        }
    }
}

/// Gives the line that ends a replay which this entry decides, or which has so many.
fn done(entry: usize) -> String {
    format!("bench: done: entries={entry}\n")
}

/// Gives the three lines on the record of the given number.
fn report(number: usize, said: Said) -> String {
    let rest = match said {
        Equal => "equal\nfield=none".to_string(),
        Differs(field) => format!("differs\nfield={field}"),
        Unread(line) | UnreadAt(line, _) => format!("unread\nfield={line}"),
    };
    format!("record={number}\nverdict={rest}\n")
}

/// Gives the line that tells where the last record breaks, unless its column is not known; it is empty where no record breaks.
fn fault(said: &[Said]) -> Option<String> {
    let number = said.len();
    match said.last() {
        Some(Unread(_)) => None,
        Some(UnreadAt(line, column)) => Some(format!(
            "bench: record {number}: line {line}, column {column}\n"
        )),
        Some(Equal | Differs(_)) | None => Some(String::new()),
    }
}
