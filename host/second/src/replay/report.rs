//! What the program prints of a replay, and its status.

use super::{Field, Replay, Verdict};
use crate::record::Broken;

impl Field {
    /// Gives the name of the field in a report.
    fn name(self) -> &'static str {
        match self {
            Field::Answer => "answer",
            Field::Out => "out",
            Field::Rounds => "rounds",
        }
    }
}

impl Replay {
    /// Gives all of standard output: the three report lines.
    pub fn report(&self) -> String {
        let entry = self.entry;
        let (word, field) = match self.verdict {
            Verdict::Agrees => ("agrees", "none".to_string()),
            Verdict::Differs(field) => ("differs", field.name().to_string()),
            Verdict::Unread(broken) => ("unread", broken.line.to_string()),
        };
        format!("entry={entry}\nverdict={word}\nfield={field}\n")
    }

    /// Gives all of standard error: where the entry breaks, if it does, and then that all is done.
    pub fn said(&self) -> String {
        let entry = self.entry;
        let fault = match self.verdict {
            Verdict::Unread(Broken { line, column }) => {
                format!("bench: entry {entry}: line {line}, column {column}\n")
            }
            Verdict::Agrees | Verdict::Differs(_) => String::new(),
        };
        fault + &format!("bench: done: entries={entry}\n")
    }

    /// Gives the status: 0 when all agree, otherwise 1.
    pub fn status(&self) -> u8 {
        match self.verdict {
            Verdict::Agrees => 0,
            Verdict::Differs(_) | Verdict::Unread(_) => 1,
        }
    }
}
