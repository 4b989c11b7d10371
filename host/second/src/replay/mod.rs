//! Replaying a log: every call is made on our own sealing stream, and what it gives is compared.

mod making;
mod report;

pub use making::{called, right_entries, right_log};

use crate::log::{Entry, Log};
use crate::record::Broken;
use crate::stream::ENDED;

/// What is compared of an entry, in this order.
#[derive(Clone, Copy, Debug, PartialEq, Eq)]
pub enum Field {
    Answer,
    Out,
    Rounds,
}

/// What is said of a log.
#[derive(Clone, Copy, Debug, PartialEq, Eq)]
pub enum Verdict {
    /// The log was read to its end, and every entry is ours.
    Agrees,
    /// The named field is the first of its entry that isn't ours.
    Differs(Field),
    /// The entry breaks its form, first at this line and column.
    Unread(Broken),
}

/// What a replay says, and of which entry.
#[derive(Clone, Copy, Debug, PartialEq, Eq)]
pub struct Replay {
    /// The number, from 1, of the entry that decides, or how many there are when all agree.
    pub entry: u64,
    pub verdict: Verdict,
}

/// Replays a log from the ended state up to its end or the first entry that is broken or differs.
pub fn replay(log: &[u8]) -> Replay {
    let mut log = Log::new(log);
    let mut stream = ENDED;
    let mut agreeing = 0;
    loop {
        let decides = |verdict| Replay {
            entry: agreeing + 1,
            verdict,
        };
        let found = match log.take_entry() {
            Ok(Some(found)) => found,
            Ok(None) => break,
            Err(broken) => return decides(Verdict::Unread(broken)),
        };
        let (ours, next) = called(stream, found.call, &found.data);
        if let Some(field) = first_differing(&ours, &found) {
            return decides(Verdict::Differs(field));
        }
        stream = next;
        agreeing += 1;
    }
    Replay {
        entry: agreeing,
        verdict: Verdict::Agrees,
    }
}

/// Gives the first field in which the found entry isn't ours, if there is one.
fn first_differing(ours: &Entry, found: &Entry) -> Option<Field> {
    if found.answer != ours.answer {
        return Some(Field::Answer);
    }
    if found.out != ours.out {
        return Some(Field::Out);
    }
    if found.rounds != ours.rounds {
        return Some(Field::Rounds);
    }
    None
}
