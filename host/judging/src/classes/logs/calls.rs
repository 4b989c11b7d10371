//! Words that name no call.

use crate::input::Input;
use crate::log::{bytes_of, logged, message, startable, Line};

/// Words, and how many of their characters begin a call's.
const WORDS: [(&str, usize); 33] = [
    ("", 0),
    ("x", 0),
    ("0", 0),
    ("1", 0),
    (" ad", 0),
    ("Start1", 0),
    ("START1", 0),
    ("Finish", 0),
    ("check", 0),
    ("open", 0),
    ("s", 1),
    ("seal", 1),
    ("stop", 2),
    ("start", 5),
    ("starts", 5),
    ("start0", 5),
    ("start3", 5),
    ("start4", 5),
    ("start 1", 5),
    ("start12", 6),
    ("start1 ", 6),
    ("start2\r", 6),
    ("a", 1),
    ("ads", 2),
    ("ad ", 2),
    ("ad\0", 2),
    ("adtext", 2),
    ("tex", 3),
    ("texts", 4),
    ("text=", 4),
    ("finis", 5),
    ("finished", 6),
    ("finish\u{e9}", 6),
];

/// Gives each of the words as the call of the first and of the third entry.
pub fn names() -> Vec<Input> {
    let mut inputs = Vec::new();
    for (turn, (word, good)) in WORDS.into_iter().enumerate() {
        for number in [1, 3] {
            let mut entries = logged(&message(&startable()[turn % 2], &[3], &[5]));
            entries[number - 1] = entries[number - 1].with_value(Line::Call, word);
            let what = format!("word {turn} in entry {number}");
            let fault = [number, 1, 6 + good];
            inputs.push(Input::first_breaks_at(what, bytes_of(&entries), fault));
        }
    }
    inputs
}
