//! Entries of logs as texts, put together here.

use second::hex;
use second::log::{Call, Entry};

/// Gives the word of a call.
fn word(call: Call) -> &'static str {
    match call {
        Call::Start1 => "start1",
        Call::Start2 => "start2",
        Call::Ad => "ad",
        Call::Text => "text",
        Call::Finish => "finish",
    }
}

/// Gives the digits of the bytes.
fn digits(bytes: &[u8]) -> String {
    String::from_utf8(hex::written(bytes)).expect("plain text")
}

/// Gives the five lines of an entry.
pub fn lines(entry: &Entry) -> String {
    format!(
        "call={}\ndata={}\nanswer={}\nout={}\nrounds={}\n",
        word(entry.call),
        digits(&entry.data),
        entry.answer,
        digits(&entry.out),
        entry.rounds
    )
}

/// Gives the log of the entries.
pub fn text(entries: &[Entry]) -> String {
    entries.iter().map(lines).collect()
}
