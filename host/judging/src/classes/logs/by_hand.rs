//! Logs written out with what is told of them, so that both programs are held to the rules themselves.

use crate::input::Input;

/// The right entries of the empty message in set 2.
const NOTHING: [&str; 2] = [
    "call=start2
data=000102030405060708090a0b101112131415161718191a1b
answer=0
out=
rounds=12
",
    "call=finish
data=
answer=0
out=0e87aae4e9bb6249b525b394
rounds=12
",
];

/// A right log of the order `close` to `valve 12` in set 2, the data in two pieces.
const CLOSE: &str = "call=start2
data=000102030405060708090a0bf0f1f2f3f4f5f6f7f8f9fafb
answer=0
out=
rounds=12
call=ad
data=76616c
answer=0
out=
rounds=0
call=ad
data=7665203132
answer=0
out=
rounds=0
call=text
data=636c6f7365
answer=0
out=06bf4bf2a4
rounds=8
call=finish
data=
answer=0
out=da672106d0b341a823aa0ef5
rounds=12
";

/// A text before any start, which is refused.
const REFUSED: &str = "call=text
data=00
answer=7
out=
rounds=0
";

/// Gives the log with another text in place of one that it has.
fn with(log: &str, old: &str, new: &str) -> String {
    assert!(log.contains(old), "{old}");
    log.replacen(old, new, 1)
}

/// Gives the cases.
pub fn cases() -> Vec<Input> {
    let nothing = &NOTHING.concat()[..];
    let agrees = |name, log: &str, entries| Input::agrees(name, log, entries);
    let differs = |name, log: String, entry, field| Input::first_differs(name, log, entry, field);
    let breaks = |name, log: String, place| Input::first_breaks_at(name, log, place);
    let tag = "0e87aae4e9bb6249b525b394";
    vec![
        agrees("no log", "", 0),
        agrees("the empty message", nothing, 2),
        agrees("an order", CLOSE, 5),
        agrees("three messages", &[nothing, CLOSE, nothing].concat(), 9),
        agrees("a start alone", NOTHING[0], 1),
        agrees("text before a start", REFUSED, 1),
        agrees("text behind the end", &[nothing, REFUSED].concat(), 3),
        differs("another digit", with(nothing, "0e87", "0e86"), 2, "out"),
        differs("a tag cut off", with(nothing, "b394", "b3"), 2, "out"),
        differs("no tag", with(nothing, tag, ""), 2, "out"),
        differs("a cipher cut off", with(CLOSE, "4bf2a4", "4b"), 4, "out"),
        differs("an end alone", NOTHING[1].to_string(), 1, "answer"),
        differs("a round fewer", with(nothing, "=12", "=11"), 1, "rounds"),
        differs(
            "rounds of the data told too early",
            with(CLOSE, "rounds=0", "rounds=8"),
            2,
            "rounds",
        ),
        differs(
            "an answer that no call has",
            with(nothing, "answer=0", "answer=99"),
            1,
            "answer",
        ),
        differs(
            "text done before a start",
            with(REFUSED, "answer=7", "answer=0"),
            1,
            "answer",
        ),
        breaks("a lone line feed", "\n".to_string(), [1, 1, 1]),
        breaks("no such start", with(nothing, "t2", "t3"), [1, 1, 11]),
        breaks("upper case", with(nothing, "0e87", "0E87"), [2, 4, 6]),
        breaks(
            "data of an end",
            with(nothing, "data=\n", "data=00\n"),
            [2, 2, 6],
        ),
        breaks(
            "no last line feed",
            nothing.trim_end().to_string(),
            [2, 5, 10],
        ),
    ]
}
