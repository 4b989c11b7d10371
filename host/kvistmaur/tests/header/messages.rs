//! What `messages.c` has to print, by the second program.

use crate::hex;
use second::calls::{seal, Answer};
use second::cipher::{Set, SETS};

const DATA: &[u8] = b"valve 12";
const TEXT: &[u8] = b"close, then report in";

/// What the program has to print.
pub fn wanted() -> String {
    SETS.iter().map(of_a_set).collect()
}

/// What it has to print for a set.
fn of_a_set(set: &Set) -> String {
    let (set, length) = (set.number, set.key);
    let (key, nonce) = (vec![7; length], vec![1; length]);
    let (mut out, mut tag) = ([0xbb; 24], [0xaa; 16]);
    let whole = seal(set, &key, &nonce, DATA, TEXT, &mut out, &mut tag[..length]);
    let sealed = line("sealed", whole, &out, &tag);

    let opened = [TEXT, &[0xcc; 3]].concat();
    let zeros = [&[0; 21][..], &[0xcc; 3]].concat();
    let refused = |what, number| line(what, refusal(number), &opened, &tag);
    let differs = Answer { number: 9, ..whole };

    let mut short = tag;
    let nothing = seal(set, &key, &nonce, &[], &[], &mut [], &mut short[..length]);
    [
        sealed,
        line("opened", whole, &opened, &tag),
        refused("set", 1),
        refused("key", 2),
        refused("nonce", 3),
        refused("tag", 4),
        refused("data", 5),
        refused("text", 5),
        refused("room", 6),
        line("differs", differs, &zeros, &tag),
        line("empty", nothing, &zeros, &short),
        line("empty", nothing, &zeros, &short),
        line("none", refusal(2), &zeros, &short),
    ]
    .concat()
}

/// A refusal that reports no rounds.
fn refusal(number: u64) -> Answer {
    Answer { number, rounds: 0 }
}

/// A line as the program prints it.
fn line(what: &str, answer: Answer, out: &[u8], tag: &[u8]) -> String {
    let Answer { number, rounds } = answer;
    format!("{what} {number} {rounds} {} {}\n", hex(out), hex(tag))
}
