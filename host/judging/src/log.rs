//! Entries of a chip's log as lines that can be put wrong, and the calls of which logs are made.

use crate::text::{Kind, Text};
use second::cipher::{Set, SETS};
use second::log::{written, Call};
use second::random::Random;
use second::replay::{right_entries, right_log};

/// A line of an entry, by what it tells.
#[derive(Clone, Copy, Debug, PartialEq, Eq)]
pub enum Line {
    Call,
    /// What the call was handed.
    Data,
    Answer,
    /// What the call gave out.
    Out,
    Rounds,
}

/// The lines of an entry, in their order.
pub const LINES: [Line; 5] = [
    Line::Call,
    Line::Data,
    Line::Answer,
    Line::Out,
    Line::Rounds,
];

/// The lines of an entry, each with its line feed.
pub type Logged = Text<Line>;

impl Kind for Line {
    fn beginning(self) -> &'static [u8] {
        match self {
            Line::Call => b"call=",
            Line::Data => b"data=",
            Line::Answer => b"answer=",
            Line::Out => b"out=",
            Line::Rounds => b"rounds=",
        }
    }
}

impl Logged {
    /// Gives the number that stands in a line.
    pub fn number_in(&self, line: Line) -> u64 {
        let digits = String::from_utf8_lossy(self.value(line));
        digits.parse().expect("a number")
    }
}

/// A call, and what it is handed.
pub type Handed = (Call, Vec<u8>);

/// Gives the sets that a log has a start for: 1 and 2.
pub fn startable() -> &'static [Set; 2] {
    SETS.first_chunk().expect("there are sets 1 and 2")
}

/// Gives the start of one of these sets.
pub fn start(set: &Set) -> Handed {
    let call = match set.number {
        1 => Call::Start1,
        2 => Call::Start2,
        other => panic!("a log has no start for set {other}"),
    };
    handed(call, 2 * set.key)
}

/// Gives a piece of data of this length.
pub fn ad(length: usize) -> Handed {
    handed(Call::Ad, length)
}

/// Gives a piece of text of this length.
pub fn text(length: usize) -> Handed {
    handed(Call::Text, length)
}

/// Gives the end of a message.
pub fn finish() -> Handed {
    handed(Call::Finish, 0)
}

/// Gives a call with so many pseudo-random bytes.
fn handed(call: Call, length: usize) -> Handed {
    let mut random = Random::new(((length as u64) << 8) + call as u64);
    (call, random.bytes(length))
}

/// Gives the calls of a message whose data and text are handed over in pieces of these lengths.
pub fn message(set: &Set, data: &[usize], pieces: &[usize]) -> Vec<Handed> {
    let mut calls = vec![start(set)];
    calls.extend(data.iter().map(|length| ad(*length)));
    calls.extend(pieces.iter().map(|length| text(*length)));
    calls.push(finish());
    calls
}

/// Gives calls of both such sets, some of which are refused: before a start, data behind text, behind the end.
pub fn of_all_kinds() -> Vec<Handed> {
    let [one, two] = startable();
    vec![
        text(2),
        start(one),
        ad(3),
        ad(0),
        ad(9),
        text(5),
        ad(1),
        text(0),
        finish(),
        finish(),
        start(two),
        text(13),
        finish(),
    ]
}

/// Gives the right entries of the calls.
pub fn logged(calls: &[Handed]) -> Vec<Logged> {
    let lines = |entry| Text::split(&LINES, &written(entry));
    right_entries(calls).iter().map(lines).collect()
}

/// Gives the bytes of the entries, one after another.
pub fn bytes_of(entries: &[Logged]) -> Vec<u8> {
    entries.iter().flat_map(Logged::bytes).collect()
}

/// Gives a right log of so many entries, of all kinds in turn.
pub fn many(count: usize) -> Vec<u8> {
    let calls = of_all_kinds().into_iter().cycle();
    right_log(&calls.take(count).collect::<Vec<_>>())
}

/// The length of the shortest entry, which is data of no byte before a start.
const SHORTEST: usize = 37;

/// The most bytes that such an entry holds.
const MOST: usize = 256;

/// Gives a right log of exactly as many bytes in all, of which there are at least two shortest entries: data before a start, which is refused.
pub fn of_length(length: usize) -> Vec<u8> {
    let least = length.div_ceil(SHORTEST + 2 * MOST);
    // Each entry has an odd length.
    let count = least + (least + length) % 2;
    let held = (length - count * SHORTEST) / 2;
    let share = |place: usize| held / count + usize::from(place < held % count);
    let calls: Vec<Handed> = (0..count).map(|place| ad(share(place))).collect();
    right_log(&calls)
}
