//! What `streams.c` has to print, by the second program: the same calls, in the same order.

use crate::hex;
use second::area;
use second::calls::{seal, AD_LIMIT, TEXT_LIMIT};
use second::cipher::{Set, SETS};
use std::collections::BTreeSet;

const DATA: &[u8] = b"valve 12";
const TEXT: &[u8; 22] = b"close, then report in\0";

/// The most bytes of text in the streams.
const LIMIT: u64 = 21;

/// The length of a state.
const STATE: usize = 112;

/// The directions, as they are numbered in a state.
const SEALING: usize = 0;
const CHECKING: usize = 1;

/// The answers that each call has to give in a direction.
#[rustfmt::skip]
const ANSWERS: [[(&str, &[u64]); 5]; 3] = [
    [("start", &[0, 1, 2, 3, 5, 8]), ("data", &[0, 5, 7, 8]), ("text", &[0, 5, 6, 7, 8]), ("finish", &[0, 4, 7, 8]), ("end", &[0, 8])],
    [("start", &[0, 1, 2, 3, 5, 8]), ("data", &[0, 5, 7, 8]), ("text", &[0, 5, 7, 8]), ("finish", &[0, 4, 7, 8, 9]), ("end", &[0, 8])],
    [("start", &[0, 1, 2, 3, 5, 8]), ("data", &[0, 5, 7, 8]), ("text", &[0, 5, 6, 7, 8]), ("finish", &[0, 4, 7, 8, 9]), ("end", &[0, 8])],
];

/// What the program has to print. Panics where a call would not give each of its answers, in each set and direction.
pub fn wanted() -> String {
    let mut printed = String::new();
    for set in &SETS {
        for (direction, calls) in ANSWERS.iter().enumerate() {
            let mut program = Program::new(set, direction);
            program.run();
            let answers = calls.iter().flat_map(|(call, answers)| {
                let answers = answers.iter();
                answers.map(|answer| (*call, *answer))
            });
            assert_eq!(program.given, answers.collect(), "direction {direction}");
            printed += &program.printed;
        }
    }
    printed
}

/// What the program lends in a set and direction, and what it prints.
struct Program {
    set: &'static Set,
    direction: usize,
    /// The text or the ciphertext, and a byte more.
    body: [u8; 22],
    /// The tag of the message, as it is lent.
    right: [u8; 17],
    area: [u8; STATE + 1],
    out: [u8; 24],
    tag: [u8; 17],
    printed: String,
    given: BTreeSet<(&'static str, u64)>,
}

impl Program {
    /// The program as it is before its first call.
    fn new(set: &'static Set, direction: usize) -> Program {
        let (key, nonce) = (vec![7; set.key], vec![1; set.key]);
        let (mut cipher, mut right) = ([0; 22], [0xaa; 17]);
        let (text, place) = (&TEXT[..21], &mut right[..set.key]);
        let sealed = seal(set.number, &key, &nonce, DATA, text, &mut cipher, place);
        assert_eq!(sealed.number, 0);
        Program {
            set,
            direction,
            body: if direction == SEALING { *TEXT } else { cipher },
            right,
            area: [0x5a; STATE + 1],
            out: [0xbb; 24],
            tag: [0xaa; 17],
            printed: String::new(),
            given: BTreeSet::new(),
        }
    }

    /// Prints a line.
    fn line(&mut self, call: &'static str, what: &str, number: u64) {
        let (answer, rounds) = (number % 16, number / 16);
        let [state, out, tag] = [&self.area[..], &self.out, &self.tag].map(hex);
        self.printed += &format!("{call} {what} {answer} {rounds} {state} {out} {tag}\n");
        self.given.insert((call, answer));
    }

    /// A start that is right.
    fn restart(&mut self) {
        let key = self.set.key;
        self.start("", self.set.number, LIMIT, key, key, STATE);
    }

    /// A start with such numbers and lengths; a line, where it has a name.
    fn start(&mut self, what: &str, set: u64, limit: u64, key: usize, nonce: usize, state: usize) {
        let (key, nonce) = (vec![7; key], vec![1; nonce]);
        let calls = [
            area::start_sealing,
            area::start_checking,
            area::start_opening,
        ];
        let number = calls[self.direction](set, limit, &key, &nonce, &mut self.area[..state]);
        if !what.is_empty() {
            self.line("start", what, number);
        }
    }

    /// A call for data, with so much of the state.
    fn data(&mut self, what: &str, data: &[u8], state: usize) {
        let number = area::stream_data(&mut self.area[..state], data);
        self.line("data", what, number);
    }

    /// A text call of a direction, with so much of the state, and so much room.
    fn text(&mut self, what: &str, direction: usize, text: &[u8], room: usize, state: usize) {
        let (state, out) = (&mut self.area[..state], &mut self.out[..room]);
        let number = match direction {
            SEALING => area::stream_seal(state, text, out),
            CHECKING => area::stream_check(state, text),
            _ => area::stream_open(state, text, out),
        };
        self.line("text", what, number);
    }

    /// A finish of a direction, with so much of the tag, and so much of the state.
    fn finish(&mut self, what: &str, direction: usize, tag: usize, state: usize) {
        let (state, tag) = (&mut self.area[..state], &mut self.tag[..tag]);
        let number = match direction {
            SEALING => area::finish_sealing(state, tag),
            CHECKING => area::finish_checking(state, tag),
            _ => area::finish_opening(state, tag),
        };
        self.line("finish", what, number);
    }

    /// An end without a tag, with so much of the state.
    fn end(&mut self, what: &str, state: usize) {
        let number = area::stream_end(&mut self.area[..state]);
        self.line("end", what, number);
    }

    /// Every call on a state that is broken at a byte, or has another length; then the state is put back.
    fn broken(&mut self, how: &str, byte: Option<(usize, u8)>, state: usize) {
        let kept = self.area;
        if let Some((place, value)) = byte {
            self.area[place] = value;
        }
        self.data(how, &TEXT[..5], state);
        self.text(how, self.direction, &TEXT[..5], 24, state);
        self.finish(how, self.direction, self.set.key, state);
        self.area = kept;
    }

    /// A state broken in many ways.
    fn all_broken(&mut self) {
        self.broken("short", None, STATE - 1);
        self.broken("long", None, STATE + 1);
        self.broken("none", None, 0);
        self.broken("set", Some((56, 1)), STATE);
        self.broken("direction", Some((71, 3)), STATE);
        self.broken("wide-direction", Some((64, 1)), STATE);
        self.broken("phase", Some((79, 3)), STATE);
        self.broken("ended", Some((79, 2)), STATE);
        self.broken("place", Some((103, self.area[103] ^ 1)), STATE);
        self.broken("limit", Some((104, 1)), STATE);
    }

    /// Starts that are refused, each over a stream that is open.
    fn refused_starts(&mut self) {
        let (set, key) = (self.set.number, self.set.key);
        self.start("right", set, LIMIT, key, key, STATE);
        self.start("set", set + 256, LIMIT, key, key, STATE);
        self.restart();
        self.start("key", set, LIMIT, key - 1, key, STATE);
        self.restart();
        self.start("nonce", set, LIMIT, key, key - 1, STATE);
        self.restart();
        self.start("limit", set, TEXT_LIMIT as u64 + 1, key, key, STATE);
        self.restart();
        self.start("short", set, LIMIT, key, key, STATE - 1);
        self.start("long", set, LIMIT, key, key, STATE + 1);
        self.start("none", set, LIMIT, 0, 0, 0);
    }

    /// All calls of the program.
    fn run(&mut self) {
        let (direction, length, body) = (self.direction, self.set.key, self.body);
        let (other, third) = ((direction + 1) % 3, (direction + 2) % 3);
        self.refused_starts();
        self.end("open", STATE);
        self.data("ended", DATA, STATE);

        let (set, key) = (self.set.number, self.set.key);
        self.start("right", set, LIMIT, key, key, STATE);
        self.all_broken();
        self.data("right", DATA, STATE);
        self.data("past", &vec![0; AD_LIMIT], STATE);
        self.data("none", &[], STATE);

        self.text("past", direction, &body, 24, STATE);
        self.text("other", other, &body[..8], 24, STATE);
        self.text("third", third, &body[..8], 24, STATE);
        self.text("tight", direction, &body[..8], 7, STATE);
        self.restart();
        self.data("again", DATA, STATE);
        self.text("right", direction, &body[..8], 24, STATE);
        self.text("none", direction, &[], 0, STATE);
        self.text("right", direction, &body[8..21], 24, STATE);
        self.text("past", direction, &body[..1], 24, STATE);
        self.data("late", &[], STATE);
        self.all_broken();

        self.finish("other", other, length, STATE);
        self.finish("third", third, length, STATE);
        self.finish("less", direction, length - 1, STATE);
        self.finish("more", direction, length + 1, STATE);
        if direction != SEALING {
            let kept = self.area;
            self.finish("differs", direction, length, STATE);
            (self.area, self.tag) = (kept, self.right);
        }
        self.finish("right", direction, length, STATE);
        assert_eq!(self.tag, self.right);

        self.data("ended", &[], STATE);
        self.text("ended", direction, &[], 0, STATE);
        self.finish("ended", direction, length, STATE);

        self.restart();
        self.end("short", STATE - 1);
        self.end("long", STATE + 1);
        self.end("none", 0);
        self.end("right", STATE);
        self.area.fill(0xff);
        self.end("any", STATE);
    }
}
