//! What the program `limits` is held to, computed again by the second program.

use second::cipher::{set_numbers, set_of, Set, SETS};
use second::stream::{
    ad, check, finish_checking, finish_opening, finish_sealing, open, seal, start, Direction,
    Given, Phase, Stream,
};
use Direction::{Checking, Opening, Sealing};

/// What the gate compares the program's output with.
const EXPECTED: &str = include_str!("../../../crates/limits/stdout");

/// The limits that are tried.
const LIMITS: [u64; 10] = [
    0,
    1,
    199,
    200,
    201,
    1_048_575,
    1_048_576,
    1_048_577,
    1 << 63,
    u64::MAX,
];

/// The counts of text that states have.
const TEXTS: [u64; 10] = [
    0,
    1,
    199,
    200,
    201,
    1_048_574,
    1_048_575,
    1_048_576,
    1_048_577,
    u64::MAX,
];

/// The counts of data that states before the text have.
const DATA: [u64; 10] = [0, 1, 7, 8, 200, 65_534, 65_535, 65_536, 65_537, u64::MAX];

/// The byte that data and text are made of.
const BYTE: u8 = 165;

/// The byte that lent places hold before a call.
const LENT: u8 = 90;

/// The directions and phases, in the program's order.
const DIRECTIONS: [(usize, Direction); 3] = [(0, Sealing), (1, Checking), (2, Opening)];
const PHASES: [(usize, Phase); 3] = [(0, Phase::Data), (1, Phase::Text), (2, Phase::Ended)];

/// What a call gave, and what its lent place then holds.
type Called = (Given, Vec<u8>);

/// So many bytes counting up from one.
fn counting(from: u8, length: usize) -> Vec<u8> {
    (from..).take(length).collect()
}

/// Numbers mixed in, one after the other: the mixture turned left by 7 bits, and combined with each.
fn mixed(mixture: u64, numbers: impl IntoIterator<Item = u64>) -> u64 {
    let turned = |mixture: u64, number| mixture.rotate_left(7) ^ number;
    numbers.into_iter().fold(mixture, turned)
}

/// Bytes mixed.
fn mixed_bytes(bytes: &[u8]) -> u64 {
    mixed(0, bytes.iter().map(|byte| u64::from(*byte)))
}

/// All of a state, mixed.
fn mixed_state(s: &Stream) -> u64 {
    let direction = DIRECTIONS.iter().find(|known| known.1 == s.direction);
    let phase = PHASES.iter().find(|known| known.1 == s.phase);
    let kinds = [
        mixed_bytes(&s.key),
        s.set,
        direction.expect("one of three").0 as u64,
        phase.expect("one of three").0 as u64,
    ];
    let counts = [s.ad_count, s.text_count, s.place, s.limit];
    mixed(0, [&s.words[..], &kinds, &counts].concat())
}

/// All that a call gave, mixed, but for its answer.
fn mixed_call(((_, rounds, next), lent): &Called) -> u64 {
    mixed(mixed_state(next), [mixed_bytes(lent), *rounds])
}

/// A call that is lent no place.
fn placeless(given: Given) -> Called {
    (given, Vec::new())
}

/// The text call of a direction, of so many bytes; one that gives text has room for 255.
fn text(direction: Direction, stream: Stream, length: usize) -> Called {
    text_into(direction, stream, length, 255)
}

/// The text call of a direction, of so many bytes, with so much room where it gives text.
fn text_into(direction: Direction, stream: Stream, length: usize, room: usize) -> Called {
    let piece = vec![BYTE; length];
    let mut out = vec![LENT; room];
    match direction {
        Sealing => (seal(stream, &piece, &mut out), out),
        Checking => placeless(check(stream, &piece)),
        Opening => (open(stream, &piece, &mut out), out),
    }
}

/// The finish of a direction; a checking or an opening is given the tag that its words would be sealed with, its first byte combined with `change`.
fn finish(direction: Direction, stream: Stream, change: u8) -> Called {
    let mut tag = vec![LENT; set_of(stream.set).map_or(16, |set| set.key)];
    if direction == Sealing {
        return (finish_sealing(stream, &mut tag), tag);
    }
    let sealing = Stream {
        direction: Sealing,
        ..stream
    };
    finish_sealing(sealing, &mut tag);
    tag[0] ^= change;
    placeless(match direction {
        Checking => finish_checking(stream, &tag),
        _ => finish_opening(stream, &tag),
    })
}

/// The answer and the rounds of a call, and all else that it gave, mixed.
fn told(call: &Called) -> String {
    let (answer, rounds, _) = call.0;
    format!(" {answer},{rounds},{:016x}", mixed_call(call))
}

/// Starts with each limit, in each direction, in each set and under three numbers that no set has, with keys and nonces of 16 and of 12 bytes.
fn starts() -> Vec<String> {
    let mut lines = Vec::new();
    for (d, direction) in DIRECTIONS {
        for set in set_numbers().chain([5, 0, (1 << 32) + 3]) {
            for key in [16, 12] {
                for nonce in [16, 12] {
                    let (k, n) = (counting(0, key), counting(16, nonce));
                    let ten = LIMITS
                        .map(|limit| told(&placeless(start(direction, set, limit, &k, &n))))
                        .concat();
                    lines.push(format!(
                        "starts direction={d} set={set} key={key} nonce={nonce}:{ten}\n"
                    ));
                }
            }
        }
    }
    lines
}

/// The lengths of a walk's pieces of text: up to its limit and past it, or mixed.
fn lengths(walk: usize, limit: usize) -> [usize; 4] {
    match walk {
        0 => [limit, 0, 1, 0],
        1 => [limit + 1, limit, 1, 0],
        2 => [limit / 2, limit - limit / 2, 1, 0],
        3 => [limit / 3, limit, limit - limit / 3, 1],
        4 => [65_537, limit, 65_537, 0],
        _ => [0, 101, 202, 303].map(|step| (37 * walk + step) % (limit + 3)),
    }
}

/// A walk from a start on: three bytes of data, four pieces of text, the finish with another tag, and with the right one, and a second one behind it, each told.
fn walked(direction: Direction, set: &Set, limit: u64, walk: usize) -> String {
    let (key, nonce) = (counting(0, set.key), counting(16, set.key));
    let mut call = placeless(start(direction, set.number, limit, &key, &nonce));
    let mut line = told(&call);
    let mut go_on = |next: &dyn Fn(Stream) -> Called| {
        call = next(call.0 .2);
        line += &told(&call);
    };
    go_on(&|stream| placeless(ad(stream, &[BYTE; 3])));
    for length in lengths(walk, limit as usize) {
        go_on(&|stream| text(direction, stream, length));
    }
    let four = call.0 .2;
    for (stream, change) in [(four, 1), (four, 0), (finish(direction, four, 0).0 .2, 0)] {
        line += &told(&finish(direction, stream, change));
    }
    line
}

/// Ten walks under each of the first five limits, in each set and direction.
fn walks() -> Vec<String> {
    let mut lines = Vec::new();
    for (d, direction) in DIRECTIONS {
        for set in &SETS {
            for limit in &LIMITS[..5] {
                for walk in 0..10 {
                    let calls = walked(direction, set, *limit, walk);
                    let number = set.number;
                    lines.push(format!(
                        "walk direction={d} set={number} limit={limit} number={walk}:{calls}\n"
                    ));
                }
            }
        }
    }
    lines
}

/// The answers to calls on a state, and all that they gave, mixed.
fn tried(direction: Direction, stream: Stream) -> String {
    let own = [
        placeless(ad(stream, &[BYTE])),
        text(direction, stream, 0),
        text(direction, stream, 1),
        text(direction, stream, 2),
        text(direction, stream, 65_537),
        text(direction, text(direction, stream, 2).0 .2, 1),
        text_into(direction, stream, 2, 1),
        finish(direction, stream, 0),
        finish(direction, stream, 1),
    ];
    let others = match direction {
        Sealing => [Checking, Opening],
        Checking => [Opening, Sealing],
        Opening => [Sealing, Checking],
    };
    let crossed = others.map(|other| [text(other, stream, 1), finish(other, stream, 0)]);
    let calls: Vec<Called> = own
        .into_iter()
        .chain(crossed.into_iter().flatten())
        .collect();
    let answers: String = calls.iter().map(|call| call.0 .0.to_string()).collect();
    format!(" {answers},{:016x}", mixed(0, calls.iter().map(mixed_call)))
}

/// A state under words of zeros, with a count of its phase: of data before the text, else of text. In sets 3 and 4, where it has not ended, no byte of its key is zero.
fn state(direction: Direction, set: &Set, phase: Phase, limit: u64, count: u64) -> Stream {
    let (ad_count, text_count) = match phase {
        Phase::Data => (count, 0),
        _ => (0, count),
    };
    let mut stream = Stream {
        words: [0; 5],
        set: set.number,
        direction,
        phase,
        key: [0; 16],
        ad_count,
        text_count,
        place: 0,
        limit,
    };
    if phase != Phase::Ended {
        stream.key = if set.number <= 2 { [0; 16] } else { [7; 16] };
        stream.place = count % set.block as u64;
    }
    stream
}

/// States with each limit and ten counts, in each phase, set and direction.
fn states() -> Vec<String> {
    let mut lines = Vec::new();
    for (d, direction) in DIRECTIONS {
        for set in &SETS {
            for (p, phase) in PHASES {
                let number = set.number;
                let counts = if phase == Phase::Data { DATA } else { TEXTS };
                for limit in LIMITS {
                    let ten = counts
                        .map(|count| tried(direction, state(direction, set, phase, limit, count)))
                        .concat();
                    lines.push(format!(
                        "states direction={d} set={number} phase={p} limit={limit}:{ten}\n"
                    ));
                }
            }
        }
    }
    lines
}

#[test]
fn starts_walks_and_states_are_the_second_programs() {
    let (starts, walks, states) = (starts(), walks(), states());
    assert_eq!([starts.len(), walks.len(), states.len()], [84, 600, 360]);
    let all = [starts, walks, states].concat().concat();
    assert!(
        EXPECTED == all,
        "crates/limits/stdout is not what the second program says"
    );
}
