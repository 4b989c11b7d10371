//! What the tests of streams use: streams of a message, every call, cuts, and what is said of states.

use crate::common::{flipped, message, Message};
use second::cipher::{set_numbers, set_of, Set, SETS};
use second::permutation::{run, Words};
use second::random::Random;
use second::stream::{
    ad, check, finish_checking, finish_opening, finish_sealing, is_broken, open, seal, start,
    Direction, Given, Phase, Stream, ENDED,
};
use Direction::{Checking, Opening, Sealing};

/// The largest limit of text; the streams of most tests have it.
pub const LARGEST: u64 = 1_048_576;

/// All directions.
pub const DIRECTIONS: [Direction; 3] = [Sealing, Checking, Opening];

/// How many kinds of streams there are.
pub const KINDS: usize = SETS.len() * 3;

/// Gives the kinds of streams: each set in each direction.
pub fn kinds() -> impl Iterator<Item = (u64, Direction)> {
    set_numbers().flat_map(|set| DIRECTIONS.map(|direction| (set, direction)))
}

pub const TWELVE: [u64; 12] = [
    0xf0, 0xe1, 0xd2, 0xc3, 0xb4, 0xa5, 0x96, 0x87, 0x78, 0x69, 0x5a, 0x4b,
];

/// Gives the state of an answer that must be done with the given rounds.
pub fn done(given: Given, rounds: u64) -> Stream {
    assert_eq!((given.0, given.1), (0, rounds));
    given.2
}

/// Gives a fresh stream of the message with the given limit.
pub fn fresh(m: &Message, direction: Direction, limit: u64) -> Stream {
    done(start(direction, m.set.number, limit, &m.key, &m.nonce), 12)
}

/// Gives a stream of the message with the given limit that has taken all of its data.
pub fn after_data(m: &Message, direction: Direction, limit: u64) -> Stream {
    ad(fresh(m, direction, limit), &m.ad).2
}

/// Gives `count` bytes counting up from `first`.
pub fn counting(first: u8, count: u8) -> Vec<u8> {
    (first..first + count).collect()
}

/// Gives how many bytes key, nonce and tag of a set have.
pub fn length_in(set: u64) -> u8 {
    match set {
        2 => 12,
        _ => 16,
    }
}

/// Starts a stream of the set with key bytes from 0 on and nonce bytes from 16 on.
pub fn counting_start(set: u64, direction: Direction, limit: u64) -> Given {
    let length = length_in(set);
    let (key, nonce) = (counting(0, length), counting(16, length));
    start(direction, set, limit, &key, &nonce)
}

/// Gives the words of that start, worked out here.
pub fn words_at_start(set: u64) -> Words {
    match set {
        1 => words_of_long_keys(0x800c060000000000),
        2 => words_of_short_keys(),
        3 => words_of_long_keys(0x80400c0600000000),
        4 => words_of_long_keys(0x80800c0800000000),
        _ => panic!("a set that is not worked out here"),
    }
}

/// Gives the words of a start with 16 bytes of key and of nonce behind the first word.
fn words_of_long_keys(first: u64) -> Words {
    let (k0, k1) = (0x0001020304050607, 0x08090a0b0c0d0e0f);
    let (n0, n1) = (0x1011121314151617, 0x18191a1b1c1d1e1f);
    let mut x = run([first, k0, k1, n0, n1], &TWELVE);
    x[3] ^= k0;
    x[4] ^= k1;
    x
}

/// Gives the words of the start of set 2.
fn words_of_short_keys() -> Words {
    let first = [
        0x600c080000000000,
        0,
        0x0001020304050607,
        0x08090a0b10111213,
        0x1415161718191a1b,
    ];
    let mut x = run(first, &TWELVE);
    x[3] ^= 0x0000000000010203;
    x[4] ^= 0x0405060708090a0b;
    x
}

/// Says that the stream is one just started in that way.
pub fn expect_started(s: Stream, set: u64, direction: Direction, limit: u64) {
    let wanted = Stream {
        words: words_at_start(set),
        set,
        direction,
        phase: Phase::Data,
        key: kept(&counting(0, length_in(set))),
        ad_count: 0,
        text_count: 0,
        place: 0,
        limit,
    };
    assert_eq!(s, wanted);
}

/// Says that a start with any mixture of faults, or none, gives the earliest, with each of the limits.
pub fn expect_starts(
    limits: &[u64],
    start: impl Fn(Direction, u64, u64, &[u8], &[u8]) -> Given,
) -> usize {
    let mut ran = 0;
    for (number, direction) in kinds() {
        let right = set_of(number).expect("a known set").key;
        let lengths = [right, 0, right - 1, right + 1, 28 - right, 40];
        for set in [number, 0, 5, 1 << 32 | number, u64::MAX] {
            for key in lengths {
                for nonce in lengths {
                    for limit in limits {
                        let fits = [set == number, key == right, nonce == right];
                        let wanted = match (fits, *limit <= LARGEST) {
                            ([false, _, _], _) => 1,
                            ([true, false, _], _) => 2,
                            ([true, true, false], _) => 3,
                            ([true, true, true], false) => 5,
                            ([true, true, true], true) => 0,
                        };
                        let (key, nonce) = (vec![1; key], vec![2; nonce]);
                        let given = start(direction, set, *limit, &key, &nonce);
                        if wanted == 0 {
                            assert_eq!(done(given, 12).limit, *limit);
                            assert_ne!(given.2, ENDED);
                        } else {
                            assert_eq!(given, (wanted, 0, ENDED));
                        }
                        ran += 1;
                    }
                }
            }
        }
    }
    ran
}

/// Gives the key with zeros after it up to 16 bytes.
pub fn kept(key: &[u8]) -> [u8; 16] {
    let mut all = [0; 16];
    all[..key.len()].copy_from_slice(key);
    all
}

/// Says what all parts but the words must be, after that much data and text of the message.
pub fn expect_parts(
    m: &Message,
    s: &Stream,
    (direction, limit): (Direction, u64),
    phase: Phase,
    counts: [usize; 2],
) {
    let count = if phase == Phase::Data { 0 } else { 1 };
    let place = counts[count] % m.set.block;
    assert_eq!(
        (s.set, s.direction, s.phase),
        (m.set.number, direction, phase)
    );
    assert_eq!(s.key, kept(&m.key));
    assert_eq!(
        (s.ad_count, s.text_count),
        (counts[0] as u64, counts[1] as u64)
    );
    assert_eq!((s.place, s.limit), (place as u64, limit));
    assert!(!is_broken(s));
}

/// Gives the middle rounds of the blocks filled between two counts.
pub fn filling(m: &Message, before: usize, after: usize) -> u64 {
    (m.set.middle * (after / m.set.block - before / m.set.block)) as u64
}

/// Gives the rounds of closing the message's data.
pub fn closing(m: &Message) -> u64 {
    if m.ad.is_empty() {
        0
    } else {
        m.set.middle as u64
    }
}

/// Makes one text call in the stream's direction and gives its answer and what went out; of a checking
/// stream, which lets nothing out, it gives the piece.
pub fn text_call(s: Stream, piece: &[u8]) -> (Given, Vec<u8>) {
    let text = match s.direction {
        Sealing => seal,
        Checking => return (check(s, piece), piece.to_vec()),
        Opening => open,
    };
    let mut out = vec![0; piece.len()];
    let given = text(s, piece, &mut out);
    // Spare bytes after the piece's place stay as they were.
    let mut longer = vec![9; piece.len() + 3];
    assert_eq!(text(s, piece, &mut longer), given);
    assert_eq!(longer, [&out[..], &[9; 3]].concat());
    (given, out)
}

/// Says that the stream ends in its direction with the given tag and rounds.
pub fn expect_end(s: Stream, tag: &[u8], rounds: u64) {
    let mut ours = tag.to_vec();
    let given = match s.direction {
        Sealing => {
            ours.fill(0xa5);
            finish_sealing(s, &mut ours)
        }
        Checking => finish_checking(s, tag),
        Opening => finish_opening(s, tag),
    };
    assert_eq!(given, (0, rounds, ENDED));
    assert_eq!(ours, tag);
}

/// Says that the stream, which compares tags, ends with 9 and the given rounds.
pub fn expect_no(s: Stream, wrong: &[u8], rounds: u64) {
    let given = match s.direction {
        Sealing => panic!("a sealing stream compares no tags"),
        Checking => finish_checking(s, wrong),
        Opening => finish_opening(s, wrong),
    };
    assert_eq!(given, (9, rounds, ENDED));
}

/// Runs the message through a stream, cut as given, and compares all with the whole message.
pub fn run_cut(
    random: &mut Random,
    m: &Message,
    kind: (Direction, u64),
    data: &[Vec<u8>],
    pieces: &[Vec<u8>],
) {
    let (direction, limit) = kind;
    let mut s = fresh(m, direction, limit);
    expect_parts(m, &s, kind, Phase::Data, [0, 0]);
    let mut sum = 12;
    let mut taken = 0;
    for piece in data {
        let rounds = filling(m, taken, taken + piece.len());
        s = done(ad(s, piece), rounds);
        sum += rounds;
        taken += piece.len();
        expect_parts(m, &s, kind, Phase::Data, [taken, 0]);
    }
    assert_eq!(taken, m.ad.len());

    let mut went = Vec::new();
    for (index, piece) in pieces.iter().enumerate() {
        let mut rounds = filling(m, went.len(), went.len() + piece.len());
        if index == 0 {
            rounds += closing(m);
        }
        let (given, out) = text_call(s, piece);
        s = done(given, rounds);
        sum += rounds;
        went.extend(out);
        expect_parts(m, &s, kind, Phase::Text, [taken, went.len()]);
    }
    assert_eq!(went, came_out(m, direction));

    let last = 12 + if pieces.is_empty() { closing(m) } else { 0 };
    assert_eq!(sum + last, m.rounds);
    expect_end(s, &m.tag, last);
    if direction != Sealing {
        let wrong = flipped(&m.tag, random.below(m.set.key * 8));
        expect_no(s, &wrong, last);
    }
}

/// Gives what a stream of the direction takes as text.
pub fn body(m: &Message, direction: Direction) -> &[u8] {
    match direction {
        Sealing => &m.text,
        Checking | Opening => &m.cipher,
    }
}

/// Gives what text calls of the direction give in all, as `text_call` tells it.
pub fn came_out(m: &Message, direction: Direction) -> &[u8] {
    match direction {
        Sealing | Checking => &m.cipher,
        Opening => &m.text,
    }
}

pub const WAYS: usize = 6;

/// Gives the bytes cut in one of six ways; two of them make no piece of empty bytes.
pub fn cut(random: &mut Random, set: &Set, bytes: &[u8], way: usize) -> Vec<Vec<u8>> {
    let owned = |parts: std::slice::Chunks<u8>| parts.map(|part| part.to_vec()).collect();
    match way {
        0 => vec![bytes.to_vec()],
        1 => owned(bytes.chunks(1)),
        2 => owned(bytes.chunks(set.block)),
        3 => owned(bytes.chunks(set.block + 3)),
        4 => vec![Vec::new(), bytes.to_vec(), Vec::new(), Vec::new()],
        _ => {
            let mut pieces = Vec::new();
            let mut rest = bytes;
            while !rest.is_empty() {
                let (piece, after) = rest.split_at(random.below(rest.len().min(40) + 1));
                pieces.push(piece.to_vec());
                rest = after;
            }
            pieces
        }
    }
}

/// Gives the bytes cut at the given places, which go up.
pub fn cut_at(bytes: &[u8], places: &[usize]) -> Vec<Vec<u8>> {
    let from = [&[0], places].concat();
    let to = [places, &[bytes.len()]].concat();
    let pairs = from.into_iter().zip(to);
    pairs.map(|(from, to)| bytes[from..to].to_vec()).collect()
}

/// The seven calls on a state.
#[derive(Clone, Copy, Debug, PartialEq)]
pub enum Call {
    Ad,
    Seal,
    Check,
    Open,
    FinishSealing,
    FinishChecking,
    FinishOpening,
}

pub const CALLS: [Call; 7] = [
    Call::Ad,
    Call::Seal,
    Call::Check,
    Call::Open,
    Call::FinishSealing,
    Call::FinishChecking,
    Call::FinishOpening,
];

/// Gives the text call and the finish call of a direction.
pub fn calls_of(direction: Direction) -> [Call; 2] {
    match direction {
        Sealing => [Call::Seal, Call::FinishSealing],
        Checking => [Call::Check, Call::FinishChecking],
        Opening => [Call::Open, Call::FinishOpening],
    }
}

/// Gives the other directions.
pub fn others(direction: Direction) -> [Direction; 2] {
    match direction {
        Sealing => [Checking, Opening],
        Checking => [Sealing, Opening],
        Opening => [Sealing, Checking],
    }
}

/// Gives the text calls and the finish calls of the other directions.
pub fn calls_of_others(direction: Direction) -> Vec<Call> {
    others(direction).map(calls_of).concat()
}

/// Makes the call with as much of the parts as belongs to it.
pub fn called(call: Call, s: Stream, piece: &[u8], out: &mut [u8], tag: &mut [u8]) -> Given {
    match call {
        Call::Ad => ad(s, piece),
        Call::Seal => seal(s, piece, out),
        Call::Check => check(s, piece),
        Call::Open => open(s, piece, out),
        Call::FinishSealing => finish_sealing(s, tag),
        Call::FinishChecking => finish_checking(s, tag),
        Call::FinishOpening => finish_opening(s, tag),
    }
}

/// Says that the call is refused with the number, and leaves the state and the lent bytes alone.
pub fn expect_refusal(number: u64, call: Call, s: Stream, piece: &[u8], room: usize, tag: &[u8]) {
    let out_before: Vec<u8> = (0..room).map(|i| (i % 251) as u8 + 1).collect();
    let mut out = out_before.clone();
    let mut lent = tag.to_vec();
    let given = called(call, s, piece, &mut out, &mut lent);
    assert_eq!(given, (number, 0, s), "{call:?}");
    assert!(out == out_before && lent == tag, "{call:?}");
}

/// Says that the state is broken, and that every call on it, fitting or not, answers 8.
pub fn expect_broken(s: Stream) -> usize {
    assert!(is_broken(&s), "{s:?}");
    let length = set_of(s.set).map_or(16, |set| set.key);
    for call in CALLS {
        expect_refusal(8, call, s, &[1, 2, 3], 3, &vec![5; length]);
        expect_refusal(8, call, s, &[], 0, &vec![5; length]);
        expect_refusal(8, call, s, &[1, 2, 3], 2, &[5]);
    }
    1
}

/// Says of every one of the states that it is broken, and gives how many they are.
pub fn all_broken(states: impl IntoIterator<Item = Stream>) -> usize {
    states.into_iter().map(expect_broken).sum()
}

/// Says that the state isn't broken, and that no call on it answers 8.
pub fn expect_sound(s: Stream) -> usize {
    assert!(!is_broken(&s), "{s:?}");
    for call in CALLS {
        let given = called(call, s, &[], &mut [], &mut [0; 16]);
        assert_ne!(given.0, 8, "{call:?} {s:?}");
    }
    1
}

/// Gives sound open states: all sets and directions, both phases, some counts of either kind.
pub fn open_states(random: &mut Random) -> Vec<Stream> {
    let mut states = Vec::new();
    for (number, direction) in kinds() {
        for count in [0, 1, 8, 13, 16, 31, 32] {
            let m = message(random, number, count, 21);
            let data = after_data(&m, direction, LARGEST);
            states.push(data);
            for length in [0, 3, 16, 21] {
                let piece = &body(&m, direction)[..length];
                states.push(text_call(data, piece).0 .2);
            }
        }
    }
    states
}

pub const OPEN: usize = KINDS * 7 * 5;

/// Gives the block of a state's set.
pub fn block_of(s: &Stream) -> u64 {
    set_of(s.set).expect("a known set").block as u64
}

/// Gives the open state with other counts and the place that goes with them.
pub fn with_counts(mut s: Stream, ad_count: u64, text_count: u64) -> Stream {
    (s.ad_count, s.text_count) = (ad_count, text_count);
    let data = s.phase == Phase::Data;
    s.place = if data { ad_count } else { text_count } % block_of(&s);
    s
}

/// Runs a test on every open state, from the given seed on, and gives the sum of its counts.
pub fn over_open(seed: u64, test: impl FnMut(Stream) -> usize) -> usize {
    let states = open_states(&mut Random::new(seed));
    states.into_iter().map(test).sum()
}
