//! A limit of text chosen per stream: starts, pieces up to it and past it, broken states, logs.

mod common;
mod streaming;

use common::{message, Message};
use second::log::{self, log_of, Entry};
use second::random::Random;
use second::replay::{self, replay, Field, Replay, Verdict};
use second::stream::{ad, is_broken, start, Direction, Phase, Stream, ENDED};
use streaming::*;
use Direction::{Checking, Opening, Sealing};

const SEED: u64 = 20_140_320;

/// Limits that a start takes.
const TAKEN: [u64; 7] = [0, 1, 199, 200, 201, 1_048_575, 1_048_576];

/// Limits that a start refuses; cut to 32 or 63 bits, some of them would be small.
const REFUSED: [u64; 7] = [
    1_048_577,
    1_048_578,
    1 << 32,
    1 << 32 | 200,
    1 << 63,
    1 << 63 | 200,
    u64::MAX,
];

/// Numbers on each side of what a limit or a count may be; the first nine are limits.
const EDGES: [u64; 15] = [
    0,
    1,
    7,
    8,
    199,
    200,
    201,
    1_048_575,
    1_048_576,
    1_048_577,
    1 << 32,
    1 << 32 | 200,
    1 << 63,
    u64::MAX - 1,
    u64::MAX,
];

/// A piece that passes every limit.
static FAR: [u8; 1_048_577] = [1; 1_048_577];

/// Says that a start keeps its limit in the state, and is otherwise what it was.
#[test]
fn starts_that_are_taken() {
    let mut ran = 0;
    for (set, direction) in kinds() {
        for limit in TAKEN {
            let s = done(counting_start(set, direction, limit), 12);
            expect_started(s, set, direction, limit);
            ran += 1;
        }
    }
    assert_eq!(ran, KINDS * 7);
}

/// Says that a start with a larger limit is refused with 5 and gives the ended state.
#[test]
fn starts_that_are_refused() {
    assert_eq!(ENDED.limit, 0);
    let mut ran = 0;
    for (set, direction) in kinds() {
        for limit in REFUSED {
            assert_eq!(counting_start(set, direction, limit), (5, 0, ENDED));
            ran += 1;
        }
    }
    assert_eq!(ran, KINDS * 7);
}

/// Says that a start tests the set, the key, the nonce and then the limit.
#[test]
fn every_mixture_of_faults_of_a_start() {
    let limits = [TAKEN, REFUSED].concat();
    assert_eq!(expect_starts(&limits, start), KINDS * 5 * 6 * 6 * 14);
}

/// Gives the text call of the state's direction.
fn text_of(s: &Stream) -> Call {
    calls_of(s.direction)[0]
}

/// Says that a piece of that length is refused with 5, whatever the room, and gives how many were.
fn expect_past(s: Stream, length: usize) -> usize {
    let piece = vec![1; length];
    for room in [0, length - 1, length] {
        expect_refusal(5, text_of(&s), s, &piece, room, &[]);
    }
    3
}

/// Makes the calls that an open state of the message refuses and says that each gives it back.
fn expect_refusals(m: &Message, s: Stream) -> usize {
    let key = m.set.key;
    let left = (s.limit - s.text_count) as usize;
    let [text, finish] = calls_of(s.direction);
    let mut ran = expect_past(s, left + 1);
    let to_data = if s.phase == Phase::Data { 5 } else { 7 };
    expect_refusal(to_data, Call::Ad, s, &[1; 65_537], 0, &[]);
    for call in calls_of_others(s.direction) {
        expect_refusal(7, call, s, &[1; 3], 3, &vec![2; key]);
        expect_refusal(7, call, s, &vec![1; left + 1], 0, &[2]);
        ran += 2;
    }
    for length in [0, key - 1, key + 1] {
        expect_refusal(4, finish, s, &[], 0, &vec![2; length]);
        ran += 1;
    }
    if text != Call::Check && left > 0 {
        expect_refusal(6, text, s, &[1], 0, &[]);
    }
    let place = s.place + m.set.block as u64;
    ran + 1 + expect_broken(Stream { place, ..s })
}

/// Says that the limit stays in the state through calls done and refused, and is 0 at the end.
#[test]
fn the_limit_stays_up_to_the_end() {
    let mut random = Random::new(SEED);
    let mut ran = 0;
    for (number, direction) in kinds() {
        for limit in TAKEN {
            let m = message(&mut random, number, 20, limit.min(21) as usize);
            let kind = (direction, limit);
            let mut s = fresh(&m, direction, limit);
            ran += expect_refusals(&m, s);
            s = done(ad(s, &m.ad[..7]), 0);
            expect_parts(&m, &s, kind, Phase::Data, [7, 0]);
            ran += expect_refusals(&m, s);
            s = done(ad(s, &m.ad[7..]), filling(&m, 7, 20));
            expect_parts(&m, &s, kind, Phase::Data, [20, 0]);
            ran += expect_refusals(&m, s);
            s = done(text_call(s, &[]).0, closing(&m));
            expect_parts(&m, &s, kind, Phase::Text, [20, 0]);
            ran += expect_refusals(&m, s);
            let (given, out) = text_call(s, body(&m, direction));
            s = done(given, filling(&m, 0, m.text.len()));
            expect_parts(&m, &s, kind, Phase::Text, [20, m.text.len()]);
            assert_eq!(out, came_out(&m, direction));
            ran += expect_refusals(&m, s);

            expect_end(s, &m.tag, 12);
            if direction != Sealing {
                expect_no(s, &vec![0; m.set.key], 12);
            }
        }
    }
    // Five states, each with 3 pieces past the limit and 13 other refusals.
    assert_eq!(ran, KINDS * 7 * 5 * (3 + 13));
}

/// Fills a stream, whose limit is the text's length, by the pieces, with longer ones refused before each.
fn expect_filled(m: &Message, direction: Direction, pieces: &[Vec<u8>]) {
    let limit = m.text.len();
    let kind = (direction, limit as u64);
    let mut s = after_data(m, direction, kind.1);
    let mut went = Vec::new();
    let mut unclosed = closing(m);
    let mut refused = 0;
    for piece in pieces.iter().chain([&Vec::new()]) {
        let left = limit - went.len();
        for past in [left + 1, left + 2, left + 300] {
            refused += expect_past(s, past);
        }
        let after = went.len() + piece.len();
        let (given, out) = text_call(s, piece);
        s = done(given, unclosed + filling(m, went.len(), after));
        unclosed = 0;
        went.extend(out);
        expect_parts(m, &s, kind, Phase::Text, [m.ad.len(), after]);
    }
    assert_eq!(refused, (pieces.len() + 1) * 9);
    assert!(went == came_out(m, direction));

    for past in [1, 2, 8, 16, 300] {
        expect_past(s, past);
        assert_eq!(text_call(s, &[]).0, (0, 0, s));
    }
    expect_refusal(5, text_of(&s), s, &FAR, 0, &[]);
    expect_end(s, &m.tag, 12);
}

/// Says that small limits are reached and not passed, in any two pieces and in many kinds of cuts.
#[test]
fn small_limits() {
    let mut random = Random::new(SEED + 1);
    let mut ran = 0;
    for (number, direction) in kinds() {
        for limit in [0, 1, 199, 200, 201] {
            let m = message(&mut random, number, [0, 13][ran % 2], limit);
            let whole = body(&m, direction);
            for way in 0..WAYS {
                let pieces = cut(&mut random, m.set, whole, way);
                expect_filled(&m, direction, &pieces);
                ran += 1;
            }
            for first in 0..=limit {
                expect_filled(&m, direction, &cut_at(whole, &[first]));
                ran += 1;
            }
        }
    }
    // Each kind has 6 cuts at each limit, and 1, 2, 200, 201 and 202 cuts in two.
    assert_eq!(ran, KINDS * (5 * 6 + 606));
}

/// Says that the two largest limits are reached and not passed, in one piece and in two.
fn expect_large(seed: u64, number: u64) {
    let mut random = Random::new(seed);
    let mut ran = 0;
    for direction in DIRECTIONS {
        for limit in [1_048_575, 1_048_576] {
            let m = message(&mut random, number, 13, limit);
            let whole = body(&m, direction);
            expect_filled(&m, direction, &[whole.to_vec()]);
            expect_filled(&m, direction, &cut_at(whole, &[limit - 1]));
            ran += 2;
        }
    }
    assert_eq!(ran, 3 * 2 * 2);
}

/// Says that the two largest limits hold in set 1.
#[test]
fn large_limits_in_set_1() {
    expect_large(SEED + 2, 1);
}

/// Says that the two largest limits hold in set 2.
#[test]
fn large_limits_in_set_2() {
    expect_large(SEED + 3, 2);
}

/// Says that the two largest limits hold in set 3.
#[test]
fn large_limits_in_set_3() {
    expect_large(SEED + 9, 3);
}

/// Says that the two largest limits hold in set 4.
#[test]
fn large_limits_in_set_4() {
    expect_large(SEED + 10, 4);
}

/// Says that pieces whose length or sum would be small in 32 bits are refused with 5.
#[test]
fn pieces_past_32_bits() {
    // Zeros that nobody reads or writes take no memory.
    let long = vec![0; (1 << 32) + 200];
    let mut ran = 0;
    for (number, direction) in kinds() {
        for (limit, count) in [
            (0, 0),
            (200, 0),
            (200, 200),
            (LARGEST, 0),
            (LARGEST, LARGEST),
        ] {
            let s = made(number, direction, Phase::Text, limit, count);
            for length in [1 << 32, (1 << 32) - count as usize, long.len()] {
                let piece = &long[..length];
                expect_refusal(5, text_of(&s), s, piece, 0, &[]);
                let fresh = made(number, direction, Phase::Data, limit, 0);
                expect_refusal(5, Call::Ad, fresh, piece, 0, &[]);
                ran += 1;
            }
        }
    }
    assert_eq!(ran, KINDS * 5 * 3);
}

/// Makes a call on two streams and says that both do the same; only the limits of their states differ.
fn same_step(call: Call, [small, large]: [Stream; 2], piece: &[u8], tag: &[u8]) -> [Stream; 2] {
    let mut outs = [vec![7; piece.len() + 1], vec![7; piece.len() + 1]];
    let mut tags = [tag.to_vec(), tag.to_vec()];
    let one = called(call, small, piece, &mut outs[0], &mut tags[0]);
    let two = called(call, large, piece, &mut outs[1], &mut tags[1]);
    assert_eq!((one.0, one.1), (0, two.1));
    assert_eq!(two.0, 0);
    assert_eq!(outs[0], outs[1]);
    assert_eq!(tags[0], tags[1]);
    let ended = one.2.phase == Phase::Ended;
    assert_eq!(one.2.limit, if ended { 0 } else { small.limit });
    let limit = if ended { 0 } else { LARGEST };
    assert_eq!(Stream { limit, ..one.2 }, two.2);
    [one.2, two.2]
}

/// Says that a text within its limit goes as the whole message does, and as with the largest limit.
#[test]
fn no_other_difference() {
    let mut random = Random::new(SEED + 4);
    let mut ran = 0;
    for (number, direction) in kinds() {
        let [text, finish] = calls_of(direction);
        for limit in [0, 1, 7, 8, 9, 15, 16, 17, 199, 200, 201] {
            for length in [0, limit / 2, limit - limit.min(1), limit] {
                let data = [0, 1, 8, 13, 16, 37][ran / 36 % 6];
                let m = message(&mut random, number, data, length);
                let whole = body(&m, direction);
                for way in 0..WAYS * WAYS {
                    let data = cut(&mut random, m.set, &m.ad, way / WAYS);
                    let pieces = cut(&mut random, m.set, whole, way % WAYS);
                    let kind = (direction, limit as u64);
                    run_cut(&mut random, &m, kind, &data, &pieces);

                    let mut both = [kind.1, LARGEST].map(|limit| fresh(&m, direction, limit));
                    for piece in &data {
                        both = same_step(Call::Ad, both, piece, &[]);
                    }
                    for piece in &pieces {
                        both = same_step(text, both, piece, &[]);
                    }
                    assert_eq!(same_step(finish, both, &[], &m.tag), [ENDED; 2]);
                    ran += 1;
                }
            }
        }
    }
    assert_eq!(ran, KINDS * 11 * 4 * 36);
}

/// Says that associated data has its old limit, whatever the stream's limit of text.
#[test]
fn data_keeps_its_own_limit() {
    let mut random = Random::new(SEED + 5);
    let mut ran = 0;
    for (number, direction) in kinds() {
        for limit in [0, 1, 200, 65_535, 65_536, 65_537, 1_048_576] {
            let m = message(&mut random, number, 65_536, limit.min(3) as usize);
            let at_start = fresh(&m, direction, limit);
            for length in [65_537, 65_538, 1_048_576, 1_048_577] {
                expect_refusal(5, Call::Ad, at_start, &vec![1; length], 0, &[]);
            }
            let whole = done(ad(at_start, &m.ad), filling(&m, 0, 65_536));
            let most = done(ad(at_start, &m.ad[..65_535]), filling(&m, 0, 65_535));
            expect_refusal(5, Call::Ad, most, &[1, 2], 0, &[]);
            let full = done(ad(most, &m.ad[65_535..]), filling(&m, 65_535, 65_536));
            assert_eq!(full, whole);
            expect_parts(&m, &full, (direction, limit), Phase::Data, [65_536, 0]);
            expect_refusal(5, Call::Ad, full, &[1], 0, &[]);
            expect_refusal(5, Call::Ad, full, &[1; 65_536], 0, &[]);
            assert_eq!(ad(full, &[]), (0, 0, full));

            expect_past(full, limit as usize + 1);
            let (given, out) = text_call(full, body(&m, direction));
            assert_eq!(out, came_out(&m, direction));
            expect_end(done(given, closing(&m)), &m.tag, 12);
            ran += 1;
        }
    }
    assert_eq!(ran, KINDS * 7);
}

/// Gives an open state of any words, with 3 bytes of data and so many of text, right but for the limit.
fn made(set: u64, direction: Direction, phase: Phase, limit: u64, text_count: u64) -> Stream {
    let s = Stream {
        words: [1, 1 << 63, u64::MAX, 0, 5],
        set,
        direction,
        phase,
        key: kept(&[7; 12]),
        ad_count: 0,
        text_count: 0,
        place: 0,
        limit,
    };
    with_counts(s, 3, text_count)
}

/// Says what a sound open state takes: so many bytes of text, no more, and its finish.
fn expect_open(s: Stream, left: u64) -> usize {
    expect_sound(s);
    expect_past(s, left as usize + 1);
    for length in [0, left.min(1), left.min(201)] {
        let next = text_call(s, &vec![1; length as usize]).0;
        assert_eq!((next.0, next.2.limit), (0, s.limit));
        assert_eq!(next.2.text_count, s.text_count + length);
        assert_eq!(next.2.phase, Phase::Text);
    }
    let to_data = called(Call::Ad, s, &[1], &mut [], &mut []);
    let answer = if s.phase == Phase::Data { 0 } else { 7 };
    assert_eq!((to_data.0, to_data.2.limit), (answer, s.limit));
    let tag = &mut [0; 16][..usize::from(length_in(s.set))];
    let end = called(calls_of(s.direction)[1], s, &[], &mut [], tag);
    let answer = if s.direction == Sealing { 0 } else { 9 };
    assert_eq!((end.0, end.2), (answer, ENDED));
    1
}

/// Says of every pair of a limit and a text count whether the state is broken.
#[test]
fn broken_by_the_limit_or_the_text_count() {
    let mut ran = [0, 0];
    for (set, direction) in kinds() {
        for limit in EDGES {
            for count in EDGES {
                let s = made(set, direction, Phase::Text, limit, count);
                if limit <= 1_048_576 && count <= limit {
                    ran[0] += expect_open(s, limit - count);
                } else {
                    ran[1] += expect_broken(s);
                }
            }
        }
    }
    // Of nine limits the first allows one of the counts, the second two, and so on.
    assert_eq!(ran, [KINDS * 45, KINDS * (225 - 45)]);
}

/// Says that the data phase is sound with any limit in range, and with no other.
#[test]
fn broken_by_the_limit_in_the_data_phase() {
    let mut ran = [0, 0];
    for (set, direction) in kinds() {
        for limit in EDGES {
            let s = made(set, direction, Phase::Data, limit, 0);
            for ad_count in [0, 3, 65_535] {
                let s = with_counts(s, ad_count, 0);
                if limit <= 1_048_576 {
                    ran[0] += expect_open(s, limit);
                } else {
                    ran[1] += expect_broken(s);
                }
            }
            // A limit makes no room for text before the text phase, nor for more data.
            ran[1] += expect_broken(with_counts(s, 3, 1));
            ran[1] += expect_broken(with_counts(s, 3, limit.max(1)));
            ran[1] += expect_broken(with_counts(s, 65_537, 0));
        }
    }
    assert_eq!(ran, [KINDS * 9 * 3, KINDS * (6 * 3 + 15 * 3)]);
}

/// Says of every limit up to some past the largest whether states with it are broken.
#[test]
fn every_limit() {
    let mut ran = 0;
    for (set, direction) in kinds() {
        let data = made(set, direction, Phase::Data, 0, 0);
        let text = made(set, direction, Phase::Text, 0, 200);
        for limit in 0..1_048_577 + 1_000 {
            let over = limit > 1_048_576;
            assert_eq!(is_broken(&Stream { limit, ..data }), over);
            assert_eq!(is_broken(&Stream { limit, ..text }), over || limit < 200);
            ran += 1;
        }
    }
    assert_eq!(ran, KINDS * 1_049_577);
}

/// Says that states which calls gave are broken by another limit only when it is too large or passed.
#[test]
fn another_limit_in_a_given_state() {
    let ran = over_open(SEED + 6, |s| {
        let count = s.text_count;
        let at = |limit| Stream { limit, ..s };
        let fitting = [count, count + 1, 200, 1_048_575, 1_048_576];
        let open = fitting.map(|limit| expect_open(at(limit), limit - count));
        let passed = [0, count / 2, count.saturating_sub(1)];
        let passed = passed.into_iter().filter(|limit| *limit < count);
        open.iter().sum::<usize>() + all_broken(REFUSED.map(at)) + all_broken(passed.map(at))
    });
    // Three of five states have text.
    assert_eq!(ran, OPEN * (5 + 7) + OPEN / 5 * 3 * 3);
}

/// Says that the ended state has limit 0 and that one with any other is broken.
#[test]
fn broken_by_the_limit_of_an_ended_state() {
    let mut ran = expect_sound(ENDED);
    let others = EDGES.into_iter().filter(|limit| *limit != 0);
    ran += all_broken(others.map(|limit| Stream { limit, ..ENDED }));
    ran += all_broken((0..64).map(|bit| Stream {
        limit: 1 << bit,
        ..ENDED
    }));
    for call in CALLS {
        expect_refusal(7, call, ENDED, &[1], 1, &[2; 16]);
    }
    assert_eq!(ran, 1 + 14 + 64);
}

/// Gives an open state with room for at most 5 bytes of text, or all of its limit in the data phase.
fn nearly_full(set: u64, direction: Direction, phase: Phase, limit: u64) -> (Stream, usize) {
    let left = match phase {
        Phase::Data => limit,
        _ => limit.min(5),
    };
    let s = made(set, direction, phase, limit, limit - left);
    (s, left as usize)
}

/// Gives an open or the ended state broken in one of three ways.
fn damaged(s: Stream, way: usize) -> Stream {
    match way {
        0 => Stream {
            place: s.place + 16,
            ..s
        },
        1 => Stream {
            limit: 1_048_577,
            ..s
        },
        _ => with_counts(s, s.ad_count, s.limit + 1),
    }
}

/// Says that a text call with any mixture of faults is answered with the earliest of 8, 7, 5 and 6.
#[test]
fn every_mixture_of_faults_of_a_text_call() {
    let mut ran = 0;
    for (set, direction) in kinds() {
        let text = calls_of(direction)[0];
        for limit in TAKEN {
            for (phase, way) in [Phase::Data, Phase::Text]
                .into_iter()
                .flat_map(|phase| [0, 1, 2].map(|way| (phase, way)))
            {
                for mixture in 0..32 {
                    let has = [0, 1, 2, 3, 4].map(|bit| mixture >> bit & 1 == 1);
                    let [broken, ended, turned, past, short] = has;
                    let (mut s, left) = nearly_full(set, direction, phase, limit);
                    let length = match past {
                        true => left + [1, 17, 1_048_577][way],
                        false => left.min(5),
                    };
                    // An empty piece has room enough, and checking needs none.
                    if short && (length == 0 || direction == Checking) {
                        continue;
                    }
                    if ended {
                        s = ENDED;
                    } else if turned {
                        s.direction = others(direction)[way % 2];
                    }
                    if broken {
                        s = damaged(s, way);
                    }
                    let wanted = match (broken, ended || turned, past, short) {
                        (true, _, _, _) => 8,
                        (false, true, _, _) => 7,
                        (false, false, true, _) => 5,
                        (false, false, false, true) => 6,
                        (false, false, false, false) => 0,
                    };
                    let (piece, room) = (vec![1; length], length - usize::from(short));
                    if wanted == 0 {
                        let given = called(text, s, &piece, &mut vec![0; room], &mut []);
                        assert_eq!((given.0, given.2.limit), (0, limit));
                    } else {
                        expect_refusal(wanted, text, s, &piece, room, &[]);
                    }
                    ran += 1;
                }
            }
        }
    }
    // Sealing and opening with limit 0 leave out short room for no piece.
    let with_room = 7 * 2 * 3 * 32 - 2 * 3 * 8;
    assert_eq!(ran, KINDS / 3 * (2 * with_room + 7 * 2 * 3 * 16));
}

/// Says that a refused piece doesn't close the data of a stream with a small limit.
#[test]
fn a_refused_piece_closes_nothing() {
    let mut random = Random::new(SEED + 7);
    let mut ran = 0;
    for (number, direction) in kinds() {
        let m = message(&mut random, number, 40, 5);
        let mut s = done(ad(fresh(&m, direction, 5), &m.ad[..9]), filling(&m, 0, 9));
        for length in [6, 7, 200, 1_048_577] {
            let given = called(text_of(&s), s, &vec![1; length], &mut [], &mut []);
            assert_eq!((given.0, given.1), (5, 0));
            s = given.2;
        }
        s = done(ad(s, &m.ad[9..]), filling(&m, 9, 40));
        let (given, out) = text_call(s, body(&m, direction));
        assert_eq!(out, came_out(&m, direction));
        expect_end(done(given, closing(&m) + filling(&m, 0, 5)), &m.tag, 12);
        ran += 1;
    }
    assert_eq!(ran, KINDS);
}

/// Gives the right entries of a message that is sealed in pieces of 256 bytes, told from the whole.
fn entries_of(m: &Message) -> Vec<Entry> {
    let entry = |call, data: &[u8], out: &[u8], rounds| Entry {
        call,
        data: data.to_vec(),
        answer: 0,
        out: out.to_vec(),
        rounds,
    };
    let key_and_nonce = [&m.key[..], &m.nonce].concat();
    let mut entries = vec![
        entry(start_of(m.set.number), &key_and_nonce, &[], 12),
        entry(log::Call::Ad, &m.ad, &[], filling(m, 0, m.ad.len())),
    ];
    let mut count = 0;
    for (piece, out) in m.text.chunks(256).zip(m.cipher.chunks(256)) {
        let after = count + piece.len();
        let closed = if count == 0 { closing(m) } else { 0 };
        let rounds = closed + filling(m, count, after);
        entries.push(entry(log::Call::Text, piece, out, rounds));
        count = after;
    }
    entries.push(entry(log::Call::Finish, &[], &m.tag, 12));
    entries
}

/// The sets of which logs have a start.
const LOGGED: [u64; 2] = [1, 2];

/// Gives the start of the set in a log.
fn start_of(set: u64) -> log::Call {
    match set {
        1 => log::Call::Start1,
        _ => log::Call::Start2,
    }
}

/// Says that a log with more text than a valve order agrees, and that a 5 for it differs.
#[test]
fn logs_with_more_than_200_bytes() {
    let mut random = Random::new(SEED + 8);
    let mut ran = 0;
    for set in LOGGED {
        for length in [1, 200, 201, 600, 65_537] {
            let m = message(&mut random, set, 10, length);
            let right = entries_of(&m);
            let entry = right.len() as u64;
            let verdict = Verdict::Agrees;
            assert_eq!(replay(&log_of(&right)), Replay { entry, verdict });

            let mut wrong = right.clone();
            let last = wrong.len() - 2;
            (wrong[last].answer, wrong[last].rounds) = (5, 0);
            wrong[last].out.clear();
            let entry = last as u64 + 1;
            let verdict = Verdict::Differs(Field::Answer);
            assert_eq!(replay(&log_of(&wrong)), Replay { entry, verdict });
            ran += 1;
        }
    }
    assert_eq!(ran, 2 * 5);
}

/// Says that a logged start gives the largest limit, whatever stream was there before.
#[test]
fn the_limit_of_a_logged_start() {
    let mut ran = 0;
    for set in LOGGED {
        let length = length_in(set);
        let data = [counting(0, length), counting(16, length)].concat();
        for before in [
            ENDED,
            made(set, Sealing, Phase::Text, 200, 200),
            made(set, Checking, Phase::Data, 0, 0),
            made(set, Opening, Phase::Text, 200, 7),
        ] {
            let (entry, s) = replay::called(before, start_of(set), &data);
            assert_eq!((entry.answer, entry.rounds), (0, 12));
            expect_started(s, set, Sealing, 1_048_576);

            let s = with_counts(
                Stream {
                    phase: Phase::Text,
                    ..s
                },
                0,
                1_048_320,
            );
            let (past, same) = replay::called(s, log::Call::Text, &[1; 257]);
            assert_eq!((past.answer, same), (5, s));
            let (taken, full) = replay::called(s, log::Call::Text, &[1; 256]);
            assert_eq!((taken.answer, full.text_count), (0, 1_048_576));
            let (past, same) = replay::called(full, log::Call::Text, &[1]);
            assert_eq!((past.answer, same), (5, full));
            let (end, ended) = replay::called(full, log::Call::Finish, &[]);
            assert_eq!((end.answer, ended), (0, ENDED));
            ran += 1;
        }
    }
    assert_eq!(ran, 2 * 4);
}
