//! Streams: cut messages, every refusal and its order, broken states, and the named cases.

mod common;
mod streaming;

use common::{flipped, message, Message};
use second::cases::{named_cases, named_cases_in};
use second::cipher::{set_numbers, set_of, SETS};
use second::permutation::run;
use second::random::Random;
use second::stream::{
    ad, check, finish_checking, is_broken, start, Direction, Phase, Stream, ENDED,
};
use streaming::*;
use Direction::{Checking, Opening, Sealing};

const SEED: u64 = 20_140_316;

/// Says that messages around the block edges come out the same in all mixtures of cuts.
#[test]
fn cuts_of_many_kinds() {
    let mut random = Random::new(SEED);
    let mut ran = 0;
    for (number, direction) in kinds() {
        let b = set_of(number).expect("a known set").block;
        let edges = [0, 1, b - 1, b, b + 1, 2 * b, 3 * b - 1, 6 * b + 5];
        for pair in 0..64 {
            let m = message(&mut random, number, edges[pair / 8], edges[pair % 8]);
            for way in 0..WAYS * WAYS {
                let data = cut(&mut random, m.set, &m.ad, way / WAYS);
                let whole = body(&m, direction);
                let pieces = cut(&mut random, m.set, whole, way % WAYS);
                run_cut(&mut random, &m, (direction, LARGEST), &data, &pieces);
                ran += 1;
            }
        }
    }
    assert_eq!(ran, KINDS * 64 * 36);
}

/// Says that no cut into two pieces makes a difference, nor any into three.
#[test]
fn every_cut_in_two_and_three() {
    let mut random = Random::new(SEED + 1);
    let mut ran = 0;
    for (number, direction) in kinds() {
        let b = set_of(number).expect("a known set").block;
        let length = 2 * b + 1;
        let m = message(&mut random, number, length, length);
        let whole = body(&m, direction);
        for first in 0..=length {
            for second in first..=length {
                let three = [first, second];
                for (data, text) in [(&three[..1], &three[..]), (&three, &three[1..])] {
                    let (data, pieces) = (cut_at(&m.ad, data), cut_at(whole, text));
                    run_cut(&mut random, &m, (direction, LARGEST), &data, &pieces);
                    ran += 1;
                }
            }
        }
    }
    // With n bytes there are (n + 1)(n + 2) / 2 pairs of places; n is 17 in sets 1 and 3, 33 in 2 and 4.
    assert_eq!(ran, 3 * 2 * 2 * (18 * 19 / 2 + 34 * 35 / 2));
}

/// Says that the state depends on the bytes taken and not on the pieces.
#[test]
fn states_do_not_remember_the_pieces() {
    let mut random = Random::new(SEED + 2);
    let mut ran = 0;
    for (number, direction) in kinds() {
        let m = message(&mut random, number, 53, 53);
        let at_start = fresh(&m, direction, LARGEST);
        let mut bytewise = at_start;
        for (i, byte) in m.ad.iter().enumerate() {
            bytewise = ad(bytewise, &[*byte]).2;
            assert_eq!(bytewise, ad(at_start, &m.ad[..=i]).2);
            ran += 1;
        }
        let at_text = bytewise;
        let whole = body(&m, direction);
        for (i, byte) in whole.iter().enumerate() {
            bytewise = text_call(bytewise, &[*byte]).0 .2;
            assert_eq!(bytewise, text_call(at_text, &whole[..=i]).0 .2);
            ran += 1;
        }
    }
    assert_eq!(ran, KINDS * 106);
}

/// Says that the words in sets 1 and 3 are those worked out here, within blocks too.
#[test]
fn words_by_hand_in_blocks_of_8() {
    let (k0, k1) = (0x0001020304050607, 0x08090a0b0c0d0e0f);
    let sets = [(1, &TWELVE[..6]), (3, &TWELVE[6..])];
    let cases = sets.map(|set| DIRECTIONS.map(|direction| (set, direction)));
    let mut ran = 0;
    for ((set, middle), direction) in cases.concat() {
        let mut x = words_at_start(set);
        let s = done(counting_start(set, direction, LARGEST), 12);
        expect_started(s, set, direction, LARGEST);

        x[0] ^= 0x2021220000000000;
        let s = done(ad(s, &[0x20, 0x21, 0x22]), 0);
        assert_eq!((s.words, s.ad_count, s.place), (x, 3, 3));
        x[0] ^= 0x0000002324252627;
        x = run(x, middle);
        x[0] ^= 0x2800000000000000;
        let s = done(ad(s, &counting(0x23, 6)), 6);
        assert_eq!((s.words, s.ad_count, s.place), (x, 9, 1));

        x[0] ^= 0x0080000000000000;
        x = run(x, middle);
        x[4] ^= 1;
        let stream_bytes = x[0].to_be_bytes();
        x[0] ^= 0x3031000000000000;
        // Sealing takes text, checking and opening the ciphertext of the same text; opening gives the text.
        let text = [0x30, 0x31];
        let cipher = [stream_bytes[0] ^ 0x30, stream_bytes[1] ^ 0x31];
        let (piece, wanted) = match direction {
            Sealing => (text, cipher),
            Checking => (cipher, cipher),
            Opening => (cipher, text),
        };
        let (given, out) = text_call(s, &piece);
        let s = done(given, 6);
        assert_eq!(out, wanted);
        assert_eq!((s.words, s.ad_count, s.text_count, s.place), (x, 9, 2, 2));
        assert_eq!(s.phase, Phase::Text);

        x[0] ^= 0x0000800000000000;
        x[1] ^= k0;
        x[2] ^= k1;
        x = run(x, &TWELVE);
        let tag = [(x[3] ^ k0).to_be_bytes(), (x[4] ^ k1).to_be_bytes()].concat();
        expect_end(s, &tag, 12);
        ran += 1;
    }
    assert_eq!(ran, 2 * 3);
}

/// Says that the words in set 4 are those worked out here, within blocks too.
#[test]
fn words_by_hand_in_set_4() {
    let (k0, k1) = (0x0001020304050607, 0x08090a0b0c0d0e0f);
    let middle = &TWELVE[4..];
    let mut ran = 0;
    for direction in DIRECTIONS {
        let mut x = words_at_start(4);
        let s = done(counting_start(4, direction, LARGEST), 12);
        expect_started(s, 4, direction, LARGEST);

        // Half a block, the byte behind it, and the rest of it with two bytes of the next.
        x[0] ^= 0x2021222324252627;
        let s = done(ad(s, &counting(0x20, 8)), 0);
        assert_eq!((s.words, s.ad_count, s.place), (x, 8, 8));
        x[1] ^= 0x2800000000000000;
        let s = done(ad(s, &[0x28]), 0);
        assert_eq!((s.words, s.ad_count, s.place), (x, 9, 9));
        x[1] ^= 0x00292a2b2c2d2e2f;
        x = run(x, middle);
        x[0] ^= 0x3031000000000000;
        let s = done(ad(s, &counting(0x29, 9)), 8);
        assert_eq!((s.words, s.ad_count, s.place), (x, 18, 2));

        x[0] ^= 0x0000800000000000;
        x = run(x, middle);
        x[4] ^= 1;
        let stream_bytes = [x[0].to_be_bytes(), x[1].to_be_bytes()].concat();
        x[0] ^= 0x4041424344454647;
        x[1] ^= 0x4849000000000000;
        // Sealing takes text, checking and opening the ciphertext of the same text; opening gives the text.
        let text = counting(0x40, 10);
        let cipher: Vec<u8> = text.iter().zip(&stream_bytes).map(|(a, b)| a ^ b).collect();
        let (piece, wanted) = match direction {
            Sealing => (&text, &cipher),
            Checking => (&cipher, &cipher),
            Opening => (&cipher, &text),
        };
        let (given, out) = text_call(s, piece);
        let s = done(given, 8);
        assert_eq!(out, *wanted);
        assert_eq!((s.words, s.text_count, s.place), (x, 10, 10));
        assert_eq!((s.ad_count, s.phase), (18, Phase::Text));

        x[1] ^= 0x0000800000000000;
        x[2] ^= k0;
        x[3] ^= k1;
        x = run(x, &TWELVE);
        let tag = [(x[3] ^ k0).to_be_bytes(), (x[4] ^ k1).to_be_bytes()].concat();
        expect_end(s, &tag, 12);
        ran += 1;
    }
    assert_eq!(ran, 3);
}

/// Says that the words in set 2 are those worked out here, within blocks too.
#[test]
fn words_by_hand_in_set_2() {
    let mut ran = 0;
    for direction in DIRECTIONS {
        let mut x = words_at_start(2);
        let s = done(counting_start(2, direction, LARGEST), 12);
        expect_started(s, 2, direction, LARGEST);

        x[0] ^= 0x2021222324252627;
        x[1] ^= 0x2829000000000000;
        let s = done(ad(s, &counting(0x20, 10)), 0);
        assert_eq!((s.words, s.ad_count, s.place), (x, 10, 10));
        x[1] ^= 0x00002a2b2c2d2e2f;
        x = run(x, &TWELVE[..8]);
        let s = done(ad(s, &counting(0x2a, 6)), 8);
        assert_eq!((s.words, s.ad_count, s.place), (x, 16, 0));

        // A zero-length text call closes whole blocks of data with one block more.
        x[0] ^= 0x8000000000000000;
        x = run(x, &TWELVE[..8]);
        x[4] ^= 1;
        let s = done(text_call(s, &[]).0, 8);
        assert_eq!((s.words, s.text_count, s.place), (x, 0, 0));
        assert_eq!(s.phase, Phase::Text);

        x[0] ^= 0x8000000000000000;
        x[2] ^= 0x0001020304050607;
        x[3] ^= 0x08090a0b00000000;
        x = run(x, &TWELVE);
        x[3] ^= 0x0000000000010203;
        x[4] ^= 0x0405060708090a0b;
        let tag = [x[3].to_be_bytes(), x[4].to_be_bytes()].concat();
        expect_end(s, &tag[4..], 12);
        ran += 1;
    }
    assert_eq!(ran, 3);
}

/// Says that the named cases have their names, their order and, in each set, the answers of the rules.
#[test]
fn the_named_cases() {
    let wanted = [
        ("65537 bytes of data", 5),
        ("65536 bytes of data", 0),
        ("1048576 bytes of text", 0),
        ("1048577 bytes of text", 5),
        ("1048577 bytes sealed", 5),
        ("room one byte short", 6),
        ("key of 15 bytes", 2),
        ("key of 15 bytes, nonce of 15", 2),
        ("finishing twice", 7),
        ("data after an empty text call", 7),
    ];
    let wanted: Vec<(String, u64)> = wanted.map(|(name, n)| (name.to_string(), n)).into();
    assert_eq!(named_cases(), wanted);
    let ran = SETS.iter().filter(|set| named_cases_in(set) == wanted);
    assert_eq!(ran.count(), SETS.len());
}

/// Takes a stream to both limits, with so many blocks filled before the last byte of each.
fn expect_limits(seed: u64, s: (u64, Direction), middle: u64, filled: [u64; 2], rounds: u64) {
    let m = message(&mut Random::new(seed), s.0, 65_536, 1_048_576);
    let (whole, wanted) = (body(&m, s.1), came_out(&m, s.1));
    let [text, _] = calls_of(s.1);
    let mut s = fresh(&m, s.1, LARGEST);
    s = done(ad(s, &m.ad[..65_535]), filled[0] * middle);
    expect_refusal(5, Call::Ad, s, &[1, 2], 0, &[]);
    s = done(ad(s, &m.ad[65_535..]), middle);
    expect_refusal(5, Call::Ad, s, &[1], 0, &[]);
    s = done(ad(s, &[]), 0);
    let (given, mut out) = text_call(s, &whole[..1_048_575]);
    s = done(given, middle + filled[1] * middle);
    expect_refusal(5, text, s, &[1, 2], 2, &[]);
    let (given, last) = text_call(s, &whole[1_048_575..]);
    s = done(given, middle);
    out.extend(last);
    expect_refusal(5, text, s, &[1], 1, &[]);
    s = done(text_call(s, &[]).0, 0);
    assert!(out == wanted);
    expect_end(s, &m.tag, 12);
    assert_eq!(m.rounds, rounds);
}

/// Says that a stream at both limits takes empty pieces, no byte more, and 835,614 rounds in all.
#[test]
fn both_limits_in_set_1() {
    expect_limits(SEED + 3, (1, Sealing), 6, [8_191, 131_071], 835_614);
}

/// Says the same of a checking stream in set 2, which takes 557,088 rounds.
#[test]
fn both_limits_in_set_2() {
    // 24 + 8 × (4,097 + 65,537 − 1).
    expect_limits(SEED + 19, (2, Checking), 8, [4_095, 65_535], 557_088);
}

/// Says the same of a checking stream in set 3 and a sealing one in set 4, with the numbers of sets 1 and 2.
#[test]
fn both_limits_in_sets_3_and_4() {
    expect_limits(SEED + 20, (3, Checking), 6, [8_191, 131_071], 835_614);
    expect_limits(SEED + 21, (4, Sealing), 8, [4_095, 65_535], 557_088);
}

/// Says the same of opening streams in a set with blocks of 8 and in one with blocks of 16.
#[test]
fn both_limits_of_opening() {
    expect_limits(SEED + 22, (1, Opening), 6, [8_191, 131_071], 835_614);
    expect_limits(SEED + 23, (4, Opening), 8, [4_095, 65_535], 557_088);
}

/// Gives the state with one bit of its key changed.
fn with_key_bit(mut s: Stream, bit: usize) -> Stream {
    s.key[bit / 8] ^= 1 << (bit % 8);
    s
}

/// Says that any other ended state than the one is broken, whichever part differs.
#[test]
fn broken_by_another_ended_state() {
    let one = Stream {
        words: [0, 0, 0, 0, 0],
        set: 1,
        direction: Sealing,
        phase: Phase::Ended,
        key: [0; 16],
        ad_count: 0,
        text_count: 0,
        place: 0,
        limit: 0,
    };
    assert_eq!(ENDED, one);
    let mut ran = 0;
    ran += expect_sound(one);
    for bit in 0..320 {
        let mut s = one;
        s.words[bit / 64] ^= 1 << (bit % 64);
        ran += expect_broken(s);
    }
    ran += all_broken((0..128).map(|bit| with_key_bit(one, bit)));
    for bit in 0..64 {
        let mut s = [one; 3];
        s[0].ad_count = 1 << bit;
        s[1].text_count = 1 << bit;
        s[2].place = 1 << bit;
        ran += all_broken(s);
    }
    let others = set_numbers().filter(|set| *set != 1);
    ran += all_broken(others.map(|set| Stream { set, ..one }));
    ran += all_broken([Checking, Opening].map(|direction| Stream { direction, ..one }));
    // An open state with nothing changed but its phase.
    let phase = Phase::Ended;
    ran += over_open(SEED + 4, |s| expect_broken(Stream { phase, ..s }));
    assert_eq!(ran, 1 + 320 + 128 + 3 * 64 + 3 + 2 + OPEN);
}

/// Says that every place but the present count modulo the block is broken.
#[test]
fn broken_by_its_place() {
    let ran = over_open(SEED + 5, |s| {
        let near = (0..=40).filter(|place| *place != s.place);
        let far = [s.place + (1 << 32), s.place.wrapping_sub(1 << 32), u64::MAX];
        expect_sound(s) + all_broken(near.chain(far).map(|place| Stream { place, ..s }))
    });
    assert_eq!(ran, OPEN * (1 + 40 + 3));
}

/// Says that in the text phase the data count doesn't decide the place, nor the other way round.
#[test]
fn broken_by_the_place_of_the_other_phase() {
    let mut ran = 0;
    for s in open_states(&mut Random::new(SEED + 6)) {
        let block = block_of(&s);
        if s.phase == Phase::Text && s.ad_count % block != s.place {
            let place = s.ad_count % block;
            ran += expect_broken(Stream { place, ..s });
        }
        if s.phase == Phase::Data && s.place > 0 {
            // Sound again as a text state only with the text's place, here 0.
            let phase = Phase::Text;
            ran += expect_broken(Stream { phase, ..s });
            expect_sound(Stream {
                phase,
                place: 0,
                ..s
            });
        }
    }
    // Sets 1 and 3 have 19 such text states and 3 data states in each direction, sets 2 and 4 have 22 and 4.
    assert_eq!(ran, 3 * 2 * (19 + 3 + 22 + 4));
}

/// Says that a text count before the text phase is broken, at a fitting place too.
#[test]
fn broken_by_early_text() {
    let ran = over_open(SEED + 7, |s| {
        if s.phase != Phase::Data {
            return 0;
        }
        let counts = [1, 8, 16, s.ad_count + 16, 1_048_576];
        all_broken(counts.map(|text_count| Stream { text_count, ..s }))
    });
    assert_eq!(ran, OPEN / 5 * 5);
}

/// Says that counts past their limits are broken, and counts at them aren't.
#[test]
fn broken_by_a_count() {
    let mut ran = 0;
    for s in open_states(&mut Random::new(SEED + 8)) {
        let at = |ad_count, text_count| with_counts(s, ad_count, text_count);
        ran += expect_sound(at(65_535, s.text_count));
        ran += expect_sound(at(65_536, s.text_count));
        let over = [65_537, 65_552, 1_048_576, 1 << 32, u64::MAX];
        ran += all_broken(over.map(|count| at(count, s.text_count)));
        if s.phase == Phase::Text {
            ran += expect_sound(at(s.ad_count, 1_048_575));
            ran += expect_sound(at(s.ad_count, 1_048_576));
            ran += expect_sound(at(65_536, 1_048_576));
            let over = [1_048_577, 1_048_592, 1 << 32, u64::MAX];
            ran += all_broken(over.map(|count| at(s.ad_count, count)));
        }
    }
    assert_eq!(ran, OPEN * 7 + OPEN / 5 * 4 * 7);
}

/// Says that an unknown set is broken, with all else as in a sound state.
#[test]
fn broken_by_its_set() {
    let ran = over_open(SEED + 9, |s| {
        let sets = [0, 5, 16, 1 << 32 | 1, 1 << 32 | 4, u64::MAX];
        all_broken(sets.map(|set| Stream { set, ..s }))
    });
    assert_eq!(ran, OPEN * 6);
}

/// Says that in set 2, and only there, a nonzero byte after the key is broken.
#[test]
fn broken_by_its_key() {
    let mut ran = 0;
    for s in open_states(&mut Random::new(SEED + 10)) {
        for bit in 0..128 {
            let other = with_key_bit(s, bit);
            ran += if s.set == 2 && bit >= 96 {
                expect_broken(other)
            } else {
                assert!(!is_broken(&other));
                1
            };
        }
    }
    assert_eq!(ran, OPEN * 128);
}

/// Says that any words and any fitting parts make a state that isn't broken.
#[test]
fn words_break_nothing() {
    let mut random = Random::new(SEED + 11);
    let ran = over_open(SEED + 12, |s| {
        let words = [(); 5].map(|()| random.number());
        expect_sound(Stream { words, ..s })
    });
    assert_eq!(ran, OPEN);
}

/// The faults of a call on a state.
#[derive(Clone, Copy, Debug, PartialEq)]
enum Fault {
    Broken,
    Phase,
    Direction,
    Tag,
    Limit,
    Room,
    Mismatch,
}

/// Gives the faults that a call can have, in the order in which they are tested.
fn faults_of(call: Call) -> Vec<(Fault, u64)> {
    use Fault::*;
    let mut faults = vec![(Broken, 8), (Phase, 7)];
    if call != Call::Ad {
        faults.push((Direction, 7));
    }
    faults.extend(match call {
        Call::Ad | Call::Check => vec![(Limit, 5)],
        Call::Seal | Call::Open => vec![(Limit, 5), (Room, 6)],
        Call::FinishSealing => vec![(Tag, 4)],
        Call::FinishChecking | Call::FinishOpening => vec![(Tag, 4), (Mismatch, 9)],
    });
    faults
}

/// Gives the state that a call has no fault with, at a later or an earlier phase if both fit.
fn fitting(m: &Message, call: Call, later: bool) -> Stream {
    let owns = |direction: &Direction| calls_of(*direction).contains(&call);
    // A data call belongs to no direction and fits each.
    let direction = DIRECTIONS.into_iter().find(owns).unwrap_or(Sealing);
    let s = after_data(m, direction, LARGEST);
    if call == Call::Ad || !later {
        return s;
    }
    text_call(s, body(m, direction)).0 .2
}

/// Makes one call with the given faults and says that the first one is answered.
fn expect_first(random: &mut Random, number: u64, call: Call, way: usize, faults: &[(Fault, u64)]) {
    let has = |fault: Fault| faults.iter().any(|(known, _)| *known == fault);
    let later = way & 1 == 1;
    let text_length = if later && call != Call::Ad { 5 } else { 0 };
    let m = message(random, number, 13, text_length);
    let mut s = fitting(&m, call, later);
    let mut piece = vec![1; 5];
    let mut tag = m.tag.clone();
    if has(Fault::Mismatch) {
        tag[way] ^= 1;
    }
    if has(Fault::Tag) {
        let right = tag.len();
        tag.resize([right - 1, right + 1, 0, 28 - right][way], 3);
    }
    let ended = has(Fault::Phase) && (call != Call::Ad || later);
    if has(Fault::Limit) {
        if way < 2 || ended || (call != Call::Ad && s.phase == Phase::Data) {
            piece = vec![1; if call == Call::Ad { 65_537 } else { 1_048_577 }];
        } else if call == Call::Ad {
            s = with_counts(s, 65_532, s.text_count);
        } else {
            s = with_counts(s, s.ad_count, 1_048_572);
        }
    }
    if ended {
        s = ENDED;
    } else if has(Fault::Phase) {
        s.phase = Phase::Text;
        s.place = 0;
    }
    if has(Fault::Direction) && !ended {
        s.direction = others(s.direction)[way / 2];
    }
    if has(Fault::Broken) {
        s.place += block_of(&s);
    }
    let room = piece.len() - usize::from(has(Fault::Room));

    match faults.first() {
        None | Some((_, 9)) => {
            let mut out = vec![0; room];
            let given = called(call, s, &piece, &mut out, &mut tag);
            assert_eq!(given.0, faults.first().map_or(0, |(_, answer)| *answer));
            let finishing = DIRECTIONS
                .map(|direction| calls_of(direction)[1])
                .contains(&call);
            assert_eq!(given.2 == ENDED, finishing);
            assert!(given.1 > 0 || !finishing);
        }
        Some((_, answer)) => expect_refusal(*answer, call, s, &piece, room, &tag),
    }
}

/// Says that every mixture of faults is answered with the earliest test that holds.
#[test]
fn every_mixture_of_faults() {
    let mut random = Random::new(SEED + 13);
    let mut ran = 0;
    for number in set_numbers() {
        for call in CALLS {
            let all = faults_of(call);
            for mixture in 0..1 << all.len() {
                let chosen = (0..all.len()).filter(|i| mixture >> i & 1 == 1);
                let faults: Vec<(Fault, u64)> = chosen.map(|i| all[i]).collect();
                for way in 0..4 {
                    expect_first(&mut random, number, call, way, &faults);
                    ran += 1;
                }
            }
        }
    }
    assert_eq!(ran, SETS.len() * 4 * (8 + 32 + 16 + 32 + 16 + 32 + 32));
}

/// Says that every mixture of a start's faults is answered with the earliest, and has ended.
#[test]
fn every_mixture_of_faults_of_a_start() {
    assert_eq!(expect_starts(&[LARGEST], start), KINDS * 5 * 6 * 6);
}

/// Says that text and finish calls of the other directions are 7 in both open phases.
#[test]
fn the_other_direction() {
    let mut ran = 0;
    for s in open_states(&mut Random::new(SEED + 14)) {
        let tag = vec![4; set_of(s.set).expect("a known set").key];
        for call in calls_of_others(s.direction) {
            expect_refusal(7, call, s, &[1, 2], 2, &tag);
            expect_refusal(7, call, s, &[], 0, &tag);
            ran += 2;
        }
    }
    assert_eq!(ran, OPEN * 8);
}

/// Says that the ended state answers 7 to every call, whatever else is wrong.
#[test]
fn nothing_after_the_end() {
    let mut ran = 0;
    for call in CALLS {
        for piece in [0, 1, 8, 1_048_577] {
            for room in [0, 1, 1_048_577] {
                for tag in [0, 12, 16, 17] {
                    expect_refusal(7, call, ENDED, &vec![1; piece], room, &vec![2; tag]);
                    ran += 1;
                }
            }
        }
    }
    assert_eq!(ran, 7 * 4 * 3 * 4);
}

/// Says that a tag with any one bit wrong is 9 and ends the stream, from both open phases.
#[test]
fn a_wrong_tag_ends_the_stream() {
    let mut random = Random::new(SEED + 15);
    let mut ran = 0;
    for number in set_numbers() {
        for text_length in [0, 21] {
            let m = message(&mut random, number, 5, text_length);
            let mut s = after_data(&m, Checking, LARGEST);
            let mut rounds = 12 + closing(&m);
            if text_length > 0 {
                s = check(s, &m.cipher).2;
                rounds = 12;
            }
            for bit in 0..m.set.key * 8 {
                let given = finish_checking(s, &flipped(&m.tag, bit));
                assert_eq!(given, (9, rounds, ENDED));
                for call in [Call::FinishChecking, Call::Check, Call::Ad] {
                    expect_refusal(7, call, given.2, &[1], 0, &m.tag);
                }
                ran += 1;
            }
            assert_eq!(finish_checking(s, &m.tag), (0, rounds, ENDED));
        }
    }
    assert_eq!(ran, 2 * (128 + 96 + 128 + 128));
}

/// Says that damaged or missing pieces are 9 at the end.
#[test]
fn damage_is_noticed() {
    let mut random = Random::new(SEED + 16);
    let mut ran = 0;
    for number in set_numbers() {
        let m = message(&mut random, number, 19, 37);
        let judged = |data: &[u8], cipher: &[u8]| {
            let s = ad(fresh(&m, Checking, LARGEST), data).2;
            finish_checking(check(s, cipher).2, &m.tag).0
        };
        assert_eq!(judged(&m.ad, &m.cipher), 0);
        for bit in 0..19 * 8 {
            assert_eq!(judged(&flipped(&m.ad, bit), &m.cipher), 9);
            ran += 1;
        }
        for bit in 0..37 * 8 {
            assert_eq!(judged(&m.ad, &flipped(&m.cipher, bit)), 9);
            ran += 1;
        }
        assert_eq!(judged(&m.ad[..18], &m.cipher), 9);
        assert_eq!(judged(&m.ad, &m.cipher[..36]), 9);
        ran += 2;
    }
    assert_eq!(ran, SETS.len() * (56 * 8 + 2));
}

/// Says that empty pieces do nothing, but that the first text call closes the data.
#[test]
fn empty_pieces() {
    let mut random = Random::new(SEED + 17);
    let mut ran = 0;
    for s in open_states(&mut random) {
        let (given, _) = text_call(s, &[]);
        if s.phase == Phase::Data {
            assert_eq!(ad(s, &[]), (0, 0, s));
            let middle = [6, 8, 6, 8][s.set as usize - 1];
            let closed = done(given, if s.ad_count == 0 { 0 } else { middle });
            assert_eq!((closed.phase, closed.place), (Phase::Text, 0));
            assert_eq!((closed.ad_count, closed.text_count), (s.ad_count, 0));
            assert_ne!(closed.words, s.words);
            expect_refusal(7, Call::Ad, closed, &[], 0, &[]);
            expect_refusal(7, Call::Ad, closed, &[1], 0, &[]);
            // With no data the only change is the lowest bit of x4.
            if s.ad_count == 0 {
                let mut words = s.words;
                words[4] ^= 1;
                assert_eq!(closed.words, words);
            }
        } else {
            assert_eq!(given, (0, 0, s));
            expect_refusal(7, Call::Ad, s, &[], 0, &[]);
        }
        ran += 1;
    }
    assert_eq!(ran, OPEN);
}

/// Says that a refused text call doesn't close the data, and that a refused finish ends nothing.
#[test]
fn refusals_change_nothing() {
    let mut random = Random::new(SEED + 18);
    let mut ran = 0;
    for (number, direction) in kinds() {
        let m = message(&mut random, number, 20, 20);
        let (front, back) = (m.ad[..7].to_vec(), m.ad[7..].to_vec());
        let mut s = ad(fresh(&m, direction, LARGEST), &front).2;
        let long = vec![0; 1_048_577];
        let [text, finish] = calls_of(direction);
        let refused = [
            called(text, s, &long, &mut vec![0; long.len()], &mut []),
            called(finish, s, &[], &mut [], &mut vec![0; m.set.key - 1]),
            ad(s, &long[..65_530]),
        ];
        assert_eq!(refused, [(5, 0, s), (4, 0, s), (5, 0, s)]);
        if direction != Checking {
            expect_refusal(6, text, s, &[1; 9], 8, &[]);
        }
        for (answer, _, next) in refused {
            assert_ne!(answer, 0);
            s = next;
        }
        s = done(ad(s, &back), filling(&m, 7, 20));
        let (given, out) = text_call(s, body(&m, direction));
        assert_eq!(out, came_out(&m, direction));
        expect_end(given.2, &m.tag, 12);
        ran += 1;
    }
    assert_eq!(ran, KINDS);
}
