//! Streams in lent areas: layouts written by hand, every byte altered, lengths, starts, messages, refusals.

mod common;
mod streaming;

use common::{flipped, message, Message};
use second::area::{self, read, spelled, LENGTH};
use second::calls;
use second::hex;
use second::random::Random;
use second::stream::{start, Direction, Given, Phase, Stream, ENDED};
use std::slice::from_ref;
use streaming::*;
use Direction::{Checking, Opening, Sealing};

const SEED: u64 = 20_140_401;

/// The ended state's spelling.
const ENDED_AREA: [u8; 112] = [
    0, 0, 0, 0, 0, 0, 0, 0, // x0
    0, 0, 0, 0, 0, 0, 0, 0, // x1
    0, 0, 0, 0, 0, 0, 0, 0, // x2
    0, 0, 0, 0, 0, 0, 0, 0, // x3
    0, 0, 0, 0, 0, 0, 0, 0, // x4
    0, 0, 0, 0, 0, 0, 0, 0, // key
    0, 0, 0, 0, 0, 0, 0, 0, // and its second half
    0, 0, 0, 0, 0, 0, 0, 1, // set
    0, 0, 0, 0, 0, 0, 0, 0, // direction
    0, 0, 0, 0, 0, 0, 0, 2, // phase
    0, 0, 0, 0, 0, 0, 0, 0, // data count
    0, 0, 0, 0, 0, 0, 0, 0, // text count
    0, 0, 0, 0, 0, 0, 0, 0, // place
    0, 0, 0, 0, 0, 0, 0, 0, // limit
];

/// All phases.
const PHASES: [Phase; 3] = [Phase::Data, Phase::Text, Phase::Ended];

/// Gives the bytes of the hex digits, between which blanks count for nothing.
fn hexed(digits: &str) -> Vec<u8> {
    let packed: String = digits.split_whitespace().collect();
    hex::read(packed.as_bytes()).expect("hex digits in pairs")
}

/// Gives the number in the eight bytes of the area from `place` on.
fn number_at(area: &[u8], place: usize) -> u64 {
    let eight = area[place..place + 8].try_into();
    u64::from_be_bytes(eight.expect("eight bytes"))
}

/// Gives the layout of a state, without the code under test.
fn laid(s: &Stream) -> Vec<u8> {
    let direction = match s.direction {
        Sealing => 0,
        Checking => 1,
        Opening => 2,
    };
    let phase = match s.phase {
        Phase::Data => 0,
        Phase::Text => 1,
        Phase::Ended => 2,
    };
    let counts = [s.ad_count, s.text_count, s.place, s.limit];
    let numbers = [&[s.set, direction, phase], &counts[..]].concat();
    let mut bytes = s.words.map(u64::to_be_bytes).concat();
    bytes.extend(s.key);
    bytes.extend(numbers.iter().flat_map(|number| number.to_be_bytes()));
    bytes
}

/// Gives the state that an area lays out, if it does, without the code under test.
fn seen(area: &[u8]) -> Option<Stream> {
    if area.len() != 112 {
        return None;
    }
    let listed = |place| usize::try_from(number_at(area, place)).ok();
    Some(Stream {
        words: [0, 8, 16, 24, 32].map(|place| number_at(area, place)),
        set: number_at(area, 56),
        direction: *DIRECTIONS.get(listed(64)?)?,
        phase: *PHASES.get(listed(72)?)?,
        key: area[40..56].try_into().expect("sixteen bytes"),
        ad_count: number_at(area, 80),
        text_count: number_at(area, 88),
        place: number_at(area, 96),
        limit: number_at(area, 104),
    })
}

/// Gives the state of an area that must lay one out.
fn state_in(area: &[u8]) -> Stream {
    seen(area).expect("a state")
}

/// Says whether a call on the area is refused with 8, by the rules and on the bytes alone.
fn refused_by_rule(area: &[u8]) -> bool {
    if area.len() != 112 {
        return true;
    }
    let [set, direction, phase] = [56, 64, 72].map(|place| number_at(area, place));
    let [data, text, place, limit] = [80, 88, 96, 104].map(|place| number_at(area, place));
    if direction > 2 || phase > 2 {
        return true;
    }
    if phase == 2 {
        return area != ENDED_AREA;
    }
    let block = match set {
        1 | 3 => 8,
        2 | 4 => 16,
        _ => return true,
    };
    let present = if phase == 0 { data } else { text };
    let early = phase == 0 && text != 0;
    let over = data > 65_536 || text > limit || limit > 1_048_576;
    let long_key = set == 2 && area[52..56] != [0; 4];
    place != present % block || early || over || long_key
}

/// Starts a stream of the direction in the area.
fn start_in(
    direction: Direction,
    set: u64,
    limit: u64,
    key: &[u8],
    nonce: &[u8],
    lent: &mut [u8],
) -> u64 {
    match direction {
        Sealing => area::start_sealing(set, limit, key, nonce, lent),
        Checking => area::start_checking(set, limit, key, nonce, lent),
        Opening => area::start_opening(set, limit, key, nonce, lent),
    }
}

/// Makes the call on the area with as much of the parts as belongs to it.
fn on_area(call: Call, lent: &mut [u8], piece: &[u8], out: &mut [u8], tag: &mut [u8]) -> u64 {
    match call {
        Call::Ad => area::stream_data(lent, piece),
        Call::Seal => area::stream_seal(lent, piece, out),
        Call::Check => area::stream_check(lent, piece),
        Call::Open => area::stream_open(lent, piece, out),
        Call::FinishSealing => area::finish_sealing(lent, tag),
        Call::FinishChecking => area::finish_checking(lent, tag),
        Call::FinishOpening => area::finish_opening(lent, tag),
    }
}

/// Gives so many bytes to be lent, none of them 0.
fn marks(room: usize) -> Vec<u8> {
    (0..room).map(|i| (i % 241) as u8 + 3).collect()
}

/// Makes the call on the area, says that it does what the stream's call does, and gives the number.
fn expect_call(call: Call, lent: &mut [u8], piece: &[u8], room: usize, tag: &[u8]) -> u64 {
    let mut outs = [marks(room), marks(room)];
    let mut tags = [tag.to_vec(), tag.to_vec()];
    let (number, wanted) = match seen(lent) {
        None => (8, lent.to_vec()),
        Some(s) => {
            let (answer, rounds, next) = called(call, s, piece, &mut outs[0], &mut tags[0]);
            (16 * rounds + answer, laid(&next))
        }
    };
    let given = on_area(call, lent, piece, &mut outs[1], &mut tags[1]);
    assert_eq!(given, number, "{call:?}");
    assert_eq!(lent, wanted, "{call:?}");
    assert!(outs[0] == outs[1] && tags[0] == tags[1], "{call:?}");
    given
}

/// Says that the call is refused with the number and changes no lent byte, on the area and on its state.
fn expect_refused(number: u64, call: Call, lent: &[u8], piece: &[u8], room: usize, tag: &[u8]) {
    let mut after = lent.to_vec();
    let mut out = marks(room);
    let mut tag_after = tag.to_vec();
    let given = on_area(call, &mut after, piece, &mut out, &mut tag_after);
    assert_eq!(given, number, "{call:?}");
    assert_eq!(after, lent, "{call:?}");
    assert!(out == marks(room) && tag_after == tag, "{call:?}");
    if let Some(s) = seen(lent) {
        expect_refusal(number, call, s, piece, room, tag);
    }
}

/// Says that every call on the area is 8, right or wrong in all else, and gives how many calls were made.
fn expect_eights(lent: &[u8]) -> usize {
    for call in CALLS {
        for length in [12, 16] {
            expect_refused(8, call, lent, &[1, 2, 3], 3, &vec![5; length]);
        }
        expect_refused(8, call, lent, &[], 0, &[]);
        expect_refused(8, call, lent, &[1, 2, 3], 2, &[5; 17]);
    }
    CALLS.len() * 4
}

/// Says that every call on the area is 7, and gives how many calls were made.
fn expect_sevens(lent: &[u8]) -> usize {
    for call in CALLS {
        for length in [0, 12, 16] {
            expect_refused(7, call, lent, &[], 0, &vec![5; length]);
            expect_refused(7, call, lent, &[1, 2, 3], 2, &vec![5; length]);
        }
    }
    CALLS.len() * 6
}

/// Gives an area in which a stream of the message has just been started.
fn started(m: &Message, direction: Direction, limit: u64) -> Vec<u8> {
    let mut lent = vec![0xa5; 112];
    let number = start_in(direction, m.set.number, limit, &m.key, &m.nonce, &mut lent);
    assert_eq!(number, 16 * 12);
    assert_eq!(lent, laid(&fresh(m, direction, limit)));
    lent
}

/// Gives the tag that finishes the state of the area with a yes.
fn tag_of(lent: &[u8]) -> Vec<u8> {
    let mut tag = vec![0; usize::from(length_in(number_at(lent, 56)))];
    let s = Stream {
        direction: Sealing,
        ..state_in(lent)
    };
    assert_eq!(called(Call::FinishSealing, s, &[], &mut [], &mut tag).0, 0);
    tag
}

/// Gives any state at all, sound or not.
fn any_state(random: &mut Random) -> Stream {
    Stream {
        words: [(); 5].map(|()| random.number()),
        set: random.number(),
        direction: DIRECTIONS[random.below(3)],
        phase: PHASES[random.below(3)],
        key: kept(&random.bytes(16)),
        ad_count: random.number(),
        text_count: random.number(),
        place: random.number(),
        limit: random.number(),
    }
}

/// Gives a sound open state with any words, and as much of a key as the set has.
fn sound_state(
    random: &mut Random,
    (set, direction): (u64, Direction),
    phase: Phase,
    counts: [u64; 2],
    limit: u64,
) -> Stream {
    let mut s = any_state(random);
    (s.set, s.direction, s.phase, s.limit) = (set, direction, phase, limit);
    s.key = kept(&s.key[..usize::from(length_in(set))]);
    let text_count = if phase == Phase::Data { 0 } else { counts[1] };
    with_counts(s, counts[0], text_count)
}

/// Says that the ended state is spelled as the rules say.
#[test]
fn layout_of_the_ended_state() {
    assert_eq!(LENGTH, 112);
    assert_eq!(spelled(&ENDED), ENDED_AREA);
    assert_eq!(read(&ENDED_AREA), Some(ENDED));
    assert_eq!(laid(&ENDED), ENDED_AREA);
    let digits =
        "0000000000000000 0000000000000000 0000000000000000 0000000000000000 0000000000000000
        00000000000000000000000000000000 0000000000000001 0000000000000000 0000000000000002
        0000000000000000 0000000000000000 0000000000000000 0000000000000000";
    assert_eq!(hexed(digits), ENDED_AREA);
}

/// Words of a start with key bytes from 0 on and nonce bytes from 16 on, then the key, in each set.
const STARTS: [&str; 4] = [
    "52ed0083ff1668ac e6349c1903687b5f 62fc2a30303989d2 8c8f2ebaa298a589 9d55350a62586282
     000102030405060708090a0b0c0d0e0f",
    "4a55d9dc612b47e1 f434abe46c153602 9d443407a040b143 d0ef2428e10c7765 35171dde6231c42f
     000102030405060708090a0b00000000",
    "cba43b0a331b0ae5 d0b1251e0aae45b2 38a513833140c3d8 9a7e53e8fcfb3832 51df9d8eccf77b4f
     000102030405060708090a0b0c0d0e0f",
    "89d098be2b2b225c 1cb8a65e22eb3671 5c34ab7444d1ef2e ac2ec59cd1a131f3 66423ade9c6503da
     000102030405060708090a0b0c0d0e0f",
];

/// Set, direction and phase of a start, in each set and direction.
const KINDS_STARTED: [&str; 12] = [
    "0000000000000001 0000000000000000 0000000000000000",
    "0000000000000001 0000000000000001 0000000000000000",
    "0000000000000001 0000000000000002 0000000000000000",
    "0000000000000002 0000000000000000 0000000000000000",
    "0000000000000002 0000000000000001 0000000000000000",
    "0000000000000002 0000000000000002 0000000000000000",
    "0000000000000003 0000000000000000 0000000000000000",
    "0000000000000003 0000000000000001 0000000000000000",
    "0000000000000003 0000000000000002 0000000000000000",
    "0000000000000004 0000000000000000 0000000000000000",
    "0000000000000004 0000000000000001 0000000000000000",
    "0000000000000004 0000000000000002 0000000000000000",
];

/// Limits and how they are spelled.
const LIMITS: [(u64, &str); 4] = [
    (0, "0000000000000000"),
    (200, "00000000000000c8"),
    (772, "0000000000000304"),
    (1_048_576, "0000000000100000"),
];

/// Says that starts of each set and direction leave the layouts written here.
#[test]
fn layouts_of_starts() {
    let mut ran = 0;
    for (index, (set, direction)) in kinds().enumerate() {
        for (limit, limit_digits) in LIMITS {
            let counts = "0000000000000000 0000000000000000 0000000000000000";
            let digits = [
                STARTS[set as usize - 1],
                KINDS_STARTED[index],
                counts,
                limit_digits,
            ];
            let wanted = hexed(&digits.concat());
            let s = done(counting_start(set, direction, limit), 12);
            expect_started(s, set, direction, limit);
            assert_eq!(spelled(&s)[..], wanted);
            assert_eq!(read(&wanted), Some(s));

            let mut lent = vec![0xee; 112];
            let (key, nonce) = (counting(0, length_in(set)), counting(16, length_in(set)));
            let number = start_in(direction, set, limit, &key, &nonce, &mut lent);
            assert_eq!(number, 192);
            assert_eq!(lent, wanted);
            ran += 1;
        }
    }
    assert_eq!(ran, KINDS * 4);
}

/// Says that a state in the text phase with all parts different is spelled as written here.
#[test]
fn layout_in_the_text_phase() {
    let s = Stream {
        words: [
            0x0102030405060708,
            0x1112131415161718,
            0x2122232425262728,
            0x3132333435363738,
            0xf1f2f3f4f5f6f7f8,
        ],
        set: 3,
        direction: Opening,
        phase: Phase::Text,
        key: [
            0xa0, 0xa1, 0xa2, 0xa3, 0xa4, 0xa5, 0xa6, 0xa7, 0xa8, 0xa9, 0xaa, 0xab, 0xac, 0xad,
            0xae, 0xaf,
        ],
        ad_count: 0xbcde,
        text_count: 0x012345,
        place: 5,
        limit: 0x0fedcb,
    };
    let wanted = hexed(
        "0102030405060708 1112131415161718 2122232425262728 3132333435363738 f1f2f3f4f5f6f7f8
         a0a1a2a3a4a5a6a7a8a9aaabacadaeaf 0000000000000003 0000000000000002 0000000000000001
         000000000000bcde 0000000000012345 0000000000000005 00000000000fedcb",
    );
    expect_sound(s);
    assert_eq!(spelled(&s)[..], wanted);
    assert_eq!(read(&wanted), Some(s));
    assert!(!refused_by_rule(&wanted));

    // Three bytes more fill the block: the words change, the text count and the place.
    let mut after = wanted.clone();
    let mut out = [0; 3];
    assert_eq!(area::stream_open(&mut after, &[1, 2, 3], &mut out), 16 * 6);
    assert_eq!(out, [0x06 ^ 1, 0x07 ^ 2, 0x08 ^ 3]);
    let tail = hexed(
        "a0a1a2a3a4a5a6a7a8a9aaabacadaeaf 0000000000000003 0000000000000002 0000000000000001
         000000000000bcde 0000000000012348 0000000000000000 00000000000fedcb",
    );
    assert_eq!(after[40..], tail);
    assert_ne!(after[..40], wanted[..40]);
}

/// Says that a state of any parts, with no two bytes equal but those of direction and phase, is spelled so.
#[test]
fn layout_with_every_byte_its_own() {
    let mut ran = 0;
    for (index, direction) in DIRECTIONS.into_iter().enumerate() {
        for (other, phase) in PHASES.into_iter().enumerate() {
            let s = Stream {
                words: [
                    0x1011121314151617,
                    0x18191a1b1c1d1e1f,
                    0x2021222324252627,
                    0x28292a2b2c2d2e2f,
                    0x3031323334353637,
                ],
                set: 0x48494a4b4c4d4e4f,
                direction,
                phase,
                key: [
                    0x38, 0x39, 0x3a, 0x3b, 0x3c, 0x3d, 0x3e, 0x3f, 0x40, 0x41, 0x42, 0x43, 0x44,
                    0x45, 0x46, 0x47,
                ],
                ad_count: 0x6061626364656667,
                text_count: 0x68696a6b6c6d6e6f,
                place: 0x7071727374757677,
                limit: 0x78797a7b7c7d7e7f,
            };
            // Each byte is its own place plus 16, but for the sixteen in the middle.
            let mut wanted = counting(16, 112);
            wanted[64..80].fill(0);
            wanted[71] = index as u8;
            wanted[79] = other as u8;
            assert_eq!(spelled(&s)[..], wanted);
            assert_eq!(read(&wanted), Some(s));
            ran += 1;
        }
    }
    assert_eq!(ran, 9);
}

/// Says that states of any parts go into bytes and back, and that no two meet there.
#[test]
fn states_there_and_back() {
    let mut random = Random::new(SEED);
    let mut ran = 0;
    for _ in 0..20_000 {
        let s = any_state(&mut random);
        let bytes = spelled(&s);
        assert_eq!(bytes[..], laid(&s));
        assert_eq!(read(&bytes), Some(s));
        // Another state in one part is another spelling.
        let other = any_state(&mut random);
        let mut near = s;
        match random.below(9) {
            0 => near.words[random.below(5)] = other.words[0],
            1 => near.key = other.key,
            2 => near.set = other.set,
            3 => near.direction = other.direction,
            4 => near.phase = other.phase,
            5 => near.ad_count = other.ad_count,
            6 => near.text_count = other.text_count,
            7 => near.place = other.place,
            _ => near.limit = other.limit,
        }
        assert_eq!(spelled(&near) == bytes, near == s);
        ran += 1;
    }
    ran += over_open(SEED + 1, |s| {
        assert_eq!(spelled(&s)[..], laid(&s));
        assert_eq!(read(&spelled(&s)), Some(s));
        1
    });
    assert_eq!(ran, 20_000 + OPEN);
}

/// Says that areas of any bytes with a direction and a phase go into states and back, and no others do.
#[test]
fn areas_there_and_back() {
    let mut random = Random::new(SEED + 2);
    let mut numbers: Vec<u64> = (0..=300).collect();
    numbers.extend((9..64).map(|bit| 1 << bit));
    numbers.extend((2..8).map(|byte| 1 << (8 * byte) | 1));
    numbers.extend([1 << 32 | 2, 1 << 63 | 2, u64::MAX - 1, u64::MAX]);
    let mut ran = [0, 0];
    for direction in &numbers {
        for phase in &numbers {
            let mut bytes = random.bytes(112);
            bytes[64..72].copy_from_slice(&direction.to_be_bytes());
            bytes[72..80].copy_from_slice(&phase.to_be_bytes());
            let found = read(&bytes);
            assert_eq!(found, seen(&bytes));
            if let Some(s) = found {
                assert_eq!(spelled(&s)[..], bytes);
            }
            let spells = *direction <= 2 && *phase <= 2;
            assert_eq!(found.is_some(), spells);
            ran[usize::from(spells)] += 1;
        }
    }
    assert_eq!(numbers.len(), 301 + 55 + 6 + 4);
    assert_eq!(ran, [366 * 366 - 9, 9]);

    let mut ran = 0;
    for _ in 0..20_000 {
        let mut bytes = random.bytes(112);
        assert_eq!(read(&bytes), None);
        bytes[64..80].fill(0);
        bytes[71] = random.below(3) as u8;
        bytes[79] = random.below(3) as u8;
        let s = read(&bytes).expect("a state");
        assert_eq!(Some(s), seen(&bytes));
        assert_eq!(spelled(&s)[..], bytes);
        ran += 1;
    }
    assert_eq!(ran, 20_000);
}

/// Says that bytes of any other length than 112 spell no state.
#[test]
fn only_one_length_spells_a_state() {
    let mut random = Random::new(SEED + 3);
    let mut ran = [0, 0];
    for s in open_states(&mut random).into_iter().chain([ENDED]) {
        let endless = laid(&s).into_iter().cycle();
        for length in 0..=256 {
            let bytes: Vec<u8> = endless.clone().take(length).collect();
            let wanted = if length == 112 { Some(s) } else { None };
            assert_eq!(read(&bytes), wanted);
            ran[usize::from(wanted.is_some())] += 1;
        }
    }
    assert_eq!(ran, [(OPEN + 1) * 256, OPEN + 1]);
}

/// Makes a data call of no bytes with every other value of every byte, and gives how many aren't 8.
fn taken_alterations(whole: &[u8]) -> usize {
    let mut counted = [0, 0];
    let mut altered = whole.to_vec();
    for place in 0..112 {
        for value in 0..=255 {
            if value == whole[place] {
                continue;
            }
            altered[place] = value;
            let refused = refused_by_rule(&altered);
            let mut after = altered.clone();
            let number = area::stream_data(&mut after, &[]);
            assert_eq!(number == 8, refused, "byte {place} as {value}");
            // An empty piece changes nothing in either case.
            assert!(number == 8 || number == 7 || number == 0);
            assert_eq!(after, altered);
            counted[usize::from(!refused)] += 1;
        }
        altered[place] = whole[place];
    }
    assert_eq!(counted[0] + counted[1], 112 * 255);
    counted[1]
}

/// Says how many alterations of one byte are taken in the data phase: 13 bytes of data and limit 200.
#[test]
fn every_alteration_in_the_data_phase() {
    let mut random = Random::new(SEED + 4);
    // All of the words and the key are taken, two other directions, and no other phase.
    // Of the data count 31 or 15 last bytes have the same place, and all bytes before that are in range.
    // Of the limit the last two bytes are taken, and fifteen before that.
    let any = 40 * 255 + 2 + 255 + 255 + 255 + 15;
    let wanted = [
        // Set 3 has the same block.
        any + 16 * 255 + 1 + 31,
        // Set 4 has, and the last four bytes of the key must be 0.
        any + 12 * 255 + 1 + 15,
        any + 16 * 255 + 1 + 31,
        // Set 2 has, but not such a key.
        any + 16 * 255 + 15,
    ];
    assert_eq!(wanted, [15_094, 14_058, 15_094, 15_077]);
    let mut ran = 0;
    for kind in kinds() {
        let s = sound_state(&mut random, kind, Phase::Data, [13, 0], 200);
        assert!(kind.0 == 2 || s.key[12..] != [0; 4]);
        assert_eq!(taken_alterations(&laid(&s)), wanted[kind.0 as usize - 1]);
        ran += 1;
    }
    assert_eq!(ran, KINDS);
}

/// Says how many alterations of one byte are taken in the text phase: 13 and 21 bytes and limit 200.
#[test]
fn every_alteration_in_the_text_phase() {
    let mut random = Random::new(SEED + 5);
    // The place is 5 in every set, so each set can be another; set 2 only with its kind of key.
    // Any data count of two bytes is taken, and a text count up to 200 with the same place.
    // Of the limit 234 last bytes aren't below the text count.
    let any = 40 * 255 + 2 + 255 + 255 + 234 + 255 + 15;
    let wanted = [
        any + 16 * 255 + 2 + 24,
        any + 12 * 255 + 3 + 12,
        any + 16 * 255 + 2 + 24,
        any + 16 * 255 + 2 + 12,
    ];
    assert_eq!(wanted, [15_322, 14_291, 15_322, 15_310]);
    let mut ran = 0;
    for kind in kinds() {
        let s = sound_state(&mut random, kind, Phase::Text, [13, 21], 200);
        assert!(kind.0 == 2 || s.key[12..] != [0; 4]);
        assert_eq!(s.place, 5);
        assert_eq!(taken_alterations(&laid(&s)), wanted[kind.0 as usize - 1]);
        ran += 1;
    }
    assert_eq!(ran, KINDS);
}

/// Says that of all alterations of the ended state only the two open phases are taken.
#[test]
fn every_alteration_of_the_ended_state() {
    assert_eq!(taken_alterations(&ENDED_AREA), 2);
    // By bits: one makes the data phase, and of the others two make directions that are broken states.
    let flips = (0..112 * 8).map(|bit| flipped(&ENDED_AREA, bit));
    let (taken, refused): (Vec<_>, Vec<_>) = flips.partition(|bytes| !refused_by_rule(bytes));
    assert_eq!((taken.len(), refused.len()), (1, 895));
    let states: Vec<Stream> = refused.iter().filter_map(|bytes| seen(bytes)).collect();
    // The bits of direction and phase that make no state: 62 and 63.
    assert_eq!(states.len(), 895 - 62 - 63);
    assert_eq!(all_broken(states), 895 - 62 - 63);
    let ran: usize = refused.iter().map(|bytes| expect_eights(bytes)).sum();
    assert_eq!(ran, 895 * 7 * 4);
    expect_sound(state_in(&taken[0]));
}

/// What is combined into a byte to alter it.
const CHANGES: [u8; 6] = [1, 2, 3, 8, 0x80, 0xff];

/// Says of altered bytes what every call on them does, and gives whether they are taken.
fn expect_altered(altered: &[u8]) -> bool {
    if refused_by_rule(altered) {
        expect_eights(altered);
        if let Some(s) = seen(altered) {
            expect_broken(s);
        }
        return false;
    }
    let s = state_in(altered);
    expect_sound(s);
    let tag = vec![0x5a; usize::from(length_in(s.set))];
    for call in CALLS {
        let mut after = altered.to_vec();
        let number = expect_call(call, &mut after, &[], 3, &tag);
        let own = match call {
            Call::Ad => s.phase == Phase::Data,
            _ => calls_of(s.direction).contains(&call),
        };
        let fits = own && s.phase != Phase::Ended;
        let wanted = match call {
            _ if !fits => 7,
            Call::FinishChecking | Call::FinishOpening => 9,
            _ => 0,
        };
        assert_eq!(number % 16, wanted, "{call:?}");
        let finishing = fits && call == calls_of(s.direction)[1];
        let ended = finishing || s == ENDED;
        assert_eq!(after == ENDED_AREA, ended, "{call:?}");
    }
    true
}

/// Says what every call does with every byte altered, in open states of all kinds and the ended one.
#[test]
fn every_byte_altered_in_every_call() {
    let mut random = Random::new(SEED + 6);
    let mut states = vec![ENDED];
    // Inside blocks; with a short key and a full text; both counts full; nothing at all.
    let full = [65_536, LARGEST];
    let cases = [([13, 21], 200), ([3, 5], 5), (full, LARGEST), ([0, 0], 0)];
    for kind in kinds() {
        for phase in [Phase::Data, Phase::Text] {
            for (counts, limit) in cases {
                let mut s = sound_state(&mut random, kind, phase, counts, limit);
                if limit == 5 {
                    s.key[12..].fill(0);
                }
                states.push(s);
            }
        }
    }
    assert_eq!(states.len(), 1 + KINDS * 2 * 4);
    let mut ran = [0, 0];
    for s in states {
        let whole = laid(&s);
        assert!(expect_altered(&whole));
        for place in 0..112 {
            for change in CHANGES {
                let mut altered = whole.clone();
                altered[place] ^= change;
                ran[usize::from(expect_altered(&altered))] += 1;
            }
        }
    }
    assert_eq!(ran[0] + ran[1], (1 + KINDS * 2 * 4) * 112 * 6);
    // At least the words and keys of open states are taken, and the places and most bytes of counts refused.
    assert!(ran[1] > KINDS / 4 * 2 * 4 * (3 * 56 + 52) * 6, "{ran:?}");
    assert!(ran[0] > KINDS * 2 * 4 * (8 + 4 * 6) * 6, "{ran:?}");
}

/// The calls on an area: starts, those on a state, and the end.
#[derive(Clone, Copy, Debug)]
enum AnyCall {
    Start(Direction),
    On(Call),
    End,
}

/// Gives all calls on an area.
fn all_calls() -> Vec<AnyCall> {
    let mut all = vec![AnyCall::End];
    all.extend(DIRECTIONS.map(AnyCall::Start));
    all.extend(CALLS.map(AnyCall::On));
    all
}

/// Says what a call, right or wrong in all else, does with bytes of any length.
fn expect_length(call: AnyCall, lent: &[u8], wrong: bool) {
    let fits = lent.len() == 112;
    let mut after = lent.to_vec();
    match call {
        AnyCall::On(call) => {
            let (piece, room, tag) = match wrong {
                false => (vec![], 0, vec![7; 16]),
                true => (vec![1; 9], 8, vec![7; 3]),
            };
            let number = expect_call(call, &mut after, &piece, room, &tag);
            assert!(fits || number == 8);
        }
        AnyCall::Start(direction) => {
            let (set, limit, key, nonce) = match wrong {
                false => (3, LARGEST, vec![1; 16], vec![2; 16]),
                true => (0, LARGEST + 1, vec![1; 15], vec![2; 17]),
            };
            let number = start_in(direction, set, limit, &key, &nonce, &mut after);
            let (answer, rounds, s) = start(direction, set, limit, &key, &nonce);
            let wanted = if fits { 16 * rounds + answer } else { 8 };
            assert_eq!(number, wanted, "{call:?}");
            assert!(!fits || after == laid(&s), "{call:?}");
        }
        AnyCall::End => {
            assert_eq!(area::stream_end(&mut after), if fits { 0 } else { 8 });
            assert!(!fits || after == ENDED_AREA);
        }
    }
    assert!(fits || after == lent, "{call:?}");
}

/// Says that every call on bytes of another length than 112 is 8 and changes nothing, for lengths up to 256.
#[test]
fn every_length_of_area() {
    let mut random = Random::new(SEED + 7);
    let data = sound_state(&mut random, (1, Sealing), Phase::Data, [13, 0], 200);
    let text = sound_state(&mut random, (4, Opening), Phase::Text, [13, 21], 200);
    let contents = [
        laid(&data).repeat(3),
        laid(&text).repeat(3),
        ENDED_AREA.repeat(3),
        vec![0; 336],
        vec![0xff; 336],
        random.bytes(336),
    ];
    let mut ran = 0;
    for length in 0..=256 {
        for content in &contents {
            for call in all_calls() {
                for wrong in [false, true] {
                    expect_length(call, &content[..length], wrong);
                    // The end of the content may be what a call should have read.
                    expect_length(call, &content[336 - length..], wrong);
                    ran += 2;
                }
            }
        }
    }
    assert_eq!(ran, 257 * 6 * 11 * 2 * 2);
}

/// Says that a start in an area with any mixture of faults gives the earliest, as the stream's does.
#[test]
fn every_mixture_of_faults_of_a_start() {
    let started = |direction, set, limit, key: &[u8], nonce: &[u8]| -> Given {
        let mut lent = vec![0x3c; 112];
        let number = start_in(direction, set, limit, key, nonce, &mut lent);
        (number % 16, number / 16, state_in(&lent))
    };
    let limits = [0, 200, LARGEST, LARGEST + 1, 1 << 63, u64::MAX];
    assert_eq!(expect_starts(&limits, started), KINDS * 5 * 6 * 6 * 6);
}

/// Says that a start tests 8, 1, 2, 3 and 5 in that order, and what the area holds after each.
#[test]
fn the_order_of_a_start() {
    let mut random = Random::new(SEED + 8);
    let mut ran = [0; 9];
    for (set, direction) in kinds() {
        let right = usize::from(length_in(set));
        let other = others(direction)[0];
        let mine = sound_state(&mut random, (set, direction), Phase::Data, [13, 0], 200);
        let theirs = sound_state(&mut random, (set, other), Phase::Text, [13, 21], 200);
        let contents = [
            ENDED_AREA.to_vec(),
            laid(&mine),
            laid(&theirs),
            vec![0xff; 112],
            random.bytes(112),
        ];
        for (before, way) in contents
            .iter()
            .flat_map(|content| [0, 1, 2, 3].map(|way| (content, way)))
        {
            for mixture in 0..32 {
                let has = [0, 1, 2, 3, 4].map(|bit| mixture >> bit & 1 == 1);
                let mut lent = before.clone();
                if has[0] {
                    lent.resize([0, 111, 113, 224][way], 0);
                }
                let wrong_lengths = [0, right - 1, right + 1, 28 - right];
                let wrong_limits = [LARGEST + 1, 1 << 32, 1 << 63 | 200, u64::MAX];
                let wrong_sets = [0, 5, 1 << 32 | set, u64::MAX];
                let set = if has[1] { wrong_sets[way] } else { set };
                let key = random.bytes(if has[2] { wrong_lengths[way] } else { right });
                let nonce = random.bytes(if has[3] { wrong_lengths[way] } else { right });
                let limit = if has[4] { wrong_limits[way] } else { 200 };

                let first = [8, 1, 2, 3, 5].into_iter().zip(has).find(|(_, has)| *has);
                let wanted = first.map_or(0, |(answer, _)| answer);
                let held = match wanted {
                    8 => lent.clone(),
                    0 => laid(&done(start(direction, set, limit, &key, &nonce), 12)),
                    _ => ENDED_AREA.to_vec(),
                };
                let number = start_in(direction, set, limit, &key, &nonce, &mut lent);
                assert_eq!(number, if wanted == 0 { 192 } else { wanted });
                assert_eq!(lent, held);
                ran[wanted as usize] += 1;
            }
        }
    }
    // Of 32 mixtures 16 have the first fault, 8 the second and not the first, and so on.
    let counted = [0, 1, 2, 3, 5, 8].map(|answer| ran[answer]);
    assert_eq!(
        counted,
        [1, 8, 4, 2, 1, 16].map(|part| part * KINDS * 5 * 4)
    );
}

/// Says that a refused start leaves nothing of the stream that stood in the area, and 8 leaves all of it.
#[test]
fn a_refused_start_over_an_open_stream() {
    let mut random = Random::new(SEED + 9);
    let mut ran = 0;
    for s in open_states(&mut random) {
        let right = usize::from(length_in(s.set));
        let (key, nonce) = (random.bytes(right), random.bytes(right));
        let direction = DIRECTIONS[ran % 3];
        for answer in [1, 2, 3, 5] {
            let set = if answer == 1 { 5 } else { s.set };
            let key = &key[usize::from(answer == 2)..];
            let nonce = &nonce[usize::from(answer == 3)..];
            let limit = if answer == 5 { LARGEST + 1 } else { 200 };
            let mut lent = laid(&s);
            let number = start_in(direction, set, limit, key, nonce, &mut lent);
            assert_eq!((number, &lent[..]), (answer, &ENDED_AREA[..]));
            expect_sevens(&lent);
            ran += 1;
        }
        // In a longer area, or without its last byte, the stream stays as it was and goes on.
        let mut longer = [laid(&s), vec![0]].concat();
        for length in [111, 113] {
            let lent = &mut longer[..length];
            assert_eq!(start_in(direction, s.set, 200, &key, &nonce, lent), 8);
        }
        assert_eq!(longer, [laid(&s), vec![0]].concat());
        let tag = vec![0; right];
        let number = expect_call(calls_of(s.direction)[1], &mut longer[..112], &[], 0, &tag);
        assert_ne!(number % 16, 8);
    }
    assert_eq!(ran, OPEN * 4);
}

/// Says that a start that is done leaves only the new stream, whatever stood in the area.
#[test]
fn a_start_over_anything() {
    let mut random = Random::new(SEED + 10);
    let mut ran = 0;
    for (set, direction) in kinds() {
        for limit in [0, 200, LARGEST] {
            let m = message(&mut random, set, 0, 0);
            let wanted = laid(&fresh(&m, direction, limit));
            let mut before = vec![ENDED_AREA.to_vec(), vec![0; 112], vec![0xff; 112]];
            before.push(wanted.clone());
            before.push(laid(&any_state(&mut random)));
            before.push(random.bytes(112));
            before.extend(open_states(&mut random).iter().step_by(41).map(laid));
            assert_eq!(before.len(), 6 + 11);
            for mut lent in before {
                let number = start_in(direction, set, limit, &m.key, &m.nonce, &mut lent);
                assert_eq!((number, &lent), (192, &wanted));
                ran += 1;
            }
        }
    }
    assert_eq!(ran, KINDS * 3 * 17);
}

/// Runs the message through an area up to the finish, cut as given, and gives the area, the sum of the
/// numbers and what went out.
fn run_in_area(
    m: &Message,
    kind: (Direction, u64),
    data: &[Vec<u8>],
    pieces: &[Vec<u8>],
) -> (Vec<u8>, u64, Vec<u8>) {
    let (direction, limit) = kind;
    let mut lent = started(m, direction, limit);
    let mut sum = 192;
    let mut taken = 0;
    for piece in data {
        let rounds = filling(m, taken, taken + piece.len());
        assert_eq!(area::stream_data(&mut lent, piece), 16 * rounds);
        sum += 16 * rounds;
        taken += piece.len();
        expect_parts(m, &state_in(&lent), kind, Phase::Data, [taken, 0]);
    }
    let mut went = Vec::new();
    let mut unclosed = closing(m);
    for piece in pieces {
        let after = went.len() + piece.len();
        let rounds = unclosed + filling(m, went.len(), after);
        unclosed = 0;
        let mut out = marks(piece.len() + 2);
        let number = on_area(calls_of(direction)[0], &mut lent, piece, &mut out, &mut []);
        assert_eq!(number, 16 * rounds);
        sum += number;
        // Checking lets nothing out, and the others nothing past the piece.
        if direction == Checking {
            assert_eq!(out, marks(piece.len() + 2));
            out[..piece.len()].copy_from_slice(piece);
        }
        assert_eq!(out[piece.len()..], marks(piece.len() + 2)[piece.len()..]);
        went.extend(&out[..piece.len()]);
        expect_parts(m, &state_in(&lent), kind, Phase::Text, [taken, after]);
    }
    (lent, sum, went)
}

/// Gives the number of the whole-message call that does what a stream of the direction does, with that tag.
fn whole_number(m: &Message, direction: Direction, tag: &[u8]) -> u64 {
    let (set, key, nonce, ad) = (m.set.number, &m.key, &m.nonce, &m.ad);
    let mut out = marks(m.text.len());
    if direction == Sealing {
        let mut ours = marks(tag.len());
        let answer = calls::seal(set, key, nonce, ad, &m.text, &mut out, &mut ours);
        assert_eq!((&out, &ours[..]), (&m.cipher, tag));
        return answer.one_number();
    }
    let answer = calls::open(set, key, nonce, ad, &m.cipher, tag, &mut out);
    assert!(answer.number == 9 || out == m.text);
    answer.one_number()
}

/// Runs the message through an area, cut as given, and says that it does what the whole-message calls do.
fn expect_whole(
    random: &mut Random,
    m: &Message,
    kind: (Direction, u64),
    data: &[Vec<u8>],
    pieces: &[Vec<u8>],
) {
    let (direction, _) = kind;
    run_cut(random, m, kind, data, pieces);
    let (lent, sum, went) = run_in_area(m, kind, data, pieces);
    assert_eq!(went, came_out(m, direction));
    let finish = calls_of(direction)[1];
    let mut tag = match direction {
        Sealing => marks(m.set.key),
        Checking | Opening => m.tag.clone(),
    };
    let mut end = lent.clone();
    let last = on_area(finish, &mut end, &[], &mut [], &mut tag);
    // Every call was done, so the numbers add up to that of the whole message.
    assert_eq!(sum + last, 16 * m.rounds);
    assert_eq!(sum + last, whole_number(m, direction, &m.tag));
    assert_eq!(tag, m.tag);
    assert_eq!(end, ENDED_AREA);
    if direction != Sealing {
        let mut wrong = flipped(&m.tag, random.below(m.set.key * 8));
        let mut end = lent.clone();
        let no = on_area(finish, &mut end, &[], &mut [], &mut wrong);
        assert_eq!(no, last + 9);
        assert_eq!(sum + no, whole_number(m, direction, &wrong));
        assert_eq!(end, ENDED_AREA);
    }
}

/// Says that messages cut at random go through areas as whole messages do.
#[test]
fn messages_cut_at_random() {
    let mut random = Random::new(SEED + 11);
    let mut ran = 0;
    for (number, direction) in kinds() {
        for _ in 0..60 {
            let (ad, text) = (random.below(90), random.below(90));
            let m = message(&mut random, number, ad, text);
            let data = cut(&mut random, m.set, &m.ad, 5);
            let pieces = cut(&mut random, m.set, body(&m, direction), 5);
            let limit = text as u64 + random.below(3) as u64;
            expect_whole(&mut random, &m, (direction, limit), &data, &pieces);
            ran += 1;
        }
    }
    assert_eq!(ran, KINDS * 60);
}

/// Says the same of messages around the block edges, in all mixtures of cuts.
#[test]
fn messages_cut_in_many_ways() {
    let mut random = Random::new(SEED + 12);
    let mut ran = 0;
    for (number, direction) in kinds() {
        for (ad, text) in [(0, 0), (0, 9), (8, 0), (7, 16), (16, 8), (33, 31)] {
            let m = message(&mut random, number, ad, text);
            for way in 0..WAYS * WAYS {
                let data = cut(&mut random, m.set, &m.ad, way / WAYS);
                let pieces = cut(&mut random, m.set, body(&m, direction), way % WAYS);
                expect_whole(&mut random, &m, (direction, LARGEST), &data, &pieces);
                ran += 1;
            }
        }
    }
    assert_eq!(ran, KINDS * 6 * 36);
}

/// Says the same of messages at both limits, with the rounds that the rules print for set 1.
#[test]
fn messages_at_both_limits() {
    let mut random = Random::new(SEED + 13);
    let mut ran = 0;
    for (number, direction, rounds) in [
        (1, Sealing, 835_614),
        (2, Checking, 557_088),
        (3, Opening, 835_614),
        (4, Sealing, 557_088),
    ] {
        let m = message(&mut random, number, 65_536, 1_048_576);
        let data = cut_at(&m.ad, &[65_535]);
        let pieces = cut_at(body(&m, direction), &[1_048_570]);
        let (mut lent, sum, went) = run_in_area(&m, (direction, LARGEST), &data, &pieces);
        assert!(went == came_out(&m, direction));
        expect_refused(5, calls_of(direction)[0], &lent, &[1], 1, &[]);
        let mut tag = m.tag.clone();
        let last = on_area(calls_of(direction)[1], &mut lent, &[], &mut [], &mut tag);
        assert_eq!(sum + last, 16 * rounds);
        assert_eq!((&tag, &lent[..]), (&m.tag, &ENDED_AREA[..]));
        ran += 1;
    }
    assert_eq!(ran, 4);
}

/// Says that two cuttings of the same bytes leave equal areas.
#[test]
fn two_cuttings_leave_equal_areas() {
    let mut random = Random::new(SEED + 14);
    let mut ran = 0;
    for (number, direction) in kinds() {
        let m = message(&mut random, number, 35, 35);
        let text = calls_of(direction)[0];
        let at_start = started(&m, direction, LARGEST);
        let mut bytewise = at_start.clone();
        for end in 0..=35 {
            let mut at_once = at_start.clone();
            area::stream_data(&mut at_once, &m.ad[..end]);
            assert_eq!(bytewise, at_once);
            area::stream_data(&mut bytewise, &[]);
            assert_eq!(bytewise, at_once);
            if end < 35 {
                area::stream_data(&mut bytewise, &m.ad[end..=end]);
            }
            ran += 1;
        }
        let whole = body(&m, direction);
        let at_text = bytewise.clone();
        on_area(text, &mut bytewise, &[], &mut [], &mut []);
        for end in 0..=35 {
            let mut at_once = at_text.clone();
            on_area(text, &mut at_once, &whole[..end], &mut [0; 35], &mut []);
            assert_eq!(bytewise, at_once);
            if end < 35 {
                on_area(text, &mut bytewise, &whole[end..=end], &mut [0], &mut []);
            }
            ran += 1;
        }
        // Any two random cuttings of all.
        for _ in 0..10 {
            let data = cut(&mut random, m.set, &m.ad, 5);
            let pieces = cut(&mut random, m.set, whole, 5);
            let (lent, _, _) = run_in_area(&m, (direction, LARGEST), &data, &pieces);
            assert_eq!(lent, bytewise);
            ran += 1;
        }
    }
    assert_eq!(ran, KINDS * (36 + 36 + 10));
}

/// Says that an area holds all of a stream: a copy of it goes on in the same way, as often as one likes.
#[test]
fn an_area_is_all_of_a_stream() {
    let mut random = Random::new(SEED + 15);
    let mut ran = 0;
    let messages: Vec<(Message, Direction)> = kinds()
        .map(|(set, direction)| (message(&mut random, set, 20, 24), direction))
        .collect();
    let mut areas: Vec<Vec<u8>> = messages
        .iter()
        .map(|(m, direction)| started(m, *direction, 24))
        .collect();
    // All streams go on in turns, each time in other bytes than before.
    for turn in 0..10 {
        for ((m, direction), lent) in messages.iter().zip(&mut areas) {
            let mut moved = lent.clone();
            if turn < 4 {
                let piece = &m.ad[turn * 5..turn * 5 + 5];
                assert_eq!(expect_call(Call::Ad, &mut moved, piece, 0, &[]) % 16, 0);
            } else {
                let from = (turn - 4) * 4;
                let piece = &body(m, *direction)[from..from + 4];
                let mut out = came_out(m, *direction)[from..from + 4].to_vec();
                let wanted = out.clone();
                let text = calls_of(*direction)[0];
                assert_eq!(on_area(text, &mut moved, piece, &mut out, &mut []) % 16, 0);
                assert_eq!(out, wanted);
            }
            assert_ne!(*lent, moved);
            lent.fill(0xdd);
            *lent = moved;
            ran += 1;
        }
    }
    for ((m, direction), lent) in messages.iter().zip(&areas) {
        for _ in 0..3 {
            let mut copy = lent.clone();
            let finish = calls_of(*direction)[1];
            assert_eq!(expect_call(finish, &mut copy, &[], 0, &m.tag), 192);
            assert_eq!(copy, ENDED_AREA);
            ran += 1;
        }
    }
    assert_eq!(ran, KINDS * (10 + 3));
}

/// Says that every call on every open state does in its area what it does on the state itself.
#[test]
fn every_call_on_open_areas() {
    let mut random = Random::new(SEED + 16);
    let mut ran = 0;
    let mut answers = [0; 16];
    for s in open_states(&mut random) {
        let tag = tag_of(&laid(&s));
        for call in CALLS {
            for (length, room) in [(0, 0), (0, 2), (5, 5), (5, 4), (17, 20)] {
                let piece = random.bytes(length);
                let mut lent = laid(&s);
                let number = expect_call(call, &mut lent, &piece, room, &tag);
                answers[(number % 16) as usize] += 1;
                ran += 1;
            }
        }
    }
    assert_eq!(ran, OPEN * 7 * 5);
    // Four of five states take no data, and four calls are of other directions. Sealing and opening,
    // the directions of two states in three, find one of the five rooms too short.
    let sevens = OPEN / 5 * 4 * 5 + OPEN * 4 * 5;
    let sixes = OPEN / 3 * 2;
    let zeros = ran - sevens - sixes;
    assert_eq!(answers[..9], [zeros, 0, 0, 0, 0, 0, sixes, sevens, 0]);
}

/// Says that data after text is 7, an empty piece after an empty text call too.
#[test]
fn data_after_text() {
    let mut random = Random::new(SEED + 17);
    let mut ran = 0;
    for (number, direction) in kinds() {
        for (ad, text) in [(0, 0), (5, 0), (8, 3), (16, 16)] {
            let m = message(&mut random, number, ad, text);
            let pieces = [body(&m, direction).to_vec()];
            let (lent, _, _) = run_in_area(&m, (direction, 200), from_ref(&m.ad), &pieces);
            for length in [0, 1, 16, 65_537] {
                expect_refused(7, Call::Ad, &lent, &vec![1; length], 0, &[]);
                ran += 1;
            }
        }
    }
    assert_eq!(ran, KINDS * 4 * 4);
}

/// Says that finishing twice is 7, and so is every other call after a finish.
#[test]
fn finishing_twice() {
    let mut random = Random::new(SEED + 18);
    let mut ran = 0;
    for (number, direction) in kinds() {
        let m = message(&mut random, number, 9, 18);
        let finish = calls_of(direction)[1];
        let pieces = [body(&m, direction).to_vec()];
        let (lent, _, _) = run_in_area(&m, (direction, 18), from_ref(&m.ad), &pieces);
        for right in [true, false] {
            let mut tag = m.tag.clone();
            tag[3] ^= u8::from(!right);
            let mut end = lent.clone();
            let number = expect_call(finish, &mut end, &[], 0, &tag);
            let no = direction != Sealing && !right;
            assert_eq!(number, 192 + if no { 9 } else { 0 });
            assert_eq!(end, ENDED_AREA);
            expect_refused(7, finish, &end, &[], 0, &tag);
            ran += 1 + expect_sevens(&end);
        }
    }
    assert_eq!(ran, KINDS * 2 * (1 + 7 * 6));
}

/// Says that text and finish calls of another direction are 7, whatever else is wrong.
#[test]
fn the_other_direction() {
    let mut ran = 0;
    for s in open_states(&mut Random::new(SEED + 19)) {
        let lent = laid(&s);
        let right = usize::from(length_in(s.set));
        for call in calls_of_others(s.direction) {
            expect_refused(7, call, &lent, &[1, 2], 2, &vec![4; right]);
            expect_refused(7, call, &lent, &[1, 2], 1, &[]);
            expect_refused(7, call, &lent, &[], 0, &vec![4; right + 1]);
            ran += 3;
        }
    }
    assert_eq!(ran, OPEN * 4 * 3);
}

/// Says that a tag, or a place for it, of any other length than the set's is 4.
#[test]
fn tags_of_wrong_length() {
    let mut ran = 0;
    let states = open_states(&mut Random::new(SEED + 20));
    for s in states.into_iter().step_by(4) {
        let lent = laid(&s);
        let finish = calls_of(s.direction)[1];
        let right = usize::from(length_in(s.set));
        for length in (0..=40).filter(|length| *length != right) {
            expect_refused(4, finish, &lent, &[], 0, &marks(length));
            ran += 1;
        }
        let mut end = lent.clone();
        let number = expect_call(finish, &mut end, &[], 0, &marks(right));
        assert_eq!(number % 16, if s.direction == Sealing { 0 } else { 9 });
    }
    assert_eq!(ran, OPEN / 4 * 40);
}

/// Says that a tag with any one bit wrong is 9 with the rounds run, and ends the stream.
#[test]
fn wrong_tags() {
    let mut random = Random::new(SEED + 21);
    let mut ran = 0;
    for (number, direction) in kinds().filter(|(_, direction)| *direction != Sealing) {
        for (ad, pieces) in [(0, 0), (5, 0), (5, 1)] {
            let m = message(&mut random, number, ad, pieces * 21);
            let pieces = vec![m.cipher.clone(); pieces];
            let (lent, _, _) = run_in_area(&m, (direction, 21), from_ref(&m.ad), &pieces);
            let rounds = 12 + if pieces.is_empty() { closing(&m) } else { 0 };
            let finish = calls_of(direction)[1];
            for bit in 0..m.set.key * 8 {
                let mut end = lent.clone();
                let wrong = flipped(&m.tag, bit);
                let number = expect_call(finish, &mut end, &[], 0, &wrong);
                assert_eq!((number, &end[..]), (16 * rounds + 9, &ENDED_AREA[..]));
                ran += 1;
            }
            let mut end = lent.clone();
            assert_eq!(expect_call(finish, &mut end, &[], 0, &m.tag), 16 * rounds);
            assert_eq!(end, ENDED_AREA);
        }
    }
    assert_eq!(ran, 2 * 3 * (128 + 96 + 128 + 128));
}

/// Says that text past the stream's limit is 5, and text up to it is done.
#[test]
fn limits_of_text() {
    let mut random = Random::new(SEED + 22);
    let mut ran = 0;
    for kind in kinds() {
        let text = calls_of(kind.1)[0];
        for limit in [0, 1, 8, 200, LARGEST] {
            for left in [0, 1, 5, 200] {
                let count = limit - left.min(limit);
                let s = sound_state(&mut random, kind, Phase::Text, [13, count], limit);
                let (lent, left) = (laid(&s), (limit - count) as usize);
                for past in [1, 2, 16, 1_048_577] {
                    for room in [0, left + past] {
                        expect_refused(5, text, &lent, &vec![1; left + past], room, &[]);
                        ran += 1;
                    }
                }
                let mut full = lent.clone();
                let number = expect_call(text, &mut full, &vec![1; left], left, &[]);
                assert_eq!(number % 16, 0);
                assert_eq!(number_at(&full, 88), limit);
                expect_refused(5, text, &full, &[1], 1, &[]);
                ran += 2;
            }
        }
    }
    assert_eq!(ran, KINDS * 5 * 4 * (8 + 2));
}

/// Says that data past 65,536 bytes is 5, whatever the stream's limit, and data up to it is done.
#[test]
fn limits_of_data() {
    let mut random = Random::new(SEED + 23);
    let mut ran = 0;
    for kind in kinds() {
        for limit in [0, 200, 65_537, LARGEST] {
            for left in [0, 1, 5, 200, 65_536] {
                let counts = [65_536 - left, 0];
                let s = sound_state(&mut random, kind, Phase::Data, counts, limit);
                let (lent, left) = (laid(&s), left as usize);
                for past in [1, 2, 16, 65_537] {
                    expect_refused(5, Call::Ad, &lent, &vec![1; left + past], 0, &[]);
                    ran += 1;
                }
                if left > 1_000 {
                    continue;
                }
                let mut full = lent.clone();
                let number = expect_call(Call::Ad, &mut full, &vec![1; left], 0, &[]);
                assert_eq!((number % 16, number_at(&full, 80)), (0, 65_536));
                expect_refused(5, Call::Ad, &full, &[1], 0, &[]);
                ran += 2;
            }
        }
    }
    assert_eq!(ran, KINDS * 4 * (5 * 4 + 4 * 2));
}

/// Says that any room shorter than the piece is 6, and that a checking stream needs none.
#[test]
fn short_rooms() {
    let mut random = Random::new(SEED + 24);
    let mut ran = 0;
    for s in open_states(&mut random).into_iter().step_by(3) {
        let lent = laid(&s);
        let text = calls_of(s.direction)[0];
        for length in [1, 7, 8, 16, 33] {
            let piece = random.bytes(length);
            for room in 0..length {
                if s.direction == Checking {
                    let mut after = lent.clone();
                    assert_eq!(expect_call(text, &mut after, &piece, room, &[]) % 16, 0);
                } else {
                    expect_refused(6, text, &lent, &piece, room, &[]);
                }
                ran += 1;
            }
        }
    }
    assert_eq!(ran, OPEN / 3 * (1 + 7 + 8 + 16 + 33));
}

/// Says that what spells no state, and a broken state, is 8 before every other fault.
#[test]
fn eight_comes_first() {
    let mut random = Random::new(SEED + 25);
    let mut ran = 0;
    let far = vec![1; 1_048_577];
    let states = open_states(&mut random);
    for s in states.into_iter().step_by(6).chain([ENDED]) {
        let mut bad = vec![laid(&s); 7];
        bad[0][71] = 3;
        bad[1][64] = 1;
        bad[2][79] = 3;
        bad[3][72] = 1;
        bad[4].pop();
        bad[5].push(0);
        bad[6][103] ^= 16;
        for lent in bad {
            assert!(refused_by_rule(&lent));
            ran += expect_eights(&lent);
            for call in CALLS {
                expect_refused(8, call, &lent, &far, 0, &[]);
                ran += 1;
            }
        }
    }
    assert_eq!(ran, (OPEN / 6 + 1) * 7 * 7 * 5);
}

/// Says that the end leaves the ended state in any 112 bytes, and that every call after it is 7.
#[test]
fn the_end_of_anything() {
    let mut random = Random::new(SEED + 26);
    let mut before = vec![ENDED_AREA.to_vec(), vec![0; 112], vec![0xff; 112]];
    before.extend(open_states(&mut random).iter().map(laid));
    before.extend((0..200).map(|_| laid(&any_state(&mut random))));
    before.extend((0..200).map(|_| random.bytes(112)));
    before.extend((0..112 * 8).map(|bit| flipped(&ENDED_AREA, bit)));
    assert_eq!(before.len(), 3 + OPEN + 200 + 200 + 896);
    let mut ran = 0;
    for mut lent in before {
        assert_eq!(area::stream_end(&mut lent), 0);
        assert_eq!(lent, ENDED_AREA);
        expect_sevens(&lent);
        // Ending what has ended is done too.
        assert_eq!(area::stream_end(&mut lent), 0);
        assert_eq!(lent, ENDED_AREA);
        ran += 1;
    }
    assert_eq!(ran, 3 + OPEN + 200 + 200 + 896);
}

/// Makes one call of any kind, right or wrong, on the area, compares all with the rules, and gives the number.
fn random_step(random: &mut Random, lent: &mut [u8]) -> u64 {
    match random.below(20) {
        0..=2 => {
            let set = random.below(6) as u64;
            let right = usize::from(length_in(set));
            let odd = |random: &mut Random| usize::from(random.below(8) == 0);
            let (key, nonce) = (right + odd(random), right - odd(random));
            let (key, nonce) = (random.bytes(key), random.bytes(nonce));
            let limit = [0, 9, 40, LARGEST, LARGEST + 1][random.below(5)];
            let direction = DIRECTIONS[random.below(3)];
            let (answer, rounds, next) = start(direction, set, limit, &key, &nonce);
            let number = start_in(direction, set, limit, &key, &nonce, lent);
            assert_eq!(number, 16 * rounds + answer);
            assert_eq!(lent, laid(&next));
            number
        }
        3 => {
            assert_eq!(area::stream_end(lent), 0);
            assert_eq!(lent, ENDED_AREA);
            0
        }
        4 => {
            // A copy with one bit altered; the stream itself goes on.
            let mut altered = flipped(lent, random.below(112 * 8));
            let refused = refused_by_rule(&altered);
            let call = CALLS[random.below(7)];
            let number = expect_call(call, &mut altered, &[], 0, &marks(16));
            assert_eq!(number == 8, refused);
            number
        }
        _ => {
            let own = calls_of(state_in(lent).direction);
            let call = match random.below(12) {
                0 => CALLS[random.below(7)],
                1..=4 => Call::Ad,
                5..=9 => own[0],
                _ => own[1],
            };
            let length = random.below(20);
            let piece = random.bytes(length);
            let room = if random.below(10) == 0 { 3 } else { length };
            let mut tag = match *lent == ENDED_AREA {
                true => marks(16),
                false => tag_of(lent),
            };
            match random.below(6) {
                0 => tag[0] ^= 1,
                1 => tag.push(0),
                _ => {}
            }
            expect_call(call, lent, &piece, room, &tag)
        }
    }
}

/// Says that long runs of calls of any kind, with starts, ends and altered bytes between, go by the rules.
#[test]
fn random_runs_of_calls() {
    let mut random = Random::new(SEED + 27);
    let mut answers = [0; 16];
    for _ in 0..100 {
        let mut lent = random.bytes(112);
        assert_eq!(area::stream_end(&mut lent), 0);
        for _ in 0..400 {
            assert!(!refused_by_rule(&lent));
            let number = random_step(&mut random, &mut lent);
            answers[(number % 16) as usize] += 1;
        }
    }
    assert_eq!(answers.iter().sum::<usize>(), 100 * 400);
    // Every answer of a stream was given, and no other.
    assert!(answers[..10].iter().all(|count| *count > 50), "{answers:?}");
    assert_eq!(answers[10..], [0; 6]);
}
