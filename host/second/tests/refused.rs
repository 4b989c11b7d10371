//! Request W13: what a refused opening gives away, and that nothing opens to two texts.

mod common;
mod walk;

use common::{flipped, message};
use second::calls;
use second::random::Random;
use second::stream::{
    ad, check, finish_checking, finish_opening, is_broken, open, start, Direction, Given, Phase,
    Stream,
};
use std::collections::BTreeSet;
use walk::{Numbers, ALL};
use Direction::{Checking, Opening, Sealing};

const SEED: u64 = 20_260_201;

/// The largest limit of text that a stream may have.
const LARGEST: u64 = 1_048_576;

/// The one ended state as the rules write it, and not as the program has it: set 1, sealing, phase ended, all else zero.
const THE_END: Stream = Stream {
    words: [0; 5],
    set: 1,
    direction: Sealing,
    phase: Phase::Ended,
    key: [0; 16],
    ad_count: 0,
    text_count: 0,
    place: 0,
    limit: 0,
};

/// How many parts come to be opened: key, nonce, data, ciphertext and tag.
const PARTS: usize = 5;

/// The places of some of the parts among all.
const DATA: usize = 2;
const CIPHER: usize = 3;
const TAG: usize = 4;

/// What comes to be opened, right or not.
#[derive(Clone)]
struct Came {
    n: &'static Numbers,
    parts: [Vec<u8>; PARTS],
}

impl Came {
    /// Gives the same with other bytes as one of the parts.
    fn with(&self, part: usize, bytes: Vec<u8>) -> Came {
        let mut other = self.clone();
        other.parts[part] = bytes;
        other
    }

    /// Gives the same with one bit of one of the parts changed.
    fn with_bit(&self, part: usize, bit: usize) -> Came {
        self.with(part, flipped(&self.parts[part], bit))
    }

    /// Gives the same with each part made anew from the old one.
    fn with_all(&self, new: impl FnMut(&Vec<u8>) -> Vec<u8>) -> Came {
        Came {
            n: self.n,
            parts: self.parts.each_ref().map(new),
        }
    }

    /// Gives what two openings must share: the set and the lengths of all parts.
    fn shared(&self) -> (u64, [usize; PARTS]) {
        (self.n.set, self.parts.each_ref().map(Vec::len))
    }
}

/// Gives the rounds of a whole message by the formula of the rules.
fn rounds_of(n: &Numbers, data: usize, text: usize) -> u64 {
    let s = if data == 0 { 0 } else { data / n.block + 1 };
    let t = text / n.block + 1;
    (24 + n.middle * (s + t - 1)) as u64
}

/// Gives what comes of a pseudo-random message that nobody has changed, and its text, having compared both with
/// the walk.
fn sealed(random: &mut Random, n: &'static Numbers, data: usize, text: usize) -> (Came, Vec<u8>) {
    let m = message(random, n.set, data, text);
    let by_walk = walk::sealed(n, &m.key, &m.nonce, &m.ad, &m.text);
    assert_eq!(by_walk, (m.cipher.clone(), m.tag.clone(), m.rounds));
    let wanted = (n.set, rounds_of(n, data, text));
    assert_eq!((m.set.number, m.rounds), wanted);
    let parts = [m.key, m.nonce, m.ad, m.cipher, m.tag];
    (Came { n, parts }, m.text)
}

/// Seals the text under the key, the nonce and the data of what came, and gives what comes of it, having compared it
/// with the walk.
fn sealed_again(came: &Came, text: &[u8]) -> Came {
    let [key, nonce, data, ..] = &came.parts;
    let (mut cipher, mut tag) = (vec![0; text.len()], vec![0; came.n.key]);
    let answer = calls::seal(came.n.set, key, nonce, data, text, &mut cipher, &mut tag);
    assert_eq!(answer.number, 0);
    let by_walk = walk::sealed(came.n, key, nonce, data, text);
    assert_eq!(by_walk, (cipher.clone(), tag.clone(), answer.rounds));
    came.with(CIPHER, cipher).with(TAG, tag)
}

/// What an opening shows its caller.
#[derive(Debug, PartialEq)]
struct Shown {
    answer: u64,
    rounds: u64,
    one_number: u64,
    out: Vec<u8>,
}

/// Opens what came into a place that holds the given bytes, and gives what that shows.
fn shown(came: &Came, before: &[u8]) -> Shown {
    let [key, nonce, data, cipher, tag] = &came.parts;
    let mut out = before.to_vec();
    let answer = calls::open(came.n.set, key, nonce, data, cipher, tag, &mut out);
    Shown {
        answer: answer.number,
        rounds: answer.rounds,
        one_number: answer.one_number(),
        out,
    }
}

/// Gives what the rules have an opening show that gives the answer and puts the front into the place.
fn by_rules(came: &Came, answer: u64, front: &[u8], before: &[u8]) -> Shown {
    let (_, [_, _, data, cipher, _]) = came.shared();
    assert_eq!(front.len(), cipher);
    let rounds = rounds_of(came.n, data, cipher);
    Shown {
        answer,
        rounds,
        one_number: 16 * rounds + answer,
        out: [front, &before[cipher..]].concat(),
    }
}

/// Gives what the rules have a refused opening show: 9, and zeros in as many bytes as the ciphertext has.
fn refused(came: &Came, before: &[u8]) -> Shown {
    by_rules(came, 9, &vec![0; came.parts[CIPHER].len()], before)
}

/// Says that openings of the same lengths are all refused with 9 and show the same, which is what the rules have them
/// show, and gives how many pairs they make.
fn expect_alike(openings: &[Came], before: &[u8]) -> usize {
    let all: Vec<Shown> = openings.iter().map(|came| shown(came, before)).collect();
    let mut pairs = 0;
    for (i, (one, of_one)) in openings.iter().zip(&all).enumerate() {
        assert_eq!(of_one.answer, 9);
        assert_eq!(*of_one, refused(one, before));
        for (other, of_other) in openings.iter().zip(&all).take(i) {
            assert_eq!(one.shared(), other.shared());
            assert!(one.parts != other.parts);
            assert_eq!(of_one, of_other);
            pairs += 1;
        }
    }
    pairs
}

/// Gives as many bytes that are not the same, or none when there are none.
fn other(random: &mut Random, bytes: &[u8]) -> Vec<u8> {
    loop {
        let new = random.bytes(bytes.len());
        if new != bytes || bytes.is_empty() {
            return new;
        }
    }
}

/// How many kinds of bytes a place or a part may hold, and of limits that a stream may have.
const KINDS: usize = 3;

/// Gives so many bytes of one of the kinds: zeros, ones or any.
fn held(random: &mut Random, kind: usize, length: usize) -> Vec<u8> {
    match kind {
        0 => vec![0; length],
        1 => vec![0xff; length],
        _ => random.bytes(length),
    }
}

/// Gives openings with the lengths of a right one, no two the same and none with a right tag.
///
/// They are: one bit of the tag wrong; each part other, alone and beside that bit; every part other; all zeros; all
/// ones. These are 14; with no data or no ciphertext they are 12, and with neither 10.
fn refusals(random: &mut Random, right: &Came) -> Vec<Came> {
    let wrong = right.with_bit(TAG, random.below(right.n.key * 8));
    let mut all = vec![wrong.clone()];
    for base in [right, &wrong] {
        for part in 0..PARTS {
            if !base.parts[part].is_empty() {
                all.push(base.with(part, other(random, &base.parts[part])));
            }
        }
    }
    all.push(right.with_all(|bytes| other(random, bytes)));
    all.push(right.with_all(|bytes| vec![0; bytes.len()]));
    all.push(right.with_all(|bytes| vec![0xff; bytes.len()]));
    all
}

/// Says that no part shows, alone or with all others, at every length of data and of ciphertext up to 40.
#[test]
fn every_length_of_data_and_ciphertext() {
    let mut random = Random::new(SEED);
    let (mut openings, mut pairs) = (0, 0);
    for n in &ALL {
        for data in 0..=40 {
            for length in 0..=40 {
                let (right, _) = sealed(&mut random, n, data, length);
                let all = refusals(&mut random, &right);
                let before = held(&mut random, length % KINDS, length + data % 4);
                openings += all.len();
                pairs += expect_alike(&all, &before);
            }
        }
    }
    // Of 41 × 41 pairs of lengths 1,600 have no 0, 80 have one and 1 has two; k openings make k(k − 1) / 2 pairs.
    assert_eq!(openings, 4 * (1_600 * 14 + 80 * 12 + 10));
    assert_eq!(pairs, 4 * (1_600 * 91 + 80 * 66 + 45));
}

/// Says that no bit of any part shows, whether all else is right or the tag is another one.
#[test]
fn each_bit_alone() {
    let mut random = Random::new(SEED + 1);
    let (mut bits, mut pairs) = ([0; PARTS], 0);
    for n in &ALL {
        let b = n.block;
        let (right, _) = sealed(&mut random, n, b + 3, 2 * b + 3);
        let wrong = right.with(TAG, other(&mut random, &right.parts[TAG]));
        let before = random.bytes(2 * b + 5);
        for (part, count) in bits.iter_mut().enumerate() {
            for bit in 0..right.parts[part].len() * 8 {
                let [far, near] = [&wrong, &right].map(|came| came.with_bit(part, bit));
                // The first two differ in this bit alone.
                pairs += expect_alike(&[wrong.clone(), far, near], &before);
                *count += 1;
            }
        }
    }
    let keys = 128 + 96 + 128 + 128;
    let [data, cipher] = [2 * (11 + 19) * 8, 2 * (19 + 35) * 8];
    assert_eq!(bits, [keys, keys, data, cipher, keys]);
    assert_eq!(pairs, 3 * (3 * 480 + 480 + 864));
}

/// Gives the bytes with the given bits of each byte from one place up to another changed.
fn changed_between(bytes: &[u8], from: usize, to: usize, bits: u8) -> Vec<u8> {
    let mut changed = bytes.to_vec();
    changed[from..to].iter_mut().for_each(|byte| *byte ^= bits);
    changed
}

/// Gives all tags that agree with the right one in some neighbouring bytes alone, in none, or in all but some
/// neighbouring bytes.
///
/// With 16 bytes there are 136 of the first two kinds. Of the third kind 105 are left, as those that change bytes at
/// either end are of the first. With 12 bytes there are 78 and 55.
fn near_tags(tag: &[u8], bits: u8) -> Vec<Vec<u8>> {
    let mut all = BTreeSet::new();
    for to in 0..=tag.len() {
        for from in 0..=to {
            let inside = changed_between(tag, from, to, bits);
            let outside = changed_between(&inside, 0, tag.len(), bits);
            all.extend([inside, outside]);
        }
    }
    all.remove(tag);
    all.into_iter().collect()
}

/// Says that it doesn't show how much of a wrong tag is right, nor where.
#[test]
fn tags_that_nearly_agree() {
    let mut random = Random::new(SEED + 2);
    let (mut tags, mut pairs) = (0, 0);
    for n in &ALL {
        for (data, length) in [(0, 0), (5, 21)] {
            for bits in [0x01, 0x80, 0xff] {
                let (right, _) = sealed(&mut random, n, data, length);
                let near = near_tags(&right.parts[TAG], bits).into_iter();
                let openings: Vec<Came> = near.map(|tag| right.with(TAG, tag)).collect();
                let before = random.bytes(length + 2);
                tags += openings.len();
                pairs += expect_alike(&openings, &before);
            }
        }
    }
    assert_eq!(tags, 2 * 3 * (3 * (136 + 105) + 78 + 55));
    assert_eq!(pairs, 2 * 3 * (3 * (241 * 120) + 133 * 66));
}

/// Gives lengths at the block edges.
fn edges(n: &Numbers) -> [usize; 7] {
    let b = n.block;
    [0, 1, b - 1, b, b + 1, 2 * b, 2 * b + 3]
}

/// Gives bytes for a place with so much room beyond a text: zeros, ones, any bytes, the text itself before any bytes,
/// and its ciphertext before any bytes.
fn places(random: &mut Random, right: &Came, text: &[u8], spare: usize) -> [Vec<u8>; 5] {
    let length = text.len() + spare;
    let rest = random.bytes(spare);
    [
        held(random, 0, length),
        held(random, 1, length),
        held(random, 2, length),
        [text, &rest].concat(),
        [&right.parts[CIPHER], &rest[..]].concat(),
    ]
}

/// Says that two refused openings leave the same in places of up to 40 bytes too many, whatever these held.
#[test]
fn every_room() {
    let mut random = Random::new(SEED + 3);
    let mut pairs = 0;
    for n in &ALL {
        for length in edges(n) {
            let (right, text) = sealed(&mut random, n, length % 5, length);
            let near = right.with_bit(TAG, random.below(n.key * 8));
            let far = right.with_all(|bytes| other(&mut random, bytes));
            let both = [near, far];
            for spare in 0..=40 {
                for before in places(&mut random, &right, &text, spare) {
                    pairs += expect_alike(&both, &before);
                }
            }
        }
    }
    assert_eq!(pairs, 4 * 7 * 41 * 5);
}

/// Says that two long messages show the same when they are refused, with the rounds that the rules print for the
/// limits of set 1.
#[test]
fn long_messages() {
    let mut random = Random::new(SEED + 4);
    let mut pairs = 0;
    // The first is P12; the others are 24 + 8 × (4,097 + 4,097 − 1) and 24 + 6 × (8,193 + 8,193 − 1).
    let lengths_and_rounds = [
        (65_536, 1_048_576, 835_614),
        (65_536, 65_536, 65_568),
        (65_536, 65_536, 98_334),
        (65_536, 65_536, 65_568),
    ];
    for (n, (data, length, rounds)) in ALL.iter().zip(lengths_and_rounds) {
        let lengths = [n.key, n.key, data, length, n.key];
        let one = Came {
            n,
            parts: lengths.map(|length| vec![0; length]),
        };
        let two = one.with_all(|bytes| other(&mut random, bytes));
        let before = vec![0xa5; length + 3];
        assert_eq!(refused(&one, &before).one_number, 16 * rounds + 9);
        pairs += expect_alike(&[one, two], &before);
    }
    assert_eq!(pairs, 4);
}

/// Finishes a stream that compares tags.
fn finished(s: Stream, tag: &[u8]) -> Given {
    match s.direction {
        Sealing => panic!("a sealing stream compares no tags"),
        Checking => finish_checking(s, tag),
        Opening => finish_opening(s, tag),
    }
}

/// Gives the rounds of the stream's finish by the rules: 12, and those that close data that is there and open.
fn rounds_of_finish(n: &Numbers, s: &Stream) -> u64 {
    if s.phase == Phase::Data && s.ad_count > 0 {
        12 + n.middle as u64
    } else {
        12
    }
}

/// A stream before its finish, with the tag for it.
type Unfinished = (Stream, Vec<u8>);

/// Says that finishes of streams with one set, direction, phase and counts are all refused with 9 and give the same,
/// which is what the rules have them give, and returns how many pairs they make.
fn expect_ends_alike(n: &Numbers, streams: &[Unfinished]) -> usize {
    let all: Vec<Given> = streams.iter().map(|(s, tag)| finished(*s, tag)).collect();
    let shared = |s: &Stream| (s.set, s.direction, s.phase, s.ad_count, s.text_count);
    let mut pairs = 0;
    for (i, (one, of_one)) in streams.iter().zip(&all).enumerate() {
        assert_eq!(of_one.0, 9);
        assert_eq!(*of_one, (9, rounds_of_finish(n, &one.0), THE_END));
        for (other, of_other) in streams.iter().zip(&all).take(i) {
            assert_eq!(shared(&one.0), shared(&other.0));
            assert_eq!(one.1.len(), other.1.len());
            assert!(one != other);
            assert_eq!(of_one, of_other);
            pairs += 1;
        }
    }
    pairs
}

/// Gives the bytes in pieces of any lengths, the last one empty.
fn cut<'a>(random: &mut Random, bytes: &'a [u8]) -> Vec<&'a [u8]> {
    let (mut pieces, mut rest) = (Vec::new(), bytes);
    while !rest.is_empty() {
        let (piece, after) = rest.split_at(random.below(rest.len().min(20) + 1));
        pieces.push(piece);
        rest = after;
    }
    pieces.push(rest);
    pieces
}

/// Gives a limit that the count doesn't pass: the count itself, the largest, or any.
fn limit_from(random: &mut Random, kind: usize, count: u64) -> u64 {
    match kind {
        0 => count,
        1 => LARGEST,
        _ => count + random.below((LARGEST - count) as usize + 1) as u64,
    }
}

/// Runs what came through a stream in pieces of any lengths, up to its finish in the phase, and gives the stream,
/// what it handed out and the rounds of its calls.
fn taken(
    random: &mut Random,
    came: &Came,
    direction: Direction,
    phase: Phase,
) -> (Stream, Vec<u8>, u64) {
    let [key, nonce, data, cipher, _] = &came.parts;
    assert!(phase == Phase::Text || cipher.is_empty());
    let mut rounds = 0;
    let mut step = |given: Given| {
        assert_eq!(given.0, 0);
        rounds += given.1;
        given.2
    };
    let kind = random.below(KINDS);
    let limit = limit_from(random, kind, cipher.len() as u64);
    let mut s = step(start(direction, came.n.set, limit, key, nonce));
    for piece in cut(random, data) {
        s = step(ad(s, piece));
    }
    let mut out = Vec::new();
    if phase == Phase::Text {
        for piece in cut(random, cipher) {
            if direction == Checking {
                s = step(check(s, piece));
                continue;
            }
            let before = random.bytes(piece.len() + 2);
            let mut place = before.clone();
            s = step(open(s, piece, &mut place));
            assert_eq!(place[piece.len()..], before[piece.len()..]);
            out.extend(&place[..piece.len()]);
        }
    }
    assert_eq!(s.phase, phase);
    (s, out, rounds)
}

/// Says that streams of one kind that took the same lengths in the phase end alike when they are refused, and returns
/// how many pairs they make.
fn expect_streams_alike(
    random: &mut Random,
    n: &'static Numbers,
    direction: Direction,
    phase: Phase,
    lengths: [usize; 2],
) -> usize {
    let [data, length] = lengths;
    let (right, _) = sealed(random, n, data, length);
    let mut streams = Vec::new();
    for came in refusals(random, &right) {
        let (s, _, rounds) = taken(random, &came, direction, phase);
        let whole = rounds + rounds_of_finish(n, &s);
        assert_eq!(whole, rounds_of(n, data, length));
        streams.push((s, came.parts[TAG].clone()));
    }
    expect_ends_alike(n, &streams)
}

/// Says that refused streams end alike after any ciphertext, with whatever keys, contents, limits and pieces.
#[test]
fn streams_in_the_text_phase() {
    let mut random = Random::new(SEED + 5);
    let mut pairs = 0;
    for n in &ALL {
        for direction in [Checking, Opening] {
            for data in [0, 1, n.block - 1, n.block, n.block + 3] {
                for length in 0..=40 {
                    let lengths = [data, length];
                    pairs += expect_streams_alike(&mut random, n, direction, Phase::Text, lengths);
                }
            }
        }
    }
    // Of 5 × 41 pairs of lengths 160 have no 0, 44 have one and 1 has two.
    assert_eq!(pairs, 4 * 2 * (160 * 91 + 44 * 66 + 45));
}

/// Says that refused streams that got no text call end alike, with data and without.
#[test]
fn streams_in_the_data_phase() {
    let mut random = Random::new(SEED + 6);
    let mut pairs = 0;
    for n in &ALL {
        for direction in [Checking, Opening] {
            for data in 0..=40 {
                let lengths = [data, 0];
                pairs += expect_streams_alike(&mut random, n, direction, Phase::Data, lengths);
            }
        }
    }
    // There is never a ciphertext, and once no data.
    assert_eq!(pairs, 4 * 2 * (40 * 66 + 45));
}

/// Gives a sound open state of the counts that comes from no start: it is made up, in one of 27 ways.
fn made_up(
    random: &mut Random,
    n: &Numbers,
    direction: Direction,
    (phase, ad_count, text_count): (Phase, u64, u64),
    way: usize,
) -> Stream {
    let words = match way % 3 {
        0 => [0; 5],
        1 => [u64::MAX; 5],
        _ => [(); 5].map(|()| random.number()),
    };
    let mut key = [0; 16];
    key[..n.key].copy_from_slice(&held(random, way / 3 % 3, n.key));
    let limit = limit_from(random, way / 9, text_count);
    let present = match phase {
        Phase::Data => ad_count,
        _ => text_count,
    };
    Stream {
        words,
        set: n.set,
        direction,
        phase,
        key,
        ad_count,
        text_count,
        place: present % n.block as u64,
        limit,
    }
}

/// Gives the tag to which the finish of a sound open state says yes, by the walk.
fn tag_of(n: &Numbers, s: &Stream) -> Vec<u8> {
    let mut state = walk::bytes(s.words);
    let mut place = s.place as usize;
    if s.phase == Phase::Data {
        if s.ad_count > 0 {
            state[place] ^= 0x80;
            walk::run(&mut state, n.from, n.middle);
        }
        state[39] ^= 1;
        place = 0;
    }
    state[place] ^= 0x80;
    walk::tag(n, state, &s.key[..n.key])
}

/// Gives the phases and counts of made-up states: 7 in the data phase and 28 in the text phase.
fn counts(n: &Numbers) -> Vec<(Phase, u64, u64)> {
    let b = n.block as u64;
    let mut all = Vec::new();
    for data in [0, 1, b - 1, b, b + 1, 65_535, 65_536] {
        all.push((Phase::Data, data, 0));
    }
    for data in [0, 1, b, 65_536] {
        for text in [0, 1, b - 1, b, b + 1, 1_048_575, 1_048_576] {
            all.push((Phase::Text, data, text));
        }
    }
    all
}

/// Says that refused finishes of made-up states that break no rule are alike, with whatever words, keys and limits.
#[test]
fn states_that_no_start_gives() {
    let mut random = Random::new(SEED + 7);
    let (mut yes, mut pairs) = (0, 0);
    for n in &ALL {
        for direction in [Checking, Opening] {
            for at in counts(n) {
                let mut streams = Vec::new();
                for way in 0..27 {
                    let s = made_up(&mut random, n, direction, at, way);
                    assert!(!is_broken(&s));
                    let right = tag_of(n, &s);
                    let rounds = rounds_of_finish(n, &s);
                    assert_eq!(finished(s, &right), (0, rounds, THE_END));
                    yes += 1;
                    // Two of the same words, key and limit still get tags that are wrong in other bits.
                    let near = flipped(&right, way * (n.key * 8 - 1) / 26);
                    let inverted = near.iter().map(|byte| !byte).collect();
                    let any = other(&mut random, &right);
                    streams.extend([near, inverted, any].map(|tag| (s, tag)));
                }
                pairs += expect_ends_alike(n, &streams);
            }
        }
    }
    // Of 27 states with 3 tags each there are 81 × 80 / 2 pairs.
    assert_eq!((yes, pairs), (4 * 2 * 35 * 27, 4 * 2 * 35 * 3_240));
}

/// Gives four streams for what came: with no data, with data, and with data and no or some ciphertext.
fn several(random: &mut Random, right: &Came, direction: Direction) -> [Stream; 4] {
    let no_text = right.with(CIPHER, Vec::new());
    let nothing = no_text.with(DATA, Vec::new());
    [
        taken(random, &nothing, direction, Phase::Data).0,
        taken(random, &no_text, direction, Phase::Data).0,
        taken(random, &no_text, direction, Phase::Text).0,
        taken(random, right, direction, Phase::Text).0,
    ]
}

/// Says that a finish doesn't show which bit of a tag is wrong, nor how much of it is right.
#[test]
fn tags_at_a_finish() {
    let mut random = Random::new(SEED + 8);
    let mut pairs = 0;
    for n in &ALL {
        for direction in [Checking, Opening] {
            let (right, _) = sealed(&mut random, n, 5, 21);
            for s in several(&mut random, &right, direction) {
                let tag = tag_of(n, &s);
                let bits = (0..n.key * 8).map(|bit| (s, flipped(&tag, bit)));
                pairs += expect_ends_alike(n, &bits.collect::<Vec<Unfinished>>());
                let near = near_tags(&tag, 0xff).into_iter().map(|tag| (s, tag));
                pairs += expect_ends_alike(n, &near.collect::<Vec<Unfinished>>());
            }
        }
    }
    let of_bits = 3 * (128 * 127 / 2) + 96 * 95 / 2;
    let of_near = 3 * (241 * 120) + 133 * 66;
    assert_eq!(pairs, 2 * 4 * (of_bits + of_near));
}

/// Says that the 256 texts of one byte have 256 ciphertexts, that each ciphertext and tag come of one text alone and
/// open to it, and that a given tag opens one of the 256 ciphertexts alone.
#[test]
fn every_text_of_one_byte() {
    let mut random = Random::new(SEED + 9);
    let (mut opened, mut compared, mut yes, mut no) = (0, 0, 0, 0);
    for n in &ALL {
        for data in [0, 3, n.block, n.block + 1] {
            let (given, text_of_given) = sealed(&mut random, n, data, 1);
            let bytes = 0..=255;
            let all: Vec<Came> = bytes.map(|byte| sealed_again(&given, &[byte])).collect();
            let ciphers: BTreeSet<&Vec<u8>> = all.iter().map(|came| &came.parts[CIPHER]).collect();
            assert_eq!(ciphers.len(), 256);
            for (text, came) in all.iter().enumerate() {
                for (text_of_other, other) in all.iter().enumerate() {
                    assert_eq!(came.parts == other.parts, text == text_of_other);
                    compared += 1;
                }
                let before = random.bytes(3);
                let wanted = by_rules(came, 0, &[text as u8], &before);
                assert_eq!(shown(came, &before), wanted);
                opened += 1;
            }
            for cipher in 0..=255 {
                let came = given.with(CIPHER, vec![cipher]);
                let before = random.bytes(3);
                if came.parts == given.parts {
                    let wanted = by_rules(&came, 0, &text_of_given, &before);
                    assert_eq!(shown(&came, &before), wanted);
                    yes += 1;
                } else {
                    assert_eq!(shown(&came, &before), refused(&came, &before));
                    no += 1;
                }
            }
        }
    }
    assert_eq!((opened, compared), (4 * 4 * 256, 4 * 4 * 256 * 256));
    assert_eq!((yes, no), (4 * 4, 4 * 4 * 255));
}

/// Says that the 256 values of a byte anywhere in a longer text give 256 ciphertexts: what the byte is combined with
/// doesn't hang on it, and the bytes before stay.
#[test]
fn one_byte_anywhere() {
    let mut random = Random::new(SEED + 10);
    let mut ran = 0;
    for n in &ALL {
        let length = n.block + 2;
        let (right, text) = sealed(&mut random, n, 5, length);
        let cipher = &right.parts[CIPHER];
        for place in 0..length {
            for value in 0..=255 {
                let mut changed = text.clone();
                changed[place] = value;
                let again = &sealed_again(&right, &changed).parts[CIPHER];
                assert_eq!(again[..place], cipher[..place]);
                assert_eq!(again[place] ^ value, cipher[place] ^ text[place]);
                ran += 1;
            }
        }
    }
    assert_eq!(ran, 2 * (10 + 18) * 256);
}

/// Gives so many different texts of the length: some of any bytes, others a bit or two away from the first.
fn different_texts(random: &mut Random, length: usize, count: usize) -> Vec<Vec<u8>> {
    let first = random.bytes(length);
    let mut all = BTreeSet::from([first.clone()]);
    while all.len() < count {
        let near = flipped(&first, random.below(length * 8));
        all.insert(match random.below(3) {
            0 => random.bytes(length),
            1 => near,
            _ => flipped(&near, random.below(length * 8)),
        });
    }
    all.into_iter().collect()
}

/// Says that no two of many texts have one ciphertext, in a million pairs in each set, and that each text comes back.
#[test]
fn a_million_pairs_of_texts() {
    let mut random = Random::new(SEED + 11);
    let (mut opened, mut pairs) = (0, 0);
    for n in &ALL {
        let length = n.block + 3;
        let (under, _) = sealed(&mut random, n, 5, length);
        let texts = different_texts(&mut random, length, 1_415);
        let all: Vec<Came> = texts
            .iter()
            .map(|text| sealed_again(&under, text))
            .collect();
        for (i, (text, came)) in texts.iter().zip(&all).enumerate() {
            for (text_of_other, other) in texts.iter().zip(&all).take(i) {
                assert!(text != text_of_other);
                assert!(came.parts[CIPHER] != other.parts[CIPHER]);
                pairs += 1;
            }
        }
        for (text, came) in texts.iter().zip(&all) {
            let before = random.bytes(length + 1);
            let wanted = by_rules(came, 0, text, &before);
            assert_eq!(shown(came, &before), wanted);
            opened += 1;
        }
    }
    assert_eq!((opened, pairs), (4 * 1_415, 4 * 1_000_405));
}

/// Gives the plaintext of the ciphertext that came and the tag that is right for it, by the walk.
fn walked(came: &Came) -> (Vec<u8>, Vec<u8>) {
    let n = came.n;
    let [key, nonce, data, cipher, _] = &came.parts;
    let mut state = walk::started(n, key, nonce);
    for (i, byte) in data.iter().enumerate() {
        state[i % n.block] ^= byte;
        if (i + 1) % n.block == 0 {
            walk::run(&mut state, n.from, n.middle);
        }
    }
    if !data.is_empty() {
        state[data.len() % n.block] ^= 0x80;
        walk::run(&mut state, n.from, n.middle);
    }
    state[39] ^= 1;
    let mut text = Vec::new();
    for (i, byte) in cipher.iter().enumerate() {
        text.push(state[i % n.block] ^ byte);
        state[i % n.block] = *byte;
        if (i + 1) % n.block == 0 {
            walk::run(&mut state, n.from, n.middle);
        }
    }
    state[cipher.len() % n.block] ^= 0x80;
    (text, walk::tag(n, state, key))
}

/// Says that any ciphertext, with the tag that is right for it, opens to the one text that is sealed to both, and
/// that other texts are sealed to another ciphertext.
#[test]
fn any_ciphertext_has_one_text() {
    let mut random = Random::new(SEED + 12);
    let (mut opened, mut others) = (0, 0);
    for n in &ALL {
        for _ in 0..500 {
            let lengths = [random.below(41), 1 + random.below(40)];
            let [data, length] = lengths;
            let parts = [n.key, n.key, data, length, 0].map(|length| random.bytes(length));
            let came = Came { n, parts };
            let (text, tag) = walked(&came);
            let came = came.with(TAG, tag);
            let before = random.bytes(length + 2);
            assert_eq!(shown(&came, &before), by_rules(&came, 0, &text, &before));
            assert!(sealed_again(&came, &text).parts == came.parts);
            opened += 1;
            let near = flipped(&text, random.below(length * 8));
            for another in [near, other(&mut random, &text)] {
                let again = sealed_again(&came, &another);
                assert_ne!(again.parts[CIPHER], came.parts[CIPHER]);
                assert_ne!(again.parts[TAG], came.parts[TAG]);
                others += 1;
            }
        }
    }
    assert_eq!((opened, others), (4 * 500, 4 * 500 * 2));
}

/// Says that one ciphertext and tag open to the same text in any place, whatever its room and the bytes that it held.
#[test]
fn into_different_places() {
    let mut random = Random::new(SEED + 13);
    let mut ran = 0;
    for n in &ALL {
        for length in 0..=40 {
            let (right, text) = sealed(&mut random, n, length % 5, length);
            for spare in [0, 1, n.block, 40] {
                for before in places(&mut random, &right, &text, spare) {
                    let wanted = by_rules(&right, 0, &text, &before);
                    assert_eq!(shown(&right, &before), wanted);
                    ran += 1;
                }
            }
        }
    }
    assert_eq!(ran, 4 * 41 * 4 * 5);
}

/// Says that opening streams hand out the same text in any pieces, places and limits, and that each finish says yes.
#[test]
fn in_different_pieces() {
    let mut random = Random::new(SEED + 14);
    let mut ran = 0;
    for n in &ALL {
        for length in 0..=40 {
            let data = length % 5;
            let (right, text) = sealed(&mut random, n, data, length);
            for _ in 0..5 {
                let (s, out, rounds) = taken(&mut random, &right, Opening, Phase::Text);
                assert_eq!(out, text);
                assert_eq!(rounds + 12, rounds_of(n, data, length));
                assert_eq!(finished(s, &right.parts[TAG]), (0, 12, THE_END));
                ran += 1;
            }
        }
    }
    assert_eq!(ran, 4 * 41 * 5);
}

/// Gives wrong tags: each byte alone other in each way, two bytes wrong in the same bit, and the bytes turned.
///
/// With 16 bytes these are 16 × 255 and 120 × 8 and 15, with 12 bytes 12 × 255 and 66 × 8 and 11.
fn wrong_tags(tag: &[u8]) -> Vec<Vec<u8>> {
    let mut all = Vec::new();
    for place in 0..tag.len() {
        for bits in 1..=255 {
            let mut wrong = tag.to_vec();
            wrong[place] ^= bits;
            all.push(wrong);
        }
        for second in 0..place {
            for bit in 0..8 {
                all.push(flipped(&flipped(tag, place * 8 + bit), second * 8 + bit));
            }
        }
    }
    for turn in 1..tag.len() {
        all.push([&tag[turn..], &tag[..turn]].concat());
    }
    all
}

/// How many wrong tags are tried in all sets.
const WRONG_TAGS: usize = 3 * (4_080 + 960 + 15) + 3_060 + 528 + 11;

/// Says that one ciphertext opens under one tag alone: each bit, each byte, each pair of bytes counts.
#[test]
fn one_tag_alone() {
    let mut random = Random::new(SEED + 15);
    let (mut yes, mut no) = (0, 0);
    for n in &ALL {
        for (data, length) in [(0, 0), (1, n.block)] {
            let (right, text) = sealed(&mut random, n, data, length);
            let before = random.bytes(length + 1);
            let wanted = by_rules(&right, 0, &text, &before);
            assert_eq!(shown(&right, &before), wanted);
            yes += 1;
            for wrong in wrong_tags(&right.parts[TAG]) {
                let came = right.with(TAG, wrong);
                assert_eq!(shown(&came, &before), refused(&came, &before));
                no += 1;
            }
        }
    }
    assert_eq!((yes, no), (4 * 2, 2 * WRONG_TAGS));
}

/// Says that a finish says yes to one tag alone.
#[test]
fn one_tag_alone_at_a_finish() {
    let mut random = Random::new(SEED + 16);
    let (mut yes, mut no) = (0, 0);
    for n in &ALL {
        for direction in [Checking, Opening] {
            let (right, _) = sealed(&mut random, n, 5, 21);
            let (s, _, _) = taken(&mut random, &right, direction, Phase::Text);
            let tag = &right.parts[TAG];
            assert_eq!(finished(s, tag), (0, 12, THE_END));
            yes += 1;
            for wrong in wrong_tags(tag) {
                assert_eq!(finished(s, &wrong), (9, 12, THE_END));
                no += 1;
            }
        }
    }
    assert_eq!((yes, no), (4 * 2, 2 * WRONG_TAGS));
}

/// Says that yes and no do differ: in the answer always, in the output unless the text itself is zeros, and never in
/// the rounds.
#[test]
fn yes_and_no_are_told_apart() {
    let mut random = Random::new(SEED + 17);
    let (mut other_output, mut same_output) = (0, 0);
    for n in &ALL {
        for data in [0, n.block] {
            for length in 0..=40 {
                let (under, _) = sealed(&mut random, n, data, length);
                let any: Vec<u8> = random.bytes(length).iter().map(|byte| byte | 1).collect();
                for text in [any, vec![0; length]] {
                    let right = sealed_again(&under, &text);
                    let wrong = right.with_bit(TAG, random.below(n.key * 8));
                    let before = random.bytes(length + 2);
                    let [yes, no] = [&right, &wrong].map(|came| shown(came, &before));
                    assert_eq!((yes.answer, no.answer), (0, 9));
                    assert_ne!(yes, no);
                    assert_eq!(yes.rounds, no.rounds);
                    assert_eq!(yes.one_number + 9, no.one_number);
                    if yes.out == no.out {
                        same_output += 1;
                    } else {
                        other_output += 1;
                    }
                }
            }
        }
    }
    // The outputs are the same for zeros of 41 lengths, and for the other text when it is empty.
    assert_eq!((other_output, same_output), (4 * 2 * 40, 4 * 2 * (41 + 1)));
}

/// Gives a refused opening of any contents with the given lengths.
fn any_refusal(random: &mut Random, n: &'static Numbers, data: usize, length: usize) -> Came {
    let lengths = [n.key, n.key, data, length, n.key];
    Came {
        n,
        parts: lengths.map(|length| random.bytes(length)),
    }
}

/// Gives how many pairs the openings, all to be refused, make, and how many of these differ in rounds and in output.
fn told_apart(openings: &[Came], before: &[u8]) -> [usize; 3] {
    let all: Vec<Shown> = openings.iter().map(|came| shown(came, before)).collect();
    let mut counts = [0; 3];
    for (i, one) in all.iter().enumerate() {
        assert_eq!(one.answer, 9);
        for other in &all[..i] {
            let differ = [one.rounds != other.rounds, one.out != other.out];
            assert_eq!(one != other, differ != [false; 2]);
            counts[0] += 1;
            counts[1] += usize::from(differ[0]);
            counts[2] += usize::from(differ[1]);
        }
    }
    counts
}

/// Says that refused openings of different lengths do differ: any two ciphertexts in the output, and ciphertexts or
/// data in the rounds when their padded blocks aren't as many.
#[test]
fn lengths_are_told_apart() {
    let mut random = Random::new(SEED + 18);
    let (mut by_cipher, mut by_data) = (Vec::new(), Vec::new());
    for n in &ALL {
        let any: [Vec<Came>; 2] = [
            (0..=40)
                .map(|length| any_refusal(&mut random, n, 3, length))
                .collect(),
            (0..=40)
                .map(|data| any_refusal(&mut random, n, data, 3))
                .collect(),
        ];
        let before = [0xa5; 41];
        by_cipher.push(told_apart(&any[0], &before));
        by_data.push(told_apart(&any[1], &before));
    }
    // Of the 820 pairs of lengths those stay together that are in one block, and of data 0 is alone: 5 × 28 and
    // 21 + 4 × 28 pairs with blocks of 8 bytes, 2 × 120 + 36 and 105 + 120 + 36 with blocks of 16.
    let wanted = [140, 276, 140, 276].map(|together| [820, 820 - together, 820]);
    assert_eq!(by_cipher, wanted);
    let wanted = [133, 261, 133, 261].map(|together| [820, 820 - together, 0]);
    assert_eq!(by_data, wanted);
}

/// Says that refused openings into places that held other bytes do differ, but only beyond the ciphertext.
#[test]
fn bytes_before_are_told_apart() {
    let mut random = Random::new(SEED + 19);
    let (mut differ, mut agree) = (0, 0);
    for n in &ALL {
        for length in 0..=40 {
            for spare in [0, 1, 9] {
                let came = any_refusal(&mut random, n, 3, length);
                let before = random.bytes(length + spare);
                let inverted: Vec<u8> = before.iter().map(|byte| !byte).collect();
                let [one, two] = [&before, &inverted].map(|before| shown(&came, before));
                assert_eq!((one.answer, two.answer), (9, 9));
                assert_eq!(one.out[..length], two.out[..length]);
                for (one, two) in one.out[length..].iter().zip(&two.out[length..]) {
                    assert_eq!(*one, !two);
                }
                if one == two {
                    agree += 1;
                } else {
                    differ += 1;
                }
            }
        }
    }
    assert_eq!((differ, agree), (4 * 41 * 2, 4 * 41));
}

/// Says that refused openings of the same lengths in different sets differ in their rounds, but not in sets 1 and 3,
/// nor with neither data nor ciphertext.
#[test]
fn sets_are_told_apart() {
    let mut random = Random::new(SEED + 20);
    let mut ran = 0;
    // The lengths of data and ciphertext, and the rounds of sets 1, 3 and 4 by the formula.
    let cases = [
        (0, 0, [24, 24, 24]),
        (7, 7, [30, 30, 32]),
        (8, 0, [36, 36, 32]),
        (1, 8, [36, 36, 32]),
        (16, 15, [48, 48, 40]),
        (40, 40, [90, 90, 64]),
    ];
    for (data, length, wanted) in cases {
        let all = [&ALL[0], &ALL[2], &ALL[3]].map(|n| any_refusal(&mut random, n, data, length));
        let before = random.bytes(length);
        let rounds = all.each_ref().map(|came| {
            let no = shown(came, &before);
            assert_eq!((no.answer, no.out), (9, vec![0; length]));
            ran += 1;
            no.rounds
        });
        assert_eq!(rounds, wanted);
    }
    assert_eq!(ran, 6 * 3);
}

/// Says that finishes do differ: yes from no in the answer, and two that are refused by open data.
#[test]
fn finishes_are_told_apart() {
    let mut random = Random::new(SEED + 21);
    let mut ran = 0;
    for (n, closing) in ALL.iter().zip([6, 8, 6, 8]) {
        for direction in [Checking, Opening] {
            let (right, _) = sealed(&mut random, n, 5, 21);
            let rounds = several(&mut random, &right, direction).map(|s| {
                let tag = tag_of(n, &s);
                let wrong = flipped(&tag, random.below(n.key * 8));
                let [yes, no] = [&tag, &wrong].map(|tag| finished(s, tag));
                assert_eq!((yes.0, no.0), (0, 9));
                assert_eq!((yes.1, yes.2), (no.1, no.2));
                ran += 1;
                no.1
            });
            assert_eq!(rounds, [12, 12 + closing, 12, 12]);
        }
    }
    assert_eq!(ran, 4 * 2 * 4);
}

/// Says that opening streams do tell two ciphertexts apart before their finishes refuse both: by the changed bit in
/// the block where it stands, and by every block behind; opening both whole doesn't.
#[test]
fn pieces_are_told_apart() {
    let mut random = Random::new(SEED + 22);
    let (mut streams, mut pairs) = (0, 0);
    for n in &ALL {
        let (b, length) = (n.block, 2 * n.block + 3);
        let (right, text) = sealed(&mut random, n, 5, length);
        let wrong = right.with_bit(TAG, random.below(n.key * 8));
        let before = random.bytes(length);
        for bit in 0..length * 8 {
            let changed = wrong.with_bit(CIPHER, bit);
            let [one, two] =
                [&wrong, &changed].map(|came| taken(&mut random, came, Opening, Phase::Text));
            let end = length.min((bit / 8 / b + 1) * b);
            assert_eq!(one.1, text);
            assert_eq!(two.1[..end], flipped(&text, bit)[..end]);
            for (ours, right) in two.1[end..].chunks(b).zip(text[end..].chunks(b)) {
                assert_ne!(ours, right);
            }
            assert_ne!(one.1, two.1);
            let ends = [one.0, two.0].map(|s| (s, wrong.parts[TAG].clone()));
            streams += expect_ends_alike(n, &ends);
            pairs += expect_alike(&[wrong.clone(), changed], &before);
        }
    }
    let bits = 2 * (19 + 35) * 8;
    assert_eq!((streams, pairs), (bits, bits));
}
