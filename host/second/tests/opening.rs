//! Request W1: opening streams, beside sealing and checking streams, whole messages and the walk.

mod common;
mod streaming;
mod walk;

use common::{flipped, message, Message};
use second::calls::{self, Answer};
use second::cipher::{seal_published, set_numbers, set_of, Set, SETS};
use second::formula::rounds_by_formula;
use second::hex;
use second::permutation::Words;
use second::random::Random;
use second::stream::{
    ad, check, finish_checking, finish_opening, finish_sealing, is_broken, open, seal, start,
    Direction, Given, Phase, Stream, ENDED,
};
use second::vectors;
use streaming::*;
use walk::{Numbers, ALL};
use Direction::{Checking, Opening, Sealing};

const SEED: u64 = 20_260_101;

/// What came to be opened, right or not.
#[derive(Clone)]
struct Came {
    set: &'static Set,
    key: Vec<u8>,
    nonce: Vec<u8>,
    ad: Vec<u8>,
    cipher: Vec<u8>,
    tag: Vec<u8>,
}

/// How many parts of what came may be changed.
const PARTS: usize = 5;

impl Came {
    /// Gives one of the parts: key, nonce, data, ciphertext or tag.
    fn part(&mut self, index: usize) -> &mut Vec<u8> {
        match index {
            0 => &mut self.key,
            1 => &mut self.nonce,
            2 => &mut self.ad,
            3 => &mut self.cipher,
            _ => &mut self.tag,
        }
    }

    /// Changes one bit of one of the parts.
    fn tamper(&mut self, index: usize, bit: usize) {
        let part = self.part(index);
        *part = flipped(part, bit);
    }
}

/// Gives what comes when nobody has changed the message.
fn untouched(m: &Message) -> Came {
    Came {
        set: m.set,
        key: m.key.clone(),
        nonce: m.nonce.clone(),
        ad: m.ad.clone(),
        cipher: m.cipher.clone(),
        tag: m.tag.clone(),
    }
}

/// What the walk makes of that which came.
struct Walked {
    /// The words after each beginning of the data.
    data: Vec<Words>,
    /// The words after all data and each beginning of the ciphertext.
    text: Vec<Words>,
    /// The plaintext, whatever the tag.
    plain: Vec<u8>,
    /// The tag that would be right.
    tag: Vec<u8>,
    /// The rounds run for all of it.
    rounds: u64,
}

/// Gives the numbers of the set as the walk has them.
fn numbers(set: &Set) -> &'static Numbers {
    let found = ALL.iter().find(|n| n.set == set.number);
    found.expect("a known set")
}

/// Opens what came byte by byte, on the 40 bytes of the walk and by the words of paper 01.
fn walked(came: &Came) -> Walked {
    let n = numbers(came.set);
    let mut rounds = 24;
    let mut state = walk::started(n, &came.key, &came.nonce);
    let mut data = vec![walk::words(&state)];
    for (i, byte) in came.ad.iter().enumerate() {
        walk::combine(&mut state, i % n.block, &[*byte]);
        if (i + 1) % n.block == 0 {
            walk::run(&mut state, n.from, n.middle);
            rounds += n.middle;
        }
        data.push(walk::words(&state));
    }
    if !came.ad.is_empty() {
        state[came.ad.len() % n.block] ^= 0x80;
        walk::run(&mut state, n.from, n.middle);
        rounds += n.middle;
    }
    state[39] ^= 1;
    let mut text = vec![walk::words(&state)];
    let mut plain = Vec::new();
    for (i, byte) in came.cipher.iter().enumerate() {
        plain.push(state[i % n.block] ^ byte);
        state[i % n.block] = *byte;
        if (i + 1) % n.block == 0 {
            walk::run(&mut state, n.from, n.middle);
            rounds += n.middle;
        }
        text.push(walk::words(&state));
    }
    state[came.cipher.len() % n.block] ^= 0x80;
    let tag = walk::tag(n, state, &came.key);
    Walked {
        data,
        text,
        plain,
        tag,
        rounds: rounds as u64,
    }
}

/// Gives a pseudo-random message and what the walk makes of it, having compared the two.
fn both(random: &mut Random, number: u64, data: usize, text: usize) -> (Message, Walked) {
    let m = message(random, number, data, text);
    let w = walked(&untouched(&m));
    assert_eq!((&w.plain, &w.tag), (&m.text, &m.tag));
    assert_eq!(w.rounds, m.rounds);
    let sealed = walk::sealed(numbers(m.set), &m.key, &m.nonce, &m.ad, &m.text);
    assert_eq!(sealed, (m.cipher.clone(), m.tag.clone(), m.rounds));
    (m, w)
}

/// Gives the whole state of a stream of the message, with so many bytes of the phase taken, by the walk.
fn state_at(m: &Message, w: &Walked, direction: Direction, phase: Phase, count: usize) -> Stream {
    let (words, counts) = match phase {
        Phase::Data => (w.data[count], [count, 0]),
        _ => (w.text[count], [m.ad.len(), count]),
    };
    Stream {
        words,
        set: m.set.number,
        direction,
        phase,
        key: kept(&m.key),
        ad_count: counts[0] as u64,
        text_count: counts[1] as u64,
        place: (count % m.set.block) as u64,
        limit: LARGEST,
    }
}

/// Says that three streams of the message are at the same point, the one of the walk.
fn expect_at(m: &Message, w: &Walked, streams: [Stream; 3], phase: Phase, count: usize) {
    let wanted = DIRECTIONS.map(|direction| state_at(m, w, direction, phase, count));
    assert_eq!(streams, wanted);
    let [sealing, checking, opening] = streams;
    let but_for = |direction| Stream {
        direction,
        ..opening
    };
    assert_eq!([sealing, checking], [but_for(Sealing), but_for(Checking)]);
    assert!(!is_broken(&opening));
}

/// Gives the ways in which so many bytes are cut, as lengths of pieces: in two at every place, in one,
/// into single bytes, and into single bytes with an empty piece before and after each.
fn cuttings(length: usize) -> Vec<Vec<usize>> {
    let mut all: Vec<Vec<usize>> = (0..=length).map(|at| vec![at, length - at]).collect();
    all.push(vec![length]);
    all.push(vec![1; length]);
    all.push((0..2 * length + 1).map(|i| i % 2).collect());
    all
}

/// How many such ways there are.
fn ways(length: usize) -> usize {
    length + 4
}

/// Runs a message, cut as given, through a stream of each direction, side by side.
fn run_side_by_side(m: &Message, w: &Walked, data: &[usize], pieces: &[usize]) {
    let mut streams = DIRECTIONS.map(|direction| fresh(m, direction, LARGEST));
    expect_at(m, w, streams, Phase::Data, 0);
    let (mut sum, mut count) = (12, 0);
    for length in data {
        let after = count + length;
        let rounds = filling(m, count, after);
        streams = streams.map(|s| done(ad(s, &m.ad[count..after]), rounds));
        (sum, count) = (sum + rounds, after);
        expect_at(m, w, streams, Phase::Data, count);
    }
    assert_eq!(count, m.ad.len());

    let (mut sealed, mut opened) = (Vec::new(), Vec::new());
    let (mut unclosed, mut count) = (closing(m), 0);
    for length in pieces {
        let after = count + length;
        let rounds = unclosed + filling(m, count, after);
        let (text, cipher) = (&m.text[count..after], &m.cipher[count..after]);
        let mut outs = [vec![0xa5; length + 2], vec![0x5a; length + 2]];
        let [s, c, o] = streams;
        let given = [
            seal(s, text, &mut outs[0]),
            check(c, cipher),
            open(o, cipher, &mut outs[1]),
        ];
        streams = given.map(|given| done(given, rounds));
        assert_eq!(
            (&outs[0][*length..], &outs[1][*length..]),
            (&[0xa5; 2][..], &[0x5a; 2][..])
        );
        sealed.extend(&outs[0][..*length]);
        opened.extend(&outs[1][..*length]);
        (sum, count, unclosed) = (sum + rounds, after, 0);
        expect_at(m, w, streams, Phase::Text, count);
    }
    assert_eq!((&sealed, &opened), (&m.cipher, &m.text));

    let [s, c, o] = streams;
    let mut tag = vec![0; m.set.key];
    let ends = [
        finish_sealing(s, &mut tag),
        finish_checking(c, &m.tag),
        finish_opening(o, &m.tag),
    ];
    assert_eq!(ends, [(0, 12 + unclosed, ENDED); 3]);
    assert_eq!(tag, m.tag);
    let whole = rounds_by_formula(m.set, m.ad.len(), m.text.len());
    assert_eq!(sum + 12 + unclosed, whole);
}

/// Says that three directions agree on a message cut in any way, and with the walk at every point.
#[test]
fn three_directions_side_by_side() {
    let mut random = Random::new(SEED);
    let mut ran = 0;
    for number in set_numbers() {
        let b = set_of(number).expect("a known set").block;
        let lengths = [
            (2 * b + 3, 2 * b + 5),
            (b, 2 * b),
            (0, b + 1),
            (3, 0),
            (0, 0),
        ];
        for (data, text) in lengths {
            let (m, w) = both(&mut random, number, data, text);
            for of_data in cuttings(data) {
                for of_text in cuttings(text) {
                    run_side_by_side(&m, &w, &of_data, &of_text);
                    ran += 1;
                }
            }
        }
    }
    let of_block = |b| {
        ways(2 * b + 3) * ways(2 * b + 5) + ways(b) * ways(2 * b) + 4 * ways(b + 1) + 7 * 4 + 4 * 4
    };
    assert_eq!(ran, 2 * (of_block(8) + of_block(16)));
    assert_eq!(ran, 2 * (911 + 2_447));
}

/// Starts a stream for what came, takes it in pieces of at most so many bytes, and gives the state before
/// the finish, what went out, and the rounds of all calls.
fn streamed(came: &Came, direction: Direction, most: usize) -> (Stream, Vec<u8>, u64) {
    let given = start(direction, came.set.number, LARGEST, &came.key, &came.nonce);
    let (mut sum, mut s) = (12, done(given, 12));
    let mut step = |given: Given| {
        assert_eq!(given.0, 0);
        sum += given.1;
        given.2
    };
    for piece in came.ad.chunks(most) {
        s = step(ad(s, piece));
    }
    let mut out = Vec::new();
    for piece in came.cipher.chunks(most) {
        let (given, part) = text_call(s, piece);
        s = step(given);
        out.extend(part);
    }
    (s, out, sum)
}

/// The sizes of pieces in which most messages below are taken; the last is more than all of them.
const SIZES: [usize; 3] = [1, 5, 1_000];

/// Says that an opening stream gives the text for what came and says yes, in pieces of any size.
fn expect_opened(came: &Came, text: &[u8]) {
    let rounds = rounds_by_formula(came.set, came.ad.len(), came.cipher.len());
    for size in SIZES {
        let (s, out, sum) = streamed(came, Opening, size);
        assert_eq!(out, text);
        expect_end(s, &came.tag, rounds - sum);
        expect_no(s, &flipped(&came.tag, size % 96), rounds - sum);
    }
}

/// Messages known before: the set, then key, nonce, data, text, ciphertext and tag.
///
/// Those of sets 3 and 4 are entries of the test files published with the later edition. None are published
/// for sets 1 and 2; theirs are the records that the tests of the editions have letter for letter.
const KNOWN: [(u64, [&str; 6]); 9] = [
    (
        1,
        [
            "000102030405060708090a0b0c0d0e0f",
            "101112131415161718191a1b1c1d1e1f",
            "202122232425262728292a",
            "303132333435363738393a3b3c3d3e3f40",
            "8242bc00406bc969bc4356efd7f874bb23",
            "06db8586a2d997013b9db9ecde29f104",
        ],
    ),
    (
        2,
        [
            "000102030405060708090a0b",
            "101112131415161718191a1b",
            "202122232425262728292a",
            "303132333435363738393a3b3c3d3e3f40",
            "303bd9c26a8fd035a982b2790e8d61ad97",
            "787de034efcfc53e3eef6b6f",
        ],
    ),
    (
        1,
        [
            "000102030405060708090a0b0c0d0e0f",
            "101112131415161718191a1b1c1d1e1f",
            "",
            "",
            "",
            "ba5829946dbea184619a2f9aa4f28e14",
        ],
    ),
    (
        2,
        [
            "000102030405060708090a0b",
            "101112131415161718191a1b",
            "",
            "",
            "",
            "0e87aae4e9bb6249b525b394",
        ],
    ),
    (
        3,
        [TO_15, TO_15, "", "", "", "e355159f292911f794cb1432a0103a8a"],
    ),
    (
        3,
        [
            TO_15,
            TO_15,
            "00",
            "",
            "",
            "944df887cd4901614c5dedbc42fc0da0",
        ],
    ),
    (
        3,
        [
            TO_15,
            TO_15,
            "",
            "00",
            "bc",
            "18c3f4e39eca7222490d967c79bffc92",
        ],
    ),
    (
        3,
        [
            TO_15,
            TO_15,
            "",
            TO_15,
            "bc820dbdf7a4631c5b29884ad69175c3",
            "f58e28436dd71556d58dfa56ac890beb",
        ],
    ),
    (
        4,
        [TO_15, TO_15, "", "", "", "7a834e6f09210957067b10fd831f0078"],
    ),
];

/// The key and the nonce of the published entries.
const TO_15: &str = "000102030405060708090a0b0c0d0e0f";

/// Says that opening streams give the texts of known messages, and that the walk does.
#[test]
fn known_messages() {
    let mut ran = 0;
    for (number, parts) in KNOWN {
        let [key, nonce, ad, text, cipher, tag] =
            parts.map(|part| hex::read(part.as_bytes()).expect("hex"));
        let set = set_of(number).expect("a known set");
        let came = Came {
            set,
            key,
            nonce,
            ad,
            cipher,
            tag,
        };
        let w = walked(&came);
        assert_eq!((&w.plain, &w.tag), (&text, &came.tag));
        expect_opened(&came, &text);
        ran += 1;
    }
    assert_eq!(ran, 4 + 4 + 1);
}

/// Says that opening streams give the texts of right records of all sets.
#[test]
fn records_opened() {
    let mut random = Random::new(SEED + 1);
    let mut ran = [0; 4];
    for index in 0..400 {
        let record = vectors::record(&mut random, index);
        let came = Came {
            set: set_of(record.set).expect("a known set"),
            key: record.key.held().to_vec(),
            nonce: record.nonce.held().to_vec(),
            ad: record.ad.held().to_vec(),
            cipher: record.cipher.held().to_vec(),
            tag: record.tag.held().to_vec(),
        };
        expect_opened(&came, record.text.held());
        ran[record.set as usize - 1] += 1;
    }
    assert_eq!(ran, [100; 4]);
}

/// Says that an opening stream for what came is answered 9, as a checking one is, and gives what it handed out.
///
/// That is the plaintext of what came: sealed again, it gives the ciphertext that came, and the tag
/// with which the finish would have said yes, after as many rounds.
fn expect_refused(came: &Came) -> Vec<u8> {
    let w = walked(came);
    assert_ne!(w.tag, came.tag);
    let (set, ad) = (came.set, &came.ad);
    let again = seal_published(set, &came.key, &came.nonce, ad, &w.plain);
    assert_eq!((&again.cipher, &again.tag), (&came.cipher, &w.tag));
    let rounds = rounds_by_formula(set, ad.len(), came.cipher.len());
    assert_eq!((w.rounds, again.rounds), (rounds, rounds));
    for size in SIZES {
        let (o, out, before) = streamed(came, Opening, size);
        assert_eq!(out, w.plain);
        let words = if came.cipher.is_empty() {
            &w.data
        } else {
            &w.text
        };
        assert_eq!(Some(&o.words), words.last());
        let (c, _, also_before) = streamed(came, Checking, size);
        let direction = Opening;
        assert_eq!((Stream { direction, ..c }, also_before), (o, before));
        let no = finish_opening(o, &came.tag);
        assert_eq!(no, (9, rounds - before, ENDED));
        assert_eq!(finish_checking(c, &came.tag), no);
        let yes = finish_opening(o, &w.tag);
        assert_eq!(yes, (0, rounds - before, ENDED));
        assert_eq!(finish_checking(c, &w.tag), yes);
        for call in CALLS {
            expect_refusal(7, call, no.2, &[1], 1, &came.tag);
        }
    }
    w.plain
}

/// Says that any bit wrong in the ciphertext is 9, and what was handed out: the same bit wrong in the
/// block where it stands, and other bytes in all blocks behind it.
#[test]
fn a_wrong_bit_in_the_ciphertext() {
    let mut random = Random::new(SEED + 2);
    let mut ran = 0;
    for number in set_numbers() {
        let b = set_of(number).expect("a known set").block;
        let length = 2 * b + 3;
        let (m, _) = both(&mut random, number, 5, length);
        for bit in 0..length * 8 {
            let mut came = untouched(&m);
            came.cipher = flipped(&m.cipher, bit);
            let out = expect_refused(&came);
            let end = length.min((bit / 8 / b + 1) * b);
            assert_eq!(out[..end], flipped(&m.text, bit)[..end]);
            for (ours, right) in out[end..].chunks(b).zip(m.text[end..].chunks(b)) {
                assert_ne!(ours, right);
            }
            ran += 1;
        }
    }
    assert_eq!(ran, 2 * (19 + 35) * 8);
}

/// Says that any bit wrong in the tag is 9; what was handed out is the plaintext all the same.
#[test]
fn a_wrong_bit_in_the_tag() {
    let mut random = Random::new(SEED + 3);
    let mut ran = 0;
    for number in set_numbers() {
        for length in [0, 21] {
            let (m, _) = both(&mut random, number, 5, length);
            for bit in 0..m.set.key * 8 {
                let mut came = untouched(&m);
                came.tag = flipped(&m.tag, bit);
                assert_eq!(expect_refused(&came), m.text);
                ran += 1;
            }
        }
    }
    assert_eq!(ran, 2 * (128 + 96 + 128 + 128));
}

/// Says that any bit wrong in the key, the nonce or the data is 9; other bytes were handed out in every block.
#[test]
fn a_wrong_bit_before_the_ciphertext() {
    let mut random = Random::new(SEED + 4);
    let mut ran = [0; 3];
    for number in set_numbers() {
        let b = set_of(number).expect("a known set").block;
        let (m, _) = both(&mut random, number, b + 3, 2 * b + 3);
        for (index, count) in ran.iter_mut().enumerate() {
            let length = untouched(&m).part(index).len();
            for bit in 0..length * 8 {
                let mut came = untouched(&m);
                came.tamper(index, bit);
                let out = expect_refused(&came);
                for (ours, right) in out.chunks(b).zip(m.text.chunks(b)) {
                    assert_ne!(ours, right);
                }
                *count += 1;
            }
        }
    }
    let keys = 128 + 96 + 128 + 128;
    assert_eq!(ran, [keys, keys, 2 * (11 + 19) * 8]);
}

/// Says that bytes lost, added or moved are 9, with the rounds of the lengths that came.
#[test]
fn bytes_lost_or_added() {
    let mut random = Random::new(SEED + 5);
    let mut ran = 0;
    for number in set_numbers() {
        let b = set_of(number).expect("a known set").block;
        for (data, text) in [(b, b), (b + 1, 2 * b + 1), (1, 1)] {
            let (m, _) = both(&mut random, number, data, text);
            let right = untouched(&m);
            let changed: [fn(&mut Came); 6] = [
                |came| came.ad.truncate(came.ad.len() - 1),
                |came| came.ad.push(0),
                |came| came.ad.clear(),
                |came| came.cipher.truncate(came.cipher.len() - 1),
                |came| came.cipher.push(0),
                |came| came.cipher.insert(0, came.ad.pop().expect("some data")),
            ];
            for (way, change) in changed.into_iter().enumerate() {
                let mut came = right.clone();
                change(&mut came);
                let out = expect_refused(&came);
                // A change behind the text leaves the plaintext as far as both go.
                if [3, 4].contains(&way) {
                    let common = text.min(out.len());
                    assert_eq!(out[..common], m.text[..common]);
                }
                ran += 1;
            }
        }
    }
    assert_eq!(ran, SETS.len() * 3 * 6);
}

/// Says that a finish at each point of a message says yes exactly to the tag of what was taken up to there.
#[test]
fn a_finish_at_each_point() {
    let mut random = Random::new(SEED + 6);
    let (mut yes, mut no) = (0, 0);
    for number in set_numbers() {
        let b = set_of(number).expect("a known set").block;
        let (data, text) = (b + 3, 2 * b + 1);
        let (m, w) = both(&mut random, number, data, text);
        // Each beginning with its tag: first of the data alone, then of all data and some text.
        let of_data = (0..=data).map(|length| (length, 0));
        let of_text = (1..=text).map(|length| (data, length));
        let beginnings: Vec<(usize, usize)> = of_data.chain(of_text).collect();
        let tags = beginnings.iter().map(|(data, text)| {
            let (ad, text) = (&m.ad[..*data], &m.text[..*text]);
            let sealed = seal_published(m.set, &m.key, &m.nonce, ad, text);
            assert_eq!(sealed.cipher, m.cipher[..text.len()]);
            let (cipher, tag, _) = walk::sealed(numbers(m.set), &m.key, &m.nonce, ad, text);
            assert_eq!((sealed.cipher, &sealed.tag), (cipher, &tag));
            tag
        });
        let tags: Vec<Vec<u8>> = tags.collect();
        for direction in [Checking, Opening] {
            let mut expect_point = |s: Stream, at: (usize, usize)| {
                let unclosed = s.phase == Phase::Data && at.0 > 0;
                let rounds = 12 + if unclosed { m.set.middle as u64 } else { 0 };
                for (beginning, tag) in beginnings.iter().zip(&tags) {
                    if *beginning == at {
                        expect_end(s, tag, rounds);
                        yes += 1;
                    } else {
                        expect_no(s, tag, rounds);
                        no += 1;
                    }
                }
            };
            let mut s = fresh(&m, direction, LARGEST);
            expect_point(s, (0, 0));
            for i in 0..data {
                s = ad(s, &m.ad[i..i + 1]).2;
                assert_eq!(s, state_at(&m, &w, direction, Phase::Data, i + 1));
                expect_point(s, (i + 1, 0));
            }
            s = done(text_call(s, &[]).0, closing(&m));
            expect_point(s, (data, 0));
            for i in 0..text {
                s = text_call(s, &m.cipher[i..i + 1]).0 .2;
                assert_eq!(s, state_at(&m, &w, direction, Phase::Text, i + 1));
                expect_point(s, (data, i + 1));
            }
        }
    }
    // In sets 1 and 3 there are 12 points of data and 18 of text, with 29 tags; in 2 and 4 there are 20, 34 and 53.
    assert_eq!(yes, 2 * 2 * (30 + 54));
    assert_eq!(no, 2 * 2 * (30 * 28 + 54 * 52));
}

/// Gives streams of the message in the direction: two in the data phase and four in the text phase.
fn several(m: &Message, direction: Direction, limit: u64) -> [Stream; 6] {
    let b = m.set.block;
    let data = after_data(m, direction, limit);
    let texts = [0, 3, b, b + 1].map(|length| text_call(data, &body(m, direction)[..length]).0 .2);
    [
        fresh(m, direction, limit),
        data,
        texts[0],
        texts[1],
        texts[2],
        texts[3],
    ]
}

/// Says that each text call and each finish serves its own direction and is 7 for the others, in each phase.
#[test]
fn directions_crossed() {
    let mut random = Random::new(SEED + 7);
    let (mut own, mut foreign, mut of_data) = (0, 0, [0; 2]);
    for (number, direction) in kinds() {
        let b = set_of(number).expect("a known set").block;
        let m = message(&mut random, number, b + 5, b + 1);
        for s in several(&m, direction, LARGEST) {
            for call in CALLS {
                let (mut out, mut tag) = ([0; 3], m.tag.clone());
                let given = called(call, s, &[1, 2, 3], &mut out, &mut tag);
                if call == Call::Ad {
                    let answer = if s.phase == Phase::Data { 0 } else { 7 };
                    assert_eq!(given.0, answer);
                    of_data[usize::from(answer > 0)] += 1;
                } else if calls_of(direction).contains(&call) {
                    let text = calls_of(direction)[0] == call;
                    // Of the several states only the last has taken all that the tag is of.
                    let whole = s.text_count == b as u64 + 1;
                    let answer = if text || direction == Sealing || whole {
                        0
                    } else {
                        9
                    };
                    assert_eq!((given.0, given.2 == ENDED), (answer, !text));
                    own += 1;
                } else {
                    for (piece, room) in [(3, 3), (3, 9), (0, 0), (0, 3), (3, 0), (1_048_577, 0)] {
                        for length in [m.set.key, 0, m.set.key + 1] {
                            let tag = &[&m.tag[..], &[0]].concat()[..length];
                            expect_refusal(7, call, s, &vec![1; piece], room, tag);
                        }
                    }
                    foreign += 1;
                }
            }
        }
    }
    assert_eq!((own, foreign), (KINDS * 6 * 2, KINDS * 6 * 4));
    assert_eq!(of_data, [KINDS * 2, KINDS * 4]);

    let mut ended = 0;
    for call in CALLS {
        for (piece, room) in [(3, 3), (0, 0), (3, 2), (1_048_577, 0)] {
            for tag in [16, 12, 0] {
                expect_refusal(7, call, ENDED, &vec![1; piece], room, &vec![2; tag]);
                ended += 1;
            }
        }
    }
    assert_eq!(ended, 7 * 4 * 3);
}

/// Says that 8 and then 7 come before all else: of the call, which is one of opening, and of those of the others
/// on the stream, which is an opening one.
fn expect_8_and_7_first(s: Stream, call: Call, piece: &[u8], room: usize, tag: &[u8]) {
    let broken = |s: Stream| Stream {
        place: s.place + 16,
        ..s
    };
    expect_refusal(8, call, broken(s), piece, room, tag);
    for direction in others(Opening) {
        let turned = Stream { direction, ..s };
        expect_refusal(8, call, broken(turned), piece, room, tag);
        expect_refusal(7, call, turned, piece, room, tag);
    }
    expect_refusal(7, call, ENDED, piece, room, tag);
    for foreign in calls_of_others(Opening) {
        expect_refusal(8, foreign, broken(s), piece, room, tag);
        expect_refusal(7, foreign, s, piece, room, tag);
    }
}

/// Says in which order an opening stream's calls, and other calls on it, are tested: 8, 7, 4 and 8, 7, 5, 6.
#[test]
fn the_order_of_the_tests() {
    let mut random = Random::new(SEED + 8);
    let mut ran = [0; 2];
    for number in set_numbers() {
        let b = set_of(number).expect("a known set").block;
        let m = message(&mut random, number, b + 5, b + 1);
        let right = m.set.key;
        for s in several(&m, Opening, 40) {
            for length in [right, right - 1, right + 1, 28 - right, 0] {
                let tag = vec![2; length];
                expect_8_and_7_first(s, Call::FinishOpening, &[], 0, &tag);
                if length == right {
                    assert_eq!(finish_opening(s, &tag).0, 9);
                } else {
                    expect_refusal(4, Call::FinishOpening, s, &[], 0, &tag);
                }
                ran[0] += 1;
            }
            let left = 40 - s.text_count as usize;
            for (length, room, answer) in [
                (left + 1, left + 1, 5),
                (left + 1, left, 5),
                (left + 1, 0, 5),
                (left, left - 1, 6),
                (left, 0, 6),
                (left, left, 0),
                (0, 0, 0),
            ] {
                let piece = vec![1; length];
                expect_8_and_7_first(s, Call::Open, &piece, room, &m.tag);
                if answer == 0 {
                    assert_eq!(open(s, &piece, &mut vec![0; room]).0, 0);
                } else {
                    expect_refusal(answer, Call::Open, s, &piece, room, &[]);
                }
                ran[1] += 1;
            }
        }
    }
    assert_eq!(ran, [SETS.len() * 6 * 5, SETS.len() * 6 * 7]);
}

/// Says what each room gives, from none to more than enough, and that no byte behind the piece is touched.
#[test]
fn every_room() {
    let mut random = Random::new(SEED + 9);
    let (mut refused, mut taken) = (0, 0);
    for number in set_numbers() {
        let b = set_of(number).expect("a known set").block;
        let (m, w) = both(&mut random, number, 5, 3 * b + 4);
        for (s, from) in several(&m, Opening, LARGEST)
            .into_iter()
            .skip(1)
            .zip([0, 0, 3, b, b + 1])
        {
            for length in 0..=2 * b + 1 {
                let piece = &m.cipher[from..from + length];
                for room in 0..length {
                    expect_refusal(6, Call::Open, s, piece, room, &[]);
                    refused += 1;
                }
                let unclosed = if s.phase == Phase::Data {
                    closing(&m)
                } else {
                    0
                };
                let rounds = unclosed + filling(&m, from, from + length);
                for spare in [0, 1, 40] {
                    let before = random.bytes(length + spare);
                    let mut out = before.clone();
                    let next = done(open(s, piece, &mut out), rounds);
                    assert_eq!(out[..length], m.text[from..from + length]);
                    assert_eq!(out[length..], before[length..]);
                    assert_eq!(next, state_at(&m, &w, Opening, Phase::Text, from + length));
                    taken += 1;
                }
            }
        }
    }
    // Of 0 to n bytes there are n + 1 pieces with n(n + 1) / 2 short rooms; n is 17 or 33.
    assert_eq!(refused, 2 * 5 * (17 * 18 / 2 + 33 * 34 / 2));
    assert_eq!(taken, 2 * 5 * (18 + 34) * 3);
}

/// Says that an ended state which says opening is broken, alone and with any other part changed.
#[test]
fn ended_and_opening_is_broken() {
    assert_eq!((ENDED.direction, ENDED.phase), (Sealing, Phase::Ended));
    let one = Stream {
        direction: Opening,
        ..ENDED
    };
    let mut ran = expect_sound(ENDED) + expect_broken(one);
    ran += all_broken(set_numbers().map(|set| Stream { set, ..one }));
    for bit in 0..320 {
        let mut s = one;
        s.words[bit / 64] ^= 1 << (bit % 64);
        ran += expect_broken(s);
    }
    for bit in 0..128 {
        let mut s = one;
        s.key[bit / 8] ^= 1 << (bit % 8);
        ran += expect_broken(s);
    }
    for bit in 0..64 {
        let mut s = [one; 4];
        s[0].ad_count = 1 << bit;
        s[1].text_count = 1 << bit;
        s[2].place = 1 << bit;
        s[3].limit = 1 << bit;
        ran += all_broken(s);
    }
    // Open states that say they have ended, whatever they said before.
    ran += over_open(SEED + 10, |s| {
        expect_broken(Stream {
            direction: Opening,
            phase: Phase::Ended,
            ..s
        })
    });
    assert_eq!(ran, 2 + 4 + 320 + 128 + 4 * 64 + OPEN);
}

/// Says what breaks an open state that says opening, and what doesn't: just what breaks those of the others.
#[test]
fn broken_alike_in_each_direction() {
    let (mut sound, mut broken) = (0, 0);
    for s in open_states(&mut Random::new(SEED + 11)) {
        let block = block_of(&s);
        let mut keyed = s;
        keyed.key[13] ^= 1;
        let changed = [
            s,
            Stream {
                words: [1, 2, 3, 4, 5],
                ..s
            },
            keyed,
            with_counts(s, 65_536, s.text_count),
            with_counts(s, 65_537, s.text_count),
            with_counts(s, s.ad_count, 1_048_576),
            with_counts(s, s.ad_count, 1_048_577),
            Stream {
                place: s.place + block,
                ..s
            },
            Stream {
                limit: s.text_count,
                ..s
            },
            Stream {
                limit: 1_048_577,
                ..s
            },
            Stream { set: 5, ..s },
        ];
        let wanted = [
            false,
            false,
            s.set == 2,
            false,
            true,
            s.phase == Phase::Data,
            true,
            true,
            false,
            true,
            true,
        ];
        for (s, wanted) in changed.into_iter().zip(wanted) {
            let turned = DIRECTIONS.map(|direction| Stream { direction, ..s });
            for s in turned {
                if wanted {
                    broken += expect_broken(s);
                } else {
                    sound += expect_sound(s);
                }
            }
        }
    }
    // Four changes leave a state sound and five break it; a key byte does in set 2, a text count in the data phase.
    assert_eq!(sound, 3 * (OPEN * 4 + OPEN / 4 * 3 + OPEN / 5 * 4));
    assert_eq!(broken, 3 * (OPEN * 5 + OPEN / 4 + OPEN / 5));
}

/// Says what starts of opening streams give with limits on each side of what a limit may be.
#[test]
fn limits_of_starts() {
    let mut ran = [0; 2];
    for set in set_numbers() {
        for limit in [0, 1, 199, 200, 201, 1_048_575, 1_048_576] {
            let s = done(counting_start(set, Opening, limit), 12);
            expect_started(s, set, Opening, limit);
            ran[0] += 1;
        }
        for limit in [1_048_577, 1 << 32, 1 << 32 | 200, 1 << 63, u64::MAX] {
            assert_eq!(counting_start(set, Opening, limit), (5, 0, ENDED));
            ran[1] += 1;
        }
    }
    assert_eq!(ran, [SETS.len() * 7, SETS.len() * 5]);
    // The set, the key and the nonce are tested before the limit.
    assert_eq!(
        expect_starts(&[200, 1_048_577], start),
        KINDS * 5 * 6 * 6 * 2
    );
}

/// Says that a stream's own limit is reached and not passed, from both phases and in any two pieces.
#[test]
fn limits_of_streams() {
    let mut random = Random::new(SEED + 12);
    let (mut filled, mut refused) = (0, 0);
    for number in set_numbers() {
        for limit in [0, 1, 200] {
            let (m, w) = both(&mut random, number, 9, limit);
            for first in 0..=limit {
                let mut s = after_data(&m, Opening, limit as u64);
                let mut out = vec![0xa5; limit + 1];
                let (mut count, mut sum) = (0, 0);
                // The last piece is empty and finds the limit reached.
                for piece in cut_at(&m.cipher, &[first, limit]) {
                    let left = limit - count;
                    for past in [left + 1, left + 2, left + 300] {
                        for room in [0, left, past] {
                            expect_refusal(5, Call::Open, s, &vec![1; past], room, &[]);
                            refused += 1;
                        }
                    }
                    let given = open(s, &piece, &mut out[count..]);
                    assert_eq!(given.0, 0);
                    sum += given.1;
                    count += piece.len();
                    s = given.2;
                    let wanted = state_at(&m, &w, Opening, Phase::Text, count);
                    let limit = limit as u64;
                    assert_eq!(s, Stream { limit, ..wanted });
                }
                assert_eq!(out, [&m.text[..], &[0xa5]].concat());
                assert_eq!(sum, closing(&m) + filling(&m, 0, limit));
                expect_no(s, &flipped(&m.tag, first % 96), 12);
                expect_end(s, &m.tag, 12);
                filled += 1;
            }
            let full = open(
                after_data(&m, Opening, limit as u64),
                &m.cipher,
                &mut vec![0; limit],
            );
            for s in [fresh(&m, Opening, limit as u64), full.2] {
                expect_refusal(5, Call::Open, s, &[1; 1_048_577], 0, &[]);
                assert_eq!(open(s, &[], &mut []).0, 0);
            }
        }
    }
    // Limits 0, 1 and 200 have 1, 2 and 201 first pieces; before each of three pieces nine longer ones are refused.
    assert_eq!(filled, SETS.len() * (1 + 2 + 201));
    assert_eq!(refused, filled * 3 * 9);
}

/// Says that a long order, once checked, comes out of an opening stream a piece at a time.
#[test]
fn a_long_order_by_a_second_walk() {
    let mut random = Random::new(SEED + 13);
    let mut ran = 0;
    // 24 + 6 × (2 + 131,073 − 1) and 24 + 8 × (1 + 65,537 − 1).
    for (number, rounds) in [(1, 786_468), (4, 524_320)] {
        let m = message(&mut random, number, 9, 1_048_576);
        assert_eq!(m.rounds, rounds);
        let mut out = [0; 10_007];
        for direction in [Checking, Opening] {
            let mut s = after_data(&m, direction, LARGEST);
            let mut sum = 12 + filling(&m, 0, 9);
            let pieces = m.cipher.chunks(out.len());
            for (piece, text) in pieces.zip(m.text.chunks(out.len())) {
                let given = match direction {
                    Checking => check(s, piece),
                    _ => open(s, piece, &mut out),
                };
                assert_eq!(given.0, 0);
                assert!(direction == Checking || out[..piece.len()] == *text);
                sum += given.1;
                s = given.2;
                ran += 1;
            }
            expect_refusal(5, calls_of(direction)[0], s, &[1], 1, &[]);
            expect_end(s, &m.tag, 12);
            assert_eq!(sum + 12, rounds);
        }
    }
    // 104 pieces of 10,007 bytes and a last one of 7,848.
    assert_eq!(ran, 2 * 2 * 105);
}

/// Opens what came as a whole message and gives the answer and the output.
fn opened_whole(came: &Came) -> (Answer, Vec<u8>) {
    let mut out = vec![0x77; came.cipher.len()];
    let (key, nonce) = (&came.key, &came.nonce);
    let (ad, cipher, tag) = (&came.ad, &came.cipher, &came.tag);
    let answer = calls::open(came.set.number, key, nonce, ad, cipher, tag, &mut out);
    (answer, out)
}

/// Opens what came by a stream, cut in the given ways, and gives the finish's number, all rounds and the output.
fn opened_in_pieces(random: &mut Random, came: &Came, way: usize) -> (Answer, Vec<u8>) {
    let limit = came.cipher.len() as u64;
    let given = start(Opening, came.set.number, limit, &came.key, &came.nonce);
    let (mut rounds, mut s) = (12, done(given, 12));
    for piece in cut(random, came.set, &came.ad, way / WAYS) {
        let given = ad(s, &piece);
        assert_eq!(given.0, 0);
        rounds += given.1;
        s = given.2;
    }
    let mut out = Vec::new();
    for piece in cut(random, came.set, &came.cipher, way % WAYS) {
        let mut part = vec![0x77; piece.len()];
        let given = open(s, &piece, &mut part);
        assert_eq!(given.0, 0);
        rounds += given.1;
        s = given.2;
        out.extend(part);
    }
    let (number, last, ended) = finish_opening(s, &came.tag);
    assert_eq!(ended, ENDED);
    rounds += last;
    (Answer { number, rounds }, out)
}

/// Says that whole-message opening and opening streams agree on messages, good and tampered with.
///
/// They part only in what a no leaves behind: whole-message opening puts zeros there, a stream has
/// handed out the plaintext of what came.
#[test]
fn whole_messages_and_streams() {
    let mut random = Random::new(SEED + 14);
    let (mut good, mut bad, mut empty) = (0, 0, 0);
    for number in set_numbers() {
        let b = set_of(number).expect("a known set").block;
        for way in (0..WAYS * WAYS).flat_map(|way| [way; 4]) {
            let [data, text] = [(); 2].map(|()| vectors::length(&mut random, b));
            let (m, _) = both(&mut random, number, data, text);
            let right = untouched(&m);
            let whole = opened_whole(&right);
            let rounds = m.rounds;
            assert_eq!(whole, (Answer { number: 0, rounds }, m.text.clone()));
            assert_eq!(opened_in_pieces(&mut random, &right, way), whole);
            let cuts = [(&m.ad, way / WAYS), (&m.cipher, way % WAYS)];
            let [data, pieces] = cuts.map(|(bytes, way)| cut(&mut random, m.set, bytes, way));
            run_cut(&mut random, &m, (Opening, LARGEST), &data, &pieces);
            good += 1;

            for index in 0..PARTS {
                let mut came = untouched(&m);
                let bits = came.part(index).len() * 8;
                if bits == 0 {
                    empty += 1;
                    continue;
                }
                came.tamper(index, random.below(bits));
                let (answer, out) = opened_whole(&came);
                assert_eq!(answer, Answer { number: 9, rounds });
                assert_eq!(out, vec![0; text]);
                let by_stream = opened_in_pieces(&mut random, &came, way);
                assert_eq!(by_stream, (answer, walked(&came).plain));
                bad += 1;
            }
        }
    }
    // Some messages have no data or no text, in which no bit can be wrong.
    assert_eq!((good, bad + empty), (4 * 144, 4 * 144 * 5));
    assert_eq!(empty, 30);
}
