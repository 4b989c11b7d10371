//! Request W5: sets 3 and 4 of the later edition beside sets 1 and 2, everywhere that a set is named.

mod walk;

use second::calls::{self, Answer};
use second::cipher::{
    first_bytes, open_published, seal_published, set_numbers, set_of, State, SETS,
};
use second::exchange::{export, import, import_all, Refused};
use second::formula::rounds_by_formula;
use second::judge::{judge_all, verdict, Verdict};
use second::make::{lines_of, right_record, Unmade};
use second::moving::{back, forward};
use second::permutation::{constants_of_run, run, Edition};
use second::random::Random;
use second::record::{first_broken_line, may_begin, read, write, Broken, Form, Record};
use second::replay::{replay, Replay};
use second::stream::{
    ad, check, finish_checking, finish_opening, finish_sealing, is_broken, open, seal, start,
    Direction, Given, Phase, Stream, ENDED, LARGEST_LIMIT,
};
use second::vectors;
use walk::{Numbers, ALL};
use Direction::{Checking, Opening, Sealing};

const SEED: u64 = 20_160_915;

/// Numbers that name no set; cut to 8, 16 or 32 bits, many of them would.
const UNKNOWN: [u64; 23] = [
    0,
    5,
    6,
    7,
    8,
    12,
    16,
    255,
    256,
    257,
    258,
    259,
    260,
    (1 << 16) + 3,
    1 << 32,
    (1 << 32) + 1,
    (1 << 32) + 2,
    (1 << 32) + 3,
    (1 << 32) + 4,
    1 << 63,
    (1 << 63) + 3,
    (1 << 63) + 4,
    u64::MAX,
];

/// Lengths on each side of the edges of blocks of 8 and of 16 bytes.
const LENGTHS: [usize; 20] = [
    0, 1, 7, 8, 9, 15, 16, 17, 23, 24, 25, 31, 32, 33, 47, 48, 49, 63, 64, 65,
];

/// Says that the table has the four sets with the numbers of the papers, and no others.
#[test]
fn the_table_of_sets() {
    assert_eq!(set_numbers().collect::<Vec<u64>>(), [1, 2, 3, 4]);
    let mut ran = 0;
    for (set, n) in SETS.iter().zip(&ALL) {
        assert_eq!(set.number, n.set);
        let lengths = (set.key, set.block, set.outer, set.middle);
        assert_eq!(lengths, (n.key, n.block, 12, n.middle));
        assert_eq!(set_of(n.set), Some(set));
        // Record lines count on it: with one digit each, no number begins another.
        assert_eq!(set.number.to_string().len(), 1);
        ran += 1;
    }
    assert_eq!(ran, 4);
    assert_eq!((0..100_000).filter(|n| set_of(*n).is_some()).count(), 4);
    assert_eq!(UNKNOWN.map(set_of), [None; 23]);
}

/// Says that the first words are those that W5 prints, and the first blocks those of paper 01.
#[test]
fn the_first_words() {
    let bytes = |word: u64| word.to_be_bytes().to_vec();
    let of_set = |number| first_bytes(set_of(number).expect("a known set"));
    assert_eq!(of_set(3), bytes(0x80400c0600000000));
    assert_eq!(of_set(4), bytes(0x80800c0800000000));
    assert_eq!(of_set(1), bytes(0x800c060000000000));
    assert_eq!(of_set(2), [bytes(0x600c080000000000), bytes(0)].concat());
    let mut ran = 0;
    for set in &SETS {
        // First bytes, key and nonce are the whole state.
        assert_eq!(first_bytes(set).len() + 2 * set.key, 40);
        ran += 1;
    }
    assert_eq!(ran, 4);
}

/// Says which constants each set's runs take, told from their bytes.
#[test]
fn the_constants_of_each_set() {
    let (six, eight) = ([0xf0, 0xe1, 0xd2, 0xc3, 0xb4, 0xa5], [0x96, 0x87]);
    let (tail, last) = ([0x78, 0x69, 0x5a, 0x4b], [0xb4, 0xa5, 0x96, 0x87]);
    let wanted = [
        six.to_vec(),
        [&six[..], &eight].concat(),
        [&eight[..], &tail].concat(),
        [&last[..], &tail].concat(),
    ];
    let mut ran = 0;
    for (set, constants) in SETS.iter().zip(wanted) {
        assert_eq!(constants_of_run(set.edition, set.middle), constants);
        let twelve = [&six[..], &eight, &tail].concat();
        assert_eq!(constants_of_run(set.edition, set.outer), twelve);
        ran += 1;
    }
    assert_eq!(ran, 4);
}

/// Says that a run of n rounds is one worked out on words, which starts at round 0 or ends at round 11.
#[test]
fn runs_worked_out_otherwise() {
    let mut random = Random::new(SEED);
    let (mut ran, mut apart) = (0, 0);
    for n in 0..=12 {
        for (edition, from) in [(Edition::V1, 0), (Edition::V1Dot2, 12 - n)] {
            for _ in 0..50 {
                let words = [(); 5].map(|()| random.number());
                let mut wanted = walk::bytes(words);
                walk::run(&mut wanted, from, n);
                let mut state = State::new(&walk::bytes(words));
                state.run(edition, n);
                assert_eq!((state.first(40), state.rounds()), (&wanted[..], n as u64));
                let ours = run(words, constants_of_run(edition, n));
                assert_eq!(walk::bytes(ours), wanted);
                ran += 1;
            }
        }
        let [one, other] = [Edition::V1, Edition::V1Dot2].map(|e| constants_of_run(e, n));
        apart += usize::from(run([0; 5], one) != run([0; 5], other));
    }
    // The editions part in all runs but those of no round and of all twelve.
    assert_eq!((ran, apart), (13 * 2 * 50, 11));
}

/// Says that the round formula gives, and sealing counts, what is worked out by hand in each set.
#[test]
fn rounds_by_hand() {
    // Set, data, text, rounds: 24 + middle × (blocks of data + blocks of text − 1).
    let cases = [
        (1, 0, 0, 24),
        (1, 7, 8, 36),
        (1, 8, 7, 36),
        (2, 15, 16, 40),
        (2, 16, 16, 48),
        (3, 0, 0, 24),
        (3, 1, 0, 30),
        (3, 7, 7, 30),
        (3, 8, 7, 36),
        (3, 7, 8, 36),
        (3, 8, 8, 42),
        (3, 16, 16, 54),
        (3, 0, 800, 624),
        (4, 0, 0, 24),
        (4, 1, 0, 32),
        (4, 7, 7, 32),
        (4, 8, 8, 32),
        (4, 15, 15, 32),
        (4, 16, 15, 40),
        (4, 15, 16, 40),
        (4, 16, 16, 48),
        (4, 0, 16, 32),
        (4, 32, 0, 48),
        (4, 0, 800, 424),
        (4, 65_536, 1_048_576, 557_088),
        (3, 65_536, 1_048_576, 835_614),
    ];
    let mut ran = 0;
    for (number, ad, text, rounds) in cases {
        let set = set_of(number).expect("a known set");
        assert_eq!(rounds_by_formula(set, ad, text), rounds);
        let (key, mut out, mut tag) = (vec![1; set.key], vec![0; text], vec![0; set.key]);
        let (ad, text) = (vec![2; ad], vec![3; text]);
        let answer = calls::seal(number, &key, &key, &ad, &text, &mut out, &mut tag);
        assert_eq!(answer, Answer { number: 0, rounds });
        assert_eq!(answer.one_number(), 16 * rounds);
        ran += 1;
    }
    assert_eq!(ran, 26);
}

/// Gives the state after a start as the program has it.
fn started(n: &Numbers, direction: Direction, key: &[u8], nonce: &[u8]) -> Stream {
    let (answer, rounds, s) = start(direction, n.set, LARGEST_LIMIT, key, nonce);
    assert_eq!((answer, rounds), (0, 12));
    s
}

/// Says where key and nonce lie at the start, and where the key is combined behind it, with any key and nonce.
#[test]
fn key_and_nonce_at_the_start() {
    let mut random = Random::new(SEED + 1);
    let mut ran = 0;
    for n in &ALL {
        for _ in 0..100 {
            let (key, nonce) = (random.bytes(n.key), random.bytes(n.key));
            let wanted = walk::started(n, &key, &nonce);
            for direction in [Sealing, Checking, Opening] {
                let s = started(n, direction, &key, &nonce);
                assert_eq!(walk::bytes(s.words), wanted);
                ran += 1;
            }
        }
    }
    assert_eq!(ran, 4 * 100 * 3);
}

/// Gives an open state of any words in the text phase, so many bytes into its text.
fn open_state(n: &Numbers, words: [u64; 5], key: &[u8], text_count: usize) -> Stream {
    let mut kept = [0; 16];
    kept[..n.key].copy_from_slice(key);
    Stream {
        words,
        set: n.set,
        direction: Sealing,
        phase: Phase::Text,
        key: kept,
        ad_count: 3,
        text_count: text_count as u64,
        place: (text_count % n.block) as u64,
        limit: LARGEST_LIMIT,
    }
}

/// Says where a finish puts the pad and the key into any words, at each place of a block.
#[test]
fn pad_and_key_at_the_end() {
    let mut random = Random::new(SEED + 2);
    let mut ran = 0;
    for n in &ALL {
        for place in 0..n.block {
            for _ in 0..20 {
                let words = [(); 5].map(|()| random.number());
                let key = random.bytes(n.key);
                let mut state = walk::bytes(words);
                state[place] ^= 0x80;
                let wanted = walk::tag(n, state, &key);
                let s = open_state(n, words, &key, 2 * n.block + place);
                let mut tag = vec![0; n.key];
                assert_eq!(finish_sealing(s, &mut tag), (0, 12, ENDED));
                assert_eq!(tag, wanted);
                let direction = Checking;
                let checked = finish_checking(Stream { direction, ..s }, &wanted);
                assert_eq!(checked, (0, 12, ENDED));
                let direction = Opening;
                let opened = finish_opening(Stream { direction, ..s }, &wanted);
                assert_eq!(opened, (0, 12, ENDED));
                ran += 1;
            }
        }
    }
    assert_eq!(ran, (8 + 16 + 8 + 16) * 20);
}

/// Says that the end's key lies on bytes 16 to 31 in set 4, worked out on one state of zeros.
#[test]
fn the_end_of_set_4_on_zeros() {
    let key: Vec<u8> = (1..=16).collect();
    let mut state = [0; 40];
    state[0] = 0x80;
    state[16..32].copy_from_slice(&key);
    walk::run(&mut state, 0, 12);
    let wanted: Vec<u8> = state[24..].iter().zip(&key).map(|(a, b)| a ^ b).collect();
    let mut tag = [0; 16];
    let s = open_state(&ALL[3], [0; 5], &key, 16);
    assert_eq!(finish_sealing(s, &mut tag).0, 0);
    assert_eq!(tag, wanted[..]);
    // Behind byte 8, as in set 3, it would be another tag.
    let mut other = [0; 16];
    let s = open_state(&ALL[2], [0; 5], &key, 16);
    assert_eq!(finish_sealing(s, &mut other).0, 0);
    assert_ne!(tag, other);
}

/// A message with any contents, and what it becomes by the walk.
struct Message {
    n: &'static Numbers,
    key: Vec<u8>,
    nonce: Vec<u8>,
    ad: Vec<u8>,
    text: Vec<u8>,
    cipher: Vec<u8>,
    tag: Vec<u8>,
    rounds: u64,
}

/// Gives a pseudo-random message of the set and lengths.
fn message(random: &mut Random, n: &'static Numbers, ad: usize, text: usize) -> Message {
    let (key, nonce) = (random.bytes(n.key), random.bytes(n.key));
    let (ad, text) = (random.bytes(ad), random.bytes(text));
    let (cipher, tag, rounds) = walk::sealed(n, &key, &nonce, &ad, &text);
    Message {
        n,
        key,
        nonce,
        ad,
        text,
        cipher,
        tag,
        rounds,
    }
}

/// Gives the bytes with the given bit of all their bits changed.
fn flipped(bytes: &[u8], bit: usize) -> Vec<u8> {
    let mut other = bytes.to_vec();
    other[bit / 8] ^= 1 << (bit % 8);
    other
}

/// Hands over a message of each set with data and text of all the lengths, and gives how many they were.
fn each_message(seed: u64, mut take: impl FnMut(&Message)) -> usize {
    let mut random = Random::new(seed);
    let mut ran = 0;
    for n in &ALL {
        for ad in LENGTHS {
            for text in LENGTHS {
                take(&message(&mut random, n, ad, text));
                ran += 1;
            }
        }
    }
    ran
}

/// Gives what opening answers and puts out, with two spare bytes that must stay.
fn opened(m: &Message, cipher: &[u8], tag: &[u8]) -> (Answer, Vec<u8>) {
    let mut out = vec![0xa5; cipher.len() + 2];
    let answer = calls::open(m.n.set, &m.key, &m.nonce, &m.ad, cipher, tag, &mut out);
    assert_eq!(out[cipher.len()..], [0xa5; 2]);
    out.truncate(cipher.len());
    (answer, out)
}

/// Says that sealing gives what the walk gives, in all sets and around all block edges.
#[test]
fn sealing_is_what_the_walk_gives() {
    let ran = each_message(SEED + 3, |m| {
        let set = set_of(m.n.set).expect("a known set");
        let sealed = seal_published(set, &m.key, &m.nonce, &m.ad, &m.text);
        assert_eq!(sealed.cipher, m.cipher);
        assert_eq!((sealed.tag, sealed.rounds), (m.tag.clone(), m.rounds));
        let mut out = vec![0x5a; m.text.len() + 1];
        let mut tag = vec![0; m.n.key];
        let given = calls::seal(
            m.n.set, &m.key, &m.nonce, &m.ad, &m.text, &mut out, &mut tag,
        );
        let (number, rounds) = (0, m.rounds);
        assert_eq!(given, Answer { number, rounds });
        assert_eq!(out, [&m.cipher[..], &[0x5a]].concat());
        assert_eq!(tag, m.tag);
        assert_eq!(rounds_by_formula(set, m.ad.len(), m.text.len()), rounds);
    });
    assert_eq!(ran, 4 * 20 * 20);
}

/// Says that opening undoes sealing, and that a tampered tag or ciphertext is 9 and gives zeros.
#[test]
fn opening_undoes_sealing() {
    let mut random = Random::new(SEED + 4);
    let mut tampered = 0;
    let ran = each_message(SEED + 5, |m| {
        let rounds = m.rounds;
        let done = (Answer { number: 0, rounds }, m.text.clone());
        let refused = (Answer { number: 9, rounds }, vec![0; m.text.len()]);
        assert_eq!(opened(m, &m.cipher, &m.tag), done);
        let set = set_of(m.n.set).expect("a known set");
        let text = open_published(set, &m.key, &m.nonce, &m.ad, &m.cipher, &m.tag).text;
        assert_eq!(text.as_ref(), Some(&m.text));
        for bit in [0, m.n.key * 8 - 1, random.below(m.n.key * 8)] {
            assert_eq!(opened(m, &m.cipher, &flipped(&m.tag, bit)), refused);
            tampered += 1;
        }
        if !m.cipher.is_empty() {
            let bit = random.below(m.cipher.len() * 8);
            assert_eq!(opened(m, &flipped(&m.cipher, bit), &m.tag), refused);
            tampered += 1;
        }
    });
    assert_eq!((ran, tampered), (1_600, 1_600 * 3 + 4 * 20 * 19));
}

/// Says that every bit of a tag counts in every set.
#[test]
fn every_tag_bit_counts() {
    let mut random = Random::new(SEED + 6);
    let mut ran = 0;
    for n in &ALL {
        let m = message(&mut random, n, 17, 33);
        for bit in 0..n.key * 8 {
            let (answer, out) = opened(&m, &m.cipher, &flipped(&m.tag, bit));
            assert_eq!((answer.number, answer.rounds), (9, m.rounds));
            assert_eq!(out, [0; 33]);
            ran += 1;
        }
    }
    assert_eq!(ran, 128 + 96 + 128 + 128);
}

/// Says that sets with the same lengths give other ciphertexts and tags, and open nothing of one another.
#[test]
fn the_sets_are_different_ciphers() {
    let mut random = Random::new(SEED + 7);
    let mut ran = 0;
    for text in LENGTHS {
        let (key, nonce, ad) = (random.bytes(16), random.bytes(16), random.bytes(9));
        let text = random.bytes(text);
        let long = || SETS.iter().filter(|set| set.key == 16);
        for one in long() {
            let sealed = seal_published(one, &key, &nonce, &ad, &text);
            for other in long() {
                let opened = open_published(other, &key, &nonce, &ad, &sealed.cipher, &sealed.tag);
                assert_eq!(opened.text.is_some(), one == other);
                let second = seal_published(other, &key, &nonce, &ad, &text);
                assert_eq!(second == sealed, one == other);
                ran += 1;
            }
        }
    }
    assert_eq!(ran, 20 * 3 * 3);
}

/// Makes a call that must be done, adds its rounds and gives the next state.
fn step(sum: &mut u64, given: Given) -> Stream {
    assert_eq!(given.0, 0);
    *sum += given.1;
    given.2
}

/// Streams the message in pieces of so many bytes of data and of text, and compares all with the walk.
fn stream_in_pieces(m: &Message, data: usize, pieces: usize) {
    let mut sum = 12;
    let mut s = started(m.n, Sealing, &m.key, &m.nonce);
    let mut c = started(m.n, Checking, &m.key, &m.nonce);
    let mut o = started(m.n, Opening, &m.key, &m.nonce);
    for piece in m.ad.chunks(data) {
        s = step(&mut sum, ad(s, piece));
        c = step(&mut 0, ad(c, piece));
        o = step(&mut 0, ad(o, piece));
    }
    let mut cipher = Vec::new();
    for piece in m.text.chunks(pieces) {
        let mut out = vec![0; piece.len()];
        s = step(&mut sum, seal(s, piece, &mut out));
        c = step(&mut 0, check(c, &out));
        assert_eq!((s.words, s.place), (c.words, c.place));
        let mut back = vec![0; piece.len()];
        o = step(&mut 0, open(o, &out, &mut back));
        assert_eq!((s.words, s.place), (o.words, o.place));
        assert_eq!(back, piece);
        cipher.extend(out);
    }
    assert_eq!(cipher, m.cipher);
    let mut tag = vec![0; m.n.key];
    let ended = step(&mut sum, finish_sealing(s, &mut tag));
    assert_eq!((ended, &tag), (ENDED, &m.tag));
    assert_eq!(sum, m.rounds);
    let right = finish_checking(c, &tag);
    assert_eq!((right.0, right.2), (0, ENDED));
    let wrong = finish_checking(c, &flipped(&tag, m.text.len()));
    assert_eq!(wrong, (9, right.1, ENDED));
    assert_eq!(finish_opening(o, &tag), right);
    assert_eq!(finish_opening(o, &flipped(&tag, m.text.len())), wrong);
}

/// Says that cutting a message into pieces makes no difference, sealing, checking and opening, in any set.
#[test]
fn pieces_make_no_difference() {
    let mut random = Random::new(SEED + 8);
    let mut ran = 0;
    for n in &ALL {
        for length in LENGTHS {
            let m = message(&mut random, n, length, 65 - length);
            for data in [1, 3, 7, 8, 9, 15, 16, 17, 100] {
                for pieces in [1, 3, 7, 8, 9, 15, 16, 17, 100] {
                    stream_in_pieces(&m, data, pieces);
                    ran += 1;
                }
            }
        }
    }
    assert_eq!(ran, 4 * 20 * 81);
}

/// Says what each call in set 4 reports, and its place, counted out by hand in blocks of 16.
#[test]
fn calls_of_set_4_by_hand() {
    let key = [9; 16];
    let s = started(&ALL[3], Sealing, &key, &key);
    let mut now = s;
    // Bytes of data, then the place and the rounds after them: a block is full at 16, 32 and 48.
    let data = [(8, 8, 0), (7, 15, 0), (1, 0, 8), (0, 0, 0), (33, 1, 16)];
    for (count, place, rounds) in data {
        let given = ad(now, &vec![1; count]);
        assert_eq!((given.0, given.1, given.2.place), (0, rounds, place));
        now = given.2;
    }
    assert_eq!((now.ad_count, now.text_count), (49, 0));
    // The first text call closes the data with 8 rounds more.
    let text = [(8, 8, 8), (0, 8, 0), (9, 1, 8), (15, 0, 8), (16, 0, 8)];
    for (count, place, rounds) in text {
        let given = seal(now, &vec![2; count], &mut vec![0; count]);
        assert_eq!((given.0, given.1, given.2.place), (0, rounds, place));
        now = given.2;
    }
    assert_eq!((now.ad_count, now.text_count), (49, 48));
    assert_eq!(finish_sealing(now, &mut [0; 16]), (0, 12, ENDED));
    // With neither data nor text a finish runs the end alone; with data it closes that too.
    assert_eq!(finish_sealing(s, &mut [0; 16]), (0, 12, ENDED));
    let begun = ad(s, &[1]).2;
    assert_eq!(finish_sealing(begun, &mut [0; 16]), (0, 20, ENDED));
}

/// Says that key, nonce and tag of other than 16 bytes are 2, 3 and 4 in sets 3 and 4, those of set 2 too.
#[test]
fn lengths_in_the_later_edition() {
    let mut ran = 0;
    for set in [3, 4] {
        for length in (0..=40).filter(|length| *length != 16) {
            let (right, wrong) = (&[1; 16][..], &vec![1; length][..]);
            let cases = [(wrong, right, 2), (wrong, wrong, 2), (right, wrong, 3)];
            for (key, nonce, answer) in cases {
                let given = start(Sealing, set, 9, key, nonce);
                assert_eq!(given, (answer, 0, ENDED));
                let given = calls::seal(set, key, nonce, &[], &[], &mut [], &mut [0; 16]);
                assert_eq!(given.one_number(), answer);
                let given = calls::open(set, key, nonce, &[], &[], &[0; 16], &mut []);
                assert_eq!(given.one_number(), answer);
            }
            let given = calls::open(set, right, right, &[], &[], wrong, &mut []);
            assert_eq!(given.one_number(), 4);
            let s = start(Sealing, set, 9, right, right).2;
            assert_eq!(finish_sealing(s, &mut vec![7; length]), (4, 0, s));
            let s = start(Checking, set, 9, right, right).2;
            assert_eq!(finish_checking(s, wrong), (4, 0, s));
            let s = start(Opening, set, 9, right, right).2;
            assert_eq!(finish_opening(s, wrong), (4, 0, s));
            ran += 1;
        }
    }
    assert_eq!(ran, 2 * 40);
}

/// Says that whole messages and starts of unknown sets are 1, whatever else is wrong, and change nothing.
#[test]
fn unknown_sets_of_calls() {
    let mut ran = 0;
    for set in UNKNOWN {
        for length in [0, 12, 16, 17] {
            let part = vec![3; length];
            let (mut out, mut tag) = (vec![4; 20], vec![5; length]);
            let text = [6; 20];
            let given = calls::seal(set, &part, &part, &[], &text, &mut out, &mut tag);
            assert_eq!(given.one_number(), 1);
            let given = calls::seal(set, &part, &part, &[], &text, &mut [], &mut tag);
            assert_eq!(given.one_number(), 1);
            let given = calls::open(set, &part, &part, &[], &text, &tag, &mut out);
            assert_eq!(given.one_number(), 1);
            assert_eq!((out, tag), (vec![4; 20], vec![5; length]));
            for direction in [Sealing, Checking, Opening] {
                for limit in [0, LARGEST_LIMIT, u64::MAX] {
                    let given = start(direction, set, limit, &part, &part);
                    assert_eq!(given, (1, 0, ENDED));
                }
            }
            let unmade = right_record(set, &part, &part, &[], &text);
            assert_eq!(unmade, Err(Unmade::Answer(1)));
            ran += 1;
        }
    }
    assert_eq!(ran, 23 * 4);
}

/// Says that a state of an unknown set is broken, and that every call on it answers 8.
#[test]
fn unknown_sets_of_states() {
    let mut random = Random::new(SEED + 9);
    let mut ran = 0;
    for n in &ALL {
        let key = random.bytes(n.key);
        for set in UNKNOWN {
            for sound in [Sealing, Checking, Opening].map(|way| started(n, way, &key, &key)) {
                let s = Stream { set, ..sound };
                assert!(is_broken(&s) && !is_broken(&sound));
                let given = [
                    ad(s, &[1]),
                    seal(s, &[1], &mut [0]),
                    check(s, &[1]),
                    open(s, &[1], &mut [0]),
                    finish_sealing(s, &mut [0; 16]),
                    finish_checking(s, &[0; 16]),
                    finish_opening(s, &[0; 16]),
                ];
                assert_eq!(given, [(8, 0, s); 7]);
                ran += 1;
            }
            assert!(is_broken(&Stream { set, ..ENDED }));
        }
    }
    assert_eq!(ran, 4 * 23 * 3);
}

/// Says of every set, count and place whether a state is broken, in both phases.
#[test]
fn places_within_the_blocks_of_each_set() {
    let (mut sound, mut broken) = (0, 0);
    for n in &ALL {
        let text = open_state(n, [1; 5], &vec![2; n.key], 0);
        let phase = Phase::Data;
        let data = Stream { phase, ..text };
        for count in 0..=48 {
            for place in 0..=48 {
                let right = place == count % [8, 16, 8, 16][n.set as usize - 1];
                let states = [
                    Stream {
                        text_count: count,
                        place,
                        ..text
                    },
                    Stream {
                        ad_count: count,
                        place,
                        ..data
                    },
                ];
                for s in states {
                    assert_eq!(is_broken(&s), !right, "{s:?}");
                    assert_eq!(ad(s, &[]).0 == 8, !right);
                    sound += usize::from(right);
                    broken += usize::from(!right);
                }
            }
        }
    }
    assert_eq!((sound, broken), (4 * 49 * 2, 4 * 49 * 48 * 2));
}

/// Says that only in set 2 bytes behind the key have to be zero.
#[test]
fn bytes_behind_the_key() {
    let (mut sound, mut broken) = (0, 0);
    for n in &ALL {
        let s = open_state(n, [1; 5], &vec![0; n.key], 5);
        for bit in 0..128 {
            let mut key = s.key;
            key[bit / 8] ^= 1 << (bit % 8);
            let other = Stream { key, ..s };
            if n.set == 2 && bit >= 96 {
                assert!(is_broken(&other));
                broken += 1;
            } else {
                assert!(!is_broken(&other));
                assert_eq!(finish_sealing(other, &mut vec![0; n.key]).0, 0);
                sound += 1;
            }
        }
        let full = Stream {
            key: [255; 16],
            ..s
        };
        assert_eq!(is_broken(&full), n.set == 2);
    }
    assert_eq!((sound, broken), (3 * 128 + 96, 32));
}

/// Says that the ended state of any set but the first is broken.
#[test]
fn there_is_still_one_ended_state() {
    let ended = set_numbers().filter(|set| !is_broken(&Stream { set: *set, ..ENDED }));
    assert_eq!(ended.collect::<Vec<u64>>(), [1]);
}

/// Gives a record of set 4 in the form, with those characters as its set.
fn text_with_set(form: Form, set: &str) -> Vec<u8> {
    let front = match form {
        Form::One => format!("set={set}\n"),
        Form::Two => format!("form=2\nset={set}\nchip=7\n"),
    };
    let key = "0f".repeat(16);
    let rest = format!("key={key}\nnonce={key}\nad=\ntext=00\ncipher=11\ntag={key}\nrounds=24\n");
    (front + &rest).into_bytes()
}

/// Says which set lines are right in both forms, and in which column the others break.
#[test]
fn set_lines() {
    let mut ran = 0;
    for (form, line) in [(Form::One, 1), (Form::Two, 2)] {
        for set in 0..=9 {
            let text = text_with_set(form, &set.to_string());
            let found = read(form, &text).map(|(record, taken)| (record.set, taken));
            let wanted = match set {
                1 | 3 | 4 => Ok((set, text.len())),
                // Its key has only 24 digits.
                2 => Err(Broken {
                    line: if form == Form::One { 2 } else { 4 },
                    column: 29,
                }),
                _ => Err(Broken { line, column: 5 }),
            };
            assert_eq!(found, wanted);
            assert_eq!(may_begin(&text), wanted.is_ok());
            ran += 1;
        }
        // Behind a right digit no other may stand, before it none.
        for (set, column) in [
            ("12", 6),
            ("33", 6),
            ("34", 6),
            ("40", 6),
            ("3 ", 6),
            ("4\r", 6),
            ("4294967299", 6),
            ("03", 5),
            ("53", 5),
            ("+3", 5),
            (" 4", 5),
            ("", 5),
            ("x", 5),
            ("18446744073709551615", 6),
            ("\u{3}", 5),
            ("\u{b3}", 5),
        ] {
            let text = text_with_set(form, set);
            let found = read(form, &text).map(|_| ());
            assert_eq!(found, Err(Broken { line, column }), "{set}");
            assert!(!may_begin(&text));
            ran += 1;
        }
    }
    assert_eq!(ran, 2 * (10 + 16));
}

/// Says that any byte but the four digits is at fault where the set stands.
#[test]
fn every_byte_as_a_set() {
    let mut right = Vec::new();
    let mut ran = 0;
    for byte in 0..=255 {
        let mut text = text_with_set(Form::One, "4");
        text[4] = byte;
        match read(Form::One, &text) {
            Ok((record, _)) => right.push((byte, record.set)),
            // A set with shorter keys.
            Err(Broken { line: 2, column }) => assert_eq!((byte, column), (b'2', 29)),
            Err(broken) => assert_eq!((broken.line, broken.column), (1, 5)),
        }
        ran += 1;
    }
    assert_eq!(right, [(b'1', 1), (b'3', 3), (b'4', 4)]);
    assert_eq!(ran, 256);
}

/// Says that records of an unknown set are broken in their set line, wherever they are handed over.
#[test]
fn unknown_sets_of_records() {
    let right = right_record(4, &[1; 16], &[2; 16], &[], b"text").expect("a fitting message");
    let mut ran = 0;
    for set in UNKNOWN {
        let record = Record {
            set,
            ..right.clone()
        };
        for (form, line) in [(Form::One, 1), (Form::Two, 2)] {
            assert_eq!(first_broken_line(form, &record), Some(line));
            assert_eq!(first_broken_line(form, &right), None);
            let broken = Broken { line, column: 0 };
            assert_eq!(verdict(form, &record), Verdict::Unread(broken));
            let mut out = vec![9; 2_000];
            let refused = write(form, &record, &mut out).expect_err("a refusal");
            assert_eq!(refused.number(), 10);
            assert!(out.iter().all(|byte| *byte == 9));
            ran += 1;
        }
    }
    assert_eq!(ran, 23 * 2);
}

/// Says that right records of each set are written, read, moved and judged equal, and differ under another set.
#[test]
fn records_of_each_set() {
    let mut random = Random::new(SEED + 10);
    let (mut ran, mut judged) = (0, 0);
    for n in &ALL {
        for length in LENGTHS {
            let m = message(&mut random, n, length, 65 - length);
            let record = right_record(n.set, &m.key, &m.nonce, &m.ad, &m.text);
            let record = record.expect("a fitting message");
            assert_eq!(record.cipher.held(), m.cipher);
            assert_eq!((record.tag.held(), record.rounds), (&m.tag[..], m.rounds));
            let [one, two] = [Form::One, Form::Two].map(|form| {
                let text = lines_of(form, &record).expect("a right record");
                assert_eq!(read(form, &text), Ok((record.clone(), text.len())));
                assert_eq!(judge_all(&text), b"record=1\nverdict=equal\nfield=none\n");
                text
            });
            let mut out = [0; 2_000];
            let moved = forward(&one, &mut out).expect("a right text");
            assert_eq!(out[..moved.written], two);
            let moved = back(&two, &mut out).expect("a right text");
            assert_eq!(out[..moved.written], one);
            ran += 1;
            for other in set_numbers().filter(|set| *set != n.set) {
                let set = other;
                let found = verdict(
                    Form::One,
                    &Record {
                        set,
                        ..record.clone()
                    },
                );
                assert_ne!(found, Verdict::Equal);
                let unread = matches!(found, Verdict::Unread(_));
                assert_eq!(unread, n.set == 2 || other == 2);
                judged += 1;
            }
        }
    }
    assert_eq!((ran, judged), (4 * 20, 4 * 20 * 3));
}

/// Gives an entry file of one message.
fn entry_of(m: &Message) -> String {
    let hex = |bytes: &[u8]| -> String { bytes.iter().map(|b| format!("{b:02X}")).collect() };
    format!(
        "Count = 1\nKey = {}\nNonce = {}\nPT = {}\nAD = {}\nCT = {}{}\n\n",
        hex(&m.key),
        hex(&m.nonce),
        hex(&m.text),
        hex(&m.ad),
        hex(&m.cipher),
        hex(&m.tag)
    )
}

/// Says that entries of each set become records that are judged equal, and come back the same.
#[test]
fn entry_files_of_each_set() {
    let mut random = Random::new(SEED + 11);
    let mut ran = 0;
    for n in &ALL {
        for length in LENGTHS {
            let m = message(&mut random, n, length, 65 - length);
            let entry = entry_of(&m);
            let mut out = vec![0; 2_000];
            let done = import(n.set, entry.as_bytes(), &mut out).expect("a right entry");
            out.truncate(done.written);
            let front = format!("set={}\nkey=", n.set);
            assert!(out.starts_with(front.as_bytes()));
            assert!(out.ends_with(format!("\nrounds={}\n", m.rounds).as_bytes()));
            assert_eq!(judge_all(&out), b"record=1\nverdict=equal\nfield=none\n");
            let mut again = vec![0; 2_000];
            let done = export(&out, &mut again).expect("a right record");
            assert_eq!(again[..done.written], *entry.as_bytes());
            ran += 1;
        }
    }
    assert_eq!(ran, 4 * 20);
}

/// Says that an unknown set of an entry file is 1, before a broken text and a short room.
#[test]
fn unknown_sets_of_entry_files() {
    let m = message(&mut Random::new(SEED + 12), &ALL[3], 9, 9);
    let entry = entry_of(&m);
    let mut ran = 0;
    for set in UNKNOWN {
        for text in ["", "x", "\n", &entry] {
            for room in [0, 1, 2_000] {
                let mut out = vec![7; room];
                let given = import(set, text.as_bytes(), &mut out);
                assert_eq!(given, Err(Refused::Set));
                assert_eq!(out, vec![7; room]);
                ran += 1;
            }
            let printed = import_all(set, text.as_bytes());
            assert_eq!(printed.said, "bench: refused: answer=1\n");
        }
    }
    assert_eq!((ran, Refused::Set.number()), (23 * 4 * 3, 1));
}

/// Says that logs have no starts but those that W12 names.
#[test]
fn logs_have_no_new_starts() {
    let mut ran = 0;
    for digit in (b'0'..=b'9').filter(|digit| ![b'1', b'2'].contains(digit)) {
        for length in [12, 16] {
            let data = "00".repeat(2 * length);
            let call = format!("call=start{}\n", char::from(digit));
            let log = format!("{call}data={data}\nanswer=0\nout=\nrounds=12\n");
            let Replay { entry, verdict } = replay(log.as_bytes());
            let broken = Broken {
                line: 1,
                column: 11,
            };
            assert_eq!(entry, 1);
            assert_eq!(verdict, second::replay::Verdict::Unread(broken));
            ran += 1;
        }
    }
    assert_eq!(ran, 8 * 2);
}

/// Says that made records take the sets in turn, and that each set gets each kind of chip.
#[test]
fn made_records_of_all_sets() {
    let mut random = Random::new(SEED + 13);
    let mut chips = [[0; 2]; 4];
    for index in 0..160 {
        let record = vectors::record_in(Form::Two, &mut random, index);
        assert_eq!(record.set, index % 4 + 1);
        let of_set = &mut chips[record.set as usize - 1];
        of_set[0] += usize::from(record.chip == 0);
        of_set[1] += usize::from(record.chip == 65_535);
        assert_eq!(verdict(Form::Two, &record), Verdict::Equal);
    }
    let enough = chips.iter().flatten().filter(|count| **count >= 10);
    assert_eq!(enough.count(), 4 * 2);
}

/// Gives the digest of the bytes known as FNV-1a.
fn digest(bytes: &[u8]) -> u64 {
    bytes.iter().fold(0xcbf2_9ce4_8422_2325, |sum, byte| {
        (sum ^ u64::from(*byte)).wrapping_mul(0x0000_0100_0000_01b3)
    })
}

/// Gives `count` bytes that depend on all three numbers.
fn patterned(part: usize, turn: usize, count: usize) -> Vec<u8> {
    let byte = |i: usize| (part * 89 + turn * 57 + i * 37 + i / 7) as u8;
    (0..count).map(byte).collect()
}

/// Gives all that sealing answers and gives out in the set, for data and text of 0 to 40 bytes.
fn all_sealed(number: u64, length: usize) -> Vec<u8> {
    let mut all = Vec::new();
    for turn in 0..41 * 41 {
        let (key, nonce) = (patterned(1, turn, length), patterned(2, turn, length));
        let (ad, text) = (patterned(3, turn, turn / 41), patterned(4, turn, turn % 41));
        let (mut out, mut tag) = (vec![0; text.len()], vec![0; length]);
        let answer = calls::seal(number, &key, &nonce, &ad, &text, &mut out, &mut tag);
        all.extend(answer.one_number().to_be_bytes());
        all.extend(out);
        all.extend(tag);
    }
    all
}

/// Gives all that the calls of sealing streams answer and give out in the set, the words of their states too.
fn all_streamed(number: u64, length: usize) -> Vec<u8> {
    let mut all = Vec::new();
    for turn in 0..41 {
        let (key, nonce) = (patterned(1, turn, length), patterned(2, turn, length));
        let mut note = |(answer, rounds, next): Given| {
            all.extend([answer, rounds, next.place].map(u64::to_be_bytes).concat());
            all.extend(next.words.map(u64::to_be_bytes).concat());
            next
        };
        let mut s = note(start(Sealing, number, 1_048_576, &key, &nonce));
        for piece in 0..turn % 5 {
            s = note(ad(s, &patterned(3, turn, piece * 7 % 19)));
        }
        let mut gone = Vec::new();
        for piece in 0..turn % 7 {
            let text = patterned(4, turn, piece * 11 % 37);
            let mut out = vec![0; text.len()];
            s = note(seal(s, &text, &mut out));
            gone.extend(out);
        }
        let mut tag = vec![0; length];
        note(finish_sealing(s, &mut tag));
        all.extend([gone, tag].concat());
    }
    all
}

/// Gives the digest of a hundred made entries of the set.
fn digest_of_entries(number: u64) -> u64 {
    let set = set_of(number).expect("a known set");
    let mut random = Random::new(7);
    let written = |count| second::entry::written(count, &vectors::short_record(&mut random, set));
    digest(&(1..=100).flat_map(written).collect::<Vec<u8>>())
}

/// Says that sets 1 and 2 give what they gave: the digests were taken of the program before W5.
#[test]
fn sets_1_and_2_give_what_they_gave() {
    let cases = [
        (1, 16, 0x14fa2d32e805b8a2, 0xd5c196dee905368c),
        (2, 12, 0x40708e0a7614c858, 0x26e4ef8b97563621),
    ];
    let mut ran = 0;
    for (number, length, of_sealed, of_streamed) in cases {
        let (sealed, streamed) = (all_sealed(number, length), all_streamed(number, length));
        // An answer of 8 bytes, a tag and 20 bytes of text on average, for each of 41 × 41 messages.
        assert_eq!(sealed.len(), 41 * 41 * (8 + length + 20));
        assert!(streamed.len() > 20_000);
        assert_eq!(
            (digest(&sealed), digest(&streamed)),
            (of_sealed, of_streamed)
        );
        ran += 1;
    }
    assert_eq!(ran, 2);
    assert_eq!(digest_of_entries(1), 0xeaeb499f857372e4);
    assert_eq!(digest_of_entries(2), 0x0eca1a3101fb4782);
    // The digests notice another set.
    assert_ne!(digest(&all_sealed(3, 16)), cases[0].2);
    assert_ne!(digest(&all_streamed(3, 16)), cases[0].3);
}

/// Says that sets 1 and 2 give what they gave, letter for letter as the program printed it before W5.
#[test]
fn records_printed_before() {
    let records = "set=1\n\
        key=000102030405060708090a0b0c0d0e0f\n\
        nonce=101112131415161718191a1b1c1d1e1f\n\
        ad=202122232425262728292a\n\
        text=303132333435363738393a3b3c3d3e3f40\n\
        cipher=8242bc00406bc969bc4356efd7f874bb23\n\
        tag=06db8586a2d997013b9db9ecde29f104\n\
        rounds=48\n\
        set=2\n\
        key=000102030405060708090a0b\n\
        nonce=101112131415161718191a1b\n\
        ad=202122232425262728292a\n\
        text=303132333435363738393a3b3c3d3e3f40\n\
        cipher=303bd9c26a8fd035a982b2790e8d61ad97\n\
        tag=787de034efcfc53e3eef6b6f\n\
        rounds=40\n\
        set=1\n\
        key=000102030405060708090a0b0c0d0e0f\n\
        nonce=101112131415161718191a1b1c1d1e1f\n\
        ad=\ntext=\ncipher=\n\
        tag=ba5829946dbea184619a2f9aa4f28e14\n\
        rounds=24\n\
        set=2\n\
        key=000102030405060708090a0b\n\
        nonce=101112131415161718191a1b\n\
        ad=\ntext=\ncipher=\n\
        tag=0e87aae4e9bb6249b525b394\n\
        rounds=24\n";
    let report = String::from_utf8(judge_all(records.as_bytes())).expect("plain text");
    assert_eq!(report.matches("verdict=equal\nfield=none\n").count(), 4);
    // Two of them are no records of the later edition: the key's length fits, the rest doesn't.
    let report = judge_all(records.replace("set=1", "set=3").as_bytes());
    let report = String::from_utf8(report).expect("plain text");
    assert_eq!(report.matches("verdict=equal\n").count(), 2);
    assert_eq!(report.matches("verdict=differs\n").count(), 2);
}
