//! Every answer of the whole-message calls, each fault alone, in pairs and in all mixtures.

use second::calls::{open, seal, Answer};
use second::cipher::{open_published, seal_published, set_numbers, set_of, SETS};
use second::formula::rounds_by_formula;

/// The faults that a caller can bring; data and text past their limits are two.
#[derive(Clone, Copy, Debug, PartialEq)]
enum Fault {
    Set,
    Key,
    Nonce,
    Tag,
    Data,
    Text,
    Output,
    Mismatch,
}

use Fault::*;

const ALL: [Fault; 8] = [Set, Key, Nonce, Tag, Data, Text, Output, Mismatch];

/// Everything handed to a call; `body` is the text or the ciphertext.
#[derive(Clone)]
struct Parts {
    set: u64,
    key: Vec<u8>,
    nonce: Vec<u8>,
    tag: Vec<u8>,
    ad: Vec<u8>,
    body: Vec<u8>,
    out: Vec<u8>,
}

/// Gives the answer number that belongs to a fault.
fn answer_of(fault: Fault) -> u64 {
    match fault {
        Set => 1,
        Key => 2,
        Nonce => 3,
        Tag => 4,
        Data | Text => 5,
        Output => 6,
        Mismatch => 9,
    }
}

/// Gives the number of ways in which a fault is tried.
fn ways(fault: Fault) -> usize {
    match fault {
        Set | Key | Nonce | Tag => 5,
        Data | Text | Output | Mismatch => 2,
    }
}

/// Gives fitting parts for opening in the given set; sealing can use them too.
fn fitting(number: u64) -> Parts {
    let set = set_of(number).expect("a known set");
    let key: Vec<u8> = (0..set.key as u8).collect();
    let nonce: Vec<u8> = (100..100 + set.key as u8).collect();
    let ad = b"associated data".to_vec();
    let sealed = seal_published(set, &key, &nonce, &ad, b"some text of two dozen b");
    Parts {
        set: number,
        key,
        nonce,
        tag: sealed.tag,
        ad,
        body: sealed.cipher,
        out: Vec::new(),
    }
}

/// Changes the length of a key, nonce or tag in the given way.
fn other_length(bytes: &mut Vec<u8>, way: usize) {
    let right = bytes.len();
    let length = [right - 1, right + 1, 0, 28 - right, 40][way];
    bytes.resize(length, 0x5a);
}

/// Puts a fault into the parts in the given way (all but the output, which comes last).
fn put(parts: &mut Parts, fault: Fault, way: usize) {
    match fault {
        Set => parts.set = [0, 5, 16, 1 << 32 | 3, u64::MAX][way],
        Key => other_length(&mut parts.key, way),
        Nonce => other_length(&mut parts.nonce, way),
        Tag => other_length(&mut parts.tag, way),
        Data => parts.ad.resize(65_537 + way * 8, 1),
        Text => parts.body.resize(1_048_577 + way * 8, 1),
        Mismatch => {
            let place = (parts.tag.len() - 1) * way;
            parts.tag[place] ^= 0x40;
        }
        Output => {}
    }
}

/// Gives the parts of a set with the given faults, each in its way.
fn faulty(number: u64, faults: &[(Fault, usize)]) -> Parts {
    let mut parts = fitting(number);
    // The mismatch goes first, while the tag still has its length.
    for (fault, way) in faults.iter().filter(|(fault, _)| *fault == Mismatch) {
        put(&mut parts, *fault, *way);
    }
    for (fault, way) in faults.iter().filter(|(fault, _)| *fault != Mismatch) {
        put(&mut parts, *fault, *way);
    }
    let length = match faults.iter().find(|(fault, _)| *fault == Output) {
        None => parts.body.len() + 3,
        Some((_, 0)) => parts.body.len() - 1,
        Some(_) => 0,
    };
    parts.out = (0..length).map(|i| (i % 253) as u8 | 1).collect();
    parts
}

/// Gives the answer that must come: the least number of the faults that count, or 0.
fn wanted(faults: &[(Fault, usize)], opening: bool) -> u64 {
    let counting = faults
        .iter()
        .filter(|(fault, _)| opening || *fault != Mismatch);
    counting
        .map(|(fault, _)| answer_of(*fault))
        .min()
        .unwrap_or(0)
}

/// Calls sealing on the faulty parts and checks the answer and every lent byte.
fn check_seal(number: u64, faults: &[(Fault, usize)]) {
    let parts = faulty(number, faults);
    let mut out = parts.out.clone();
    let mut tag = parts.tag.clone();
    let answer = seal(
        parts.set,
        &parts.key,
        &parts.nonce,
        &parts.ad,
        &parts.body,
        &mut out,
        &mut tag,
    );
    assert_eq!(answer.number, wanted(faults, false), "sealing {faults:?}");
    if answer.number > 0 {
        assert_eq!(answer.rounds, 0);
        assert_eq!(answer.one_number(), answer.number);
        assert!(out == parts.out && tag == parts.tag, "sealing {faults:?}");
        return;
    }
    let set = set_of(number).expect("a known set");
    let sealed = seal_published(set, &parts.key, &parts.nonce, &parts.ad, &parts.body);
    let length = parts.body.len();
    assert_eq!(out[..length], sealed.cipher);
    assert_eq!(out[length..], parts.out[length..]);
    assert_eq!(tag, sealed.tag);
    assert_eq!(
        answer.rounds,
        rounds_by_formula(set, parts.ad.len(), length)
    );
}

/// Calls opening on the faulty parts and checks the answer and every lent byte.
fn check_open(number: u64, faults: &[(Fault, usize)]) {
    let parts = faulty(number, faults);
    let mut out = parts.out.clone();
    let answer = open(
        parts.set,
        &parts.key,
        &parts.nonce,
        &parts.ad,
        &parts.body,
        &parts.tag,
        &mut out,
    );
    assert_eq!(answer.number, wanted(faults, true), "opening {faults:?}");
    if answer.number > 0 && answer.number < 9 {
        assert_eq!(answer.rounds, 0);
        assert_eq!(answer.one_number(), answer.number);
        assert!(out == parts.out, "opening {faults:?}");
        return;
    }
    let set = set_of(number).expect("a known set");
    let opened = open_published(
        set,
        &parts.key,
        &parts.nonce,
        &parts.ad,
        &parts.body,
        &parts.tag,
    );
    let length = parts.body.len();
    let text = opened.text.unwrap_or(vec![0; length]);
    assert_eq!(out[..length], text);
    assert_eq!(out[length..], parts.out[length..]);
    let rounds = rounds_by_formula(set, parts.ad.len(), length);
    let number = answer.number;
    assert_eq!(answer, Answer { number, rounds });
}

/// Says that without a fault both calls are done, and each fault alone gives its own answer.
#[test]
fn each_fault_alone() {
    let mut ran = 0;
    for number in set_numbers() {
        check_seal(number, &[]);
        check_open(number, &[]);
        ran += 2;
        for fault in ALL {
            for way in 0..ways(fault) {
                check_seal(number, &[(fault, way)]);
                check_open(number, &[(fault, way)]);
                ran += 2;
            }
        }
    }
    assert_eq!(ran, SETS.len() * 2 * (1 + 4 * 5 + 4 * 2));
}

/// Says that of each pair of faults, in all their ways, the earlier test is answered.
#[test]
fn each_pair_of_faults() {
    let (mut pairs, mut ran) = (0, 0);
    for number in set_numbers() {
        for (place, first) in ALL.into_iter().enumerate() {
            for second in ALL.into_iter().skip(place + 1) {
                pairs += 1;
                for way in 0..ways(first) * ways(second) {
                    let faults = [(first, way / ways(second)), (second, way % ways(second))];
                    check_seal(number, &faults);
                    check_open(number, &faults);
                    ran += 2;
                }
            }
        }
    }
    // 5 × 5 ways in 6 pairs, 5 × 2 in 16 pairs, 2 × 2 in 6 pairs.
    let ways = 6 * 25 + 16 * 10 + 6 * 4;
    assert_eq!((pairs, ran), (SETS.len() * 28, SETS.len() * 2 * ways));
}

/// Says that every mixture of faults is answered with the earliest test that holds.
#[test]
fn every_mixture_of_faults() {
    let mut ran = 0;
    for number in set_numbers() {
        for mixture in 0..256 {
            let chosen = ALL
                .iter()
                .enumerate()
                .filter(|(i, _)| mixture >> i & 1 == 1);
            let faults: Vec<(Fault, usize)> = chosen.map(|(_, fault)| (*fault, 0)).collect();
            check_seal(number, &faults);
            check_open(number, &faults);
            ran += 2;
        }
    }
    assert_eq!(ran, SETS.len() * 2 * 256);
}

/// Says that the parts of one set under another set's number are refused with 2, or with 9 if their lengths fit.
#[test]
fn the_parts_of_another_set() {
    let (mut lengths, mut tags) = (0, 0);
    for own in &SETS {
        for other in SETS.iter().filter(|other| other.number != own.number) {
            let parts = faulty(own.number, &[]);
            let mut out = parts.out.clone();
            let given = open(
                other.number,
                &parts.key,
                &parts.nonce,
                &parts.ad,
                &parts.body,
                &parts.tag,
                &mut out,
            );
            if own.key == other.key {
                assert_eq!(given.number, 9);
                tags += 1;
                continue;
            }
            let (number, rounds) = (2, 0);
            assert_eq!(given, Answer { number, rounds });
            let mut tag = parts.tag.clone();
            let given = seal(
                other.number,
                &parts.key,
                &parts.nonce,
                &parts.ad,
                &parts.body,
                &mut out,
                &mut tag,
            );
            assert_eq!(given, Answer { number, rounds });
            assert!(out == parts.out && tag == parts.tag);
            lengths += 1;
        }
    }
    // Set 2 beside each of the three others, either way; and those three beside one another.
    assert_eq!((lengths, tags), (6, 6));
}

/// Says that an empty message needs no output byte and touches none.
#[test]
fn empty_message_and_empty_output() {
    let mut ran = 0;
    for number in set_numbers() {
        let set = set_of(number).expect("a known set");
        let key = vec![3; set.key];
        for spare in [0, 5] {
            let mut out = vec![7; spare];
            let mut tag = vec![0; set.key];
            let done = Answer {
                number: 0,
                rounds: 24,
            };
            assert_eq!(seal(number, &key, &key, &[], &[], &mut out, &mut tag), done);
            assert_eq!(open(number, &key, &key, &[], &[], &tag, &mut out), done);
            tag[0] ^= 1;
            let refused = Answer {
                number: 9,
                rounds: 24,
            };
            assert_eq!(open(number, &key, &key, &[], &[], &tag, &mut out), refused);
            assert_eq!(out, vec![7; spare]);
            ran += 1;
        }
    }
    assert_eq!(ran, SETS.len() * 2);
}
