//! What the program `walks` is held to, computed again by the second program.

use second::cipher::{Set, SETS};
use second::stream::{
    ad, check, finish_checking, finish_opening, open, start, Direction, LARGEST_LIMIT,
};
use second::{calls::seal, hex::written};
use Direction::{Checking, Opening};

/// What the gate compares the program's output with.
const EXPECTED: &str = include_str!("../../../crates/walks/stdout");

/// The program, which has the tags of its orders.
const PROGRAM: &str = include_str!("../../../crates/walks/src/main.rt");

/// The order: its data, and the byte that its ciphertext is made of.
const DATA: &[u8] = b"valve 12";
const BYTE: u8 = 165;
const LENGTH: usize = 1 << 20;

/// The calls before a finish: the data, and the pieces of each walk.
const CHECKED: usize = 1 + 16;
const OPENED: usize = 1 + 1_049;

/// So many bytes counting up from one.
fn counting(from: u8, length: usize) -> Vec<u8> {
    (from..).take(length).collect()
}

/// What an opening stream hands out for the whole ciphertext in one piece, and the answers and rounds of both finishes for a tag.
fn walks(set: &Set, nonce: &[u8], tag: &[u8]) -> (Vec<u8>, [(u64, u64); 2]) {
    let cipher = vec![BYTE; LENGTH];
    let mut plain = vec![0; LENGTH];
    let key = counting(0, set.key);
    let ends = [Checking, Opening].map(|direction| {
        let begun = start(direction, set.number, LARGEST_LIMIT, &key, nonce);
        let told = ad(begun.2, DATA);
        let (text, end) = match direction {
            Checking => {
                let text = check(told.2, &cipher);
                (text, finish_checking(text.2, tag))
            }
            _ => {
                let text = open(told.2, &cipher, &mut plain);
                (text, finish_opening(text.2, tag))
            }
        };
        assert_eq!([begun.0, told.0, text.0], [0; 3]);
        (end.0, begun.1 + told.1 + text.1 + end.1)
    });
    (plain, ends)
}

/// The tag that a set's plaintext is sealed with, whose ciphertext is the order's.
fn tag_of(set: &Set, plain: &[u8]) -> Vec<u8> {
    let (key, nonce) = (counting(0, set.key), counting(16, set.key));
    let (mut cipher, mut tag) = (vec![0; LENGTH], vec![0; set.key]);
    let answer = seal(set.number, &key, &nonce, DATA, plain, &mut cipher, &mut tag);
    assert_eq!(answer.number, 0);
    assert!(cipher.iter().all(|byte| *byte == BYTE));
    tag
}

/// A line of the program.
fn line(set: &Set, nonce: &[u8], tag: &[u8]) -> String {
    let (plain, [checked, opened]) = walks(set, nonce, tag);
    let mixed = |mixture: u64, byte: &u8| mixture.rotate_left(7) ^ u64::from(*byte);
    let handed = plain.iter().fold(0, mixed);
    format!(
        "set={} checked={} calls={CHECKED} rounds={} opened={} calls={OPENED} rounds={} handed={handed:016x}\n",
        set.number, checked.0, checked.1, opened.0, opened.1
    )
}

/// The two lines of a set: under its nonce, and under one that begins with another byte. The tag has to stand in the program.
fn lines(set: &Set) -> String {
    let nonce = counting(16, set.key);
    let tag = tag_of(set, &walks(set, &nonce, &[]).0);
    let digits = String::from_utf8(written(&tag)).expect("digits");
    let pairs = digits.as_bytes().chunks(2);
    let spelled: String = pairs
        .map(|pair| format!("\\x{}", String::from_utf8_lossy(pair)))
        .collect();
    assert_eq!(PROGRAM.matches(&format!("b\"{spelled}\"")).count(), 1);
    let mut other = nonce.clone();
    other[0] = 99;
    let said = line(set, &nonce, &tag) + &line(set, &other, &tag);
    assert_eq!(
        said.matches("checked=0").count() + said.matches("opened=9").count(),
        2
    );
    said
}

#[test]
fn both_walks_are_the_second_programs() {
    let all: Vec<String> = SETS.iter().map(lines).collect();
    assert_eq!(all.len(), 4);
    assert_eq!(EXPECTED, all.concat());
}
