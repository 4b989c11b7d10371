//! The first difference of a wanted and a found text: its place, and the part of the found text.

use second::judge::{first_difference, Difference};

/// Gives three texts of the given length: bytes counting up, zeros, and highest bytes.
fn texts(length: usize) -> [Vec<u8>; 3] {
    let counting = (0..length).map(|place| (place % 251) as u8).collect();
    [counting, vec![0; length], vec![0xff; length]]
}

/// Gives the text between two other bytes, so that even an empty one has an address of its own.
fn between(text: &[u8]) -> Vec<u8> {
    [b"{", text, b"}"].concat()
}

/// Checks what is told of a text and another copy of it.
fn check_same(text: &[u8]) {
    let around = between(text);
    let found = &around[1..1 + text.len()];
    let Difference::Same { part } = first_difference(text, found) else {
        panic!("not called the same: {text:?}");
    };
    assert!(part.is_empty());
    assert_eq!(part.as_ptr(), around[1 + text.len()..].as_ptr());
}

/// Checks what is told of two texts that begin with `front` and then go on differently.
fn check_parting(front: &[u8], ours: &[u8], theirs: &[u8]) {
    assert_ne!(ours.first(), theirs.first(), "they must part here");
    let wanted = [front, ours].concat();
    let around = between(&[front, theirs].concat());
    let found = &around[1..around.len() - 1];
    let Difference::At { place, part } = first_difference(&wanted, found) else {
        panic!("called the same: {wanted:?} and {found:?}");
    };
    assert_eq!(place, front.len(), "{wanted:?} and {found:?}");
    assert_eq!(part, theirs);
    assert_eq!(part.as_ptr(), around[1 + front.len()..].as_ptr());
}

/// Gives the difference at the given place with the given part.
fn at(place: usize, part: &[u8]) -> Difference<'_> {
    Difference::At { place, part }
}

/// Says what is told in cases small enough to be read off.
#[test]
fn cases_written_down() {
    let same = Difference::Same { part: b"" };
    let cases: [(&[u8], &[u8], Difference); 17] = [
        (b"", b"", same),
        (b"abc", b"abc", same),
        (b"abc", b"xbc", at(0, b"xbc")),
        (b"abc", b"axc", at(1, b"xc")),
        (b"abc", b"abx", at(2, b"x")),
        (b"abc", b"xyz", at(0, b"xyz")),
        (b"abc", b"", at(0, b"")),
        (b"abc", b"ab", at(2, b"")),
        (b"", b"abc", at(0, b"abc")),
        (b"ab", b"abc", at(2, b"c")),
        (b"ab", b"abcde", at(2, b"cde")),
        (b"abcd", b"ax", at(1, b"x")),
        (b"ab", b"axcd", at(1, b"xcd")),
        (b"\0", b"", at(0, b"")),
        (b"", b"\0", at(0, b"\0")),
        (b"a\0\0", b"a", at(1, b"")),
        (b"a", b"a\0\0", at(1, b"\0\0")),
    ];
    let mut ran = 0;
    for (wanted, found, told) in cases {
        assert_eq!(first_difference(wanted, found), told);
        ran += 1;
    }
    assert_eq!(ran, 17);
}

/// Says that a text and its copy are the same, and so is a text beside itself.
#[test]
fn the_same_texts() {
    let mut ran = 0;
    for length in (0..=40).chain([255, 256, 1_000]) {
        for text in texts(length) {
            check_same(&text);
            let Difference::Same { part } = first_difference(&text, &text) else {
                panic!("a text differs from itself");
            };
            assert_eq!(part.as_ptr_range(), text[length..].as_ptr_range());
            ran += 1;
        }
    }
    assert_eq!(ran, 44 * 3);
}

/// Says that one changed byte, whatever it becomes, is told at its place.
#[test]
fn one_changed_byte() {
    let mut ran = 0;
    for length in 1..=40 {
        for text in texts(length) {
            for place in 0..length {
                for change in 1..=255 {
                    let mut changed = text[place..].to_vec();
                    changed[0] ^= change;
                    check_parting(&text[..place], &text[place..], &changed);
                    ran += 1;
                }
            }
        }
    }
    assert_eq!(ran, 40 * 41 / 2 * 3 * 255);
}

/// Says that of any choice of changed bytes the first is told.
#[test]
fn the_first_of_several_changes() {
    let mut ran = 0;
    for text in texts(10) {
        for choice in 1_u32..1 << text.len() {
            let mut changed = text.clone();
            for (place, byte) in changed.iter_mut().enumerate() {
                *byte ^= (choice >> place & 1) as u8;
            }
            let first = choice.trailing_zeros() as usize;
            check_parting(&text[..first], &text[first..], &changed[first..]);
            ran += 1;
        }
    }
    assert_eq!(ran, 3 * 1_023);
}

/// Says that a found text cut at any length differs at its end, where its empty part lies.
#[test]
fn cut_texts() {
    let mut ran = 0;
    for length in 1..=40 {
        for text in texts(length) {
            for cut in 0..length {
                check_parting(&text[..cut], &text[cut..], b"");
                ran += 1;
            }
        }
    }
    assert_eq!(ran, 40 * 41 / 2 * 3);
}

/// Says that a found text that goes on, by one byte or many, differs where the wanted one ends.
#[test]
fn lengthened_texts() {
    let mut ran = 0;
    for length in 0..=40 {
        for text in texts(length) {
            for count in 1..=60 {
                for more in texts(count) {
                    check_parting(&text, b"", &more);
                    ran += 1;
                }
            }
        }
    }
    assert_eq!(ran, 41 * 3 * 60 * 3);
}

/// Says that of a changed byte and an end in one of the texts the earlier is told.
#[test]
fn a_change_and_an_end() {
    let mut ran = 0;
    for text in texts(40) {
        for place in 0..40 {
            let mut changed = text.clone();
            changed[place] ^= 0x10;
            for cut in 0..40 {
                let first = place.min(cut);
                let (front, whole) = text.split_at(first);
                check_parting(front, whole, &changed[first..cut]);
                check_parting(front, &changed[first..], &text[first..cut]);
                check_parting(front, &text[first..cut], &changed[first..]);
                check_parting(front, &changed[first..cut], whole);
                ran += 4;
            }
        }
    }
    assert_eq!(ran, 3 * 40 * 40 * 4);
}

/// Says that differences far into long texts are told too.
#[test]
fn long_texts() {
    let mut ran = 0;
    for text in texts(1_000) {
        for place in [63, 64, 127, 128, 255, 256, 257, 511, 512, 998, 999] {
            let (front, rest) = text.split_at(place);
            let changed = [&[rest[0] ^ 1], &rest[1..]].concat();
            check_parting(front, rest, &changed);
            check_parting(front, rest, b"");
            check_parting(front, b"", rest);
            ran += 3;
        }
    }
    assert_eq!(ran, 3 * 11 * 3);
}

/// Gives every text of at most four bytes that has no other bytes than three.
fn short_texts() -> Vec<Vec<u8>> {
    let mut all = vec![Vec::new()];
    let mut grown = 0;
    while all[grown].len() < 4 {
        for byte in [0, 1, 0xff] {
            let text = [&all[grown][..], &[byte]].concat();
            all.push(text);
        }
        grown += 1;
    }
    all
}

/// Says what is told of any two short texts, found by counting their common beginnings.
#[test]
fn every_pair_of_short_texts() {
    let (mut same, mut parted) = (0, 0);
    let all = short_texts();
    for wanted in &all {
        for found in &all {
            if wanted == found {
                check_same(wanted);
                same += 1;
            } else {
                let begins = |end: &usize| found.starts_with(&wanted[..*end]);
                let common = (1..=wanted.len()).filter(begins).count();
                check_parting(&wanted[..common], &wanted[common..], &found[common..]);
                parted += 1;
            }
        }
    }
    assert_eq!((same, parted), (121, 121 * 120));
}

/// Says that the part belongs to the found text alone: the wanted one may be gone.
#[test]
fn the_part_outlives_the_wanted_text() {
    let found = *b"abxy";
    let told = {
        let wanted = b"abc".to_vec();
        first_difference(&wanted, &found)
    };
    assert_eq!(told, at(2, b"xy"));
}
