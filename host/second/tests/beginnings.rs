//! Whether bytes may begin a record: written down by hand, by a search, and beside reading.

mod forms;

use forms::{
    each_change, each_short_value, in_form_2, place_of, text_of, Forms, FORMS, RECORDS, SET_2,
};
use second::cipher::SETS;
use second::make::lines_of;
use second::random::Random;
use second::record::{may_begin, may_begin_in, read, Form};
use second::vectors;

/// Gives how many bytes at the front of the text may begin a record of the form, told from reading it once.
fn good_by_reading(form: Form, text: &[u8]) -> usize {
    match read(form, text) {
        Ok((_, taken)) => taken,
        Err(broken) => place_of(text, broken),
    }
}

/// Checks what is said of a text by a search, and of it and its last good beginning by reading, in each form and in either.
fn check(forms: &Forms, text: &[u8]) {
    let shown = String::from_utf8_lossy(text);
    let mut either = false;
    for form in FORMS {
        let said = may_begin_in(form, text);
        assert_eq!(said, forms.record_from(form, text).is_some(), "{shown}");
        let good = good_by_reading(form, text);
        assert_eq!(said, good == text.len(), "{shown}");
        assert!(may_begin_in(form, &text[..good]), "{shown}");
        if good < text.len() {
            assert!(!may_begin_in(form, &text[..=good]), "{shown}");
        }
        either |= said;
    }
    assert_eq!(may_begin(text), either, "{shown}");
}

/// Checks what is said of each beginning of the text, and gives how many it asked of.
fn check_beginnings(text: &[u8]) -> usize {
    let [one, two] = FORMS.map(|form| good_by_reading(form, text));
    let mut ran = 0;
    for end in 0..=text.len() {
        let shown = String::from_utf8_lossy(&text[..end]);
        assert_eq!(may_begin(&text[..end]), end <= one.max(two), "{shown}");
        ran += 1;
    }
    ran
}

/// Says what is told in cases small enough to be read off.
#[test]
fn cases_written_down() {
    let good: [&[u8]; 24] = [
        b"",
        b"s",
        b"se",
        b"set",
        b"set=",
        b"set=1",
        b"set=2",
        b"set=3",
        b"set=4",
        b"set=1\n",
        b"set=2\n",
        b"set=3\nkey=000102030405060708090a0b0c0d0e0f\n",
        b"set=4\nkey=000102030405060708090a0b0c0d0e0f\n",
        b"set=1\nk",
        b"set=1\nkey=",
        b"set=1\nkey=0",
        b"set=1\nkey=00",
        b"set=2\nkey=000102030405060708090a0b",
        b"set=2\nkey=000102030405060708090a0b\n",
        b"set=2\nkey=000102030405060708090a0b\nnon",
        b"set=1\nkey=000102030405060708090a0b",
        b"set=1\nkey=000102030405060708090a0b0",
        b"set=1\nkey=000102030405060708090a0b0c0d0e0f",
        b"set=1\nkey=000102030405060708090a0b0c0d0e0f\n",
    ];
    let bad: [&[u8]; 26] = [
        b"\n",
        b" ",
        b"\xff",
        b"S",
        b"st",
        b"key=",
        b"set\n",
        b"set=\n",
        b"set=0",
        b"set=5",
        b"set=11",
        b"set=33",
        b"set=41",
        b"set=3\nkey=000102030405060708090a0b\n",
        b"set=4\nkey=000102030405060708090a0b0c0d0e0f0",
        b"set=1 ",
        b"set=1\r",
        b"set=1\n\n",
        b"set=1\nset",
        b"set=1\nkey\n",
        b"set=1\nkey=0\n",
        b"set=1\nkey=00\n",
        b"set=1\nkey=0A",
        b"set=1\nkey=000102030405060708090a0b\n",
        b"set=2\nkey=000102030405060708090a0b0",
        b"set=1\nkey=000102030405060708090a0b0c0d0e0f0",
    ];
    assert_eq!(good.iter().filter(|text| may_begin(text)).count(), 24);
    assert_eq!(bad.iter().filter(|text| !may_begin(text)).count(), 26);
}

/// Says what is told of the front of form 2 in cases small enough to be read off.
#[test]
fn cases_of_form_2_written_down() {
    let good: [&[u8]; 24] = [
        b"f",
        b"fo",
        b"for",
        b"form",
        b"form=",
        b"form=2",
        b"form=2\n",
        b"form=2\ns",
        b"form=2\nset=",
        b"form=2\nset=2",
        b"form=2\nset=1\n",
        b"form=2\nset=1\nc",
        b"form=2\nset=1\nchip",
        b"form=2\nset=1\nchip=",
        b"form=2\nset=1\nchip=0",
        b"form=2\nset=1\nchip=7000",
        b"form=2\nset=1\nchip=6553",
        b"form=2\nset=1\nchip=9999",
        b"form=2\nset=1\nchip=65535",
        b"form=2\nset=1\nchip=0\n",
        b"form=2\nset=1\nchip=65535\n",
        b"form=2\nset=2\nchip=7\nk",
        b"form=2\nset=2\nchip=7\nkey=000102030405060708090a0b\n",
        b"form=2\nset=1\nchip=7\nkey=000102030405060708090a0b0",
    ];
    let bad: [&[u8]; 29] = [
        b"F",
        b"ff",
        b"form\n",
        b"form=\n",
        b"form=1",
        b"form=3",
        b"form=02",
        b"form=22",
        b"form=2 ",
        b"form=2\r",
        b"form= 2",
        b"form=2\nf",
        b"form=2\nform=2",
        b"form=2\nchip",
        b"form=2\nkey",
        b"form=2\nset=5",
        b"form=2\nset=1\nk",
        b"form=2\nset=1\nkey=00",
        b"form=2\nset=1\nchip=\n",
        b"form=2\nset=1\nchip=00",
        b"form=2\nset=1\nchip=01",
        b"form=2\nset=1\nchip=65536",
        b"form=2\nset=1\nchip=70000",
        b"form=2\nset=1\nchip=+1",
        b"form=2\nset=1\nchip=a",
        b"set=1\nchip=",
        b"set=1\nform=2",
        b"form=2\nset=1\nchip=7\nkey=000102030405060708090a0b\n",
        b"form=2\nset=2\nchip=7\nkey=000102030405060708090a0b0",
    ];
    assert_eq!(good.iter().filter(|text| may_begin(text)).count(), 24);
    assert_eq!(bad.iter().filter(|text| !may_begin(text)).count(), 29);
    assert!(good.iter().all(|text| !may_begin_in(Form::One, text)));
}

/// Says what may stand as a last line that has no line feed yet.
#[test]
fn last_lines_written_down() {
    let good: [(usize, &[u8]); 22] = [
        (3, b"nonce=1"),
        (4, b"a"),
        (4, b"ad="),
        (4, b"ad=a"),
        (4, b"ad=a0"),
        (4, b"ad=a0a1a2a3"),
        (5, b""),
        (5, b"text=b"),
        (6, b"ciphe"),
        (6, b"cipher=c0c"),
        (7, b"t"),
        (7, b"tag=f0e0d0"),
        (8, b""),
        (8, b"rounds="),
        (8, b"rounds=0"),
        (8, b"rounds=3"),
        (8, b"rounds=999999"),
        (8, b"rounds=1000000"),
        (8, b"rounds=9999999"),
        (8, b"rounds=0\n"),
        (8, b"rounds=3\n"),
        (8, b"rounds=9999999\n"),
    ];
    let bad: [(usize, &[u8]); 22] = [
        (3, b"nonce=g"),
        (4, b"A"),
        (4, b"ad=\r"),
        (4, b"ad=a\n"),
        (4, b"ad=a0 "),
        (4, b"adx"),
        (5, b"\n"),
        (5, b"tag"),
        (6, b"cipher=c0C"),
        (6, b"cipher=c\n"),
        (7, b"te"),
        (7, b"tag=f0e0d0\n"),
        (8, b"rounds=\n"),
        (8, b"rounds=00"),
        (8, b"rounds=01"),
        (8, b"rounds=-"),
        (8, b"rounds=+1"),
        (8, b"rounds=10000000"),
        (8, b"rounds=12345678"),
        (8, b"rounds=3 "),
        (8, b"rounds=3\n\n"),
        (8, b"rounds=3\ns"),
    ];
    let mut ran = 0;
    for record in RECORDS {
        let one = |number: usize, last: &[u8]| [&text_of(&record[..number - 1]), last].concat();
        let lines = in_form_2(&record);
        let two = |number: usize, last: &[u8]| [&text_of(&lines[..number + 1]), last].concat();
        for (number, last) in good {
            assert!(may_begin(&one(number, last)), "{last:?}");
            assert!(may_begin(&two(number, last)), "{last:?}");
            ran += 1;
        }
        for (number, last) in bad {
            assert!(!may_begin(&one(number, last)), "{last:?}");
            assert!(!may_begin(&two(number, last)), "{last:?}");
            ran += 1;
        }
    }
    assert_eq!(ran, SETS.len() * 44);
}

/// Says that a field may go on up to 512 digits and not beyond, and end only after whole bytes.
#[test]
fn the_most_bytes() {
    let mut ran = 0;
    for (number, label) in [(4, "ad="), (5, "text="), (6, "cipher=")] {
        for digits in (0..=520).chain([1_000, 100_000]) {
            let open = format!("{label}{}", "7".repeat(digits));
            let ended = format!("{open}\n");
            let before = text_of(&SET_2[..number - 1]);
            let says = |line: &str| may_begin(&[&before, line.as_bytes()].concat());
            assert_eq!(says(&open), digits <= 512, "{digits}");
            assert_eq!(says(&ended), digits <= 512 && digits % 2 == 0, "{digits}");
            ran += 2;
        }
    }
    assert_eq!(ran, 3 * 523 * 2);
}

/// Says that a right record may begin one at every length, and no more with anything behind it.
#[test]
fn right_records_and_bytes_behind_them() {
    let mut random = Random::new(61);
    let (mut beginnings, mut lengths, mut behind_them) = (0, 0, 0);
    for index in 0..80 {
        let form = FORMS[index as usize / 40];
        let record = vectors::record_in(form, &mut random, index);
        let text = lines_of(form, &record).expect("a right record");
        for end in 0..=text.len() {
            assert!(may_begin(&text[..end]));
            beginnings += 1;
        }
        lengths += text.len();
        for behind in 0..=255 {
            assert!(!may_begin(&[&text[..], &[behind]].concat()));
            behind_them += 1;
        }
        assert!(!may_begin(&[&text[..], &text[..]].concat()));
        behind_them += 1;
    }
    assert_eq!((beginnings, behind_them), (lengths + 80, 80 * 257));
    // No record is shorter than one of set 2 without data and text, in form 2 by 14 more.
    assert!(lengths >= 40 * 123 + 40 * 137, "{lengths}");
}

/// Says that search and reading agree for each change of any byte to any other.
#[test]
fn every_change_of_one_byte() {
    let forms = Forms::new();
    let mut ran = 0;
    for form in FORMS {
        each_change(form, |place, text| {
            check(&forms, text);
            check(&forms, &text[..=place]);
            ran += 2;
        });
    }
    assert_eq!(ran, (3 * 163 + 139 + 3 * 180 + 156) * 256 * 2);
}

/// Says that search and reading agree for all short values of each line, ended or not.
#[test]
fn all_short_values() {
    let forms = Forms::new();
    let mut ran = 0;
    for form in FORMS {
        each_short_value(form, |text, _| {
            check(&forms, text);
            ran += 1;
        });
    }
    assert_eq!(ran, SETS.len() * (8 + 10) * (1 + 12 + 144 + 1_728) * 3);
}

/// Says that reading agrees at every length of records with bytes changed, lost and put in.
#[test]
fn beginnings_of_damaged_records() {
    let forms = Forms::new();
    let mut random = Random::new(62);
    let (mut ran, mut beginnings, mut broken) = (0, 0, 0);
    for index in 0..800 {
        let form = FORMS[index as usize / 400];
        let record = vectors::record_in(form, &mut random, index);
        let mut text = lines_of(form, &record).expect("a right record");
        for _ in 0..=random.below(2) {
            let place = random.below(text.len());
            let new = b"0129afgA =\r\n\0\xff"[random.below(14)];
            match random.below(3) {
                0 => text[place] = new,
                1 => text.insert(place, new),
                _ => text.truncate(place + 1),
            }
        }
        beginnings += check_beginnings(&text);
        check(&forms, &text);
        broken += usize::from(read(form, &text).is_err());
        ran += 1;
    }
    assert_eq!(ran, 800);
    assert!(beginnings > 200_000, "{beginnings}");
    assert!(broken > 400 && broken < 800, "{broken}");
}
