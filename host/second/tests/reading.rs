//! Reading records of form 1: right ones, every cut, every line broken in many ways.

use second::cipher::SETS;
use second::make::{lines_of, right_record};
use second::random::Random;
use second::record::{read, Broken, Form, Record, LONGEST_1};
use second::vectors;

/// The labels of the eight lines of form 1, in their order.
const LABELS: [&[u8]; 8] = [
    b"set=", b"key=", b"nonce=", b"ad=", b"text=", b"cipher=", b"tag=", b"rounds=",
];

/// How many records of each set are tried.
const EACH: usize = 5;

/// Gives records of all sets: empty, middling and longest.
fn samples() -> Vec<Record> {
    let mut all = Vec::new();
    for set in &SETS {
        let length = set.key as u8;
        for (ad, text) in [(0, 0), (1, 3), (9, 0), (0, 17), (256, 256)] {
            let key: Vec<u8> = (0..length).map(|i| 0xa0 + i).collect();
            let nonce: Vec<u8> = (0..length).map(|i| 0x3b + i).collect();
            let ad: Vec<u8> = (0..ad).map(|i: u32| (i * 5) as u8).collect();
            let text: Vec<u8> = (0..text).map(|i: u32| (i * 3 + 1) as u8).collect();
            let record = right_record(set.number, &key, &nonce, &ad, &text);
            all.push(record.expect("a fitting message"));
        }
    }
    all
}

/// Gives the lines of a record without their line feeds.
fn split(record: &Record) -> Vec<Vec<u8>> {
    let whole = lines_of(Form::One, record).expect("a right record");
    let mut lines: Vec<Vec<u8>> = whole
        .split(|byte| *byte == b'\n')
        .map(<[u8]>::to_vec)
        .collect();
    assert_eq!(lines.pop(), Some(Vec::new()));
    assert_eq!(lines.len(), 8);
    lines
}

/// Gives the lines joined again, each ended by a line feed.
fn joined(lines: &[Vec<u8>]) -> Vec<u8> {
    lines
        .iter()
        .flat_map(|line| [line.as_slice(), b"\n"].concat())
        .collect()
}

/// Gives the lines with the value of line `number` (from 1) replaced.
fn with_value(lines: &[Vec<u8>], number: usize, value: &[u8]) -> Vec<u8> {
    let mut other = lines.to_vec();
    other[number - 1] = [LABELS[number - 1], value].concat();
    joined(&other)
}

/// Gives what reading says, of a broken record only the line.
fn read_by_line(bytes: &[u8]) -> Result<(Record, usize), u64> {
    read(Form::One, bytes).map_err(|broken| broken.line)
}

/// Says that each right record comes back equal and takes just its own bytes.
#[test]
fn right_records_come_back() {
    let mut random = Random::new(31);
    let mut records = samples();
    for index in 0..400 {
        records.push(vectors::record(&mut random, index));
    }
    let mut ran = 0;
    let mut longest = 0;
    for record in &records {
        let mut bytes = lines_of(Form::One, record).expect("a right record");
        let length = bytes.len();
        longest = longest.max(length);
        assert_eq!(read(Form::One, &bytes), Ok((record.clone(), length)));
        for rest in [&b"x"[..], b"\n", b"set=1\n", b"\0\xff"] {
            bytes.truncate(length);
            bytes.extend(rest);
            assert_eq!(read(Form::One, &bytes), Ok((record.clone(), length)));
        }
        ran += 1;
    }
    assert_eq!(ran, SETS.len() * EACH + 400);
    assert!(longest > 1_600 && longest <= LONGEST_1);
}

/// Says that every cut of a record is broken where the bytes end.
#[test]
fn every_cut_is_broken() {
    let mut ran = 0;
    for record in samples() {
        let bytes = lines_of(Form::One, &record).expect("a right record");
        for end in 0..bytes.len() {
            let part = &bytes[..end];
            let ends: Vec<&[u8]> = part.split(|byte| *byte == b'\n').collect();
            let line = ends.len() as u64;
            let column = ends[ends.len() - 1].len() as u64 + 1;
            assert_eq!(
                read(Form::One, part),
                Err(Broken { line, column }),
                "cut at {end}"
            );
            ran += 1;
        }
    }
    // The lengths of the samples, worked out from the record form; sets 1, 3 and 4 have keys of 16 bytes.
    let long = 147 + 161 + 165 + 215 + 1_684;
    let short = 123 + 137 + 141 + 191 + 1_660;
    assert_eq!(ran, 3 * long + short);
}

/// Gives a line changed in the given one of the ways that break any line.
fn broken(line: &[u8], label: &[u8], way: usize) -> Vec<u8> {
    let value = &line[label.len()..];
    let upper = label.to_ascii_uppercase();
    match way {
        0 => [&upper, value].concat(),
        1 => value.to_vec(),
        2 => [&label[..label.len() - 1], value].concat(),
        3 => [b" ", line].concat(),
        4 => [line, b" "].concat(),
        5 => [line, b"\t"].concat(),
        6 => [line, b"\r"].concat(),
        7 => [label, b" ", value].concat(),
        8 => Vec::new(),
        9 => [line, line].concat(),
        10 => [line, b"\0"].concat(),
        11 => [line, b"\xff"].concat(),
        12 => [&label[..label.len() - 1], b":", value].concat(),
        13 => [label, b"0x", value].concat(),
        14 => [label, b"=", value].concat(),
        15 => [line, b"g"].concat(),
        16 => [&label[1..], value].concat(),
        17 => [b"\r", line].concat(),
        18 => [line, b"\n"].concat(),
        _ => [b"\xef\xbb\xbf", line].concat(),
    }
}

/// Says that each of twenty breakages of each line names that line.
#[test]
fn each_line_broken_in_the_same_ways() {
    let mut ran = 0;
    for record in samples() {
        let lines = split(&record);
        for (place, label) in LABELS.iter().enumerate() {
            for way in 0..20 {
                let mut other = lines.clone();
                other[place] = broken(&lines[place], label, way);
                let number = place as u64 + 1;
                // An empty line more than there should be is the next line's fault.
                let wanted = if way == 18 { number + 1 } else { number };
                let found = read_by_line(&joined(&other));
                if wanted == 9 {
                    let length = joined(&lines).len();
                    assert_eq!(found, Ok((record.clone(), length)));
                } else {
                    assert_eq!(found, Err(wanted), "line {number} way {way}");
                }
                ran += 1;
            }
        }
    }
    assert_eq!(ran, SETS.len() * EACH * 8 * 20);
}

/// Says that lost, doubled, joined and exchanged lines are named where the order first breaks.
#[test]
fn lines_out_of_order() {
    let mut ran = 0;
    for record in samples() {
        let lines = split(&record);
        for place in 0..8 {
            let number = place as u64 + 1;

            let mut lost = lines.clone();
            lost.remove(place);
            assert_eq!(read_by_line(&joined(&lost)), Err(number));

            let mut doubled = lines.clone();
            doubled.insert(place, lines[place].clone());
            if place < 7 {
                assert_eq!(read_by_line(&joined(&doubled)), Err(number + 1));
            } else {
                assert_eq!(
                    read_by_line(&joined(&doubled)).map(|(found, _)| found),
                    Ok(record.clone())
                );
            }

            let mut one = lines.clone();
            if place < 7 {
                let next = one.remove(place + 1);
                one[place].extend(next);
                assert_eq!(read_by_line(&joined(&one)), Err(number));
                let mut exchanged = lines.clone();
                exchanged.swap(place, place + 1);
                assert_eq!(read_by_line(&joined(&exchanged)), Err(number));
            } else {
                let mut whole = joined(&one);
                whole.pop();
                assert_eq!(read_by_line(&whole), Err(8));
            }
            ran += 1;
        }
    }
    assert_eq!(ran, SETS.len() * EACH * 8);
}

/// Says that of two broken lines the first is named.
#[test]
fn two_broken_lines() {
    let mut ran = 0;
    for record in samples() {
        let lines = split(&record);
        for first in 0..8 {
            for second in first + 1..8 {
                for way in [0, 2, 4, 8] {
                    let mut other = lines.clone();
                    other[first] = broken(&lines[first], LABELS[first], way);
                    other[second] = broken(&lines[second], LABELS[second], 15);
                    assert_eq!(read_by_line(&joined(&other)), Err(first as u64 + 1));
                    ran += 1;
                }
            }
        }
    }
    assert_eq!(ran, SETS.len() * EACH * 28 * 4);
}

/// Says which values the set line takes.
#[test]
fn values_of_the_set_line() {
    let mut ran = 0;
    for record in samples() {
        let lines = split(&record);
        let bad: [&[u8]; 16] = [
            b"", b"0", b"5", b"9", b"01", b"12", b"1 ", b"+1", b"-1", b"a", b"1.", b"11", b"\x01",
            b"34", b"03", b"3\r",
        ];
        for value in bad {
            assert_eq!(read_by_line(&with_value(&lines, 1, value)), Err(1));
            ran += 1;
        }
        // Another set is a right first line; the key then has its length, or a wrong one.
        for other in &SETS {
            let number = other.number.to_string();
            let text = with_value(&lines, 1, number.as_bytes());
            let found = read_by_line(&text).map(|(record, taken)| (record.set, taken));
            if other.key == record.key.len {
                assert_eq!(found, Ok((other.number, text.len())));
            } else {
                assert_eq!(found, Err(2));
            }
            ran += 1;
        }
    }
    assert_eq!(ran, SETS.len() * EACH * (16 + SETS.len()));
}

/// Says which values the lines of key, nonce and tag take.
#[test]
fn values_of_key_nonce_and_tag() {
    let mut ran = 0;
    for record in samples() {
        let lines = split(&record);
        let right = record.key.len * 2;
        for number in [2, 3, 7] {
            for digits in 0..=70 {
                let value = vec![b'c'; digits];
                let found = read_by_line(&with_value(&lines, number, &value));
                if digits == right {
                    assert!(found.is_ok());
                } else {
                    assert_eq!(found.map(|_| ()), Err(number as u64), "{digits} digits");
                }
                ran += 1;
            }
            for bad in [b'A', b'F', b'g', b'/', b':', b'`', b'G', b'@', b'-', 0x80] {
                for place in [0, 1, right - 1] {
                    let mut value = vec![b'0'; right];
                    value[place] = bad;
                    let found = read_by_line(&with_value(&lines, number, &value));
                    assert_eq!(found.map(|_| ()), Err(number as u64));
                    ran += 1;
                }
            }
        }
    }
    assert_eq!(ran, SETS.len() * EACH * 3 * (71 + 30));
}

/// Says which values the lines of ad, text and cipher take.
#[test]
fn values_of_ad_text_and_cipher() {
    let mut ran = 0;
    for record in samples() {
        let lines = split(&record);
        for number in [4, 5, 6] {
            for digits in (0..=20).chain(505..=530).chain([1_000, 100_000]) {
                let value = vec![b'7'; digits];
                let found = read_by_line(&with_value(&lines, number, &value));
                if digits % 2 == 0 && digits <= 512 {
                    assert!(found.is_ok(), "{digits} digits");
                } else {
                    assert_eq!(found.map(|_| ()), Err(number as u64), "{digits} digits");
                }
                ran += 1;
            }
            for bad in [
                &b"A0"[..],
                b"0F",
                b"0g",
                b"0 ",
                b"--",
                b"0x",
                b"/0",
                b":0",
                b"0`",
            ] {
                let found = read_by_line(&with_value(&lines, number, bad));
                assert_eq!(found.map(|_| ()), Err(number as u64));
                ran += 1;
            }
        }
    }
    assert_eq!(ran, SETS.len() * EACH * 3 * (21 + 26 + 2 + 9));
}

/// Says which values the rounds line takes.
#[test]
fn values_of_the_rounds_line() {
    let mut ran = 0;
    for record in samples() {
        let lines = split(&record);
        for good in [0, 1, 9, 10, 24, 100, 999_999, 1_000_000, 9_999_999] {
            let bytes = with_value(&lines, 8, good.to_string().as_bytes());
            let mut wanted = record.clone();
            wanted.rounds = good;
            assert_eq!(read_by_line(&bytes), Ok((wanted, bytes.len())));
            ran += 1;
        }
        let bad: [&[u8]; 17] = [
            b"",
            b"00",
            b"01",
            b"007",
            b"0000000",
            b"10000000",
            b"99999999",
            b"00000001",
            b"-1",
            b"+1",
            b"1e3",
            b"0x1",
            b"1.0",
            b"1,0",
            b" 1",
            b"a",
            b"\xd9\xa1",
        ];
        for value in bad {
            assert_eq!(read_by_line(&with_value(&lines, 8, value)), Err(8));
            ran += 1;
        }
    }
    assert_eq!(ran, SETS.len() * EACH * 26);
}

/// Gives what reading must say of right bytes in which the byte at `place` became `new`.
fn after_change(bytes: &[u8], place: usize, new: u8) -> Result<(), Broken> {
    let before = bytes[..place].iter().rposition(|byte| *byte == b'\n');
    let start = before.map_or(0, |p| p + 1);
    let line = bytes[..start].iter().filter(|byte| **byte == b'\n').count();
    let number = line as u64 + 1;
    let column = (place - start) as u64 + 1;
    let broken = |line, column| Err(Broken { line, column });
    if bytes[place] == new {
        return Ok(());
    }
    if place - start < LABELS[line].len() {
        return broken(number, column);
    }
    let is_hex = new.is_ascii_digit() || (b'a'..=b'f').contains(&new);
    if bytes[place] == b'\n' {
        return match number {
            4 | 6 if is_hex => broken(number, column + 1),
            // The digit and the first character of the next line, `cipher=`, are a pair.
            5 if is_hex => broken(number, column + 2),
            8 if new.is_ascii_digit() => broken(number, column + 1),
            _ => broken(number, column),
        };
    }
    let offset = place - start - LABELS[line].len();
    match number {
        // The key has 32 digits in all sets but the second; with another number it breaks at the 25th.
        1 if (bytes[place] == b'2') != (new == b'2') && (b'1'..=b'4').contains(&new) => {
            broken(2, 29)
        }
        1 if (b'1'..=b'4').contains(&new) => Ok(()),
        2..=7 if is_hex => Ok(()),
        // A line feed after whole bytes ends the line well; the rest is a broken next line.
        5 if new == b'\n' && offset % 2 != 1 && bytes[place + 1] == b'c' => broken(6, 2),
        4..=6 if new == b'\n' && offset % 2 != 1 => broken(number + 1, 1),
        8 if new == b'\n' && offset > 0 => Ok(()),
        8 if new == b'0' && offset == 0 => broken(number, column + 1),
        8 if new.is_ascii_digit() => Ok(()),
        _ => broken(number, column),
    }
}

/// Says what each change of any single byte to any other does.
#[test]
fn every_change_of_one_byte() {
    let mut ran = 0;
    for record in samples().iter().filter(|record| record.text.len < 256) {
        let right = lines_of(Form::One, record).expect("a right record");
        for place in 0..right.len() {
            for new in 0..=255 {
                let mut bytes = right.clone();
                bytes[place] = new;
                let found = read(Form::One, &bytes);
                let plain = found.as_ref().map(|_| ()).map_err(|broken| *broken);
                assert_eq!(
                    plain,
                    after_change(&right, place, new),
                    "place {place} new {new}"
                );
                if let Ok((record, taken)) = found {
                    assert_eq!(lines_of(Form::One, &record), Ok(bytes[..taken].to_vec()));
                }
                ran += 1;
            }
        }
    }
    // The lengths of the shorter samples, worked out from the record form.
    let (long, short) = (147 + 161 + 165 + 215, 123 + 137 + 141 + 191);
    assert_eq!(ran, (3 * long + short) * 256);
}

/// Says that any bytes are read or refused, and what is read writes back as it stood.
#[test]
fn any_bytes_at_all() {
    let mut random = Random::new(32);
    let samples = samples();
    let (mut ran, mut read_well) = (0, 0);
    for _ in 0..30_000 {
        let record = &samples[random.below(samples.len())];
        let mut lines = split(record);
        for _ in 0..random.below(3) {
            let place = random.below(lines.len());
            match random.below(4) {
                0 => lines[place] = split(&samples[random.below(samples.len())])[place % 8].clone(),
                1 => lines[place].push(b"0123456789abcdef=\n"[random.below(18)]),
                2 => lines[place].truncate(random.below(300)),
                _ => lines[place] = random.bytes(20),
            }
        }
        let bytes = joined(&lines);
        match read(Form::One, &bytes) {
            Ok((record, taken)) => {
                assert_eq!(lines_of(Form::One, &record), Ok(bytes[..taken].to_vec()));
                read_well += 1;
            }
            Err(Broken { line, column }) => {
                assert!((1..=8).contains(&line));
                // At most one past the longest right line there is, `cipher=` and 512 digits.
                assert!((1..=520).contains(&column));
            }
        }
        ran += 1;
    }
    assert_eq!(ran, 30_000);
    assert!(read_well > 9_000 && read_well < 25_000, "{read_well}");
}
