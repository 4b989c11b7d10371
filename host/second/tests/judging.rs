//! Verdicts and whole outputs of the program.

use second::cipher::{set_numbers, set_of, SETS};
use second::hex;
use second::judge::{fault_line, judge_all, report, verdict, Verdict};
use second::make::{lines_of, right_record};
use second::random::Random;
use second::record::{Broken, Field, Form, Record};
use second::vectors;

/// Gives right records of all sets in turn.
fn samples(count: u64) -> Vec<Record> {
    let mut random = Random::new(51);
    (0..count)
        .map(|index| vectors::record(&mut random, index))
        .collect()
}

/// Gives the lines of a record.
fn lines(record: &Record) -> Vec<u8> {
    lines_of(Form::One, record).expect("a right record")
}

/// Gives the report lines of one record as they must stand.
fn three(number: usize, verdict: &str, field: &str) -> String {
    format!("record={number}\nverdict={verdict}\nfield={field}\n")
}

/// Gives the verdict on a record that breaks its form there.
fn unread(line: u64, column: u64) -> Verdict {
    Verdict::Unread(Broken { line, column })
}

/// Gives the line on a broken record as it must stand on standard error.
fn fault(number: usize, line: u64, column: u64) -> String {
    format!("bench: record {number}: line {line}, column {column}\n")
}

/// Says that the whole case printed in the rules gives the printed output.
#[test]
fn the_printed_case() {
    let zeros = "00".repeat(16);
    let input =
        format!("set=1\nkey={zeros}\nnonce={zeros}\nad=\ntext=\ncipher=\ntag={zeros}\nrounds=25\n");
    let output = judge_all(input.as_bytes());
    assert_eq!(output, b"record=1\nverdict=differs\nfield=rounds\n");
    assert_eq!(fault_line(input.as_bytes()), "");
}

/// Says that right records are equal and the first changed field is the one named.
#[test]
fn the_first_differing_field() {
    let mut ran = 0;
    for right in samples(200) {
        for mixture in 0..8 {
            let mut record = right.clone();
            let mut wanted = Verdict::Equal;
            if mixture & 4 == 4 {
                record.tag.bytes[record.tag.len - 1] ^= 1;
                wanted = Verdict::Differs("tag");
            }
            if mixture & 2 == 2 {
                // An empty cipher has no byte to change, so it gets one.
                match record.cipher.len {
                    0 => record.cipher.len = 1,
                    length => record.cipher.bytes[length - 1] ^= 0x80,
                }
                wanted = Verdict::Differs("cipher");
            }
            if mixture & 1 == 1 {
                record.rounds += 1;
                wanted = Verdict::Differs("rounds");
            }
            assert_eq!(verdict(Form::One, &record), wanted);
            ran += 1;
        }
    }
    assert_eq!(ran, 200 * 8);
}

/// Gives a right record of the given set with data and text of the given lengths.
fn sized(set: u64, ad: usize, text: usize) -> Record {
    let mut random = Random::new(set * 1_000_000 + ad as u64 * 1_000 + text as u64);
    let key = random.bytes(set_of(set).expect("a known set").key);
    let (ad, text) = (random.bytes(ad), random.bytes(text));
    right_record(set, &key, &key, &ad, &text).expect("a fitting message")
}

/// Says that a change of data, text, key or nonce shows in the cipher.
#[test]
fn changed_inputs_show() {
    let mut ran = 0;
    for set in set_numbers() {
        for text in 17..=56 {
            for part in 0..4 {
                let mut record = sized(set, 10, text);
                match part {
                    0 => record.ad.bytes[0] ^= 1,
                    1 => record.text.bytes[0] ^= 1,
                    2 => record.key.bytes[0] ^= 1,
                    _ => record.nonce.bytes[0] ^= 1,
                }
                assert_eq!(verdict(Form::One, &record), Verdict::Differs("cipher"));
                ran += 1;
            }
        }
    }
    assert_eq!(ran, SETS.len() * 40 * 4);
}

/// Gives 49 text lengths, 1,907 in sum: all up to 40, and some up to the most that a record holds.
fn lengths() -> Vec<usize> {
    let far = [63, 64, 65, 127, 128, 129, 255, 256];
    (0..=40).chain(far).collect()
}

/// Gives the record with another cipher.
fn with_cipher(right: &Record, cipher: &[u8]) -> Record {
    let mut record = right.clone();
    record.cipher = Field::of(cipher).expect("at most 256 bytes");
    record
}

/// Says that a cipher cut at any length differs, however right the bytes it has.
#[test]
fn cut_off_ciphers() {
    let mut ran = 0;
    for set in set_numbers() {
        for text in lengths() {
            let right = sized(set, 3, text);
            assert_eq!(verdict(Form::One, &right), Verdict::Equal);
            for length in 0..text {
                let record = with_cipher(&right, &right.cipher.held()[..length]);
                assert_eq!(verdict(Form::One, &record), Verdict::Differs("cipher"));
                ran += 1;
            }
        }
    }
    assert_eq!(ran, SETS.len() * 1_907);
}

/// Says that a cipher that goes on by any number of bytes differs.
#[test]
fn lengthened_ciphers() {
    let mut ran = 0;
    for set in set_numbers() {
        for text in lengths() {
            let right = sized(set, 3, text);
            for more in [[0; 256], [0x5a; 256]] {
                for count in 1..=256 - text {
                    let longer = [right.cipher.held(), &more[..count]].concat();
                    let record = with_cipher(&right, &longer);
                    assert_eq!(verdict(Form::One, &record), Verdict::Differs("cipher"));
                    ran += 1;
                }
            }
        }
    }
    assert_eq!(ran, SETS.len() * 2 * (49 * 256 - 1_907));
}

/// Says that an empty cipher is right beside an empty text and beside no other.
#[test]
fn empty_ciphers_and_empty_texts() {
    let mut ran = 0;
    for set in set_numbers() {
        let empty = sized(set, 3, 0);
        assert_eq!(verdict(Form::One, &empty), Verdict::Equal);
        for length in 1..=256 {
            let full = sized(set, 3, length);
            let cipher = full.cipher.held();
            for record in [with_cipher(&full, b""), with_cipher(&empty, cipher)] {
                assert_eq!(verdict(Form::One, &record), Verdict::Differs("cipher"));
                ran += 1;
            }
        }
    }
    assert_eq!(ran, SETS.len() * 256 * 2);
}

/// Gives a right record with a cipher of zeros, made by changing its text byte by byte.
fn with_zero_cipher(set: u64, text: usize) -> Record {
    let mut record = sized(set, 3, text);
    for place in 0..text {
        record.text.bytes[place] ^= record.cipher.bytes[place];
        let (key, ad, text) = (record.key.held(), record.ad.held(), record.text.held());
        record = right_record(set, key, key, ad, text).expect("a fitting message");
    }
    assert_eq!(record.cipher.held(), vec![0; text]);
    record
}

/// Says that ciphers of zeros are told apart by their lengths, as no byte does it.
#[test]
fn ciphers_of_zeros() {
    let (mut equal, mut other) = (0, 0);
    for set in set_numbers() {
        for text in 0..=40 {
            let right = with_zero_cipher(set, text);
            for length in 0..=256 {
                let record = with_cipher(&right, &vec![0; length]);
                if length == text {
                    assert_eq!(verdict(Form::One, &record), Verdict::Equal);
                    equal += 1;
                } else {
                    assert_eq!(verdict(Form::One, &record), Verdict::Differs("cipher"));
                    other += 1;
                }
            }
        }
    }
    assert_eq!((equal, other), (SETS.len() * 41, SETS.len() * 41 * 256));
}

/// Says that every byte of cipher and tag counts.
#[test]
fn each_byte_of_cipher_and_tag() {
    let (mut ciphers, mut tags) = (0, 0);
    for set in set_numbers() {
        for text in lengths() {
            let right = sized(set, 3, text);
            for place in 0..right.cipher.len {
                let mut record = right.clone();
                record.cipher.bytes[place] ^= 1;
                assert_eq!(verdict(Form::One, &record), Verdict::Differs("cipher"));
                ciphers += 1;
            }
            for place in 0..right.tag.len {
                let mut record = right.clone();
                record.tag.bytes[place] ^= 1;
                assert_eq!(verdict(Form::One, &record), Verdict::Differs("tag"));
                tags += 1;
            }
        }
    }
    assert_eq!(ciphers, SETS.len() * 1_907);
    assert_eq!(tags, 49 * (16 + 12 + 16 + 16));
}

/// Says that a cipher of a wrong length stands after wrong rounds and before a wrong tag.
#[test]
fn wrong_lengths_beside_other_faults() {
    let mut ran = 0;
    for set in set_numbers() {
        for text in 1..=40 {
            let right = sized(set, 3, text);
            let cipher = right.cipher.held();
            let longer = [cipher, &[0]].concat();
            for found in [
                &cipher[..0],
                &cipher[..text / 2],
                &cipher[..text - 1],
                &longer,
            ] {
                let mut record = with_cipher(&right, found);
                record.tag.bytes[0] ^= 1;
                assert_eq!(verdict(Form::One, &record), Verdict::Differs("cipher"));
                record.rounds += 1;
                assert_eq!(verdict(Form::One, &record), Verdict::Differs("rounds"));
                record.tag = right.tag.clone();
                assert_eq!(verdict(Form::One, &record), Verdict::Differs("rounds"));
                ran += 1;
            }
        }
    }
    assert_eq!(ran, SETS.len() * 40 * 4);
}

/// Says that a tag of another length than the set's makes a record unread, whatever else is wrong.
#[test]
fn tags_of_another_length() {
    let mut ran = 0;
    for (set, own) in set_numbers().zip([16, 12, 16, 16]) {
        let right = sized(set, 3, 20);
        let cut = with_cipher(&right, &right.cipher.held()[..3]);
        let mut miscounted = right.clone();
        miscounted.rounds += 1;
        for record in [right, cut, miscounted] {
            assert_eq!(record.tag.len, own);
            for length in (0..=17).filter(|length| *length != own) {
                let mut other = record.clone();
                other.tag.len = length;
                other.tag.bytes[length.min(16)..].fill(0);
                assert_eq!(verdict(Form::One, &other), unread(7, 0));
                ran += 1;
            }
        }
    }
    assert_eq!(ran, SETS.len() * 3 * 17);
}

/// Says that a tag line of another length than the set's is reported as broken.
#[test]
fn tag_lines_of_another_length() {
    let mut ran = 0;
    for (set, own) in set_numbers().zip([16, 12, 16, 16]) {
        let right = sized(set, 3, 20);
        let whole = String::from_utf8(lines(&right)).expect("plain text");
        let tag = [right.tag.held(), &[0; 8]].concat();
        for length in 0..=20 {
            let digits = String::from_utf8(hex::written(&tag[..length])).expect("digits");
            let line = format!("tag={digits}");
            let mut all: Vec<&str> = whole.lines().collect();
            all[6] = &line;
            let (wanted, said) = if length == own {
                (three(1, "equal", "none"), String::new())
            } else {
                // One past the digits that there are, or that there may be, and the label's four.
                let column = length.min(own) as u64 * 2 + 5;
                (three(1, "unread", "7"), fault(1, 7, column))
            };
            let input = all.join("\n") + "\n";
            let output = judge_all(input.as_bytes());
            assert_eq!(String::from_utf8(output), Ok(wanted));
            assert_eq!(fault_line(input.as_bytes()), said);
            ran += 1;
        }
    }
    assert_eq!(ran, SETS.len() * 21);
}

/// Says that a record of no right form is unread, with its first such line and column 0.
#[test]
fn records_of_no_right_form() {
    let mut ran = 0;
    for right in samples(20) {
        let mut record = right.clone();
        record.rounds = 10_000_000;
        assert_eq!(verdict(Form::One, &record), unread(8, 0));
        record.text.len = 257;
        assert_eq!(verdict(Form::One, &record), unread(5, 0));
        record.set = 5;
        assert_eq!(verdict(Form::One, &record), unread(1, 0));
        ran += 1;
    }
    assert_eq!(ran, 20);
    assert_eq!(report(7, unread(5, 0)), three(7, "unread", "5"));
    assert_eq!(report(7, unread(5, 19)), three(7, "unread", "5"));
}

/// Says that records in a row get numbers in a row and each its own verdict.
#[test]
fn several_records_in_a_row() {
    let mut input = Vec::new();
    let mut wanted = String::new();
    let mut ran = 0;
    for (place, mut record) in samples(300).into_iter().enumerate() {
        let number = place + 1;
        match place % 5 {
            1 => {
                record.rounds = 0;
                wanted += &three(number, "differs", "rounds");
            }
            2 => {
                record.tag.bytes[0] ^= 2;
                wanted += &three(number, "differs", "tag");
            }
            3 if record.cipher.len > 0 => {
                record.cipher.bytes[0] ^= 4;
                wanted += &three(number, "differs", "cipher");
            }
            4 if record.cipher.len > 0 => {
                let kept = &record.cipher.held()[..record.cipher.len - 1];
                record.cipher = Field::of(kept).expect("few bytes");
                wanted += &three(number, "differs", "cipher");
            }
            _ => wanted += &three(number, "equal", "none"),
        }
        input.extend(lines(&record));
        ran += 1;
    }
    assert_eq!(ran, 300);
    assert_eq!(String::from_utf8(judge_all(&input)), Ok(wanted));
    assert_eq!(fault_line(&input), "");
}

/// Says that empty input gives empty output.
#[test]
fn empty_input() {
    assert_eq!(judge_all(b""), b"");
    assert_eq!(fault_line(b""), "");
}

/// Says that the line on a broken record is what the bench is to say, letter for letter.
#[test]
fn the_line_on_a_broken_record() {
    let zeros = "00".repeat(12);
    let front = format!("set=2\nkey={zeros}\nnonce={zeros}\n");
    let back = format!("text=\ncipher=\ntag={zeros}\nrounds=24\n");
    let right = format!("{front}ad=\n{back}");
    let broken = format!("{front}ad=00112233445566x7\n{back}");
    let cases = [
        (broken.clone(), "bench: record 1: line 4, column 18\n"),
        (
            right.clone() + &broken,
            "bench: record 2: line 4, column 18\n",
        ),
        (
            format!("{right}{right}{front}ad=0011223344556 77\n{back}{broken}"),
            "bench: record 3: line 4, column 17\n",
        ),
        (
            right.repeat(11) + "set=1\n",
            "bench: record 12: line 2, column 1\n",
        ),
        (right.clone() + "\n", "bench: record 2: line 1, column 1\n"),
        ("set=1".to_string(), "bench: record 1: line 1, column 6\n"),
        (right.repeat(3), ""),
    ];
    let mut ran = 0;
    for (input, wanted) in cases {
        assert_eq!(fault_line(input.as_bytes()), wanted);
        ran += 1;
    }
    assert_eq!(ran, 7);
}

/// Says that bytes after the last record are a broken record, the last one reported.
#[test]
fn trailing_bytes() {
    let records = samples(3);
    let front: Vec<u8> = records.iter().flat_map(lines).collect();
    let equal: String = (1..=3)
        .map(|number| three(number, "equal", "none"))
        .collect();
    let cases: [(&[u8], u64, u64); 8] = [
        (b"\n", 1, 1),
        (b" ", 1, 1),
        (b"\0", 1, 1),
        (b"set=1", 1, 6),
        (b"set=1\n", 2, 1),
        (b"set=2\nkey=000000000000000000000000\n", 3, 1),
        (b"\r\n", 1, 1),
        (b"rounds=24\n", 1, 1),
    ];
    let mut ran = 0;
    for (rest, line, column) in cases {
        for after in [&b""[..], &lines(&records[0])] {
            let input = [&front, rest, after].concat();
            // Right lines after the broken one change nothing.
            let wanted = format!("{equal}{}", three(4, "unread", &line.to_string()));
            assert_eq!(String::from_utf8(judge_all(&input)), Ok(wanted));
            assert_eq!(fault_line(&input), fault(4, line, column));
            ran += 1;
        }
    }
    assert_eq!(ran, 16);
    assert_eq!(String::from_utf8(judge_all(&front)), Ok(equal));
    assert_eq!(fault_line(&front), "");
}

/// Says that a broken record ends the report even when right records follow.
#[test]
fn a_broken_record_is_the_last() {
    let records = samples(6);
    let mut ran = 0;
    for place in 0..6 {
        let mut input = Vec::new();
        let mut wanted = String::new();
        for (i, record) in records.iter().enumerate() {
            let mut bytes = lines(record);
            if i == place {
                bytes[6] = b'K';
            }
            if i < place {
                wanted += &three(i + 1, "equal", "none");
            }
            input.extend(bytes);
        }
        wanted += &three(place + 1, "unread", "2");
        assert_eq!(String::from_utf8(judge_all(&input)), Ok(wanted));
        assert_eq!(fault_line(&input), fault(place + 1, 2, 1));
        ran += 1;
    }
    assert_eq!(ran, 6);
}

/// Says that every cut of two records is reported as the rules tell.
#[test]
fn every_cut_of_two_records() {
    let records = samples(2);
    let first = lines(&records[0]);
    let whole = [first.clone(), lines(&records[1])].concat();
    let mut ran = 0;
    for end in 0..=whole.len() {
        let part = &whole[..end];
        let feeds = part.iter().filter(|byte| **byte == b'\n').count();
        let done = feeds / 8;
        let mut wanted: String = (1..=done)
            .map(|number| three(number, "equal", "none"))
            .collect();
        let mut said = String::new();
        if end != 0 && end != first.len() && end != whole.len() {
            let line = feeds as u64 % 8 + 1;
            let begun = part.rsplit(|byte| *byte == b'\n').next().expect("a part");
            wanted += &three(done + 1, "unread", &line.to_string());
            said = fault(done + 1, line, begun.len() as u64 + 1);
        }
        assert_eq!(fault_line(part), said, "cut at {end}");
        assert_eq!(
            String::from_utf8(judge_all(part)),
            Ok(wanted),
            "cut at {end}"
        );
        ran += 1;
    }
    assert_eq!(ran, whole.len() + 1);
}
