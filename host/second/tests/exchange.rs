//! Whole test files in and out: known texts, rooms, refusals and round trips.

mod published;

use published::{broken, entries, entry, record, tried, Given, RECORD_1, RECORD_2};
use second::cipher::{set_numbers, set_of, SETS};
use second::exchange::{export, export_all, import, import_all, Done, Refused};
use second::make::lines_of;
use second::moving::Moved;
use second::random::Random;
use second::record::Form;
use second::vectors;

/// Turning a text into the other kind.
type Way<'a> = &'a dyn Fn(&[u8], &mut [u8]) -> Given;

/// Gives what all of a text becomes, or why nothing, with more room than it can need.
fn turned(way: Way, text: &[u8]) -> Result<(u64, String), Refused> {
    let (given, out) = tried(text.len() * 2 + 100, |out| way(text, out));
    let Done { records, written } = given?;
    let text = String::from_utf8(out[..written].to_vec()).expect("plain text");
    Ok((records, text))
}

/// Gives the records that the entries of the set tell, having checked that both calls agree.
fn imported(set: u64, text: &str) -> Result<(u64, String), Refused> {
    let given = turned(&|text, out| import(set, text, out), text.as_bytes());
    assert_eq!(import_all(set, text.as_bytes()), printed(&given));
    given
}

/// Gives the entries that tell the records, having checked that both calls agree.
fn exported(text: &str) -> Result<(u64, String), Refused> {
    let given = turned(&export, text.as_bytes());
    assert_eq!(export_all(text.as_bytes()), printed(&given));
    given
}

/// Gives what the program prints when a call with enough room gives that.
fn printed(given: &Result<(u64, String), Refused>) -> Moved {
    let (output, said, status) = match given {
        Ok((records, text)) => (text.clone(), format!("done: records={records}"), 0),
        Err(Refused::Set) => (String::new(), "refused: answer=1".to_string(), 1),
        Err(Refused::Broken { record, at }) => {
            let (line, column) = (at.line, at.column);
            let said = format!("refused: answer=10 record={record} line={line} column={column}");
            (String::new(), said, 1)
        }
        Err(Refused::Short) => panic!("there was room"),
    };
    Moved {
        output: output.into_bytes(),
        said: format!("bench: {said}\n"),
        status,
    }
}

/// Says what a file of two entries becomes, letter for letter.
#[test]
fn import_written_down() {
    let text = "Count = 1\n\
        Key = 000102030405060708090A0B0C0D0E0F\n\
        Nonce = F0F1F2F3F4F5F6F7F8F9FAFBFCFDFEFF\n\
        PT = \n\
        AD = \n\
        CT = 00112233445566778899AABBCCDDEEFF\n\
        \n\
        Count = 2\n\
        Key = 00000000000000000000000000000000\n\
        Nonce = 11111111111111111111111111111111\n\
        PT = 616263\n\
        AD = ABCDEF0123456789\n\
        CT = C1C2C30102030405060708090A0B0C0D0E0F10\n\
        \n";
    // No block and one of text: 24; two blocks of data and one of text: 24 + 6 * 2.
    let wanted = "set=1\n\
        key=000102030405060708090a0b0c0d0e0f\n\
        nonce=f0f1f2f3f4f5f6f7f8f9fafbfcfdfeff\n\
        ad=\n\
        text=\n\
        cipher=\n\
        tag=00112233445566778899aabbccddeeff\n\
        rounds=24\n\
        set=1\n\
        key=00000000000000000000000000000000\n\
        nonce=11111111111111111111111111111111\n\
        ad=abcdef0123456789\n\
        text=616263\n\
        cipher=c1c2c3\n\
        tag=0102030405060708090a0b0c0d0e0f10\n\
        rounds=36\n";
    assert_eq!(imported(1, text), Ok((2, wanted.to_string())));
}

/// Says what three records of two sets become, letter for letter, whatever their rounds.
#[test]
fn export_written_down() {
    let text = "set=2\n\
        key=000102030405060708090a0b\n\
        nonce=f0f1f2f3f4f5f6f7f8f9fafb\n\
        ad=\n\
        text=ab\n\
        cipher=\n\
        tag=00112233445566778899aabb\n\
        rounds=0\n\
        set=1\n\
        key=00000000000000000000000000000000\n\
        nonce=11111111111111111111111111111111\n\
        ad=cd\n\
        text=\n\
        cipher=c1c2c3\n\
        tag=0102030405060708090a0b0c0d0e0f10\n\
        rounds=30\n\
        set=2\n\
        key=222222222222222222222222\n\
        nonce=333333333333333333333333\n\
        ad=\n\
        text=\n\
        cipher=\n\
        tag=ffffffffffffffffffffffff\n\
        rounds=9999999\n";
    let wanted = "Count = 1\n\
        Key = 000102030405060708090A0B\n\
        Nonce = F0F1F2F3F4F5F6F7F8F9FAFB\n\
        PT = AB\n\
        AD = \n\
        CT = 00112233445566778899AABB\n\
        \n\
        Count = 2\n\
        Key = 00000000000000000000000000000000\n\
        Nonce = 11111111111111111111111111111111\n\
        PT = \n\
        AD = CD\n\
        CT = C1C2C30102030405060708090A0B0C0D0E0F10\n\
        \n\
        Count = 3\n\
        Key = 222222222222222222222222\n\
        Nonce = 333333333333333333333333\n\
        PT = \n\
        AD = \n\
        CT = FFFFFFFFFFFFFFFFFFFFFFFF\n\
        \n";
    assert_eq!(exported(text), Ok((3, wanted.to_string())));
}

/// Says that the entries and records written down elsewhere become one another.
#[test]
fn the_right_pairs() {
    let mut ran = 0;
    for set in set_numbers() {
        for count in [1, 2, 3, 9, 10, 11, 99, 100, 101, 999, 1_000] {
            let (one, other) = (entries(set, count), record(set).repeat(count));
            assert_eq!(imported(set, &one), Ok((count as u64, other.clone())));
            assert_eq!(exported(&other), Ok((count as u64, one)));
            ran += 1;
        }
    }
    assert_eq!(ran, SETS.len() * 11);
}

/// Says that no entries are no records and the other way round, in any room.
#[test]
fn nothing_becomes_nothing() {
    let nothing = Done {
        records: 0,
        written: 0,
    };
    let mut ran = 0;
    for room in [0, 1, 200] {
        for set in set_numbers() {
            assert_eq!(tried(room, |out| import(set, b"", out)).0, Ok(nothing));
            ran += 1;
        }
        assert_eq!(tried(room, |out| export(b"", out)).0, Ok(nothing));
        ran += 1;
    }
    assert_eq!(ran, 3 * (SETS.len() + 1));
    assert_eq!(imported(1, ""), Ok((0, String::new())));
    assert_eq!(exported(""), Ok((0, String::new())));
}

/// Says that the numbers of the refusals are those of the rules.
#[test]
fn numbers_of_the_refusals() {
    let why = |given: Given| given.expect_err("a refusal").number();
    assert_eq!(Refused::Set.number(), 1);
    assert_eq!(Refused::Short.number(), 6);
    assert_eq!(why(broken(2, 3, 4)), 10);
}

/// Says that an unknown set is answered first, whatever the text and the room.
#[test]
fn unknown_sets() {
    let texts = [
        String::new(),
        entry(1, 1),
        entry(2, 1),
        entry(1, 2),
        "x".to_string(),
        "\n".to_string(),
        entry(1, 1) + "Count",
    ];
    let sets = [
        0,
        5,
        16,
        255,
        256,
        257,
        258,
        259,
        260,
        (1 << 32) + 1,
        (1 << 32) + 2,
        (1 << 32) + 3,
        (1 << 32) + 4,
        (1 << 63) + 1,
        u64::MAX,
    ];
    let mut ran = 0;
    for set in sets {
        for text in &texts {
            for room in [0, 1, 1_000] {
                let (given, _) = tried(room, |out| import(set, text.as_bytes(), out));
                assert_eq!(given, Err(Refused::Set));
                ran += 1;
            }
            assert_eq!(imported(set, text), Err(Refused::Set));
        }
    }
    assert_eq!(ran, 15 * 7 * 3);
}

/// Checks that a text becomes what is wanted in every room that suffices and is refused with 6 in every other.
fn check_rooms(way: Way, text: &str, records: u64, wanted: &str) -> usize {
    let written = wanted.len();
    let mut ran = 0;
    for room in 0..written + 20 {
        let (given, out) = tried(room, |out| way(text.as_bytes(), out));
        if room < written {
            assert_eq!(given, Err(Refused::Short), "{room}");
        } else {
            assert_eq!(given, Ok(Done { records, written }));
            assert_eq!(out[..written], *wanted.as_bytes());
        }
        ran += 1;
    }
    ran
}

/// Says what each room gives, both ways, from none to more than enough.
#[test]
fn every_room() {
    let mut ran = 0;
    let mut rooms = 0;
    for set in set_numbers() {
        for count in [1, 2, 3] {
            let (one, other) = (entries(set, count), record(set).repeat(count));
            let way = |text: &[u8], out: &mut [u8]| import(set, text, out);
            ran += check_rooms(&way, &one, count as u64, &other);
            ran += check_rooms(&export, &other, count as u64, &one);
            rooms += one.len() + other.len() + 40;
        }
    }
    assert_eq!(ran, rooms);
    // Six entries and six records of each set, and the rooms beyond.
    let lengths = [157 + 163, 117 + 123, 157 + 163, 193 + 199];
    assert_eq!(
        rooms,
        6 * lengths.iter().sum::<usize>() + SETS.len() * 3 * 40
    );
}

/// Says that a broken entry or record is refused with 10 in every room, and wherever it stands.
#[test]
fn broken_before_short_rooms() {
    let mut ran = 0;
    for set in set_numbers() {
        let bad_entry = |text: &str| text.replace("AD = ", "AD = a");
        let bad_record = |text: &str| text.replace("\nad=", "\nad=A");
        let [one, two, three] = [1, 2, 3].map(|count| entry(set, count));
        let old = record(set);
        let entry_texts = [
            bad_entry(&one) + &two + &three,
            one.clone() + &bad_entry(&two) + &three,
            one.clone() + &two + &bad_entry(&three),
        ];
        let record_texts = [
            bad_record(old) + old + old,
            old.to_string() + &bad_record(old) + old,
            old.repeat(2) + &bad_record(old),
        ];
        for (number, (one, other)) in (1..).zip(entry_texts.iter().zip(&record_texts)) {
            for room in 0..=600 {
                let (given, _) = tried(room, |out| import(set, one.as_bytes(), out));
                assert_eq!(given, broken(number, 5, 6));
                let (given, _) = tried(room, |out| export(other.as_bytes(), out));
                assert_eq!(given, broken(number, 4, 4));
                ran += 1;
            }
        }
    }
    assert_eq!(ran, SETS.len() * 3 * 601);
}

/// Gives an entry, its set's record and the count of rounds, from a key, nonce and tag of one repeated byte.
fn pair_of(set: u64, count: u64, parts: [&[u8]; 3]) -> (String, String) {
    let own = set_of(set).expect("a known set").key;
    let hex = |bytes: &[u8]| -> String { bytes.iter().map(|b| format!("{b:02x}")).collect() };
    let [key, nonce, tag] = ["5a", "c3", "e7"].map(|byte| byte.repeat(own));
    let [ad, text, cipher] = parts.map(hex);
    let [ad_length, text_length] = [parts[0].len(), parts[1].len()];
    let (block, middle) = [(8, 6), (16, 8), (8, 6), (16, 8)][set as usize - 1];
    let data_blocks = if ad_length > 0 {
        ad_length / block + 1
    } else {
        0
    };
    let text_blocks = text_length / block + 1;
    let rounds = 12 + middle * (data_blocks + text_blocks - 1) + 12;
    let upper =
        format!("Key = {key}\nNonce = {nonce}\nPT = {text}\nAD = {ad}\nCT = {cipher}{tag}\n")
            .to_uppercase()
            .replace("KEY", "Key")
            .replace("NONCE", "Nonce");
    let record = format!(
        "set={set}\nkey={key}\nnonce={nonce}\nad={ad}\ntext={text}\ncipher={cipher}\ntag={tag}\nrounds={rounds}\n"
    );
    (format!("Count = {count}\n{upper}\n"), record)
}

/// Says what rounds are worked out, by hand, and that the length of the cipher takes no part.
#[test]
fn rounds_written_down() {
    let cases = [
        (1, 0, 0, 24),
        (1, 7, 7, 30),
        (1, 8, 0, 36),
        (1, 1, 8, 36),
        (1, 8, 8, 42),
        (1, 0, 8, 30),
        (1, 0, 256, 216),
        (1, 256, 0, 222),
        (1, 256, 256, 414),
        (2, 0, 0, 24),
        (2, 16, 15, 40),
        (2, 16, 0, 40),
        (2, 15, 16, 40),
        (2, 0, 16, 32),
        (2, 0, 256, 152),
        (2, 256, 0, 160),
        (2, 256, 256, 288),
        (3, 0, 0, 24),
        (3, 7, 7, 30),
        (3, 8, 8, 42),
        (3, 256, 256, 414),
        (4, 0, 0, 24),
        (4, 8, 8, 32),
        (4, 15, 15, 32),
        (4, 16, 15, 40),
        (4, 15, 16, 40),
        (4, 16, 16, 48),
        (4, 256, 256, 288),
    ];
    let bytes = [0xab; 256];
    let mut ran = 0;
    for (set, ad, text, rounds) in cases {
        for cipher in [0, 1, 8, 16, 17, 255, 256] {
            let parts = [&bytes[..ad], &bytes[..text], &bytes[..cipher]];
            let (one, other) = pair_of(set, 1, parts);
            assert!(other.ends_with(&format!("\nrounds={rounds}\n")));
            assert_eq!(imported(set, &one), Ok((1, other)));
            ran += 1;
        }
    }
    assert_eq!(ran, 28 * 7);
}

/// Says that fields of 255 and 256 bytes are right and one byte more isn't, in each line.
#[test]
fn the_most_bytes() {
    let bytes = [0xcd; 257];
    let mut ran = 0;
    for (set, column_of_ct) in set_numbers().zip([550, 542, 550, 550]) {
        let cases = [
            ([255, 0, 0], None),
            ([256, 0, 0], None),
            ([0, 255, 0], None),
            ([0, 256, 0], None),
            ([0, 0, 255], None),
            ([0, 0, 256], None),
            ([256, 256, 256], None),
            ([257, 0, 0], Some((5, 518, 4, 516))),
            ([0, 257, 0], Some((4, 518, 5, 518))),
            ([0, 0, 257], Some((6, column_of_ct, 6, 520))),
        ];
        for (lengths, fault) in cases {
            let parts = lengths.map(|length| &bytes[..length]);
            let (one, other) = pair_of(set, 1, parts);
            let (given, back) = (imported(set, &one), exported(&other));
            match fault {
                None => {
                    assert_eq!(given, Ok((1, other)));
                    assert_eq!(back, Ok((1, one)));
                }
                Some((line, column, old_line, old_column)) => {
                    let why = |given: Given| Err(given.expect_err("a refusal"));
                    assert_eq!(given, why(broken(1, line, column)));
                    assert_eq!(back, why(broken(1, old_line, old_column)));
                }
            }
            ran += 1;
        }
    }
    assert_eq!(ran, SETS.len() * 10);
}

/// Says that entries of any right lengths become what they tell, and come back the same.
#[test]
fn entries_there_and_back() {
    let mut random = Random::new(91);
    let mut ran = 0;
    for set in set_numbers() {
        let (mut one, mut other) = (String::new(), String::new());
        for count in 1..=400 {
            let most = if count % 8 == 0 { 256 } else { 40 };
            let parts = [(); 3].map(|()| {
                let length = random.below(most + 1) * random.below(4).min(1);
                random.bytes(length)
            });
            let (entry, record) = pair_of(set, count, [&parts[0], &parts[1], &parts[2]]);
            one += &entry;
            other += &record;
            if count % 20 == 0 || count < 20 {
                assert_eq!(imported(set, &one), Ok((count, other.clone())));
                assert_eq!(exported(&other), Ok((count, one.clone())));
            }
            ran += 1;
        }
    }
    assert_eq!(ran, SETS.len() * 400);
}

/// Gives the texts of so many right records of random messages, those of each set apart.
fn right_records(seed: u64, count: u64) -> [String; SETS.len()] {
    let mut random = Random::new(seed);
    let mut texts = [(); SETS.len()].map(|()| String::new());
    for index in 0..count {
        let record = vectors::record(&mut random, index);
        let lines = lines_of(Form::One, &record).expect("a right record");
        texts[record.set as usize - 1] += &String::from_utf8(lines).expect("plain text");
    }
    texts
}

/// Says that right records written out and read back with their set are the same.
#[test]
fn records_there_and_back() {
    let mut ran = 0;
    for (set, text) in set_numbers().zip(right_records(92, 1_000)) {
        let (count, file) = exported(&text).expect("right records");
        assert_eq!(count, 250);
        assert_eq!(imported(set, &file), Ok((250, text.clone())));
        for record in text.split_inclusive('\n').collect::<Vec<_>>().chunks(8) {
            let record = record.concat();
            let (count, file) = exported(&record).expect("a right record");
            assert_eq!(count, 1);
            assert_eq!(imported(set, &file), Ok((1, record)));
            ran += 1;
        }
    }
    assert_eq!(ran, 1_000);
}

/// Says that a wrong round count is dropped, and the right one is there after reading back.
#[test]
fn wrong_rounds_are_dropped() {
    let mut ran = 0;
    for set in set_numbers() {
        let right = record(set);
        let (before, _) = right.split_once("rounds=").expect("the last line");
        for rounds in [0, 1, 23, 24, 25, 30, 31, 9_999_999] {
            let other = format!("{before}rounds={rounds}\n");
            assert_eq!(exported(&other), Ok((1, entry(set, 1))));
            let both = other.repeat(2) + right;
            assert_eq!(exported(&both), Ok((3, entries(set, 3))));
            assert_eq!(imported(set, &entries(set, 3)), Ok((3, right.repeat(3))));
            ran += 1;
        }
    }
    assert_eq!(ran, SETS.len() * 8);
}

/// Says that records of all sets in one text are counted through.
#[test]
fn records_of_all_sets() {
    let sets = [1, 2, 4, 1, 3, 1, 1, 3, 4, 2, 1];
    let text: String = sets.iter().map(|set| record(*set)).collect();
    let wanted: String = (1..)
        .zip(sets)
        .map(|(count, set)| entry(set, count))
        .collect();
    assert_eq!(exported(&text), Ok((11, wanted.clone())));
    // The second entry's key ends before its 25th digit; the first's goes on with it.
    let why = |given: Given| Err(given.expect_err("a refusal"));
    for set in set_numbers() {
        let entry = if set == 2 { 1 } else { 2 };
        assert_eq!(imported(set, &wanted), why(broken(entry, 2, 31)));
    }
}

/// Says where broken records are refused when they are to become entries.
#[test]
fn broken_records() {
    let form_2 = |record: &str, chip: &str| {
        let (set, rest) = record.split_once('\n').expect("a first line");
        format!("form=2\n{set}\nchip={chip}\n{rest}")
    };
    let (one, two) = (RECORD_1, RECORD_2);
    let cases = [
        (form_2(one, "0"), 1, 1, 1),
        (form_2(two, "7"), 1, 1, 1),
        (one.to_string() + &form_2(two, "0") + one, 2, 1, 1),
        (one.to_string() + two + &form_2(one, "0"), 3, 1, 1),
        (entry(1, 1), 1, 1, 1),
        (one.to_string() + &entry(1, 2), 2, 1, 1),
        (one.to_string() + "\n", 2, 1, 1),
        ("\n".to_string() + one, 1, 1, 1),
        (one.replace("set=1", "set=5"), 1, 1, 5),
        (two.replace("set=2", "set=4"), 1, 2, 29),
        (one.replace("set=1", "set=2"), 1, 2, 29),
        (two.replace("set=2", "set=1"), 1, 2, 29),
        (one.replace("set=1\n", "set=1\nchip=0\n"), 1, 2, 1),
        (two.repeat(2) + &two.replace("key=de", "key=DE"), 3, 2, 5),
        (one.replace("nonce=10", "nonce=1"), 1, 3, 38),
        (one.replace("ad=a0a1", "ad=a0a"), 1, 4, 7),
        (one.replace("text=b0", "text=B0"), 1, 5, 6),
        (one.replace("cipher=", "cipher"), 1, 6, 7),
        (one.replace("tag=f0", "tag=f0f0"), 1, 7, 37),
        (one.replace("rounds=30", "rounds=030"), 1, 8, 9),
        (one.replace("rounds=30", "rounds=10000000"), 1, 8, 15),
        (one.replace("rounds=30", "rounds="), 1, 8, 8),
        (two.to_string() + one.trim_end(), 2, 8, 10),
        (two.to_string() + &one.replace("rounds=30\n", ""), 2, 8, 1),
        (one.replace('\n', "\r\n"), 1, 1, 6),
    ];
    let mut ran = 0;
    for (text, number, line, column) in cases {
        let why = broken(number, line, column).expect_err("a refusal");
        assert_eq!(exported(&text), Err(why), "{text}");
        ran += 1;
    }
    assert_eq!(ran, 25);
}

/// Says what is told of three records that end at any byte when they are to become entries.
#[test]
fn every_cut_of_records() {
    let (mut done, mut refused) = (0, 0);
    for set in set_numbers() {
        let length = record(set).len();
        let text = record(set).repeat(3);
        for end in 0..=text.len() {
            let (whole, begun) = (end / length, &text[end / length * length..end]);
            let wanted = if begun.is_empty() {
                done += 1;
                Ok((whole as u64, entries(set, whole)))
            } else {
                refused += 1;
                let lines: Vec<&str> = begun.split('\n').collect();
                let column = lines[lines.len() - 1].len() + 1;
                let given = broken(whole as u64 + 1, lines.len() as u64, column as u64);
                Err(given.expect_err("a refusal"))
            };
            assert_eq!(exported(&text[..end]), wanted);
        }
    }
    let lengths = 163 + 123 + 163 + 199;
    assert_eq!(
        (done, refused),
        (SETS.len() * 4, 3 * lengths - SETS.len() * 3)
    );
}

/// Says that made entries of each set are right and short, that some are empty, and that they are counted.
#[test]
fn made_entries() {
    let mut ran = 0;
    for set in &SETS {
        let mut random = Random::new(93);
        let (mut without_data, mut without_text, mut longest) = (0, 0, 0);
        for _ in 0..2_000 {
            let record = vectors::short_record(&mut random, set);
            assert_eq!(record.set, set.number);
            assert_eq!(record.cipher.len, record.text.len);
            without_data += usize::from(record.ad.len == 0);
            without_text += usize::from(record.text.len == 0);
            longest = longest.max(record.ad.len).max(record.text.len);
            ran += 1;
        }
        assert!(without_data > 400 && without_data < 700, "{without_data}");
        assert!(without_text > 400 && without_text < 700, "{without_text}");
        assert_eq!(longest, 40);
    }
    assert_eq!(ran, SETS.len() * 2_000);
}
