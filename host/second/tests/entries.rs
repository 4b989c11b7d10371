//! Line and column of the fault in a broken entry: written down by hand, and by their definition.

mod published;

use published::{broken, entries, entry, record, tried, Given};
use second::cipher::{set_numbers, SETS};
use second::exchange::{import, Done};
use second::random::Random;

/// A broken line and the column of its fault.
type Row<'a> = (&'a [u8], u64);

/// Gives what reading entries of the set gives, with room for all of them.
fn read(set: u64, text: &[u8]) -> Given {
    tried(text.len() * 2 + 100, |out| import(set, text, out)).0
}

/// Checks where a text of entries breaks.
fn check_at(set: u64, text: &[u8], entry: u64, line: u64, column: u64) {
    let shown = String::from_utf8_lossy(text);
    assert_eq!(read(set, text), broken(entry, line, column), "{shown}");
}

/// Checks each broken line in place of that line of that entry, and gives how many texts it read.
fn check_rows(set: u64, place: usize, line: usize, rows: &[Row]) -> usize {
    let whole = entry(set, place);
    let lines: Vec<&str> = whole.split_inclusive('\n').collect();
    let before = entries(set, place - 1) + &lines[..line - 1].concat();
    let after = "\n".to_string() + &lines[line..].concat() + &entry(set, place + 1);
    let mut ran = 0;
    for (bad, column) in rows {
        for behind in [&b""[..], b"\n", after.as_bytes(), b"\n\xff\n\n", b"\n0\n"] {
            let text = [before.as_bytes(), *bad, behind].concat();
            check_at(set, &text, place as u64, line as u64, *column);
            ran += 1;
        }
    }
    ran
}

/// Checks each broken line in the first, second and twelfth entry of a set, and gives how many texts it read.
fn check_in_entries(set: u64, line: usize, rows: &[Row]) -> usize {
    let places = [1, 2, 12];
    places
        .map(|place| check_rows(set, place, line, rows))
        .iter()
        .sum()
}

/// How many times a row is read in all sets: with five endings, in three entries each.
const ALL: usize = 5 * 3 * SETS.len();

/// Checks the rows in all sets, and gives how many texts it read.
fn check_in_all_sets(line: usize, rows: &[Row]) -> usize {
    let ran = set_numbers().map(|set| check_in_entries(set, line, rows));
    ran.sum()
}

/// The sets with keys of 16 bytes.
const LONG: [u64; 3] = [1, 3, 4];

/// Checks the rows in the sets with keys of 16 bytes, and gives how many texts it read in each.
fn check_long_keys(line: usize, rows: &[Row]) -> usize {
    let ran = LONG.map(|set| check_in_entries(set, line, rows));
    assert_eq!(ran, [ran[0]; 3]);
    ran[0]
}

/// Gives a line of that label and so many digits.
fn digits(label: &str, count: usize) -> Vec<u8> {
    let mut line = label.as_bytes().to_vec();
    line.extend(b"9A0F".iter().cycle().take(count));
    line
}

/// Says that the entries from which all others are made are right.
#[test]
fn the_right_entries() {
    // The lengths of the lines and the seven line feeds.
    assert_eq!(entry(1, 1).len(), 9 + 38 + 40 + 11 + 9 + 43 + 7);
    assert_eq!(entry(2, 1).len(), 9 + 30 + 32 + 5 + 5 + 29 + 7);
    assert_eq!(entry(3, 1), entry(1, 1));
    assert_eq!(entry(4, 1).len(), 9 + 38 + 40 + 37 + 23 + 39 + 7);
    let mut ran = 0;
    for set in set_numbers() {
        for count in [1, 2, 12, 13] {
            let written = record(set).len() * count;
            let records = count as u64;
            let done = Done { records, written };
            assert_eq!(read(set, entries(set, count).as_bytes()), Ok(done));
            ran += 1;
        }
    }
    assert_eq!(ran, SETS.len() * 4);
}

/// Says where the name of the count line breaks, in any entry.
#[test]
fn the_name_of_the_count_line() {
    let rows: [Row; 25] = [
        (b"\n", 1),
        (b" Count = 1", 1),
        (b"\tCount = 1", 1),
        (b"\rCount = 1", 1),
        (b"\xef\xbb\xbfCount = 1", 1),
        (b"\xff", 1),
        (b"count = 1", 1),
        (b"# a remark", 1),
        (b"Key = 000102030405060708090A0B0C0D0E0F", 1),
        (b"set=1", 1),
        (b"C", 2),
        (b"COUNT = 1", 2),
        (b"CT = 00", 2),
        (b"Coumt = 1", 4),
        (b"Coun", 5),
        (b"Count", 6),
        (b"Count= 1", 6),
        (b"Count=1", 6),
        (b"Counts = 1", 6),
        (b"Count\t= 1", 6),
        (b"Count\r", 6),
        (b"Count ", 7),
        (b"Count  = 1", 7),
        (b"Count =", 8),
        (b"Count =1", 8),
    ];
    assert_eq!(check_in_all_sets(1, &rows), 25 * ALL);
}

/// Says where the count of the first entry breaks.
#[test]
fn the_count_of_the_first_entry() {
    let rows: [Row; 21] = [
        (b"Count = ", 9),
        (b"Count = 0", 9),
        (b"Count = 00", 9),
        (b"Count = 01", 9),
        (b"Count = 001", 9),
        (b"Count = 2", 9),
        (b"Count = 9", 9),
        (b"Count =  1", 9),
        (b"Count = +1", 9),
        (b"Count = -1", 9),
        (b"Count = A", 9),
        (b"Count = x", 9),
        (b"Count = \r", 9),
        (b"Count = \xc2\xb9", 9),
        (b"Count = 1 ", 10),
        (b"Count = 1\r", 10),
        (b"Count = 1\0", 10),
        (b"Count = 1.", 10),
        (b"Count = 10", 10),
        (b"Count = 11", 10),
        (b"Count = 18446744073709551617", 10),
    ];
    let ran: usize = set_numbers().map(|set| check_rows(set, 1, 1, &rows)).sum();
    assert_eq!(ran, SETS.len() * 21 * 5);
}

/// Says where the count of the twelfth entry breaks.
#[test]
fn the_count_of_the_twelfth_entry() {
    let rows: [Row; 14] = [
        (b"Count = ", 9),
        (b"Count = 0", 9),
        (b"Count = 2", 9),
        (b"Count = 012", 9),
        (b"Count = 21", 9),
        (b"Count = C", 9),
        (b"Count = 1", 10),
        (b"Count = 1 2", 10),
        (b"Count = 11", 10),
        (b"Count = 13", 10),
        (b"Count = 12 ", 11),
        (b"Count = 12\r", 11),
        (b"Count = 120", 11),
        (b"Count = 123", 11),
    ];
    let ran: usize = set_numbers().map(|set| check_rows(set, 12, 1, &rows)).sum();
    assert_eq!(ran, SETS.len() * 14 * 5);
}

/// Says where counts break before and after they get one digit more.
#[test]
fn counts_beside_powers_of_ten() {
    let cases: [(usize, [Row; 5]); 6] = [
        (
            9,
            [(b"8", 9), (b"10", 9), (b"09", 9), (b"", 9), (b"90", 10)],
        ),
        (
            10,
            [
                (b"9", 9),
                (b"11", 10),
                (b"010", 9),
                (b"1", 10),
                (b"100", 11),
            ],
        ),
        (
            99,
            [
                (b"98", 10),
                (b"100", 9),
                (b"099", 9),
                (b"9", 10),
                (b"990", 11),
            ],
        ),
        (
            100,
            [
                (b"99", 9),
                (b"101", 11),
                (b"0100", 9),
                (b"10", 11),
                (b"1000", 12),
            ],
        ),
        (
            999,
            [
                (b"998", 11),
                (b"1000", 9),
                (b"0999", 9),
                (b"99", 11),
                (b"9990", 12),
            ],
        ),
        (
            1_000,
            [
                (b"999", 9),
                (b"1001", 12),
                (b"01000", 9),
                (b"100", 12),
                (b"10000", 13),
            ],
        ),
    ];
    let mut ran = 0;
    for (place, rows) in cases {
        assert!(read(2, entries(2, place).as_bytes()).is_ok());
        for (count, column) in rows {
            let line = [b"Count = ", count].concat();
            ran += check_rows(2, place, 1, &[(&line, column)]);
        }
    }
    assert_eq!(ran, 6 * 5 * 5);
}

/// Says that an entry left out, put in twice or taken from elsewhere breaks at its count.
#[test]
fn skipped_and_repeated_entries() {
    let mut ran = 0;
    for set in set_numbers() {
        let cases = [
            (vec![2], 1, 9),
            (vec![0, 1], 1, 9),
            (vec![1, 1], 2, 9),
            (vec![1, 3], 2, 9),
            (vec![1, 2, 2, 3], 3, 9),
            (vec![1, 2, 3, 5], 4, 9),
            (vec![1, 2, 3, 4, 5, 6, 7, 8, 9, 11], 10, 10),
            (vec![1, 2, 3, 4, 5, 6, 7, 8, 9, 10, 12], 11, 10),
        ];
        for (counts, place, column) in cases {
            let text: String = counts.iter().map(|count| entry(set, *count)).collect();
            check_at(set, text.as_bytes(), place, 1, column);
            ran += 1;
        }
    }
    assert_eq!(ran, SETS.len() * 8);
}

/// Says where the key line breaks.
#[test]
fn the_key_line() {
    let rows: [Row; 25] = [
        (b"", 1),
        (b"key = 00", 1),
        (b"Nonce = 00", 1),
        (b"KEY = 00", 2),
        (b"Ke", 3),
        (b"Key", 4),
        (b"Key=00", 4),
        (b"Key= 00", 4),
        (b"Key\t= 00", 4),
        (b"Key 00", 5),
        (b"Key =", 6),
        (b"Key =00", 6),
        (b"Key =\r", 6),
        (b"Key = ", 7),
        (b"Key =  0", 7),
        (b"Key = a0", 7),
        (b"Key = G0", 7),
        (b"Key = \r", 7),
        (b"Key = @", 7),
        (b"Key = /", 7),
        (b"Key = 0", 8),
        (b"Key = 0a", 8),
        (b"Key = 0:", 8),
        (b"Key = 0x00", 8),
        (b"Key = 00 01", 9),
    ];
    assert_eq!(check_in_all_sets(2, &rows), 25 * ALL);
    let lengths = |set, cases: [(usize, u64); 7]| {
        cases.map(|(count, column)| check_in_entries(set, 2, &[(&digits("Key = ", count), column)]))
    };
    let long = [
        (2, 9),
        (24, 31),
        (30, 37),
        (31, 38),
        (33, 39),
        (34, 39),
        (64, 39),
    ];
    let short = [
        (2, 9),
        (22, 29),
        (23, 30),
        (25, 31),
        (26, 31),
        (32, 31),
        (64, 31),
    ];
    assert_eq!(LONG.map(|set| lengths(set, long)), [[15; 7]; 3]);
    assert_eq!(lengths(2, short), [15; 7]);
    let full = [digits("Key = ", 32), b" ".to_vec()].concat();
    assert_eq!(check_long_keys(2, &[(&full, 39)]), 15);
    let full = [digits("Key = ", 24), b"\r".to_vec()].concat();
    assert_eq!(check_in_entries(2, 2, &[(&full, 31)]), 15);
}

/// Says where the nonce line breaks.
#[test]
fn the_nonce_line() {
    let rows: [Row; 17] = [
        (b"", 1),
        (b"nonce = 00", 1),
        (b"Key = 00", 1),
        (b"PT = 00", 1),
        (b"NONCE = 00", 2),
        (b"None = 00", 4),
        (b"Nonce", 6),
        (b"Nonce=00", 6),
        (b"Nonces = 00", 6),
        (b"Nonce  = 00", 7),
        (b"Nonce =", 8),
        (b"Nonce =00", 8),
        (b"Nonce = ", 9),
        (b"Nonce = f", 9),
        (b"Nonce = 0", 10),
        (b"Nonce = Ff", 10),
        (b"Nonce = FFf", 11),
    ];
    assert_eq!(check_in_all_sets(3, &rows), 17 * ALL);
    let lengths = |set, cases: [(usize, u64); 6]| {
        cases.map(|(count, column)| {
            check_in_entries(set, 3, &[(&digits("Nonce = ", count), column)])
        })
    };
    let long = [(2, 11), (24, 33), (30, 39), (31, 40), (33, 41), (34, 41)];
    let short = [(2, 11), (22, 31), (23, 32), (25, 33), (26, 33), (32, 33)];
    assert_eq!(LONG.map(|set| lengths(set, long)), [[15; 6]; 3]);
    assert_eq!(lengths(2, short), [15; 6]);
}

/// Says where the lines of text and of associated data break.
#[test]
fn the_lines_of_text_and_data() {
    let text_rows: [Row; 8] = [
        (b"", 1),
        (b"pt = ", 1),
        (b"AD = ", 1),
        (b"CT = ", 1),
        (b"P", 2),
        (b"Pt = ", 2),
        (b"PTX = ", 3),
        (b"Plaintext = ", 2),
    ];
    let data_rows: [Row; 8] = [
        (b"", 1),
        (b"ad = ", 1),
        (b"PT = ", 1),
        (b"CT = ", 1),
        (b"A", 2),
        (b"Ad = ", 2),
        (b"ADX = ", 3),
        (b"AAD = ", 2),
    ];
    assert_eq!(check_in_all_sets(4, &text_rows), 8 * ALL);
    assert_eq!(check_in_all_sets(5, &data_rows), 8 * ALL);
    let endings: [Row; 20] = [
        (b"", 3),
        (b"=", 3),
        (b"= ", 3),
        (b"=00", 3),
        (b"\r", 3),
        (b" ", 4),
        (b"  = ", 4),
        (b" =", 5),
        (b" =00", 5),
        (b" =\t", 5),
        (b" =\r", 5),
        (b" =  ", 6),
        (b" = \r", 6),
        (b" = b0", 6),
        (b" = G", 6),
        (b" = -", 6),
        (b" = B", 7),
        (b" = Bo", 7),
        (b" = B0\r", 8),
        (b" = B0B1 ", 10),
    ];
    let mut ran = 0;
    for (line, name) in [(4, "PT"), (5, "AD")] {
        for (ending, column) in endings {
            let bad = [name.as_bytes(), ending].concat();
            ran += check_in_all_sets(line, &[(&bad, column)]);
        }
        let label = format!("{name} = ");
        for (count, column) in [
            (1, 7),
            (3, 9),
            (511, 517),
            (513, 518),
            (514, 518),
            (600, 518),
        ] {
            ran += check_in_all_sets(line, &[(&digits(&label, count), column)]);
        }
        let full = [digits(&label, 512), b"\r".to_vec()].concat();
        ran += check_in_all_sets(line, &[(&full, 518)]);
    }
    assert_eq!(ran, 2 * 27 * ALL);
}

/// Says where the line of cipher and tag breaks.
#[test]
fn the_line_of_cipher_and_tag() {
    let rows: [Row; 16] = [
        (b"", 1),
        (b"ct = 00", 1),
        (b"AD = 00", 1),
        (b"Tag = 00", 1),
        (b"Ct = 00", 2),
        (b"Count = 2", 2),
        (b"CT", 3),
        (b"CT=00", 3),
        (b"CT  = 00", 4),
        (b"CT =", 5),
        (b"CT =00", 5),
        (b"CT = ", 6),
        (b"CT = c0", 6),
        (b"CT = C", 7),
        (b"CT = Cc", 7),
        (b"CT = C0c1", 8),
    ];
    assert_eq!(check_in_all_sets(6, &rows), 16 * ALL);
    let lengths = |set, cases: [(usize, u64); 8]| {
        cases.map(|(count, column)| check_in_entries(set, 6, &[(&digits("CT = ", count), column)]))
    };
    let long = [
        (24, 30),
        (30, 36),
        (31, 37),
        (33, 39),
        (543, 549),
        (545, 550),
        (546, 550),
        (600, 550),
    ];
    let short = [
        (2, 8),
        (22, 28),
        (23, 29),
        (25, 31),
        (535, 541),
        (537, 542),
        (538, 542),
        (544, 542),
    ];
    assert_eq!(LONG.map(|set| lengths(set, long)), [[15; 8]; 3]);
    assert_eq!(lengths(2, short), [15; 8]);
    let full = [digits("CT = ", 32), b"\r".to_vec()].concat();
    assert_eq!(check_long_keys(6, &[(&full, 38)]), 15);
    let full = [digits("CT = ", 24), b" ".to_vec()].concat();
    assert_eq!(check_in_entries(2, 6, &[(&full, 30)]), 15);
}

/// Says where the empty line breaks, and that the last entry needs it too.
#[test]
fn the_empty_line() {
    let rows: [Row; 7] = [
        (b" ", 1),
        (b"\r", 1),
        (b"\t", 1),
        (b"\0", 1),
        (b"\xff", 1),
        (b"x", 1),
        (b"Count = 2", 1),
    ];
    assert_eq!(check_in_all_sets(7, &rows), 7 * ALL);
    let mut ran = 0;
    for set in set_numbers() {
        for count in [1, 2, 12] {
            let text = entries(set, count);
            let without = &text.as_bytes()[..text.len() - 1];
            check_at(set, without, count as u64, 7, 1);
            ran += 1;
        }
        // Another entry straight behind, and one empty line too many.
        let text = entry(set, 1).trim_end_matches('\n').to_string() + "\n" + &entry(set, 2);
        check_at(set, text.as_bytes(), 1, 7, 1);
        check_at(set, (entry(set, 1) + "\n").as_bytes(), 2, 1, 1);
        check_at(
            set,
            (entry(set, 1) + "\n" + &entry(set, 2)).as_bytes(),
            2,
            1,
            1,
        );
        check_at(set, ("\n".to_string() + &entry(set, 1)).as_bytes(), 1, 1, 1);
    }
    assert_eq!(ran, SETS.len() * 3);
}

/// Says where each line breaks when all lines end in a carriage return too.
#[test]
fn carriage_returns() {
    let mut ran = 0;
    for (set, columns) in [
        (1, [10, 39, 41, 12, 10, 44, 1]),
        (2, [10, 31, 33, 6, 6, 30, 1]),
        (3, [10, 39, 41, 12, 10, 44, 1]),
        (4, [10, 39, 41, 38, 24, 40, 1]),
    ] {
        check_at(
            set,
            entry(set, 1).replace('\n', "\r\n").as_bytes(),
            1,
            1,
            10,
        );
        let whole = entry(set, 1);
        let lines: Vec<&str> = whole.lines().collect();
        for (index, column) in columns.into_iter().enumerate() {
            let before: String = lines[..index]
                .iter()
                .map(|line| format!("{line}\n"))
                .collect();
            let after: String = lines[index..]
                .iter()
                .map(|line| format!("{line}\r\n"))
                .collect();
            check_at(
                set,
                (before + &after).as_bytes(),
                1,
                index as u64 + 1,
                column,
            );
            ran += 1;
        }
    }
    assert_eq!(ran, SETS.len() * 7);
}

/// Says that an entry of set 2 breaks as one of another set at its key, and the other way round.
#[test]
fn entries_of_a_set_with_other_keys() {
    // A key of 16 bytes is too long at its 25th digit; that of set 2 ends before its 25th.
    let mut ran = 0;
    for long in LONG {
        check_at(2, entry(long, 1).as_bytes(), 1, 2, 31);
        check_at(long, entry(2, 1).as_bytes(), 1, 2, 31);
        check_at(2, (entry(2, 1) + &entry(long, 2)).as_bytes(), 2, 2, 31);
        check_at(long, (entry(long, 1) + &entry(2, 2)).as_bytes(), 2, 2, 31);
        ran += 1;
    }
    assert_eq!(ran, SETS.len() - 1);
}

/// Says that an entry of a set with keys of 16 bytes is one of each such set, with the rounds of that set.
#[test]
fn entries_of_a_set_with_keys_as_long() {
    let mut ran = 0;
    let text = entry(4, 1);
    // Nine bytes of data and 16 of text are two and three blocks of 8, or one and two of 16.
    for (set, rounds) in [(1, 48), (3, 48), (4, 40)] {
        let mut out = vec![0; 300];
        let done = import(set, text.as_bytes(), &mut out).expect("a right entry");
        let wanted = record(4).replace("set=4", &format!("set={set}"));
        let wanted = wanted.replace("rounds=40", &format!("rounds={rounds}"));
        assert_eq!(out[..done.written], *wanted.as_bytes());
        ran += 1;
    }
    assert_eq!(ran, LONG.len());
}

/// Says that the first of two faults is told, by its line, by its column and by its entry.
#[test]
fn two_faults() {
    let [one, two, three] = [1, 2, 3].map(|count| entry(1, count));
    let odd_ad = |text: &str| text.replace("AD = A0A1", "AD = A0A");
    let small_key = |text: &str| text.replace("Key = 000102", "Key = 0001o2");
    let cases = [
        (odd_ad(&small_key(&one)), 1, 2, 11),
        (one.clone() + &odd_ad(&two) + &small_key(&three), 2, 5, 9),
        (one.clone() + &two + &small_key(&odd_ad(&three)), 3, 2, 11),
        (one.clone() + &odd_ad(&entry(1, 3)), 2, 1, 9),
        (one.replace("PT = B0B1B2", "PT = b0B1B"), 1, 4, 6),
        (one.replace("PT = B0B1B2", "PT = B0B1B"), 1, 4, 11),
    ];
    let mut ran = 0;
    for (text, entry, line, column) in cases {
        check_at(1, text.as_bytes(), entry, line, column);
        ran += 1;
    }
    assert_eq!(ran, 6);
}

/// Gives the entry, line and column one past the end of a text that ends inside right entries of that length.
fn end_of(text: &str, length: usize) -> (u64, u64, u64) {
    let begun = &text[text.len() / length * length..];
    let line = begun.matches('\n').count() + 1;
    let column = begun.len() - begun.rfind('\n').map_or(0, |place| place + 1) + 1;
    let entry = text.len() / length + 1;
    (entry as u64, line as u64, column as u64)
}

/// Says what is told of three entries that end at any byte.
#[test]
fn every_cut() {
    let (mut done, mut refused) = (0, 0);
    for set in set_numbers() {
        let text = entries(set, 3);
        let length = entry(set, 1).len();
        assert_eq!(text.len(), 3 * length);
        for end in 0..=text.len() {
            let cut = &text[..end];
            if end % length == 0 {
                let records = (end / length) as u64;
                let written = record(set).len() * (end / length);
                assert_eq!(read(set, cut.as_bytes()), Ok(Done { records, written }));
                done += 1;
            } else {
                let (entry, line, column) = end_of(cut, length);
                check_at(set, cut.as_bytes(), entry, line, column);
                refused += 1;
            }
        }
    }
    let lengths = 157 + 117 + 157 + 193;
    assert_eq!(
        (done, refused),
        (SETS.len() * 4, 3 * lengths - SETS.len() * 3)
    );
}

/// Gives how many bytes key, nonce and tag of the set have.
fn own(set: u64) -> usize {
    match set {
        2 => 12,
        _ => 16,
    }
}

/// What a right line is: its fixed front, and how few and how many bytes in hex stand behind that.
type Shape = (String, usize, usize);

/// Gives the shapes of the lines of the entry of the set with that count.
fn shapes(set: u64, count: usize) -> [Shape; 7] {
    let own = own(set);
    [
        (format!("Count = {count}"), 0, 0),
        ("Key = ".to_string(), own, own),
        ("Nonce = ".to_string(), own, own),
        ("PT = ".to_string(), 0, 256),
        ("AD = ".to_string(), 0, 256),
        ("CT = ".to_string(), own, own + 256),
        (String::new(), 0, 0),
    ]
}

/// Says whether a line of that shape, its line feed included, can begin with the part or be it.
fn may_begin((front, least, most): &Shape, part: &[u8]) -> bool {
    if part.len() <= front.len() {
        return front.as_bytes().starts_with(part);
    }
    let Some(value) = part.strip_prefix(front.as_bytes()) else {
        return false;
    };
    let (digits, ended) = match value.strip_suffix(b"\n") {
        Some(digits) => (digits, true),
        None => (value, false),
    };
    let are_digits = digits
        .iter()
        .all(|c| matches!(c, b'0'..=b'9' | b'A'..=b'F'));
    let may_end = digits.len() % 2 == 0 && digits.len() >= 2 * least;
    are_digits && digits.len() <= 2 * most && (may_end || !ended)
}

/// Gives how many entries the text has, or entry, line and column of its first fault, by the definition of a column.
fn by_definition(set: u64, text: &[u8]) -> Result<u64, (u64, u64, u64)> {
    let mut rest = text;
    let mut count = 0;
    while !rest.is_empty() {
        count += 1;
        for (line, shape) in (1..).zip(shapes(set, count)) {
            let mut end = 0;
            while end == 0 || rest[end - 1] != b'\n' {
                end += 1;
                if end > rest.len() || !may_begin(&shape, &rest[..end]) {
                    return Err((count as u64, line, end as u64));
                }
            }
            rest = &rest[end..];
        }
    }
    Ok(count as u64)
}

/// Checks a text against the definition and says whether it is right.
fn check_by_definition(set: u64, text: &[u8]) -> bool {
    let shown = String::from_utf8_lossy(text);
    match by_definition(set, text) {
        Ok(count) => {
            let records = read(set, text).map(|done| done.records);
            assert_eq!(records, Ok(count), "{shown}");
            true
        }
        Err((entry, line, column)) => {
            check_at(set, text, entry, line, column);
            false
        }
    }
}

/// Says that the definition agrees for each change of any byte to any other, byte left out and byte put in.
#[test]
fn every_change_of_one_byte() {
    let (mut ran, mut right) = (0, 0);
    for set in set_numbers() {
        let text = entries(set, 2).into_bytes();
        for place in 0..text.len() {
            let mut check = |other: &[u8]| {
                right += usize::from(check_by_definition(set, other));
                ran += 1;
            };
            for new in 0..=255 {
                let mut other = text.clone();
                other[place] = new;
                check(&other);
            }
            for new in *b"0129AFGaf =\r\n\0\xff" {
                let mut other = text.clone();
                other.insert(place, new);
                check(&other);
            }
            let mut other = text.clone();
            other.remove(place);
            check(&other);
        }
    }
    let lengths = [157, 117, 157, 193];
    let length: usize = lengths.iter().sum();
    assert_eq!(ran, 2 * length * (256 + 15 + 1));
    // Each digit in one entry of each set has sixteen right values, and every other byte has its own.
    let in_1 = 32 + 32 + 6 + 4 + 38;
    let digits = in_1 + (24 + 24 + 24) + in_1 + (32 + 32 + 32 + 18 + 34);
    assert_eq!(right, 2 * (16 * digits + length - digits));
}

/// Says that the definition agrees for entries of random lengths with bytes changed, lost and put in.
#[test]
fn damaged_entries() {
    let mut random = Random::new(81);
    let (mut ran, mut refused) = (0, 0);
    for index in 0..3_000 {
        let set = SETS[index % SETS.len()].number;
        let own = own(set);
        let mut text = String::new();
        for count in 1..=1 + random.below(3) {
            let mut hex = |least: usize, most: usize| {
                let length = least + random.below(most - least + 1);
                let pairs = random.bytes(length);
                pairs
                    .iter()
                    .map(|byte| format!("{byte:02X}"))
                    .collect::<String>()
            };
            let most = [20, 258][usize::from(index % 10 == 9)];
            let (key, nonce) = (hex(own, own), hex(own, own));
            let (pt, ad, ct) = (hex(0, most), hex(0, most), hex(own, own + most));
            text += &format!(
                "Count = {count}\nKey = {key}\nNonce = {nonce}\nPT = {pt}\nAD = {ad}\nCT = {ct}\n\n"
            );
        }
        let mut text = text.into_bytes();
        for _ in 0..random.below(3) {
            let place = random.below(text.len());
            let new = b"0129AFGaf =\r\n\0\xff"[random.below(15)];
            match random.below(4) {
                0 => text[place] = new,
                1 => text.insert(place, new),
                2 => drop(text.remove(place)),
                _ => text.truncate(place + 1),
            }
        }
        refused += usize::from(!check_by_definition(set, &text));
        ran += 1;
    }
    assert_eq!(ran, 3_000);
    assert!(refused > 1_000 && refused < 2_500, "{refused}");
}
