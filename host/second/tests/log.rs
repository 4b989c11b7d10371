//! Reading and writing the entries of logs; line and column of a fault by hand and by their definition.

mod logs;

use second::log::{log_of, read, written, Call, Entry, Log, CALLS, MOST_NUMBER};
use second::random::Random;
use second::record::Broken;

/// Right entries, one of each call, in the order of `CALLS`.
const RIGHT: [[&str; 5]; 5] = [
    [
        "call=start1",
        "data=000102030405060708090a0b0c0d0e0f101112131415161718191a1b1c1d1e1f",
        "answer=0",
        "out=",
        "rounds=12",
    ],
    [
        "call=start2",
        "data=000102030405060708090a0b101112131415161718191a1b",
        "answer=0",
        "out=",
        "rounds=12",
    ],
    ["call=ad", "data=a0a1", "answer=7", "out=", "rounds=0"],
    [
        "call=text",
        "data=b0b1b2",
        "answer=0",
        "out=c0c1c2",
        "rounds=6",
    ],
    [
        "call=finish",
        "data=",
        "answer=0",
        "out=f0e0d0c0b0a0908070605040",
        "rounds=20",
    ],
];

/// A broken line and the column of its fault.
type Row<'a> = (&'a str, u64);

/// Gives the entry of these parts.
fn entry(call: Call, data: &[u8], answer: u64, out: &[u8], rounds: u64) -> Entry {
    Entry {
        call,
        data: data.to_vec(),
        answer,
        out: out.to_vec(),
        rounds,
    }
}

/// Gives what the entries of `RIGHT` hold.
fn held() -> [Entry; 5] {
    let start_1: Vec<u8> = (0..32).collect();
    let start_2: Vec<u8> = (0..12).chain(16..28).collect();
    let tag = [
        0xf0, 0xe0, 0xd0, 0xc0, 0xb0, 0xa0, 0x90, 0x80, 0x70, 0x60, 0x50, 0x40,
    ];
    [
        entry(Call::Start1, &start_1, 0, &[], 12),
        entry(Call::Start2, &start_2, 0, &[], 12),
        entry(Call::Ad, &[0xa0, 0xa1], 7, &[], 0),
        entry(Call::Text, &[0xb0, 0xb1, 0xb2], 0, &[0xc0, 0xc1, 0xc2], 6),
        entry(Call::Finish, &[], 0, &tag, 20),
    ]
}

/// Gives the lines as a text, each with its line feed.
fn text_of(lines: &[&str]) -> String {
    lines.iter().map(|line| format!("{line}\n")).collect()
}

/// Checks where an entry breaks.
fn check_at(text: &[u8], line: u64, column: u64) {
    let shown = String::from_utf8_lossy(text);
    assert_eq!(read(text), Err(Broken { line, column }), "{shown}");
}

/// Checks each broken line in place of line `number` of the entry, and gives how many texts it read.
fn check_rows(lines: &[&str; 5], number: usize, rows: &[Row]) -> usize {
    let before = text_of(&lines[..number - 1]);
    let after = "\n".to_string() + &text_of(&lines[number..]);
    let mut ran = 0;
    for (broken, column) in rows {
        for behind in [&b""[..], b"\n", after.as_bytes(), b"\n\xff\n\n", b"\n0\n"] {
            let text = [before.as_bytes(), broken.as_bytes(), behind].concat();
            check_at(&text, number as u64, *column);
            ran += 1;
        }
    }
    ran
}

/// Checks the rows in the entry of each call, and gives how many texts it read.
fn check_in_all(number: usize, rows: &[Row]) -> usize {
    let ran = RIGHT.map(|lines| check_rows(&lines, number, rows));
    ran.iter().sum()
}

/// Says that the entries from which all others are made are right, with anything behind them.
#[test]
fn the_right_entries() {
    let mut ran = 0;
    // The lengths of the lines and the five line feeds.
    let lengths = [
        11 + 69 + 8 + 4 + 9 + 5,
        11 + 53 + 8 + 4 + 9 + 5,
        7 + 9 + 8 + 4 + 8 + 5,
        9 + 11 + 8 + 10 + 8 + 5,
        11 + 5 + 8 + 28 + 9 + 5,
    ];
    for ((lines, entry), length) in RIGHT.iter().zip(held()).zip(lengths) {
        let text = text_of(lines);
        assert_eq!(text.len(), length);
        for behind in [&b""[..], b"\n", b"call=ad\n", b"x", b"0", b"\xff\0"] {
            let longer = [text.as_bytes(), behind].concat();
            assert_eq!(read(&longer), Ok((entry.clone(), length)));
            ran += 1;
        }
    }
    assert_eq!(ran, 5 * 6);
}

/// Says how entries are written, letter for letter.
#[test]
fn writing() {
    let mut ran = 0;
    for (lines, entry) in RIGHT.iter().zip(held()) {
        assert_eq!(written(&entry), text_of(lines).as_bytes());
        ran += 1;
    }
    assert_eq!(ran, 5);
    assert_eq!(
        log_of(&held()),
        RIGHT.map(|l| text_of(&l)).concat().as_bytes()
    );
    assert_eq!(log_of(&[]), b"");
    let refused = entry(Call::Text, &[], 5, &[], 0);
    let lines = b"call=text\ndata=\nanswer=5\nout=\nrounds=0\n";
    assert_eq!(written(&refused), lines);
}

/// Says that an entry that no log can hold is written as it is, and broken when read.
#[test]
fn writing_what_is_broken() {
    let cases = [
        (entry(Call::Start1, &[0; 31], 0, &[], 12), 2, 68),
        (entry(Call::Start1, &[0; 33], 0, &[], 12), 2, 70),
        (entry(Call::Start2, &[0; 32], 0, &[], 12), 2, 54),
        (entry(Call::Ad, &[0; 257], 0, &[], 12), 2, 518),
        (entry(Call::Finish, &[0], 0, &[], 12), 2, 6),
        (entry(Call::Ad, &[0; 256], 10_000_000, &[], 12), 3, 15),
        (entry(Call::Text, &[], 0, &[0; 257], 12), 4, 517),
        (entry(Call::Text, &[], 0, &[0; 256], u64::MAX), 5, 15),
    ];
    let mut ran = 0;
    for (entry, line, column) in cases {
        let text = written(&entry);
        assert_eq!(text, logs::lines(&entry).as_bytes());
        check_at(&text, line, column);
        ran += 1;
    }
    assert_eq!(ran, 8);
}

/// Says where the call line breaks.
#[test]
fn the_call_line() {
    let rows: [Row; 87] = [
        ("", 1),
        ("start1", 1),
        ("=start1", 1),
        ("Call=ad", 1),
        ("CALL=ad", 1),
        (" call=ad", 1),
        ("\tcall=ad", 1),
        ("\rcall=ad", 1),
        ("\0call=ad", 1),
        ("\u{feff}call=ad", 1),
        ("all=ad", 1),
        ("data=", 1),
        ("rounds=0", 1),
        ("set=1", 1),
        ("c", 2),
        ("cAll=ad", 2),
        ("cll=ad", 2),
        ("ccall=ad", 2),
        ("ca", 3),
        ("caLl=ad", 3),
        ("cal", 4),
        ("cal=ad", 4),
        ("calL=ad", 4),
        ("call", 5),
        ("callad", 5),
        ("calls=ad", 5),
        ("call =ad", 5),
        ("call:ad", 5),
        ("call\r", 5),
        ("call=", 6),
        ("call= ad", 6),
        ("call==ad", 6),
        ("call=\r", 6),
        ("call=1", 6),
        ("call=Start1", 6),
        ("call=AD", 6),
        ("call=b", 6),
        ("call=call=ad", 6),
        ("call=check", 6),
        ("call=é", 6),
        ("call=a", 7),
        ("call=s", 7),
        ("call=t", 7),
        ("call=f", 7),
        ("call=aD", 7),
        ("call=at", 7),
        ("call=sd", 7),
        ("call=seal", 7),
        ("call=sTart1", 7),
        ("call=tinish", 7),
        ("call=fext", 7),
        ("call=ad ", 8),
        ("call=ad\r", 8),
        ("call=ad\0", 8),
        ("call=ad1", 8),
        ("call=add", 8),
        ("call=adtext", 8),
        ("call=st", 8),
        ("call=stop", 8),
        ("call=te", 8),
        ("call=test", 8),
        ("call=fi", 8),
        ("call=fim", 8),
        ("call=sta", 9),
        ("call=tex", 9),
        ("call=texT", 9),
        ("call=fin", 9),
        ("call=fine", 9),
        ("call=star", 10),
        ("call=stars", 10),
        ("call=fini", 10),
        ("call=text ", 10),
        ("call=text\r", 10),
        ("call=text1", 10),
        ("call=texts", 10),
        ("call=start", 11),
        ("call=start ", 11),
        ("call=start0", 11),
        ("call=start3", 11),
        ("call=finis", 11),
        ("call=finisH", 11),
        ("call=start1 ", 12),
        ("call=start12", 12),
        ("call=start2\r", 12),
        ("call=start21", 12),
        ("call=finish\0", 12),
        ("call=finished", 12),
    ];
    assert_eq!(check_in_all(1, &rows), 87 * 5 * 5);
}

/// Says where the name of the data line breaks, in any call.
#[test]
fn the_name_of_the_data_line() {
    let rows: [Row; 20] = [
        ("", 1),
        ("00", 1),
        ("=00", 1),
        ("Data=", 1),
        (" data=", 1),
        ("\rdata=", 1),
        ("call=ad", 1),
        ("answer=0", 1),
        ("d", 2),
        ("dAta=", 2),
        ("da", 3),
        ("date=", 4),
        ("dat", 4),
        ("data", 5),
        ("data =", 5),
        ("data:", 5),
        ("data00", 5),
        ("data\r", 5),
        ("data= ", 6),
        ("data=\r", 6),
    ];
    assert_eq!(check_in_all(2, &rows), 20 * 5 * 5);
}

/// Says where the digits of a piece break.
#[test]
fn the_digits_of_a_piece() {
    let rows: [Row; 20] = [
        ("data=g", 6),
        ("data=A0", 6),
        ("data= 00", 6),
        ("data=x00", 6),
        ("data==", 6),
        ("data=-", 6),
        ("data=0", 7),
        ("data=f", 7),
        ("data=0g", 7),
        ("data=0A", 7),
        ("data=0x00", 7),
        ("data=0 ", 7),
        ("data=00 ", 8),
        ("data=00\r", 8),
        ("data=00\0", 8),
        ("data=00,00", 8),
        ("data=ffF0", 8),
        ("data=fff", 9),
        ("data=fffF", 9),
        ("data=0123456789abcdefg", 22),
    ];
    let ran = check_rows(&RIGHT[2], 2, &rows) + check_rows(&RIGHT[3], 2, &rows);
    assert_eq!(ran, 2 * 20 * 5);
}

/// Says that a finish has no data.
#[test]
fn data_on_finish() {
    let rows: [Row; 7] = [
        ("data=0", 6),
        ("data=00", 6),
        ("data=f0e0d0c0b0a0908070605040", 6),
        ("data=g", 6),
        ("data= ", 6),
        ("data=\r", 6),
        ("data=\0", 6),
    ];
    assert_eq!(check_rows(&RIGHT[4], 2, &rows), 7 * 5);
}

/// Says where the digits of a start's key and nonce break.
#[test]
fn the_digits_of_a_start() {
    let [one, two] = [RIGHT[0][1], RIGHT[1][1]];
    let mut ran = 0;
    for (lines, right, other) in [(&RIGHT[0], one, two), (&RIGHT[1], two, one)] {
        let end = right.len() as u64;
        let cut = |less: usize| right[..right.len() - less].to_string();
        let rows = [
            ("data=".to_string(), 6),
            (cut(1), end),
            (cut(2), end - 1),
            (cut(3), end - 2),
            (cut(1) + "F", end),
            (cut(2) + "g0", end - 1),
            (right.to_string() + "0", end + 1),
            (right.to_string() + "00", end + 1),
            (right.to_string() + " ", end + 1),
            (right.to_string() + "\r", end + 1),
            (right.to_string() + "g", end + 1),
            // A start with the other set's key and nonce breaks behind 48 digits either way.
            (other.to_string(), 54),
        ];
        for (broken, column) in &rows {
            ran += check_rows(lines, 2, &[(broken, *column)]);
        }
    }
    assert_eq!(ran, 2 * 12 * 5);
}

/// Gives a line of that label and so many digits.
fn line_of_digits(label: &str, count: usize) -> String {
    let digits = "9a0f".chars().cycle().take(count);
    label.chars().chain(digits).collect()
}

/// Gives the column at which so many digits break behind a label of that length, when only an even number from `least` to `most` is right.
fn column_of(label: usize, count: usize, least: usize, most: usize) -> Option<u64> {
    if count > most {
        return Some((label + most + 1) as u64);
    }
    let is_right = count.is_multiple_of(2) && count >= least;
    (!is_right).then_some((label + count + 1) as u64)
}

/// Says how many digits each call may have on its data line, and any call on its out line.
#[test]
fn numbers_of_digits() {
    let (mut right, mut broken) = (0, 0);
    let limits = [(64, 64), (48, 48), (0, 512), (0, 512), (0, 0)];
    for (lines, (least, most)) in RIGHT.iter().zip(limits) {
        for (number, label, least, most) in [(2, "data=", least, most), (4, "out=", 0, 512)] {
            for count in 0..=530 {
                let line = line_of_digits(label, count);
                match column_of(label.len(), count, least, most) {
                    Some(column) => broken += check_rows(lines, number, &[(&line, column)]),
                    None => {
                        let mut lines = *lines;
                        lines[number - 1] = &line;
                        let text = text_of(&lines);
                        let (entry, taken) = read(text.as_bytes()).expect("a right entry");
                        assert_eq!(taken, text.len());
                        assert_eq!(logs::lines(&entry), text);
                        right += 1;
                    }
                }
            }
        }
    }
    assert_eq!(right, 3 + 2 * 257 + 5 * 257);
    assert_eq!(broken, (10 * 531 - right) * 5);
}

/// Says where the names of the last three lines break, in any call.
#[test]
fn the_names_of_the_last_lines() {
    let answer: [Row; 14] = [
        ("", 1),
        ("0", 1),
        ("Answer=0", 1),
        (" answer=0", 1),
        ("data=", 1),
        ("out=", 1),
        ("rounds=0", 1),
        ("a", 2),
        ("ad=", 2),
        ("anwser=0", 3),
        ("answe", 6),
        ("answer", 7),
        ("answer:0", 7),
        ("answer =0", 7),
    ];
    let out: [Row; 11] = [
        ("", 1),
        ("00", 1),
        ("Out=", 1),
        ("rounds=0", 1),
        ("o", 2),
        ("oUt=", 2),
        ("ou", 3),
        ("out", 4),
        ("outs=", 4),
        ("out =", 4),
        ("out\r", 4),
    ];
    let rounds: [Row; 11] = [
        ("", 1),
        ("0", 1),
        ("Rounds=0", 1),
        ("call=ad", 1),
        ("out=", 1),
        ("r", 2),
        ("round=0", 6),
        ("rounds", 7),
        ("rounds:0", 7),
        ("rounds =0", 7),
        ("rounds\r", 7),
    ];
    assert_eq!(check_in_all(3, &answer), 14 * 5 * 5);
    assert_eq!(check_in_all(4, &out), 11 * 5 * 5);
    assert_eq!(check_in_all(5, &rounds), 11 * 5 * 5);
}

/// Says where the two decimals break, in any call.
#[test]
fn the_decimals() {
    let values: [Row; 34] = [
        ("", 8),
        (" 0", 8),
        ("-1", 8),
        ("+1", 8),
        ("x", 8),
        ("a", 8),
        ("=0", 8),
        ("\r", 8),
        ("\0", 8),
        ("/", 8),
        (":", 8),
        ("٠", 8),
        ("00", 9),
        ("01", 9),
        ("07", 9),
        ("000", 9),
        ("0000000", 9),
        ("0 ", 9),
        ("0\r", 9),
        ("0x0", 9),
        ("0.", 9),
        ("7 ", 9),
        ("1e3", 9),
        ("1,000", 9),
        ("1a", 9),
        ("12,", 10),
        ("12\r", 10),
        ("999999x", 14),
        ("1234567 ", 15),
        ("1234567\r", 15),
        ("12345678", 15),
        ("10000000", 15),
        ("99999990", 15),
        ("18446744073709551616", 15),
    ];
    let mut ran = 0;
    for (value, column) in values {
        ran += check_in_all(3, &[(&format!("answer={value}"), column)]);
        ran += check_in_all(5, &[(&format!("rounds={value}"), column)]);
    }
    assert_eq!(ran, 34 * 2 * 5 * 5);
}

/// Says which decimals are right, for the answer and for the rounds.
#[test]
fn right_decimals() {
    assert_eq!(MOST_NUMBER, 9_999_999);
    let mut ran = 0;
    for number in [
        0, 1, 2, 5, 7, 9, 10, 12, 99, 100, 12_345, 999_999, 1_000_000, 9_999_999,
    ] {
        for (answer, rounds) in [(number, 3), (3, number)] {
            let text = format!("call=finish\ndata=\nanswer={answer}\nout=\nrounds={rounds}\n");
            let wanted = entry(Call::Finish, &[], answer, &[], rounds);
            assert_eq!(read(text.as_bytes()), Ok((wanted, text.len())));
            ran += 1;
        }
    }
    assert_eq!(ran, 28);
}

/// Says where the digits of the out line break, in any call.
#[test]
fn the_digits_of_the_out_line() {
    let rows: [Row; 13] = [
        ("out=g", 5),
        ("out= ", 5),
        ("out=\r", 5),
        ("out=A0", 5),
        ("out==", 5),
        ("out=0", 6),
        ("out=0G", 6),
        ("out=0x", 6),
        ("out=00 ", 7),
        ("out=00\r", 7),
        ("out=ffF", 7),
        ("out=fff", 8),
        ("out=0123456789abcdefg", 21),
    ];
    assert_eq!(check_in_all(4, &rows), 13 * 5 * 5);
}

/// Says that an entry cut anywhere breaks behind its last byte, and behind a line feed at the missing line's first column.
#[test]
fn cut_anywhere() {
    let mut ran = 0;
    for lines in RIGHT {
        let text = text_of(&lines);
        let (mut line, mut column) = (1, 1);
        for (end, byte) in text.bytes().enumerate() {
            check_at(&text.as_bytes()[..end], line, column);
            column += 1;
            if byte == b'\n' {
                (line, column) = (line + 1, 1);
            }
            ran += 1;
        }
    }
    assert_eq!(ran, 106 + 90 + 41 + 51 + 66);
}

/// Says that a left-out, doubled or misplaced line breaks where it stands.
#[test]
fn lines_in_another_order() {
    let mut ran = 0;
    for lines in RIGHT {
        let [call, data, answer, out, rounds] = lines;
        let cases: [(&[&str], u64); 12] = [
            (&[data, answer, out, rounds], 1),
            (&[call, answer, out, rounds], 2),
            (&[call, data, out, rounds], 3),
            (&[call, data, answer, rounds], 4),
            (&[call, data, answer, out], 5),
            (&[call, call, data, answer, out, rounds], 2),
            (&[call, data, data, answer, out, rounds], 3),
            (&[call, data, answer, answer, out, rounds], 4),
            (&[call, data, answer, out, out, rounds], 5),
            (&[data, call, answer, out, rounds], 1),
            (&[call, data, answer, rounds, out], 4),
            (&[call, "", data, answer, out, rounds], 2),
        ];
        for (order, line) in cases {
            check_at(text_of(order).as_bytes(), line, 1);
            ran += 1;
        }
    }
    assert_eq!(ran, 5 * 12);
}

/// Says how long the longest entry is, and that it is read.
#[test]
fn the_longest_entry() {
    let longest = entry(Call::Text, &[0xab; 256], 9_999_999, &[0xcd; 256], 9_999_999);
    let text = written(&longest);
    assert_eq!(text.len(), 10 + 518 + 15 + 517 + 15);
    assert_eq!(read(&text), Ok((longest, text.len())));
}

/// Gives a pseudo-random entry of the call that a log can hold.
fn random_entry(random: &mut Random, call: Call) -> Entry {
    let count = match call {
        Call::Start1 => 32,
        Call::Start2 => 24,
        Call::Ad | Call::Text => random.below(257),
        Call::Finish => 0,
    };
    let data = random.bytes(count);
    let count = random.below(257);
    let out = random.bytes(count);
    let [answer, rounds] = [0, 1].map(|_| {
        let digits = random.below(7) as u32 + 1;
        random.below(10_usize.pow(digits)) as u64
    });
    entry(call, &data, answer, &out, rounds)
}

/// Says that any entry that a log can hold is written as put together here and read back the same.
#[test]
fn there_and_back() {
    let mut random = Random::new(61);
    let mut ran = 0;
    for _ in 0..400 {
        for call in CALLS {
            let entry = random_entry(&mut random, call);
            let text = written(&entry);
            assert_eq!(text, logs::lines(&entry).as_bytes());
            let length = text.len();
            assert_eq!(read(&text), Ok((entry.clone(), length)));
            let behind = random.bytes(3);
            assert_eq!(read(&[text, behind].concat()), Ok((entry, length)));
            ran += 1;
        }
    }
    assert_eq!(ran, 2_000);
}

/// Says that a log is read entry by entry up to its end, and no further.
#[test]
fn a_log_in_turn() {
    let text = logs::text(&held());
    let mut log = Log::new(text.as_bytes());
    assert_eq!(log.place(), 0);
    let mut places = Vec::new();
    for entry in held() {
        assert_eq!(log.take_entry(), Ok(Some(entry)));
        places.push(log.place());
    }
    assert_eq!(places, [106, 196, 237, 288, 354]);
    assert_eq!(log.take_entry(), Ok(None));
    assert_eq!(log.take_entry(), Ok(None));
    assert_eq!(log.place(), 354);
    assert_eq!(Log::new(b"").take_entry(), Ok(None));
}

/// Says that a broken entry of a log isn't taken, however often it is asked for.
#[test]
fn a_broken_log_in_turn() {
    let text = text_of(&RIGHT[2]) + "call=ad\ndata=0G\n" + &text_of(&RIGHT[3]);
    let mut log = Log::new(text.as_bytes());
    assert_eq!(log.take_entry(), Ok(Some(held()[2].clone())));
    for _ in 0..3 {
        let broken = Broken { line: 2, column: 7 };
        assert_eq!(log.take_entry(), Err(broken));
        assert_eq!(log.place(), 41);
    }
}

/// What may stand at each place of a right line, its line feed included.
type Shape = Vec<&'static [u8]>;

/// Gives the shape of a line with that label and those choices in its value.
fn shape(label: &'static str, value: &[&'static [u8]]) -> Shape {
    let mut places: Shape = label.as_bytes().chunks(1).collect();
    places.extend(value);
    places.push(b"\n");
    places
}

/// Gives the shapes of a line with that label and `least` to `most` bytes.
fn shapes_of_bytes(label: &'static str, least: usize, most: usize) -> Vec<Shape> {
    let digit = &b"0123456789abcdef"[..];
    let counts = least..=most;
    counts
        .map(|count| shape(label, &vec![digit; count * 2]))
        .collect()
}

/// Gives the shapes of a line with that label and a decimal.
fn shapes_of_decimals(label: &'static str) -> Vec<Shape> {
    let mut all = vec![shape(label, &[b"0"])];
    let mut value = vec![&b"123456789"[..]];
    while value.len() <= 7 {
        all.push(shape(label, &value));
        value.push(b"0123456789");
    }
    all
}

/// The shapes of all right lines; those of the data line go by the call.
struct Shapes {
    data: [Vec<Shape>; 5],
    answer: Vec<Shape>,
    out: Vec<Shape>,
    rounds: Vec<Shape>,
}

/// The right call lines, in the order of `CALLS`.
const CALL_LINES: [&str; 5] = [
    "call=start1",
    "call=start2",
    "call=ad",
    "call=text",
    "call=finish",
];

impl Shapes {
    /// Gives all shapes.
    fn new() -> Shapes {
        let limits = [(32, 32), (24, 24), (0, 256), (0, 256), (0, 0)];
        Shapes {
            data: limits.map(|(least, most)| shapes_of_bytes("data=", least, most)),
            answer: shapes_of_decimals("answer="),
            out: shapes_of_bytes("out=", 0, 256),
            rounds: shapes_of_decimals("rounds="),
        }
    }

    /// Gives how many bytes a right entry at the front has, or where the definition of a column has it break.
    fn by_definition(&self, text: &[u8]) -> Result<usize, Broken> {
        let calls = CALL_LINES.map(|line| shape(line, &[]));
        let mut place = go_on(&calls, text, 1)?;
        let mut fitting = CALL_LINES
            .iter()
            .map(|line| text.starts_with(line.as_bytes()));
        let call = fitting.position(|fits| fits).expect("one of the calls");
        let lines = [&self.data[call], &self.answer, &self.out, &self.rounds];
        for (number, shapes) in (2..).zip(lines) {
            place += go_on(shapes, &text[place..], number)?;
        }
        Ok(place)
    }
}

/// Gives how many bytes the line of one of the shapes at the front has, or the column behind the most that fit any.
fn go_on(shapes: &[Shape], text: &[u8], line: u64) -> Result<usize, Broken> {
    let mut most = 0;
    for shape in shapes {
        let pairs = shape.iter().zip(text);
        let fitting = pairs.take_while(|(choice, byte)| choice.contains(byte));
        let count = fitting.count();
        if count == shape.len() {
            return Ok(count);
        }
        most = most.max(count);
    }
    let column = most as u64 + 1;
    Err(Broken { line, column })
}

/// Checks an entry by the definition, and gives 1.
fn check_defined(shapes: &Shapes, text: &[u8]) -> usize {
    let shown = String::from_utf8_lossy(text);
    let found = read(text).map(|(_, taken)| taken);
    assert_eq!(found, shapes.by_definition(text), "{shown}");
    1
}

/// Says that a right entry with any one character changed, left out or put in is read or breaks as defined.
#[test]
fn one_character_changed() {
    let shapes = Shapes::new();
    let mut ran = 0;
    for lines in RIGHT {
        let text = text_of(&lines).into_bytes();
        for place in 0..text.len() {
            let (before, rest) = text.split_at(place);
            ran += check_defined(&shapes, &[before, &rest[1..]].concat());
            for new in 0..=255 {
                ran += check_defined(&shapes, &[before, &[new], rest].concat());
                ran += check_defined(&shapes, &[before, &[new], &rest[1..]].concat());
            }
        }
    }
    assert_eq!(ran, 354 * (1 + 2 * 256));
}

/// Says that entries put together from right and wrong lines are read or break as defined.
#[test]
fn mixed_lines() {
    let shapes = Shapes::new();
    let mut random = Random::new(62);
    let (mut ran, mut right) = (0, 0);
    for _ in 0..20_000 {
        let mut lines = RIGHT[random.below(5)];
        for _ in 0..random.below(3) {
            let number = random.below(5);
            lines[number] = RIGHT[random.below(5)][number];
        }
        let text = text_of(&lines);
        ran += check_defined(&shapes, text.as_bytes());
        right += usize::from(read(text.as_bytes()).is_ok());
    }
    assert_eq!(ran, 20_000);
    assert!(right > 5_000 && right < 19_000);
}
