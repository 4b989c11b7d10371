//! Writing records of both forms: round trips, short outputs, and records of no right form.

use second::cipher::{set_numbers, set_of, SETS};
use second::make::right_record;
use second::random::Random;
use second::record::{
    first_broken_line, read, write, Broken, Field, Form, Record, Refused, LONGEST_1, LONGEST_2,
};
use second::vectors;

/// Gives a small right record of the given set.
fn small(set: u64) -> Record {
    let key = vec![0xab; set_of(set).expect("a known set").key];
    right_record(set, &key, &key, b"some data", b"some text").expect("a fitting message")
}

/// Says that the whole form of a record is what the rules print.
#[test]
fn the_written_form() {
    let mut record = small(2);
    record.cipher = Field::of(&[0x00, 0x0f, 0xf0]).expect("three bytes");
    record.tag = Field::of(&[9; 12]).expect("twelve bytes");
    record.rounds = 0;
    let mut out = vec![0; LONGEST_1];
    let length = write(Form::One, &record, &mut out).expect("a right record");
    let wanted = "set=2\nkey=abababababababababababab\nnonce=abababababababababababab\n\
        ad=736f6d652064617461\ntext=736f6d652074657874\ncipher=000ff0\n\
        tag=090909090909090909090909\nrounds=0\n";
    assert_eq!(out[..length], *wanted.as_bytes());
}

/// Says that writing a right record and reading it back gives the same record, and that spare bytes stay.
fn check_round_trip(form: Form, record: &Record, random: &mut Random) {
    let before = random.bytes(LONGEST_2 + 20);
    let mut out = before.clone();
    let length = write(form, record, &mut out).expect("a right record");
    assert_eq!(out[length..], before[length..]);
    assert_eq!(read(form, &out), Ok((record.clone(), length)));
    let mut exact = vec![0; length];
    assert_eq!(write(form, record, &mut exact), Ok(length));
    assert_eq!(exact, out[..length]);
}

/// Says that records of form 1 make the round trip.
#[test]
fn round_trips() {
    let mut random = Random::new(41);
    let mut ran = 0;
    for index in 0..1_000 {
        let record = vectors::record(&mut random, index);
        check_round_trip(Form::One, &record, &mut random);
        ran += 1;
    }
    assert_eq!(ran, 1_000);
}

/// Says that the longest record, with the given chip, is written in exactly so many bytes, and not in one less.
fn check_longest(form: Form, chip: u64, longest: usize) {
    let mut record = small(1);
    let full = Field::of(&[0xee; 256]).expect("256 bytes");
    record.ad = full.clone();
    record.text = full.clone();
    record.cipher = full;
    record.rounds = 9_999_999;
    record.chip = chip;
    let mut out = vec![0; longest];
    assert_eq!(write(form, &record, &mut out), Ok(longest));
    assert_eq!(read(form, &out), Ok((record.clone(), longest)));
    let short = write(form, &record, &mut out[..longest - 1]);
    assert_eq!(short, Err(Refused::Short));
}

/// Says that the longest record has exactly the length that the rules name.
#[test]
fn the_longest_record() {
    check_longest(Form::One, 0, 1_688);
}

/// Says that every output shorter than a small record of the given chip gets 6 and stays as it was, and gives how many it tried.
fn check_short_outputs(form: Form, chip: u64) -> usize {
    let mut ran = 0;
    for set in set_numbers() {
        let mut record = small(set);
        record.chip = chip;
        let length = write(form, &record, &mut [0; LONGEST_2]).expect("a right record");
        for size in 0..length {
            let mut out = vec![0x77; size];
            assert_eq!(write(form, &record, &mut out), Err(Refused::Short));
            assert!(out.iter().all(|byte| *byte == 0x77));
            ran += 1;
        }
    }
    ran
}

/// Says that every output shorter than the record gets 6 and stays as it was.
#[test]
fn every_short_output() {
    // The lengths of the records, worked out from the record form.
    assert_eq!(check_short_outputs(Form::One, 0), 3 * 201 + 177);
    let broken = Refused::Broken(Broken { line: 3, column: 0 });
    assert_eq!((Refused::Short.number(), broken.number()), (6, 10));
}

/// Gives the ways in which line `line` of a record is broken below.
fn ways(line: u64) -> usize {
    [5, 7, 7, 6, 6, 6, 7, 4][line as usize - 1]
}

/// Breaks a field of 16 places in the given way.
fn break_short(field: &mut Field<16>, way: usize) {
    let right = field.len;
    match way {
        0 => field.len = 0,
        1 => field.len = right - 1,
        2 => field.len = right + 1,
        3 => field.len = usize::MAX,
        4 => field.len = 28 - right,
        5 => field.len = 17,
        // With 16 bytes there is no place past the length, so the length is shortened with it.
        _ if right == 16 => *field = Field::of(&[1; 15]).expect("15 bytes"),
        _ => field.bytes[right] = 1,
    }
}

/// Breaks a field of 256 places in the given way.
fn break_long(field: &mut Field<256>, way: usize) {
    match way {
        0 => field.len = 257,
        1 => field.len = usize::MAX,
        2 => field.bytes[255] = 1,
        3 => field.bytes[field.len] = 0x80,
        4 => field.len -= 1,
        _ => field.len = 1 << 32,
    }
}

/// Breaks one line of the record in the given way.
fn break_line(record: &mut Record, line: u64, way: usize) {
    match line {
        1 => record.set = [0, 5, 16, 1 << 32 | 3, u64::MAX][way],
        2 => break_short(&mut record.key, way),
        3 => break_short(&mut record.nonce, way),
        4 => break_long(&mut record.ad, way),
        5 => break_long(&mut record.text, way),
        6 => break_long(&mut record.cipher, way),
        7 => break_short(&mut record.tag, way),
        _ => record.rounds = [10_000_000, 10_000_001, 1 << 40, u64::MAX][way],
    }
}

/// Checks that the record is refused with 10, the line and column 0, whatever the output, which stays.
fn check_broken_in(form: Form, record: &Record, line: u64) {
    assert_eq!(first_broken_line(form, record), Some(line));
    let refused = Refused::Broken(Broken { line, column: 0 });
    for size in [0, 1, 300, LONGEST_2] {
        let mut out = vec![0x33; size];
        assert_eq!(write(form, record, &mut out), Err(refused));
        assert!(out.iter().all(|byte| *byte == 0x33));
    }
}

/// Gives the number in form 2 of the line that has the given number in form 1.
fn in_form_2(line: u64) -> u64 {
    [2, 4, 5, 6, 7, 8, 9, 10][line as usize - 1]
}

/// Checks that the record is refused for that line of form 1, and in form 2 for the same line there.
fn check_broken(record: &Record, line: u64) {
    check_broken_in(Form::One, record, line);
    check_broken_in(Form::Two, record, in_form_2(line));
}

/// Says that each way of breaking each line is refused with that line.
#[test]
fn each_line_broken() {
    let mut ran = 0;
    for set in set_numbers() {
        assert_eq!(first_broken_line(Form::One, &small(set)), None);
        for line in 1..=8 {
            for way in 0..ways(line) {
                let mut record = small(set);
                break_line(&mut record, line, way);
                check_broken(&record, line);
                ran += 1;
            }
        }
    }
    assert_eq!(ran, SETS.len() * 48);
}

/// Says that of two broken lines, in all their ways, the first is named.
#[test]
fn each_pair_of_lines_broken() {
    let (mut pairs, mut ran) = (0, 0);
    for set in set_numbers() {
        for first in 1..=8 {
            for second in first + 1..=8 {
                pairs += 1;
                for way in 0..ways(first) * ways(second) {
                    let mut record = small(set);
                    break_line(&mut record, first, way / ways(second));
                    break_line(&mut record, second, way % ways(second));
                    check_broken(&record, first);
                    ran += 1;
                }
            }
        }
    }
    // All ordered pairs of the 48 ways less those within one line, halved, for each set.
    let squares: usize = (1..=8).map(|line| ways(line) * ways(line)).sum();
    let halved = (48 * 48 - squares) / 2;
    assert_eq!((pairs, ran), (SETS.len() * 28, SETS.len() * halved));
}

/// Says that the all-zero record is broken in its set line.
#[test]
fn the_zero_record() {
    check_broken(&Record::zero(), 1);
}

/// Chips that no record of form 2 can have.
const BAD_CHIPS: [u64; 9] = [
    65_536,
    65_537,
    70_000,
    99_999,
    100_000,
    1 << 32,
    (1 << 32) + 7,
    1 << 63,
    u64::MAX,
];

/// Says that the whole text of a record of form 2 is what the rules print.
#[test]
fn the_written_form_2() {
    let mut record = small(2);
    record.chip = 65_535;
    record.cipher = Field::of(&[0x00, 0x0f, 0xf0]).expect("three bytes");
    record.tag = Field::of(&[9; 12]).expect("twelve bytes");
    record.rounds = 0;
    let mut out = vec![0; LONGEST_2];
    let length = write(Form::Two, &record, &mut out).expect("a right record");
    let wanted = "form=2\nset=2\nchip=65535\nkey=abababababababababababab\n\
        nonce=abababababababababababab\nad=736f6d652064617461\ntext=736f6d652074657874\n\
        cipher=000ff0\ntag=090909090909090909090909\nrounds=0\n";
    assert_eq!(out[..length], *wanted.as_bytes());
    assert_eq!(read(Form::Two, wanted.as_bytes()), Ok((record, length)));
}

/// Says how each of some chips is written, and that it comes back.
#[test]
fn chips_written() {
    let cases = [
        (0, "chip=0\n"),
        (1, "chip=1\n"),
        (9, "chip=9\n"),
        (10, "chip=10\n"),
        (100, "chip=100\n"),
        (9_999, "chip=9999\n"),
        (10_000, "chip=10000\n"),
        (65_534, "chip=65534\n"),
        (65_535, "chip=65535\n"),
    ];
    let mut ran = 0;
    for (chip, line) in cases {
        let mut record = small(1);
        record.chip = chip;
        let mut out = vec![0; LONGEST_2];
        let length = write(Form::Two, &record, &mut out).expect("a right record");
        // The line stands behind those of form and set.
        assert_eq!(out[13..13 + line.len()], *line.as_bytes());
        assert_eq!(read(Form::Two, &out), Ok((record, length)));
        ran += 1;
    }
    assert_eq!(ran, 9);
}

/// Says that every chip up to the greatest is written and comes back.
#[test]
fn every_chip_comes_back() {
    let mut record = small(2);
    let mut ran = 0;
    for chip in 0..=65_535 {
        record.chip = chip;
        let mut out = [0; 300];
        let length = write(Form::Two, &record, &mut out).expect("a right record");
        let (found, taken) = read(Form::Two, &out).expect("a right text");
        assert_eq!((found.chip, taken), (chip, length));
        ran += 1;
    }
    assert_eq!(ran, 65_536);
}

/// Says that a chip too great is refused in line 3, after a wrong set and before all other lines.
#[test]
fn chips_too_great() {
    let mut ran = 0;
    for chip in BAD_CHIPS {
        for set in set_numbers() {
            let mut record = small(set);
            record.chip = chip;
            check_broken_in(Form::Two, &record, 3);
            for line in 1..=8 {
                for way in 0..ways(line) {
                    let mut other = record.clone();
                    break_line(&mut other, line, way);
                    let first = if line == 1 { 2 } else { 3 };
                    check_broken_in(Form::Two, &other, first);
                    ran += 1;
                }
            }
        }
    }
    assert_eq!(ran, 9 * SETS.len() * 48);
}

/// Gives chips other than 0, both those that form 2 can have and those that it can't.
fn chips_not_0() -> impl Iterator<Item = u64> {
    [1, 2, 256, 65_534, 65_535].into_iter().chain(BAD_CHIPS)
}

/// Says that form 1 refuses chips other than 0 with 11 in rooms short and long, which stay as they were.
#[test]
fn form_1_has_no_chip() {
    let mut ran = 0;
    for set in set_numbers() {
        let mut record = small(set);
        for chip in chips_not_0() {
            record.chip = chip;
            assert_eq!(first_broken_line(Form::One, &record), None);
            for size in (0..=210).chain([LONGEST_1, LONGEST_2]) {
                let mut out = vec![0x55; size];
                assert_eq!(write(Form::One, &record, &mut out), Err(Refused::Chip));
                assert!(out.iter().all(|byte| *byte == 0x55));
                ran += 1;
            }
        }
        record.chip = 0;
        let mut out = [0x55; 210];
        let length = write(Form::One, &record, &mut out).expect("a right record");
        assert_eq!(read(Form::One, &out), Ok((record, length)));
    }
    assert_eq!(ran, SETS.len() * 14 * 213);
    assert_eq!(Refused::Chip.number(), 11);
}

/// Says that form 1 refuses a broken line with 10 in rooms short and long, whatever the chip.
#[test]
fn broken_lines_before_chips() {
    let mut ran = 0;
    for chip in chips_not_0() {
        for set in set_numbers() {
            for line in 1..=8 {
                for way in 0..ways(line) {
                    let mut record = small(set);
                    record.chip = chip;
                    break_line(&mut record, line, way);
                    check_broken_in(Form::One, &record, line);
                    ran += 1;
                }
            }
        }
    }
    assert_eq!(ran, 14 * SETS.len() * 48);
}

/// Says that records of form 2 make the round trip.
#[test]
fn round_trips_in_form_2() {
    let mut random = Random::new(42);
    let (mut ran, mut least, mut greatest) = (0, 0, 0);
    for index in 0..1_000 {
        let record = vectors::record_in(Form::Two, &mut random, index);
        check_round_trip(Form::Two, &record, &mut random);
        least += usize::from(record.chip == 0);
        greatest += usize::from(record.chip == 65_535);
        ran += 1;
    }
    assert_eq!(ran, 1_000);
    // Of 1,000 records 62 times 16, and 4 each of the 8 behind them, have the one or the other.
    assert!(least >= 252 && greatest >= 252 && least + greatest < 600);
}

/// Says that the longest record of form 2 has the length of the longest of form 1 and two lines.
#[test]
fn the_longest_record_of_form_2() {
    assert_eq!(LONGEST_2, 1_688 + "form=2\n".len() + "chip=65535\n".len());
    check_longest(Form::Two, 65_535, 1_706);
}

/// Says that every output shorter than the record in form 2 gets 6 and stays as it was.
#[test]
fn every_short_output_in_form_2() {
    // The lengths in form 1, and two lines of 7 and of 8 bytes.
    assert_eq!(
        check_short_outputs(Form::Two, 77),
        3 * (201 + 15) + 177 + 15
    );
}
