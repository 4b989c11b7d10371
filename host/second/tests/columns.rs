//! Line and column of the fault in a broken record: written down by hand, and by their definition.

mod forms;

use forms::{
    count_of_lines, each_change, each_short_value, in_form_2, label_of, place_of, records_in,
    text_of, Forms, FORMS, RECORDS, SET_1, SET_2,
};
use second::cipher::SETS;
use second::record::{read, Broken, Form};

/// A broken line and the column of its fault.
type Row<'a> = (&'a [u8], u64);

/// Checks where a record of the form breaks.
fn check_in(form: Form, text: &[u8], line: u64, column: u64) {
    let found = read(form, text).map(|(_, taken)| taken);
    let shown = String::from_utf8_lossy(text);
    assert_eq!(found, Err(Broken { line, column }), "{shown}");
}

/// Checks where a record of form 1 breaks.
fn check_at(text: &[u8], line: u64, column: u64) {
    check_in(Form::One, text, line, column);
}

/// Checks each broken line in place of line `number` of the lines, and gives how many texts it read.
fn check_lines(form: Form, lines: &[&[u8]], number: usize, rows: &[Row]) -> usize {
    let mut ran = 0;
    for (broken, column) in rows {
        let before = text_of(&lines[..number - 1]);
        let after = text_of(&lines[number..]);
        for rest in [
            &b""[..],
            b"\n",
            &[b"\n", &after[..]].concat(),
            b"\n\xff\n\n",
            b"\nset=5\n",
        ] {
            let text = [&before, *broken, rest].concat();
            check_in(form, &text, number as u64, *column);
            ran += 1;
        }
    }
    ran
}

/// Checks each broken line in place of line `number` of form 1 and of the same line in form 2, and gives how many texts it read in each.
fn check_rows(record: &[&[u8]; 8], number: usize, rows: &[Row]) -> usize {
    let later = if number == 1 { 2 } else { number + 2 };
    let ran = check_lines(Form::One, record, number, rows);
    let again = check_lines(Form::Two, &in_form_2(record), later, rows);
    assert_eq!(again, ran);
    ran
}

/// Checks the rows in all sets, and gives how many texts it read in each form.
fn check_in_all_sets(number: usize, rows: &[Row]) -> usize {
    RECORDS
        .map(|record| check_rows(&record, number, rows))
        .iter()
        .sum()
}

/// Checks the rows in the sets with keys of 16 bytes, and gives how many texts it read in each.
fn check_long_keys(number: usize, rows: &[Row]) -> usize {
    let [one, _, three, four] = RECORDS.map(|record| move || check_rows(&record, number, rows));
    let ran = one();
    assert_eq!((three(), four()), (ran, ran));
    ran
}

/// Says that the records from which all others are made are right.
#[test]
fn the_right_records() {
    let [one, two, three, four] = RECORDS.map(|record| text_of(&record));
    // The lengths of the lines and the eight line feeds.
    assert_eq!(one.len(), 5 + 36 + 38 + 7 + 11 + 13 + 36 + 9 + 8);
    assert_eq!(two.len(), 5 + 28 + 30 + 7 + 11 + 13 + 28 + 9 + 8);
    assert_eq!(read(Form::One, &one).map(|(_, taken)| taken), Ok(163));
    assert_eq!(read(Form::One, &two).map(|(_, taken)| taken), Ok(139));
    for (text, set) in [(one, 1), (two, 2), (three, 3), (four, 4)] {
        let record = read(Form::One, &text).map(|(record, _)| record.set);
        assert_eq!(record, Ok(set));
    }
}

/// Says where the set line breaks.
#[test]
fn the_set_line() {
    let rows: [Row; 75] = [
        (b"", 1),
        (b"1", 1),
        (b"=1", 1),
        (b"Set=1", 1),
        (b"SET=1", 1),
        (b" set=1", 1),
        (b"\tset=1", 1),
        (b"\rset=1", 1),
        (b"\0set=1", 1),
        (b"\xef\xbb\xbfset=1", 1),
        (b"\xff", 1),
        (b"et=1", 1),
        (b"key=000102030405060708090a0b0c0d0e0f", 1),
        (b"rounds=30", 1),
        (b"form=2", 1),
        (b"s", 2),
        (b"sEt=1", 2),
        (b"st=1", 2),
        (b"sset=1", 2),
        (b"s et=1", 2),
        (b"s\ret=1", 2),
        (b"se", 3),
        (b"seT=1", 3),
        (b"se=1", 3),
        (b"sect=1", 3),
        (b"se t=1", 3),
        (b"set", 4),
        (b"set1", 4),
        (b"sets=1", 4),
        (b"set =1", 4),
        (b"set:1", 4),
        (b"set 1", 4),
        (b"set\r=1", 4),
        (b"set=", 5),
        (b"set=0", 5),
        (b"set=5", 5),
        (b"set=6", 5),
        (b"set=9", 5),
        (b"set=03", 5),
        (b"set=53", 5),
        (b"set=01", 5),
        (b"set=02", 5),
        (b"set=a", 5),
        (b"set= 1", 5),
        (b"set=\t1", 5),
        (b"set=\r", 5),
        (b"set=\r1", 5),
        (b"set=\0", 5),
        (b"set=\x01", 5),
        (b"set=\xff", 5),
        (b"set=\xc2\xb9", 5),
        (b"set==1", 5),
        (b"set=+1", 5),
        (b"set=-1", 5),
        (b"set=one", 5),
        (b"set=set=1", 5),
        (b"set=12", 6),
        (b"set=21", 6),
        (b"set=11", 6),
        (b"set=22", 6),
        (b"set=10", 6),
        (b"set=13", 6),
        (b"set=34", 6),
        (b"set=40", 6),
        (b"set=3 ", 6),
        (b"set=4294967299", 6),
        (b"set=1 ", 6),
        (b"set=1\t", 6),
        (b"set=2\r", 6),
        (b"set=1\0", 6),
        (b"set=1.0", 6),
        (b"set=1=", 6),
        (b"set=1\xff", 6),
        (b"set=2key=000102030405060708090a0b", 6),
        (b"set=1 # the first", 6),
    ];
    assert_eq!(check_in_all_sets(1, &rows), SETS.len() * 75 * 5);
}

/// Says where the name of the key line breaks.
#[test]
fn the_name_of_the_key_line() {
    let rows: [Row; 24] = [
        (b"", 1),
        (b"000102030405060708090a0b0c0d0e0f", 1),
        (b"Key=000102030405060708090a0b0c0d0e0f", 1),
        (b" key=000102030405060708090a0b0c0d0e0f", 1),
        (b"\rkey=000102030405060708090a0b0c0d0e0f", 1),
        (b"ey=00", 1),
        (b"set=1", 1),
        (b"nonce=101112131415161718191a1b1c1d1e1f", 1),
        (b"\xff", 1),
        (b"k", 2),
        (b"kEy=00", 2),
        (b"ky=00", 2),
        (b"kkey=00", 2),
        (b"k ey=00", 2),
        (b"ke", 3),
        (b"keY=00", 3),
        (b"ke=00", 3),
        (b"ke y=00", 3),
        (b"key", 4),
        (b"key:00", 4),
        (b"key =00", 4),
        (b"key00", 4),
        (b"keys=00", 4),
        (b"key\t=00", 4),
    ];
    assert_eq!(check_in_all_sets(2, &rows), SETS.len() * 24 * 5);
}

/// Says where the first digits of a key break.
#[test]
fn the_first_digits_of_the_key() {
    let rows: [Row; 37] = [
        (b"key=", 5),
        (b"key=g00102030405060708090a0b0c0d0e0f", 5),
        (b"key=A00102030405060708090a0b0c0d0e0f", 5),
        (b"key=F0", 5),
        (b"key=G0", 5),
        (b"key=AA", 5),
        (b"key=gg", 5),
        (b"key=gA", 5),
        (b"key=/0", 5),
        (b"key=:0", 5),
        (b"key=`0", 5),
        (b"key=@0", 5),
        (b"key=-1", 5),
        (b"key= 000102030405060708090a0b0c0d0e0f", 5),
        (b"key=\t00", 5),
        (b"key=\r", 5),
        (b"key=\0\0", 5),
        (b"key==00", 5),
        (b"key=\xff0", 5),
        (b"key=key=00", 5),
        (b"key=0", 6),
        (b"key=0g0102030405060708090a0b0c0d0e0f", 6),
        (b"key=0A0102030405060708090a0b0c0d0e0f", 6),
        (b"key=0G", 6),
        (b"key=0/", 6),
        (b"key=f:", 6),
        (b"key=0 00102030405060708090a0b0c0d0e0f", 6),
        (b"key=0\r", 6),
        (b"key=0\0", 6),
        (b"key=0x00", 6),
        (b"key=0\xff", 6),
        (b"key=00", 7),
        (b"key=00 01", 7),
        (b"key=00:01", 7),
        (b"key=00\r", 7),
        (b"key=00A1", 7),
        (b"key=000", 8),
    ];
    assert_eq!(check_in_all_sets(2, &rows), SETS.len() * 37 * 5);
}

/// Says where the last digits and the end of a key of 16 bytes break.
#[test]
fn the_end_of_a_long_key() {
    let rows: [Row; 27] = [
        // The length that is right in set 2.
        (b"key=000102030405060708090a0b", 29),
        (b"key=000102030405060708090a0b\r", 29),
        (b"key=000102030405060708090a0b0c0d0e", 35),
        (b"key=000102030405060708090a0b0c0d0eg", 35),
        (b"key=000102030405060708090a0b0c0d0eg0", 35),
        (b"key=000102030405060708090a0b0c0d0eFF", 35),
        (b"key=000102030405060708090a0b0c0d0e f", 35),
        (b"key=000102030405060708090a0b0c0d0e\r", 35),
        (b"key=000102030405060708090a0b0c0d0e0", 36),
        (b"key=000102030405060708090a0b0c0d0e0g", 36),
        (b"key=000102030405060708090a0b0c0d0e0F", 36),
        (b"key=000102030405060708090a0b0c0d0e0 ", 36),
        (b"key=000102030405060708090a0b0c0d0e0\r", 36),
        (b"key=000102030405060708090a0b0c0d0e0f0", 37),
        (b"key=000102030405060708090a0b0c0d0e0f00", 37),
        (b"key=000102030405060708090a0b0c0d0e0fa", 37),
        (b"key=000102030405060708090a0b0c0d0e0fg", 37),
        (b"key=000102030405060708090a0b0c0d0e0fA", 37),
        (b"key=000102030405060708090a0b0c0d0e0f ", 37),
        (b"key=000102030405060708090a0b0c0d0e0f\t", 37),
        (b"key=000102030405060708090a0b0c0d0e0f\r", 37),
        (b"key=000102030405060708090a0b0c0d0e0f\0", 37),
        (b"key=000102030405060708090a0b0c0d0e0f=", 37),
        (b"key=000102030405060708090a0b0c0d0e0f\xff", 37),
        (b"key=000102030405060708090a0b0c0d0e0fnonce=10", 37),
        // Of two faults the first counts, be it a wrong digit or the length.
        (b"key=0001020304050607X8090a0b0c0d0e0f00", 21),
        (b"key=000102030405060708090a0b0c0d0e0f0g", 37),
    ];
    assert_eq!(check_long_keys(2, &rows), 27 * 5);
}

/// Says where the last digits and the end of a key of 12 bytes break.
#[test]
fn the_end_of_a_short_key() {
    let rows: [Row; 23] = [
        (b"key=000102030405060708090a", 27),
        (b"key=000102030405060708090ag", 27),
        (b"key=000102030405060708090aBB", 27),
        (b"key=000102030405060708090a\r", 27),
        (b"key=000102030405060708090a0", 28),
        (b"key=000102030405060708090a0g", 28),
        (b"key=000102030405060708090a0B", 28),
        (b"key=000102030405060708090a0 ", 28),
        (b"key=000102030405060708090a0b0", 29),
        (b"key=000102030405060708090a0b0c", 29),
        (b"key=000102030405060708090a0b0c0d0e0", 29),
        // The length that is right in the other sets.
        (b"key=000102030405060708090a0b0c0d0e0f", 29),
        (b"key=000102030405060708090a0b0c0d0e0f\r", 29),
        (b"key=000102030405060708090a0b0c0d0e0f00", 29),
        (b"key=000102030405060708090a0bg", 29),
        (b"key=000102030405060708090a0bA", 29),
        (b"key=000102030405060708090a0b ", 29),
        (b"key=000102030405060708090a0b\t", 29),
        (b"key=000102030405060708090a0b\r", 29),
        (b"key=000102030405060708090a0b\0", 29),
        (b"key=000102030405060708090a0b\xff", 29),
        (b"key=000102030405060708090a0bnonce=10", 29),
        (b"key=00010203X405060708090a0b0c", 13),
    ];
    assert_eq!(check_rows(&SET_2, 2, &rows), 23 * 5);
}

/// Says where the nonce line breaks in each set.
#[test]
fn the_nonce_line() {
    let rows: [Row; 44] = [
        (b"", 1),
        (b"Nonce=10", 1),
        (b" nonce=10", 1),
        (b"\rnonce=10", 1),
        (b"once=10", 1),
        (b"key=000102030405060708090a0b0c0d0e0f", 1),
        (b"ad=a0a1", 1),
        (b"1011", 1),
        (b"n", 2),
        (b"nOnce=10", 2),
        (b"nnonce=10", 2),
        (b"n once=10", 2),
        (b"no", 3),
        (b"noNce=10", 3),
        (b"noce=10", 3),
        (b"non", 4),
        (b"nonCe=10", 4),
        (b"none=10", 4),
        (b"nonnce=10", 4),
        (b"nonc", 5),
        (b"noncE=10", 5),
        (b"nonc=10", 5),
        (b"nonce", 6),
        (b"nonce:10", 6),
        (b"nonce =10", 6),
        (b"nonces=10", 6),
        (b"nonce10", 6),
        (b"nonce=", 7),
        (b"nonce=g0", 7),
        (b"nonce=A0", 7),
        (b"nonce=AA", 7),
        (b"nonce= 10", 7),
        (b"nonce=\r", 7),
        (b"nonce==10", 7),
        (b"nonce=1", 8),
        (b"nonce=1g", 8),
        (b"nonce=1A", 8),
        (b"nonce=1 0", 8),
        (b"nonce=1\r", 8),
        (b"nonce=0x10", 8),
        (b"nonce=10", 9),
        (b"nonce=10 11", 9),
        (b"nonce=10:11", 9),
        (b"nonce=10A1", 9),
    ];
    assert_eq!(check_in_all_sets(3, &rows), SETS.len() * 44 * 5);
}

/// Says where the last digits and the end of the nonce break in each set.
#[test]
fn the_end_of_the_nonce() {
    let long: [Row; 14] = [
        (b"nonce=101112131415161718191a1b", 31),
        (b"nonce=101112131415161718191a1b1c1d1e", 37),
        (b"nonce=101112131415161718191a1b1c1d1eg0", 37),
        (b"nonce=101112131415161718191a1b1c1d1e1", 38),
        (b"nonce=101112131415161718191a1b1c1d1e1F", 38),
        (b"nonce=101112131415161718191a1b1c1d1e1 ", 38),
        (b"nonce=101112131415161718191a1b1c1d1e1f2", 39),
        (b"nonce=101112131415161718191a1b1c1d1e1f20", 39),
        (b"nonce=101112131415161718191a1b1c1d1e1fg", 39),
        (b"nonce=101112131415161718191a1b1c1d1e1f ", 39),
        (b"nonce=101112131415161718191a1b1c1d1e1f\t", 39),
        (b"nonce=101112131415161718191a1b1c1d1e1f\r", 39),
        (b"nonce=101112131415161718191a1b1c1d1e1f\0", 39),
        (b"nonce=101112131415161718191a1b1c1d1e1fad=a0", 39),
    ];
    let short: [Row; 13] = [
        (b"nonce=101112131415161718191a", 29),
        (b"nonce=101112131415161718191ag0", 29),
        (b"nonce=101112131415161718191a1", 30),
        (b"nonce=101112131415161718191a1B", 30),
        (b"nonce=101112131415161718191a1 ", 30),
        (b"nonce=101112131415161718191a1b1", 31),
        (b"nonce=101112131415161718191a1b1c", 31),
        (b"nonce=101112131415161718191a1b1c1d1e1f", 31),
        (b"nonce=101112131415161718191a1bg", 31),
        (b"nonce=101112131415161718191a1b ", 31),
        (b"nonce=101112131415161718191a1b\r", 31),
        (b"nonce=101112131415161718191a1b\0", 31),
        (b"nonce=101112131415161718191a1bad=a0", 31),
    ];
    assert_eq!(check_long_keys(3, &long), 14 * 5);
    assert_eq!(check_rows(&SET_2, 3, &short), 13 * 5);
}

/// Says where the ad line breaks.
#[test]
fn the_ad_line() {
    let rows: [Row; 53] = [
        (b"", 1),
        (b"Ad=a0", 1),
        (b"AD=a0", 1),
        (b" ad=a0", 1),
        (b"\rad=a0", 1),
        (b"d=a0", 1),
        (b"=a0", 1),
        (b"text=b0b1b2", 1),
        (b"nonce=101112131415161718191a1b1c1d1e1f", 1),
        (b"\xff", 1),
        (b"a", 2),
        (b"a0a1", 2),
        (b"aD=a0", 2),
        (b"aad=a0", 2),
        (b"a=a0", 2),
        (b"a d=a0", 2),
        (b"ad", 3),
        (b"ad:a0", 3),
        (b"ad =a0", 3),
        (b"ada0", 3),
        (b"add=a0", 3),
        (b"ad\r", 3),
        (b"ad=g", 4),
        (b"ad=gg", 4),
        (b"ad=A0", 4),
        (b"ad=AA", 4),
        (b"ad= ", 4),
        (b"ad= a0", 4),
        (b"ad=\t", 4),
        (b"ad=\r", 4),
        (b"ad=\0", 4),
        (b"ad=\xff", 4),
        (b"ad==", 4),
        (b"ad=none", 4),
        (b"ad=text=", 4),
        (b"ad=a", 5),
        (b"ad=ag", 5),
        (b"ad=aA", 5),
        (b"ad=a 0", 5),
        (b"ad=a\r", 5),
        (b"ad=0x", 5),
        (b"ad=ad=a0", 6),
        (b"ad=a0 ", 6),
        (b"ad=a0 a1", 6),
        (b"ad=a0\r", 6),
        (b"ad=a0g", 6),
        (b"ad=a0A1", 6),
        (b"ad=a0\0", 6),
        (b"ad=a0text=b0", 6),
        (b"ad=a0a", 7),
        (b"ad=a0aA", 7),
        (b"ad=a0a1a", 9),
        (b"ad=a0a1a2a3a4a5a6a7a8a9aaabacadaeafXX", 36),
    ];
    assert_eq!(check_in_all_sets(4, &rows), SETS.len() * 53 * 5);
}

/// Says where the text line breaks.
#[test]
fn the_text_line() {
    let rows: [Row; 47] = [
        (b"", 1),
        (b"Text=b0", 1),
        (b" text=b0", 1),
        (b"\rtext=b0", 1),
        (b"ext=b0", 1),
        (b"ad=a0a1", 1),
        (b"cipher=c0c1c2", 1),
        (b"b0b1b2", 1),
        (b"\xff", 1),
        (b"t", 2),
        (b"tag=f0", 2),
        (b"tExt=b0", 2),
        (b"ttext=b0", 2),
        (b"t ext=b0", 2),
        (b"te", 3),
        (b"teXt=b0", 3),
        (b"test=b0", 3),
        (b"tex", 4),
        (b"texT=b0", 4),
        (b"tex=b0", 4),
        (b"text", 5),
        (b"text:b0", 5),
        (b"text =b0", 5),
        (b"textb0", 5),
        (b"texts=b0", 5),
        (b"text=g", 6),
        (b"text=B0", 6),
        (b"text=BB", 6),
        (b"text= ", 6),
        (b"text= b0", 6),
        (b"text=\r", 6),
        (b"text=\0", 6),
        (b"text==b0", 6),
        (b"text=text", 6),
        (b"text=b", 7),
        (b"text=bg", 7),
        (b"text=bB", 7),
        (b"text=b 0", 7),
        (b"text=b\r", 7),
        (b"text=cipher=c0", 7),
        (b"text=b0 ", 8),
        (b"text=b0\r", 8),
        (b"text=b0g1", 8),
        (b"text=b0b", 9),
        // The joined lines go on as hex for one digit of the next name.
        (b"text=b0cipher=c0", 9),
        (b"text=b0b1b2\t", 12),
        (b"text=b0b1b2b", 13),
    ];
    assert_eq!(check_in_all_sets(5, &rows), SETS.len() * 47 * 5);
}

/// Says where the cipher line breaks.
#[test]
fn the_cipher_line() {
    let rows: [Row; 46] = [
        (b"", 1),
        (b"Cipher=c0", 1),
        (b" cipher=c0", 1),
        (b"\rcipher=c0", 1),
        (b"ipher=c0", 1),
        (b"text=b0b1b2", 1),
        (b"tag=f0", 1),
        (b"\xff", 1),
        (b"c", 2),
        (b"c0c1c2", 2),
        (b"cIpher=c0", 2),
        (b"ccipher=c0", 2),
        (b"c ipher=c0", 2),
        (b"cypher=c0", 2),
        (b"ci", 3),
        (b"ciPher=c0", 3),
        (b"ciher=c0", 3),
        (b"cip", 4),
        (b"cipHer=c0", 4),
        (b"cipfer=c0", 4),
        (b"ciph", 5),
        (b"ciphEr=c0", 5),
        (b"ciphr=c0", 5),
        (b"ciphe", 6),
        (b"cipheR=c0", 6),
        (b"ciphe=c0", 6),
        (b"cipher", 7),
        (b"cipher:c0", 7),
        (b"cipher =c0", 7),
        (b"cipherc0", 7),
        (b"ciphertext=c0", 7),
        (b"cipher=g", 8),
        (b"cipher=C0", 8),
        (b"cipher=CC", 8),
        (b"cipher= ", 8),
        (b"cipher=\r", 8),
        (b"cipher=tag=", 8),
        (b"cipher=c", 9),
        (b"cipher=cg", 9),
        (b"cipher=cC", 9),
        (b"cipher=c 0", 9),
        (b"cipher=0x", 9),
        (b"cipher=c0 ", 10),
        (b"cipher=c0\r", 10),
        (b"cipher=c0c", 11),
        (b"cipher=c0c1c2tag=f0", 14),
    ];
    assert_eq!(check_in_all_sets(6, &rows), SETS.len() * 46 * 5);
}

/// Says where the tag line breaks in each set.
#[test]
fn the_tag_line() {
    let rows: [Row; 33] = [
        (b"", 1),
        (b"Tag=f0", 1),
        (b" tag=f0", 1),
        (b"\rtag=f0", 1),
        (b"ag=f0", 1),
        (b"cipher=c0c1c2", 1),
        (b"rounds=30", 1),
        (b"f0e0", 1),
        (b"t", 2),
        (b"text=b0b1b2", 2),
        (b"tAg=f0", 2),
        (b"ttag=f0", 2),
        (b"t ag=f0", 2),
        (b"ta", 3),
        (b"taG=f0", 3),
        (b"ta=f0", 3),
        (b"tag", 4),
        (b"tag:f0", 4),
        (b"tag =f0", 4),
        (b"tagf0", 4),
        (b"tags=f0", 4),
        (b"tag=", 5),
        (b"tag=g0", 5),
        (b"tag=F0", 5),
        (b"tag=FF", 5),
        (b"tag= f0", 5),
        (b"tag=\r", 5),
        (b"tag=f", 6),
        (b"tag=fF", 6),
        (b"tag=f 0", 6),
        (b"tag=0x", 6),
        (b"tag=f0", 7),
        (b"tag=f0 e0", 7),
    ];
    assert_eq!(check_in_all_sets(7, &rows), SETS.len() * 33 * 5);
}

/// Says where the last digits and the end of the tag break in each set.
#[test]
fn the_end_of_the_tag() {
    let long: [Row; 13] = [
        (b"tag=f0e0d0c0b0a0908070605040", 29),
        (b"tag=f0e0d0c0b0a0908070605040302010", 35),
        (b"tag=f0e0d0c0b0a0908070605040302010g0", 35),
        (b"tag=f0e0d0c0b0a09080706050403020100", 36),
        (b"tag=f0e0d0c0b0a09080706050403020100A", 36),
        (b"tag=f0e0d0c0b0a09080706050403020100 ", 36),
        (b"tag=f0e0d0c0b0a0908070605040302010000", 37),
        (b"tag=f0e0d0c0b0a09080706050403020100000", 37),
        (b"tag=f0e0d0c0b0a090807060504030201000g", 37),
        (b"tag=f0e0d0c0b0a090807060504030201000 ", 37),
        (b"tag=f0e0d0c0b0a090807060504030201000\r", 37),
        (b"tag=f0e0d0c0b0a090807060504030201000\0", 37),
        (b"tag=f0e0d0c0b0a090807060504030201000rounds=30", 37),
    ];
    let short: [Row; 11] = [
        (b"tag=f0e0d0c0b0a09080706050", 27),
        (b"tag=f0e0d0c0b0a09080706050g0", 27),
        (b"tag=f0e0d0c0b0a090807060504", 28),
        (b"tag=f0e0d0c0b0a090807060504A", 28),
        (b"tag=f0e0d0c0b0a09080706050403", 29),
        (b"tag=f0e0d0c0b0a090807060504030", 29),
        (b"tag=f0e0d0c0b0a090807060504030201000", 29),
        (b"tag=f0e0d0c0b0a0908070605040g", 29),
        (b"tag=f0e0d0c0b0a0908070605040 ", 29),
        (b"tag=f0e0d0c0b0a0908070605040\r", 29),
        (b"tag=f0e0d0c0b0a0908070605040rounds=30", 29),
    ];
    assert_eq!(check_long_keys(7, &long), 13 * 5);
    assert_eq!(check_rows(&SET_2, 7, &short), 11 * 5);
}

/// Says where the rounds line breaks.
#[test]
fn the_rounds_line() {
    let rows: [Row; 78] = [
        (b"", 1),
        (b"30", 1),
        (b"Rounds=30", 1),
        (b" rounds=30", 1),
        (b"\rrounds=30", 1),
        (b"ounds=30", 1),
        (b"tag=f0", 1),
        (b"set=1", 1),
        (b"\xff", 1),
        (b"r", 2),
        (b"rOunds=30", 2),
        (b"rrounds=30", 2),
        (b"r ounds=30", 2),
        (b"ro", 3),
        (b"roUnds=30", 3),
        (b"ronds=30", 3),
        (b"rou", 4),
        (b"rouNds=30", 4),
        (b"rouds=30", 4),
        (b"roun", 5),
        (b"rounDs=30", 5),
        (b"rouns=30", 5),
        (b"round", 6),
        (b"roundS=30", 6),
        (b"round=30", 6),
        (b"rounds", 7),
        (b"rounds:30", 7),
        (b"rounds =30", 7),
        (b"rounds30", 7),
        (b"roundss=30", 7),
        (b"rounds=", 8),
        (b"rounds=a", 8),
        (b"rounds=f", 8),
        (b"rounds=-1", 8),
        (b"rounds=+1", 8),
        (b"rounds= 30", 8),
        (b"rounds=\t30", 8),
        (b"rounds=\r", 8),
        (b"rounds=\0", 8),
        (b"rounds=\xd9\xa1", 8),
        (b"rounds==30", 8),
        (b"rounds=/", 8),
        (b"rounds=:", 8),
        // A zero alone is right, so only what follows it is at fault.
        (b"rounds=00", 9),
        (b"rounds=01", 9),
        (b"rounds=09", 9),
        (b"rounds=030", 9),
        (b"rounds=007", 9),
        (b"rounds=0000000", 9),
        (b"rounds=00000000", 9),
        (b"rounds=0000001", 9),
        (b"rounds=01234567", 9),
        (b"rounds=0 ", 9),
        (b"rounds=0\r", 9),
        (b"rounds=0x1e", 9),
        (b"rounds=0.5", 9),
        (b"rounds=3 ", 9),
        (b"rounds=3\r", 9),
        (b"rounds=3e1", 9),
        (b"rounds=1.0", 9),
        (b"rounds=1,000", 9),
        (b"rounds=1_000", 9),
        (b"rounds=30 ", 10),
        (b"rounds=30\t", 10),
        (b"rounds=30\r", 10),
        (b"rounds=30\0", 10),
        (b"rounds=30a", 10),
        (b"rounds=30set=1", 10),
        (b"rounds=123456a", 14),
        (b"rounds=123456 ", 14),
        (b"rounds=12345678", 15),
        (b"rounds=10000000", 15),
        (b"rounds=99999999", 15),
        (b"rounds=1234567 ", 15),
        (b"rounds=1234567\r", 15),
        (b"rounds=1234567a", 15),
        (b"rounds=12345678a", 15),
        (b"rounds=123456789012345678901234567890", 15),
    ];
    assert_eq!(check_in_all_sets(8, &rows), SETS.len() * 78 * 5);
}

/// Says where a field of 256 bytes or nearly so breaks.
#[test]
fn the_most_bytes() {
    let mut ran = 0;
    // The column is that of the 513th digit, which would begin a 257th byte.
    for (number, label, column) in [(4, "ad=", 516), (5, "text=", 518), (6, "cipher=", 520)] {
        let line = |digits: usize, end: &str| format!("{label}{}{end}", "7".repeat(digits));
        for (digits, end, column) in [
            (513, "", column),
            (514, "", column),
            (515, "", column),
            (600, "", column),
            (100_000, "", column),
            (512, "g", column),
            (512, "A", column),
            (512, " ", column),
            (512, "\r", column),
            (512, "\0", column),
            (512, "0g", column),
            (512, "gg", column),
            (511, "", column - 1),
            (511, "g", column - 1),
            (511, "F0", column - 1),
            (511, "\r", column - 1),
            (510, "g", column - 2),
            (510, "gg", column - 2),
            (510, " 77", column - 2),
            (509, "", column - 3),
        ] {
            let broken = line(digits, end);
            ran += check_in_all_sets(number, &[(broken.as_bytes(), column)]);
        }
        // With all 512 digits the line is right, and so is the record.
        for record in RECORDS {
            let full = line(512, "");
            let mut lines = record;
            lines[number - 1] = full.as_bytes();
            let text = text_of(&lines);
            assert_eq!(
                read(Form::One, &text).map(|(_, taken)| taken),
                Ok(text.len())
            );
            // Without its line feed it has ended early.
            let mut cut = text_of(&lines[..number]);
            cut.pop();
            check_at(&cut, number as u64, column);
            ran += 2;
        }
    }
    assert_eq!(ran, 3 * SETS.len() * (20 * 5 + 2));
}

/// Says that a wrong character at any place of any line is told at its column.
#[test]
fn every_place_of_every_line() {
    let mut ran = 0;
    for record in RECORDS {
        for (line, number) in record.iter().zip(1..) {
            for column in 1..=line.len() {
                for wrong in b"XG~ \t\r\0\x80\xff/:`@-" {
                    let mut broken = line.to_vec();
                    broken[column - 1] = *wrong;
                    ran += check_rows(&record, number, &[(&broken, column as u64)]);
                }
            }
        }
    }
    // The lengths of the lines of the records.
    assert_eq!(ran, (155 + 131 + 155 + 155) * 14 * 5);
}

/// Says that a wrong character put in at any place of any line, or at its end, is told there.
#[test]
fn put_in_at_every_place_of_every_line() {
    let mut ran = 0;
    for record in RECORDS {
        for (line, number) in record.iter().zip(1..) {
            for column in 1..=line.len() + 1 {
                for wrong in b"XG \t\r\0\xff" {
                    let (front, back) = line.split_at(column - 1);
                    let broken = [front, &[*wrong], back].concat();
                    ran += check_rows(&record, number, &[(&broken, column as u64)]);
                }
            }
        }
    }
    // The lengths of the lines of the records, and the end of each line.
    assert_eq!(ran, (163 + 139 + 163 + 163) * 7 * 5);
}

/// Says that an input that ends at any place is broken one past its last character.
#[test]
fn the_input_ends_at_every_place() {
    let mut ran = 0;
    let long = [5, 36, 38, 7, 11, 13, 36, 9];
    let short = [5, 28, 30, 7, 11, 13, 28, 9];
    for (record, lengths) in RECORDS.into_iter().zip([long, short, long, long]) {
        let text = text_of(&record);
        let mut end = 0;
        for (length, line) in lengths.into_iter().zip(1..) {
            // Column 1 is the missing line, the last one the line that lacks but its line feed.
            for column in 1..=length + 1 {
                check_at(&text[..end], line, column);
                end += 1;
                ran += 1;
            }
        }
        assert_eq!(end, text.len());
    }
    assert_eq!(ran, 163 + 139 + 163 + 163);
}

/// Says where a line feed put in at any place of a line breaks the record.
#[test]
fn a_line_feed_at_every_place() {
    let mut ran = 0;
    for record in RECORDS {
        for (line, number) in record.iter().zip(1..) {
            for column in 1..=line.len() {
                let (front, back) = line.split_at(column - 1);
                let broken = [front, b"\n", back].concat();
                let mut lines = record;
                lines[number - 1] = &broken;
                let text = text_of(&lines);
                let column = column as u64;
                match (number as u64, column) {
                    // After whole bytes the line is right and what follows is no next line.
                    (4, 4 | 6) => check_at(&text, 5, 1),
                    (5, 6 | 8 | 10) => check_at(&text, 6, 1),
                    (6, 8 | 10 | 12) => check_at(&text, 7, 1),
                    // After one of two digits the record is whole.
                    (8, 9) => {
                        assert_eq!(read(Form::One, &text).map(|(_, t)| t), Ok(text.len() - 2))
                    }
                    (other, _) => check_at(&text, other, column),
                }
                ran += 1;
            }
        }
    }
    assert_eq!(ran, 155 + 131 + 155 + 155);
}

/// Says where records with lines lost, doubled, exchanged, joined or empty break.
#[test]
fn lines_out_of_order() {
    let mut ran = 0;
    for record in RECORDS {
        for place in 0..7 {
            let number = place as u64 + 1;
            let mut lines = record.to_vec();
            lines.remove(place);
            check_at(&text_of(&lines), number, 1);

            let mut lines = record.to_vec();
            lines.insert(place, record[place]);
            check_at(&text_of(&lines), number + 1, 1);

            let mut lines = record.to_vec();
            lines.swap(place, place + 1);
            check_at(&text_of(&lines), number, 1);

            let mut lines = record.to_vec();
            lines.insert(place, b"");
            check_at(&text_of(&lines), number, 1);

            check_at(&text_of(&record[..place]), number, 1);
            ran += 5;
        }
        // The names of these two begin with the same character.
        let mut lines = record;
        lines.swap(4, 6);
        check_at(&text_of(&lines), 5, 2);
        // A text line that goes on in the next line may do so with the first of `cipher=`.
        let mut lines = record;
        lines[4] = b"text=b0\nc1b2";
        check_at(&text_of(&lines), 6, 2);
        check_at(&text_of(&record[..7]), 8, 1);
        ran += 3;
    }
    assert_eq!(ran, SETS.len() * (7 * 5 + 3));
}

/// Says where whole texts break that a technician may meet.
#[test]
fn whole_texts() {
    let one = String::from_utf8(text_of(&SET_1)).expect("plain text");
    let two = String::from_utf8(text_of(&SET_2)).expect("plain text");
    let cases = [
        (String::new(), 1, 1),
        ("\n".to_string(), 1, 1),
        ("\n".to_string() + &one, 1, 1),
        (one.replace('\n', "\r\n"), 1, 6),
        (one.replace('\n', "\r"), 1, 6),
        (one.replace('\n', " "), 1, 6),
        (one.replace('\n', ""), 1, 6),
        (one.replace('\n', "\n\n"), 2, 1),
        (one.replace('=', " = "), 1, 4),
        (one.replace('=', ":"), 1, 4),
        (one.replace('=', ""), 1, 4),
        (one.to_uppercase(), 1, 1),
        ("\u{feff}".to_string() + &one, 1, 1),
        // The record of one set under the number of the other.
        (one.replace("set=1", "set=2"), 2, 29),
        (two.replace("set=2", "set=1"), 2, 29),
        (two.replace("set=2", "set=3"), 2, 29),
        (two.replace("set=2", "set=4"), 2, 29),
        // A set that there isn't.
        (one.replace("set=1", "set=5"), 1, 5),
        // Each character is as many columns as it has bytes.
        (one.replace("ad=a0", "ad=\u{e4}0"), 4, 4),
        (one.replace("ad=a0", "\u{e4}d=a0"), 4, 1),
        // A broken line is told though the one after it is broken too.
        (
            one.replace("b0b1b2", "b0b1B2").replace("c0c1c2", "C0c1c2"),
            5,
            10,
        ),
        (
            one.replace("f0e0", "f0E0").replace("rounds", "ROUNDS"),
            7,
            7,
        ),
    ];
    let mut ran = 0;
    for (text, line, column) in cases {
        check_at(text.as_bytes(), line, column);
        ran += 1;
    }
    assert_eq!(ran, 22);
}

/// Checks each broken line in place of line `number` of form 2 in all sets, and gives how many texts it read.
fn check_in_form_2(number: usize, rows: &[Row]) -> usize {
    let records = records_in(Form::Two);
    let ran = records.map(|record| check_lines(Form::Two, &record, number, rows));
    ran.iter().sum()
}

/// Says that the records of form 2 from which all others are made are right.
#[test]
fn the_right_records_of_form_2() {
    let [one, two, three, four] = records_in(Form::Two).map(|record| text_of(&record));
    // As in form 1, and two lines of 6 and of 9 characters with their line feeds.
    assert_eq!((one.len(), two.len()), (163 + 17, 139 + 17));
    assert_eq!(read(Form::Two, &one).map(|(_, taken)| taken), Ok(180));
    assert_eq!(read(Form::Two, &two).map(|(_, taken)| taken), Ok(156));
    for (text, set) in [(one, 1), (two, 2), (three, 3), (four, 4)] {
        let record = read(Form::Two, &text).map(|(record, _)| record.set);
        assert_eq!(record, Ok(set));
    }
}

/// Says where the form line breaks.
#[test]
fn the_form_line() {
    let rows: [Row; 56] = [
        (b"", 1),
        (b"2", 1),
        (b"=2", 1),
        (b"Form=2", 1),
        (b"FORM=2", 1),
        (b" form=2", 1),
        (b"\tform=2", 1),
        (b"\rform=2", 1),
        (b"\0form=2", 1),
        (b"\xef\xbb\xbfform=2", 1),
        (b"\xff", 1),
        (b"orm=2", 1),
        (b"set=1", 1),
        (b"chip=0", 1),
        (b"f", 2),
        (b"fOrm=2", 2),
        (b"frm=2", 2),
        (b"fform=2", 2),
        (b"f orm=2", 2),
        (b"fo", 3),
        (b"foRm=2", 3),
        (b"foam=2", 3),
        (b"for", 4),
        (b"forM=2", 4),
        (b"for=2", 4),
        (b"form", 5),
        (b"form2", 5),
        (b"forms=2", 5),
        (b"form =2", 5),
        (b"form:2", 5),
        (b"form\r", 5),
        (b"form=", 6),
        (b"form=0", 6),
        (b"form=1", 6),
        (b"form=3", 6),
        (b"form=9", 6),
        (b"form=02", 6),
        (b"form=12", 6),
        (b"form= 2", 6),
        (b"form=+2", 6),
        (b"form=-2", 6),
        (b"form==2", 6),
        (b"form=two", 6),
        (b"form=\r", 6),
        (b"form=\0", 6),
        (b"form=\x02", 6),
        (b"form=\xc2\xb2", 6),
        (b"form=22", 7),
        (b"form=20", 7),
        (b"form=2 ", 7),
        (b"form=2\t", 7),
        (b"form=2\r", 7),
        (b"form=2\0", 7),
        (b"form=2.0", 7),
        (b"form=2=", 7),
        (b"form=2set=1", 7),
    ];
    assert_eq!(check_in_form_2(1, &rows), SETS.len() * 56 * 5);
}

/// Says where the chip line breaks.
#[test]
fn the_chip_line() {
    let rows: [Row; 92] = [
        (b"", 1),
        (b"0", 1),
        (b"=0", 1),
        (b"Chip=0", 1),
        (b"CHIP=0", 1),
        (b" chip=0", 1),
        (b"\rchip=0", 1),
        (b"hip=0", 1),
        (b"set=1", 1),
        (b"key=000102030405060708090a0b0c0d0e0f", 1),
        (b"\xff", 1),
        (b"c", 2),
        (b"cHip=0", 2),
        (b"cchip=0", 2),
        (b"c hip=0", 2),
        (b"cipher=c0c1c2", 2),
        (b"ch", 3),
        (b"chIp=0", 3),
        (b"chop=0", 3),
        (b"chi", 4),
        (b"chiP=0", 4),
        (b"chi=0", 4),
        (b"chip", 5),
        (b"chip0", 5),
        (b"chips=0", 5),
        (b"chip =0", 5),
        (b"chip:0", 5),
        (b"chip\r", 5),
        (b"chip=", 6),
        (b"chip=a", 6),
        (b"chip=f", 6),
        (b"chip=A", 6),
        (b"chip=one", 6),
        (b"chip=-0", 6),
        (b"chip=-1", 6),
        (b"chip=+1", 6),
        (b"chip= 1", 6),
        (b"chip=\t1", 6),
        (b"chip=\r", 6),
        (b"chip=\0", 6),
        (b"chip=/", 6),
        (b"chip=:", 6),
        (b"chip==0", 6),
        (b"chip=\xff", 6),
        (b"chip=\xd9\xa1", 6),
        // A zero alone is right, so only what follows it is at fault.
        (b"chip=00", 7),
        (b"chip=01", 7),
        (b"chip=09", 7),
        (b"chip=000", 7),
        (b"chip=065535", 7),
        (b"chip=00000", 7),
        (b"chip=0x1", 7),
        (b"chip=0 ", 7),
        (b"chip=0\r", 7),
        (b"chip=0.0", 7),
        (b"chip=0key=00", 7),
        (b"chip=1 ", 7),
        (b"chip=1a", 7),
        (b"chip=1e3", 7),
        (b"chip=1,000", 7),
        (b"chip=9\r", 7),
        (b"chip=10 ", 8),
        (b"chip=10a", 8),
        (b"chip=99\t", 8),
        (b"chip=100.", 9),
        (b"chip=655 ", 9),
        (b"chip=6553 ", 10),
        (b"chip=6553a", 10),
        // A fifth digit that takes the number past 65535 is at fault itself.
        (b"chip=65536", 10),
        (b"chip=65537", 10),
        (b"chip=65539", 10),
        (b"chip=65540", 10),
        (b"chip=65600", 10),
        (b"chip=66000", 10),
        (b"chip=70000", 10),
        (b"chip=80000", 10),
        (b"chip=99999", 10),
        (b"chip=65536\r", 10),
        (b"chip=70000a", 10),
        (b"chip=655360", 10),
        (b"chip=700000", 10),
        (b"chip=999999999999999999999999999999", 10),
        (b"chip=18446744073709551616", 11),
        // After five digits that are still right any more is at fault.
        (b"chip=100000", 11),
        (b"chip=655350", 11),
        (b"chip=655351", 11),
        (b"chip=123456", 11),
        (b"chip=65535 ", 11),
        (b"chip=65535\r", 11),
        (b"chip=65535a", 11),
        (b"chip=10000 ", 11),
        (b"chip=65535key=00", 11),
    ];
    assert_eq!(check_in_form_2(3, &rows), SETS.len() * 92 * 5);
}

/// Says that a wrong character at or put in at any place of the form and chip lines is told there.
#[test]
fn every_place_of_the_lines_only_form_2_has() {
    let mut ran = 0;
    let lines: [(&[u8], usize); 2] = [(b"form=2", 1), (b"chip=6553", 3)];
    for (line, number) in lines {
        for place in 0..=line.len() {
            for wrong in b"XG~ \t\r\0\x80\xff/:`@-" {
                let column = place as u64 + 1;
                let (front, back) = line.split_at(place);
                let put_in = [front, &[*wrong], back].concat();
                ran += check_in_form_2(number, &[(&put_in, column)]);
                if let Some(rest) = back.get(1..) {
                    let instead = [front, &[*wrong], rest].concat();
                    ran += check_in_form_2(number, &[(&instead, column)]);
                }
            }
        }
    }
    assert_eq!(ran, (6 + 7 + 9 + 10) * 14 * SETS.len() * 5);
}

/// Says that an input of form 2 that ends at any place is broken one past its last character.
#[test]
fn the_input_of_form_2_ends_at_every_place() {
    let mut ran = 0;
    let long = [6, 5, 9, 36, 38, 7, 11, 13, 36, 9];
    let short = [6, 5, 9, 28, 30, 7, 11, 13, 28, 9];
    for (record, lengths) in records_in(Form::Two).iter().zip([long, short, long, long]) {
        let text = text_of(record);
        let mut end = 0;
        for (length, line) in lengths.into_iter().zip(1..) {
            for column in 1..=length + 1 {
                check_in(Form::Two, &text[..end], line, column);
                end += 1;
                ran += 1;
            }
        }
        assert_eq!(end, text.len());
    }
    assert_eq!(ran, 180 + 156 + 180 + 180);
}

/// Says where records of form 2 with lines lost, doubled, exchanged or empty break.
#[test]
fn lines_of_form_2_out_of_order() {
    let mut ran = 0;
    for record in records_in(Form::Two) {
        for place in 0..9 {
            let number = place as u64 + 1;
            let mut lines = record.clone();
            lines.remove(place);
            check_in(Form::Two, &text_of(&lines), number, 1);

            let mut lines = record.clone();
            lines.insert(place, record[place]);
            check_in(Form::Two, &text_of(&lines), number + 1, 1);

            let mut lines = record.clone();
            lines.swap(place, place + 1);
            check_in(Form::Two, &text_of(&lines), number, 1);

            let mut lines = record.clone();
            lines.insert(place, b"");
            check_in(Form::Two, &text_of(&lines), number, 1);

            check_in(Form::Two, &text_of(&record[..place]), number, 1);
            ran += 5;
        }
        // The names of these two begin with the same character.
        let mut lines = record.clone();
        lines.swap(2, 7);
        check_in(Form::Two, &text_of(&lines), 3, 2);
        check_in(Form::Two, &text_of(&record[..9]), 10, 1);
        ran += 2;
    }
    assert_eq!(ran, SETS.len() * (9 * 5 + 2));
}

/// Says where whole texts of form 2 break that a technician may meet.
#[test]
fn whole_texts_of_form_2() {
    let [one, two, ..] = records_in(Form::Two)
        .map(|record| String::from_utf8(text_of(&record)).expect("plain text"));
    let old = String::from_utf8(text_of(&SET_1)).expect("plain text");
    let cases = [
        (String::new(), 1, 1),
        ("\n".to_string(), 1, 1),
        ("\n".to_string() + &one, 1, 1),
        (one.replace('\n', "\r\n"), 1, 7),
        (one.replace('\n', ""), 1, 7),
        (one.replace('\n', "\n\n"), 2, 1),
        (one.replace('=', " = "), 1, 5),
        (one.replace('=', ""), 1, 5),
        (one.to_uppercase(), 1, 1),
        ("\u{feff}".to_string() + &one, 1, 1),
        // A record of form 1, alone and behind the form line.
        (old.clone(), 1, 1),
        ("form=2\n".to_string() + &old, 3, 1),
        ("form=1\n".to_string() + &old, 1, 6),
        // The record of one set under the number of the other.
        (one.replace("set=1", "set=2"), 4, 29),
        (two.replace("set=2", "set=1"), 4, 29),
        // The chip in each of the places where it isn't.
        (
            one.replace("set=1\nchip=6553\n", "chip=6553\nset=1\n"),
            2,
            1,
        ),
        (one.replace("chip=6553\n", "") + "chip=6553\n", 3, 1),
        // A broken line is told though the one after it is broken too.
        (
            one.replace("6553", "65536").replace("key=0", "key=X"),
            3,
            10,
        ),
        (one.replace("set=1", "set=5").replace("6553", "x"), 2, 5),
        (one.replace("rounds=30", "rounds=030"), 10, 9),
    ];
    let mut ran = 0;
    for (text, line, column) in cases {
        check_in(Form::Two, text.as_bytes(), line, column);
        ran += 1;
    }
    assert_eq!(ran, 20);
}

/// Says that no record of form 2 is read as form 1, and where form 1 breaks on it.
#[test]
fn form_2_read_as_form_1() {
    let mut ran = 0;
    for record in records_in(Form::Two) {
        let text = text_of(&record);
        check_at(&text, 1, 1);
        // Behind its form line the chip line is at fault, as form 1 has none.
        check_at(&text[7..], 2, 1);
        ran += 1;
    }
    assert_eq!(ran, SETS.len());
}

/// Says whether the characters, line feed included, are a right line `number` of the text.
fn is_right(forms: &Forms, form: Form, text: &[u8], number: usize, line: &[u8]) -> bool {
    forms.completed(form, text, number, line).as_deref() == Some(line)
}

/// Checks what reading says of a text by the definition of line and column, and says if it was broken.
fn check_by_definition(forms: &Forms, form: Form, text: &[u8]) -> bool {
    let lines: Vec<&[u8]> = text.split_inclusive(|byte| *byte == b'\n').collect();
    let count = count_of_lines(form);
    let broken = match read(form, text) {
        Ok((_, taken)) => {
            let mut own = (1..=count).zip(&lines);
            assert!(own.all(|(number, line)| is_right(forms, form, text, number, line)));
            let length: usize = lines[..count].iter().map(|line| line.len()).sum();
            assert_eq!(taken, length);
            return false;
        }
        Err(broken) => broken,
    };
    assert!((1..=count as u64).contains(&broken.line) && broken.column >= 1);
    let number = broken.line as usize;
    assert!(number <= lines.len() + 1, "{broken:?}");
    for before in 1..number {
        let line = lines[before - 1];
        assert!(is_right(forms, form, text, before, line), "{broken:?}");
    }
    let line = lines.get(number - 1).copied().unwrap_or_default();
    let good = broken.column as usize - 1;
    assert!(good <= line.len(), "{broken:?}");
    for end in 0..=good {
        let whole = forms.completed(form, text, number, &line[..end]);
        let whole = whole.unwrap_or_else(|| panic!("no right line goes on: {broken:?} {end}"));
        assert!(whole.starts_with(&line[..end]) && whole.ends_with(b"\n"));
    }
    if good < line.len() {
        let whole = forms.completed(form, text, number, &line[..=good]);
        assert_eq!(whole, None, "a right line goes on: {broken:?}");
    } else {
        assert!(!line.ends_with(b"\n"), "a right line: {broken:?}");
        assert_eq!(place_of(text, broken), text.len());
    }
    true
}

/// Checks the definition for each change of any byte to any other, and gives how many records broke and how many didn't.
fn check_changes(form: Form) -> (usize, usize) {
    let forms = Forms::new();
    let (mut broken, mut right) = (0, 0);
    each_change(form, |_, text| {
        match check_by_definition(&forms, form, text) {
            true => broken += 1,
            false => right += 1,
        }
    });
    (broken, right)
}

/// Says that the definition holds for each change of any byte to any other.
#[test]
fn the_definition_for_every_change_of_one_byte() {
    let (broken, right) = check_changes(Form::One);
    // Right are: no change, any digit for another of 112 and 88 in hex, and in `30` any digit but
    // a zero in front, or a line feed for the last; and each of sets 1, 3 and 4 for the two others.
    let (long, short) = (163 + 112 * 15 + 18 + 2, 139 + 88 * 15 + 18);
    assert_eq!(right, long + short + long + long);
    assert_eq!(broken + right, (163 + 139 + 163 + 163) * 256);
    let (broken, right) = check_changes(Form::Two);
    // In form 2 also any digit in `6553` but a zero in front.
    let (long, short) = (long + 17 + 35, short + 17 + 35);
    assert_eq!(right, long + short + long + long);
    assert_eq!(broken + right, (180 + 156 + 180 + 180) * 256);
}

/// Checks the definition for each byte lost, each byte put in and each cut, and gives how many texts it read.
fn check_lost_and_put_in(form: Form) -> usize {
    let forms = Forms::new();
    let mut ran = 0;
    for record in records_in(form) {
        let text = text_of(&record);
        for place in 0..=text.len() {
            let (front, back) = text.split_at(place);
            for new in b"0129afgAFGsktncr=+ .:/`@\t\r\n\0\x7f\x80\xff" {
                check_by_definition(&forms, form, &[front, &[*new], back].concat());
                ran += 1;
            }
            if let Some(rest) = back.get(1..) {
                check_by_definition(&forms, form, &[front, rest].concat());
                ran += 1;
            }
            check_by_definition(&forms, form, front);
            check_by_definition(&forms, form, back);
            ran += 2;
        }
    }
    ran
}

/// Says that the definition holds for each byte lost, each byte put in and each cut.
#[test]
fn the_definition_for_bytes_lost_and_put_in() {
    let in_form_1 = check_lost_and_put_in(Form::One);
    let lengths = 163 + 139 + 163 + 163;
    assert_eq!(in_form_1, (lengths + 4) * (31 + 2) + lengths);
    let in_form_2 = check_lost_and_put_in(Form::Two);
    let lengths = 180 + 156 + 180 + 180;
    assert_eq!(in_form_2, (lengths + 4) * (31 + 2) + lengths);
}

/// Says that the definition holds for all short values of each line, and for all short name ends.
#[test]
fn the_definition_for_all_short_values() {
    let forms = Forms::new();
    let mut ran = 0;
    for form in FORMS {
        each_short_value(form, |text, after| {
            check_by_definition(&forms, form, text);
            check_by_definition(&forms, form, &[text, b"\n", after].concat());
            ran += 2;
        });
    }
    let values = 1 + 12 + 144 + 1_728;
    assert_eq!(ran, SETS.len() * (8 + 10) * values * 3 * 2);
}

/// Says that the definition holds for values of many lengths, ended rightly and wrongly.
#[test]
fn the_definition_for_values_of_many_lengths() {
    let forms = Forms::new();
    let mut ran = 0;
    for form in FORMS {
        for record in records_in(form) {
            for (line, number) in record.iter().zip(1..) {
                let before = text_of(&record[..number - 1]);
                let after = text_of(&record[number..]);
                let label = label_of(line);
                for digits in (0..=40).chain(505..=520) {
                    for end in [&b"\n"[..], b"", b"g\n", b"\r\n"] {
                        let value = vec![b'4'; digits];
                        let text = [&before, label, &value, end, &after].concat();
                        check_by_definition(&forms, form, &text);
                        ran += 1;
                    }
                }
            }
        }
    }
    assert_eq!(ran, SETS.len() * (8 + 10) * (41 + 16) * 4);
}

/// Says that the definition holds for each number of one to six digits, and zeros before it, as a chip.
#[test]
fn the_definition_for_many_chips() {
    let forms = Forms::new();
    let (mut broken, mut right) = (0, 0);
    let [record, ..] = records_in(Form::Two);
    let after = text_of(&record[3..]);
    for number in (0..=70_000).chain([99_999, 100_000, 655_350, 655_351, 999_999]) {
        for zeros in ["", "0", "00"] {
            let front = format!("form=2\nset=1\nchip={zeros}{number}\n");
            let text = [front.as_bytes(), &after].concat();
            match check_by_definition(&forms, Form::Two, &text) {
                true => broken += 1,
                false => right += 1,
            }
        }
    }
    assert_eq!((broken, right), (70_006 * 3 - 65_536, 65_536));
}

/// Says that every beginning of a right record can be completed, and what it becomes is read.
#[test]
fn completions_are_read() {
    let forms = Forms::new();
    let mut ran = 0;
    for form in FORMS {
        for record in records_in(form) {
            let text = text_of(&record);
            for end in 0..=text.len() {
                let begun = &text[..end];
                let whole = forms.record_from(form, begun).expect("a right beginning");
                assert!(whole.starts_with(begun));
                assert_eq!(read(form, &whole).map(|(_, taken)| taken), Ok(whole.len()));
                ran += 1;
            }
        }
    }
    assert_eq!(ran, 3 * 164 + 140 + 3 * 181 + 157);
}
