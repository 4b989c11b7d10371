//! Inputs of the program in which records of both forms stand together.

use second::cipher::{set_numbers, set_of, SETS};
use second::judge::{fault_line, judge_all, verdict, Verdict};
use second::make::{lines_of, right_record};
use second::record::{form_of, Broken, Form, Record};

/// Gives a right record of the set with some data and text.
fn right(set: u64) -> Record {
    let key = vec![0x5a; set_of(set).expect("a known set").key];
    right_record(set, &key, &key, b"data", b"some text").expect("a fitting message")
}

/// Gives the text of form 1 of the right record of the set.
fn old(set: u64) -> String {
    let text = lines_of(Form::One, &right(set)).expect("a right record");
    String::from_utf8(text).expect("plain text")
}

/// Gives the text of form 2 of the right record of the set, with those characters as its chip.
fn new(set: u64, chip: &str) -> String {
    let text = old(set);
    let (first, rest) = text.split_once('\n').expect("eight lines");
    format!("form=2\n{first}\nchip={chip}\n{rest}")
}

/// Gives the report lines of one record as they must stand.
fn three(number: usize, verdict: &str, field: &str) -> String {
    format!("record={number}\nverdict={verdict}\nfield={field}\n")
}

/// Gives the report lines of so many equal records.
fn equal(count: usize) -> String {
    let numbers = 1..=count;
    numbers
        .map(|number| three(number, "equal", "none"))
        .collect()
}

/// Checks the report on the input, and what is told of its broken record.
fn check(input: &str, report: &str, said: &str) {
    let output = String::from_utf8(judge_all(input.as_bytes())).expect("plain text");
    assert_eq!(output, report, "{input}");
    assert_eq!(fault_line(input.as_bytes()), said, "{input}");
}

/// Says which form a text is taken to be of.
#[test]
fn the_form_of_a_text() {
    let two: [&[u8]; 10] = [
        b"form=",
        b"form=2",
        b"form=2\n",
        b"form=1",
        b"form=1\nset=1\n",
        b"form=3",
        b"form=02",
        b"form=\n",
        b"form==",
        b"form=\xff",
    ];
    let one: [&[u8]; 19] = [
        b"",
        b"\n",
        b"f",
        b"fo",
        b"for",
        b"form",
        b"form\n=2",
        b"form =2",
        b"form:2",
        b"forms=2",
        b"Form=2",
        b"FORM=2",
        b" form=2",
        b"\nform=2",
        b"\xef\xbb\xbfform=2",
        b"set=1",
        b"set=1\nform=2\n",
        b"chip=0",
        b"2",
    ];
    let is_two = |text: &&&[u8]| form_of(text) == Form::Two;
    assert_eq!(two.iter().filter(is_two).count(), 10);
    assert_eq!(one.iter().filter(|text| !is_two(text)).count(), 19);
}

/// Says that the case printed in the rules gives the printed output in form 2 too, whatever the chip.
#[test]
fn the_printed_case_in_form_2() {
    let zeros = "00".repeat(16);
    let mut ran = 0;
    for chip in ["0", "1", "9", "10", "4660", "65535"] {
        let input = format!(
            "form=2\nset=1\nchip={chip}\nkey={zeros}\nnonce={zeros}\nad=\ntext=\ncipher=\n\
             tag={zeros}\nrounds=25\n"
        );
        check(&input, "record=1\nverdict=differs\nfield=rounds\n", "");
        let input = input.replace("rounds=25", "rounds=24");
        check(&input, "record=1\nverdict=differs\nfield=tag\n", "");
        ran += 1;
    }
    assert_eq!(ran, 6);
}

/// Says that the verdict on a record of form 2 is that on it in form 1, and names a chip too great.
#[test]
fn verdicts_in_form_2() {
    let mut ran = 0;
    for set in set_numbers() {
        let mut rounds = right(set);
        rounds.rounds += 1;
        let mut cipher = right(set);
        cipher.cipher.bytes[0] ^= 1;
        let mut tag = right(set);
        tag.tag.bytes[0] ^= 1;
        let cases = [
            (right(set), Verdict::Equal),
            (rounds, Verdict::Differs("rounds")),
            (cipher, Verdict::Differs("cipher")),
            (tag, Verdict::Differs("tag")),
        ];
        for (mut record, wanted) in cases {
            for chip in [0, 1, 65_535] {
                record.chip = chip;
                assert_eq!(verdict(Form::Two, &record), wanted);
                assert_eq!(verdict(Form::One, &record), wanted);
                ran += 1;
            }
            for chip in [65_536, u64::MAX] {
                record.chip = chip;
                let unread = Verdict::Unread(Broken { line: 3, column: 0 });
                assert_eq!(verdict(Form::Two, &record), unread);
                assert_eq!(verdict(Form::One, &record), wanted);
                ran += 1;
            }
        }
        let mut record = right(set);
        record.rounds = 10_000_000;
        let unread = |line| Verdict::Unread(Broken { line, column: 0 });
        assert_eq!(verdict(Form::Two, &record), unread(10));
        record.set = 5;
        assert_eq!(verdict(Form::Two, &record), unread(2));
    }
    assert_eq!(ran, SETS.len() * 4 * 5);
}

/// Says that records of both forms in any order are judged one after another.
#[test]
fn any_order_of_forms() {
    let olds = set_numbers().map(old);
    let news = set_numbers().map(|set| new(set, ["0", "65535", "7"][set as usize % 3]));
    let texts: Vec<String> = olds.chain(news).collect();
    let mut ran = 0;
    for first in &texts {
        for second in &texts {
            for third in &texts {
                let input = [&first[..], second, third].concat();
                check(&input, &equal(3), "");
                ran += 1;
            }
        }
    }
    assert_eq!(ran, (2 * SETS.len()).pow(3));
}

/// Says that a differing field is named in either form, and judging goes on.
#[test]
fn differing_records_of_both_forms() {
    let changed = |text: String| {
        let start = text.find("rounds=").expect("a rounds line");
        format!("{}rounds=1\n", &text[..start])
    };
    let input = [
        old(1),
        changed(new(1, "3")),
        new(2, "4"),
        changed(old(2)),
        new(1, "5"),
    ];
    let report = [
        three(1, "equal", "none"),
        three(2, "differs", "rounds"),
        three(3, "equal", "none"),
        three(4, "differs", "rounds"),
        three(5, "equal", "none"),
    ];
    check(&input.concat(), &report.concat(), "");
}

/// Says how a record that breaks its form is reported behind records of both forms, letter for letter.
#[test]
fn broken_records_behind_both_forms() {
    let cases = [
        // The first line alone decides the form, and so whose lines are numbered.
        ("fo".to_string(), "1", "line 1, column 1"),
        ("f".to_string(), "1", "line 1, column 1"),
        ("form".to_string(), "1", "line 1, column 1"),
        ("form\n".to_string(), "1", "line 1, column 1"),
        ("form=".to_string(), "1", "line 1, column 6"),
        ("form=\n".to_string(), "1", "line 1, column 6"),
        ("form=1\n".to_string() + &old(1), "1", "line 1, column 6"),
        ("form=1".to_string(), "1", "line 1, column 6"),
        ("form=3\n".to_string(), "1", "line 1, column 6"),
        ("form=02\n".to_string(), "1", "line 1, column 6"),
        ("form=22\n".to_string(), "1", "line 1, column 7"),
        ("form=2 \n".to_string(), "1", "line 1, column 7"),
        ("form=2".to_string(), "1", "line 1, column 7"),
        (
            new(1, "0").replace("form=2", "Form=2"),
            "1",
            "line 1, column 1",
        ),
        ("form=2\n".to_string(), "2", "line 2, column 1"),
        ("form=2\n".to_string() + &old(1), "3", "line 3, column 1"),
        ("form=2\nset=1\n".to_string(), "3", "line 3, column 1"),
        (new(1, "0").replace("form=2\n", ""), "2", "line 2, column 1"),
        (new(1, ""), "3", "line 3, column 6"),
        (new(1, "a"), "3", "line 3, column 6"),
        (new(1, "+1"), "3", "line 3, column 6"),
        (new(1, "-1"), "3", "line 3, column 6"),
        (new(1, "00"), "3", "line 3, column 7"),
        (new(1, "01"), "3", "line 3, column 7"),
        (new(1, "65536"), "3", "line 3, column 10"),
        (new(1, "70000"), "3", "line 3, column 10"),
        (new(1, "99999"), "3", "line 3, column 10"),
        (new(1, "100000"), "3", "line 3, column 11"),
        (
            new(2, "1").replace("set=2", "set=5"),
            "2",
            "line 2, column 5",
        ),
        (
            new(2, "1").replace("set=2", "set=1"),
            "4",
            "line 4, column 29",
        ),
        (
            new(2, "1").replace("nonce=", "nonce"),
            "5",
            "line 5, column 6",
        ),
        (new(2, "1").replace("ad=", "ad=x"), "6", "line 6, column 4"),
        (
            new(2, "1").replace("text=", "text=0"),
            "7",
            "line 7, column 25",
        ),
        (
            new(2, "1").replace("cipher=", "cipher=A"),
            "8",
            "line 8, column 8",
        ),
        (new(2, "1").replace("tag=", "tag"), "9", "line 9, column 4"),
        (
            new(2, "1").replace("rounds=", "rounds=0"),
            "10",
            "line 10, column 9",
        ),
        (
            old(2).replace("rounds=", "rounds=0"),
            "8",
            "line 8, column 9",
        ),
    ];
    let (mut ran, mut followed) = (0, 0);
    let fronts = [
        (String::new(), 0),
        (old(1), 1),
        (new(1, "65535"), 1),
        (old(2) + &new(2, "8") + &old(1), 3),
    ];
    for (front, count) in fronts {
        for (broken, field, place) in &cases {
            let report = equal(count) + &three(count + 1, "unread", field);
            let said = format!("bench: record {}: {place}\n", count + 1);
            check(&(front.clone() + broken), &report, &said);
            // An empty line and right records behind the broken one change nothing.
            if broken.ends_with('\n') {
                let input = front.clone() + broken + "\n" + &old(1) + &new(1, "0");
                check(&input, &report, &said);
                followed += 1;
            }
            ran += 1;
        }
    }
    // All but the six that end within a line are tried with more behind them.
    assert_eq!((ran, followed), (4 * 37, 4 * 31));
}

/// Gives the field and the place that are told when a record of form 2 has only this beginning.
fn told_of_cut(begun: &str) -> (String, String) {
    let lines: Vec<&str> = begun.split('\n').collect();
    let line = lines.len();
    // Before `form=` is whole the text counts as form 1, whose first line can't go on with an f.
    let column = match begun {
        "f" | "fo" | "for" | "form" => 1,
        _ => lines[line - 1].len() + 1,
    };
    (line.to_string(), format!("line {line}, column {column}"))
}

/// Says that every cut of records of both forms is reported as the rules tell.
#[test]
fn every_cut_of_three_records() {
    let mut ran = 0;
    let (front, middle, last) = (old(1), new(2, "65535"), old(2));
    let whole = [&front[..], &middle, &last].concat();
    let (first_end, second_end) = (front.len(), front.len() + middle.len());
    for end in 0..=whole.len() {
        let (count, begun) = match end {
            _ if end < first_end => (0, &whole[..end]),
            _ if end < second_end => (1, &whole[first_end..end]),
            _ if end < whole.len() => (2, &whole[second_end..end]),
            _ => (3, ""),
        };
        let (mut report, mut said) = (equal(count), String::new());
        if !begun.is_empty() {
            let (field, place) = told_of_cut(begun);
            report += &three(count + 1, "unread", &field);
            said = format!("bench: record {}: {place}\n", count + 1);
        }
        check(&whole[..end], &report, &said);
        ran += 1;
    }
    // The lengths of the three records in their forms, worked out from the record form.
    assert_eq!(ran, 191 + 167 + 7 + 11 + 167 + 1);
}
