//! The program and the command at a pipe that stalls: what is there is reported at once, and no pause is taken for an end.

use judging::lines::Lines;
use judging::program::Tried;
use judging::session::Session;
use second::cipher::SETS;
use second::record::Form::{self, One, Two};
use second::record::Line;
use std::thread::sleep;
use std::time::Duration;

/// Long enough for the program to print whatever it would print.
const PAUSE: Duration = Duration::from_millis(150);

/// Says that a record which comes in halves is reported when it is whole, before more is sent.
#[test]
fn halves() {
    Tried::BOTH.into_iter().for_each(halves_at);
}

/// Tries it with one of the two.
fn halves_at(tried: Tried) {
    let right = SETS.each_ref().map(|set| Lines::right(One, set, 9, 20));
    let other_form = SETS.each_ref().map(|set| Lines::right(Two, set, 9, 20));
    let cases = [
        (&right[0], "verdict=equal\nfield=none"),
        (
            &right[1].with_other_digit(Line::Tag, 3),
            "verdict=differs\nfield=tag",
        ),
        (
            &right[0].with_other_digit(Line::Cipher, 3),
            "verdict=differs\nfield=cipher",
        ),
        (&other_form[0], "verdict=equal\nfield=none"),
        (
            &other_form[1].with_other_digit(Line::Tag, 3),
            "verdict=differs\nfield=tag",
        ),
        (&right[1], "verdict=equal\nfield=none"),
    ];
    let mut session = Session::start(tried);
    let mut wanted = String::new();
    for (number, (lines, said)) in (1..).zip(cases) {
        let bytes = lines.bytes();
        let (first, second) = bytes.split_at(bytes.len() / 2);
        session.feed(first);
        assert_eq!(session.after(PAUSE), wanted, "half of record {number}");
        session.feed(second);
        wanted += &format!("record={number}\n{said}\n");
        assert_eq!(session.printed(wanted.len()), wanted, "record {number}");
    }
    assert_eq!(session.after(PAUSE), wanted);
    assert_eq!(session.close(), wanted);
}

/// Says that two records and a half that come at once are reported, and the half when it is whole.
#[test]
fn two_and_a_half() {
    Tried::BOTH.into_iter().for_each(two_and_a_half_at);
}

/// Tries it with one of the two.
fn two_and_a_half_at(tried: Tried) {
    let bytes = Lines::right(One, &SETS[0], 3, 4).bytes().repeat(3);
    let (first, second) = bytes.split_at(bytes.len() / 6 * 5);
    let equal = |number| format!("record={number}\nverdict=equal\nfield=none\n");
    let mut session = Session::start(tried);
    session.feed(first);
    let wanted = equal(1) + &equal(2);
    assert_eq!(session.printed(wanted.len()), wanted);
    assert_eq!(session.after(PAUSE), wanted);
    session.feed(second);
    let wanted = wanted + &equal(3);
    assert_eq!(session.printed(wanted.len()), wanted);
    assert_eq!(session.close(), wanted);
}

/// Says that records which come byte by byte are reported with their last byte.
#[test]
fn byte_by_byte() {
    Tried::BOTH.into_iter().for_each(byte_by_byte_at);
}

/// Tries it with one of the two.
fn byte_by_byte_at(tried: Tried) {
    let mut session = Session::start(tried);
    let mut wanted = String::new();
    let forms = [One, Two].into_iter();
    let records = forms.flat_map(|form| SETS.each_ref().map(|set| Lines::right(form, set, 2, 3)));
    for (number, lines) in (1..).zip(records) {
        let bytes = lines.bytes();
        let (last, others) = bytes.split_last().expect("a record has bytes");
        for byte in others {
            session.feed(&[*byte]);
            sleep(Duration::from_millis(1));
        }
        assert_eq!(
            session.after(PAUSE),
            wanted,
            "all but a byte of record {number}"
        );
        session.feed(&[*last]);
        wanted += &format!("record={number}\nverdict=equal\nfield=none\n");
        assert_eq!(session.printed(wanted.len()), wanted, "record {number}");
    }
    assert_eq!(session.close(), wanted);
}

/// Says that a record which stops in a line, pauses and ends there is unread in that line.
#[test]
fn a_pause_and_the_end() {
    Tried::BOTH.into_iter().for_each(a_pause_and_the_end_at);
}

/// Tries it with one of the two.
fn a_pause_and_the_end_at(tried: Tried) {
    let mut ran = 0;
    let lines_of = |form: Form| (1..).zip(form.lines()).map(move |line| (form, line));
    for (form, (number, line)) in lines_of(One).chain(lines_of(Two)) {
        let lines = Lines::right(form, &SETS[number % 2], 5, 6);
        let half = [
            &lines.before(*line),
            &lines.line(*line)[..lines.line(*line).len() / 2],
        ];
        let mut session = Session::start(tried);
        session.feed(&lines.bytes());
        let equal = "record=1\nverdict=equal\nfield=none\n";
        assert_eq!(session.printed(equal.len()), equal);
        session.feed(&half.concat());
        assert_eq!(session.after(PAUSE), equal, "line {number}");
        let wanted = format!("{equal}record=2\nverdict=unread\nfield={number}\n");
        assert_eq!(session.close(), wanted, "line {number}");
        ran += 1;
    }
    assert_eq!(ran, 18);
}
