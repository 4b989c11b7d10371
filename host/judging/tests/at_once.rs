//! The program and the command at a pipe that stays open: a record is reported with its last line feed, and a broken one with the byte that breaks it.

use judging::lines::{label, Lines};
use judging::program::Tried;
use judging::session::Session;
use second::cipher::SETS;
use second::judge::judge_all;
use second::record::Form::{self, One, Two};
use second::record::{may_begin, Line};
use std::sync::atomic::{AtomicUsize, Ordering};
use std::thread;
use std::time::Duration;

/// How many sessions run at a time; most of what they do is to wait.
const AT_A_TIME: usize = 8;

/// Between two bytes, so that the program can take each by itself.
const STEP: Duration = Duration::from_millis(1);

/// Long enough for the program to print whatever it would print.
const PAUSE: Duration = Duration::from_millis(60);

/// Says that it is so for every line of both forms in sets 1 and 2, whose keys are of each length, broken in eight ways each; once for each line and set by the command, too.
#[test]
fn a_record_is_reported_with_the_byte_that_decides_it() {
    let mut cases = Vec::new();
    for form in [One, Two] {
        for set in &SETS[..2] {
            for (turn, line) in form.lines().iter().enumerate() {
                let lines = Lines::right(form, set, 3, 5).with_chip(65);
                let broken = faults(&lines, *line).map(|there| lines.with_line(*line, there));
                let broken = broken.map(|lines| lines.bytes());
                cases.push((Tried::Command, form, broken[turn % 8].clone()));
                cases.extend(broken.map(|record| (Tried::Program, form, record)));
            }
        }
    }
    assert_eq!(cases.len(), 324);

    let next = AtomicUsize::new(0);
    let work = || {
        let mut ran = 0;
        while let Some((tried, form, record)) = cases.get(next.fetch_add(1, Ordering::Relaxed)) {
            reported_at_once(*tried, *form, record);
            ran += 1;
        }
        ran
    };
    let ran: usize = thread::scope(|scope| {
        let workers = [(); AT_A_TIME].map(|()| scope.spawn(work));
        workers.map(|worker| worker.join().expect("each is reported at once"))
    })
    .into_iter()
    .sum();
    assert_eq!(ran, 324);
}

/// Says that a form 2 record which has just begun, be it with a part of its first name, is waited on, and is unread only where the input ends there.
#[test]
fn a_beginning_is_waited_on() {
    let right = Lines::short(One, 0).bytes();
    let one = report(&right);
    let beginning = b"form=2\nset=1\nchip=6553";
    let mut ran = 0;
    for length in 1..=beginning.len() {
        let mut session = Session::start(Tried::Program);
        session.feed(&[&right, &beginning[..length]].concat());
        assert_eq!(session.printed(one.len()), one);
        let waited = session.after(PAUSE);
        assert_eq!(waited, one, "{}", shown(&beginning[..length]));
        let two = report(&[&right, &beginning[..length]].concat());
        assert_eq!(session.close(), two);
        ran += 1;
    }
    assert_eq!(ran, 22);
}

/// Gives what stands in place of a line that is broken at its beginning, in its middle or at its end.
fn faults(lines: &Lines, line: Line) -> [Vec<u8>; 8] {
    let (label, value) = (label(line), lines.value(line));
    let name = &label[..label.len() - 1];
    let ended = |value: &[u8]| [label, value, b"\n"].concat();
    let [one, other] = match line {
        Line::Form => [ended(b"1"), ended(b"22")],
        Line::Set => [ended(b"5"), ended(b"12")],
        Line::Chip => [ended(b"00"), ended(b"65536")],
        Line::Ad | Line::Text | Line::Cipher => [ended(&value[..1]), ended(&b"5a".repeat(257))],
        Line::Rounds => [ended(b"012"), ended(b"12345678")],
        Line::Key | Line::Nonce | Line::Tag => [
            ended(&value[..value.len() - 1]),
            ended(&[value, b"0"].concat()),
        ],
    };
    [
        [b"x", &label[1..], value, b"\n"].concat(),
        [&label[..1], b"\n", &label[1..], value, b"\n"].concat(),
        [name, b" =", value, b"\n"].concat(),
        [label, b"G", &value[1..], b"\n"].concat(),
        [label, &value[..1], b"G", &value[1..], b"\n"].concat(),
        [label, value, b"\r\n"].concat(),
        one,
        other,
    ]
}

/// Feeds two right records of the form and then a broken one up to the byte that decides it, and panics unless each is reported then, and not before.
fn reported_at_once(tried: Tried, form: Form, broken: &[u8]) {
    let right = Lines::short(form, 0).bytes();
    let (last, others) = right.split_last().expect("a record has bytes");
    let (one, two) = (report(&right), report(&right.repeat(2)));
    let mut session = Session::start(tried);
    session.feed(&right);
    assert_eq!(session.printed(one.len()), one);
    session.feed(others);
    assert_eq!(session.after(PAUSE), one, "all but a byte of the second");
    session.feed(&[*last]);
    assert_eq!(session.printed(two.len()), two);

    let decided = up_to_the_decision(broken);
    let (last, others) = decided.split_last().expect("a byte decides it");
    for byte in others {
        session.feed(&[*byte]);
        assert_eq!(session.after(STEP), two, "{}", shown(others));
    }
    assert_eq!(session.after(PAUSE), two, "{}", shown(others));
    session.feed(&[*last]);
    let three = report(&[&right, &right, broken].concat());
    assert_eq!(session.printed(three.len()), three, "{}", shown(decided));
    assert_eq!(session.ended_by_itself(), three, "{}", shown(decided));
}

/// Gives the report on an input, by the second program.
fn report(input: &[u8]) -> String {
    shown(&judge_all(input))
}

/// Gives the shortest beginning that no record in form has, by the second program.
fn up_to_the_decision(broken: &[u8]) -> &[u8] {
    let mut beginnings = (1..=broken.len()).map(|length| &broken[..length]);
    let decided = beginnings.find(|beginning| !may_begin(beginning));
    decided.expect("the record is broken")
}

/// Gives the bytes as text.
fn shown(bytes: &[u8]) -> String {
    String::from_utf8_lossy(bytes).into_owned()
}
