//! Verdicts on logs: which entry decides, and what is said and printed of it.

mod logs;

use second::cipher::{seal_published, set_of};
use second::hex;
use second::log::{Call, Entry};
use second::random::Random;
use second::record::Broken;
use second::replay::{replay, right_entries, right_log, Field, Replay, Verdict};

/// A right log, written down by hand: two messages, refused calls before, in and behind the first, and a stream left open.
const LOG: [[&str; 5]; 17] = [
    ["ad", "202122", "7", "", "0"],
    ["text", "", "7", "", "0"],
    ["finish", "", "7", "", "0"],
    [
        "start1",
        "000102030405060708090a0b0c0d0e0f101112131415161718191a1b1c1d1e1f",
        "0",
        "",
        "12",
    ],
    ["ad", "2021222324", "0", "", "0"],
    ["ad", "25262728", "0", "", "6"],
    ["text", "30313233343536", "0", "bf83386abe9b99", "6"],
    ["ad", "29", "7", "", "0"],
    ["text", "3738393a", "0", "53eb2653", "6"],
    ["finish", "", "0", "3cd0a78f847a3772a21be5bea47f9a68", "12"],
    ["finish", "", "7", "", "0"],
    [
        "start2",
        "000102030405060708090a0b101112131415161718191a1b",
        "0",
        "",
        "12",
    ],
    ["ad", "202122232425262728292a2b2c2d2e2f", "0", "", "8"],
    ["text", "", "0", "", "8"],
    [
        "text",
        "303132333435363738393a3b3c3d3e3f404142434445464748494a4b4c4d4e4f50",
        "0",
        "dc257e1c3797283eac80b3d574f989a2727c2163ba6e95e478751c120c958bef20",
        "16",
    ],
    ["finish", "", "0", "bb60a694836f86eaf37d3a74", "12"],
    [
        "start2",
        "ffffffffffffffffffffffffffffffffffffffffffffffff",
        "0",
        "",
        "12",
    ],
];

/// Gives the five lines of an entry with these values.
fn lines([call, data, answer, out, rounds]: [&str; 5]) -> String {
    format!("call={call}\ndata={data}\nanswer={answer}\nout={out}\nrounds={rounds}\n")
}

/// Gives the log as a text.
fn log() -> String {
    LOG.map(lines).concat()
}

/// Gives the call of a word.
fn call_of(word: &str) -> Call {
    match word {
        "start1" => Call::Start1,
        "start2" => Call::Start2,
        "ad" => Call::Ad,
        "text" => Call::Text,
        "finish" => Call::Finish,
        other => panic!("{other} is no call"),
    }
}

/// Gives the bytes of hex digits.
fn bytes(digits: &str) -> Vec<u8> {
    hex::read(digits.as_bytes()).expect("pairs of digits")
}

/// Gives the entries of the log.
fn entries() -> Vec<Entry> {
    let entry = |[call, data, answer, out, rounds]: [&str; 5]| Entry {
        call: call_of(call),
        data: bytes(data),
        answer: answer.parse().expect("a number"),
        out: bytes(out),
        rounds: rounds.parse().expect("a number"),
    };
    LOG.map(entry).into()
}

/// Gives what a replay says when all of so many entries agree.
fn agree(entries: u64) -> Replay {
    Replay {
        entry: entries,
        verdict: Verdict::Agrees,
    }
}

/// Gives what a replay says when the field of that entry is the first to differ.
fn differs(entry: usize, field: Field) -> Replay {
    Replay {
        entry: entry as u64,
        verdict: Verdict::Differs(field),
    }
}

/// Gives what a replay says when that entry is the first that breaks, and there.
fn unread(entry: usize, line: u64, column: u64) -> Replay {
    Replay {
        entry: entry as u64,
        verdict: Verdict::Unread(Broken { line, column }),
    }
}

/// Checks what the replay of a text says.
fn check(text: &str, wanted: Replay) {
    assert_eq!(replay(text.as_bytes()), wanted, "{text}");
}

/// Says that the log written down here agrees, and so do its first entries alone.
#[test]
fn the_log_agrees() {
    for count in 0..=17 {
        check(
            &LOG[..count].iter().copied().map(lines).collect::<String>(),
            agree(count as u64),
        );
    }
    assert_eq!(logs::text(&entries()), log());
    assert_eq!(logs::lines(&entries()[0]), lines(LOG[0]));
}

/// Says that the outs and rounds written down here are those of two whole messages.
#[test]
fn the_messages_of_the_log() {
    let counting = |first: u8, count: u8| -> Vec<u8> { (first..first + count).collect() };
    let mut ran = 0;
    for (set, ad, text, places) in [(1, 9, 11, 3..10), (2, 16, 33, 11..16)] {
        let set = set_of(set).expect("a known set");
        let [key, nonce] = [0, 0x10].map(|first| counting(first, set.key as u8));
        let (ad, text) = (counting(0x20, ad), counting(0x30, text));
        let sealed = seal_published(set, &key, &nonce, &ad, &text);
        let part = &entries()[places];
        let outs: Vec<u8> = part.iter().flat_map(|entry| entry.out.clone()).collect();
        assert_eq!(outs, [sealed.cipher, sealed.tag].concat());
        let rounds: u64 = part.iter().map(|entry| entry.rounds).sum();
        assert_eq!(rounds, sealed.rounds);
        ran += 1;
    }
    assert_eq!(ran, 2);
}

/// Says that our own entries of the same calls, and our own log of them, are the ones written down here.
#[test]
fn our_own_log() {
    let calls: Vec<(Call, Vec<u8>)> = entries().into_iter().map(|e| (e.call, e.data)).collect();
    assert_eq!(right_entries(&calls), entries());
    assert_eq!(right_log(&calls), log().as_bytes());
    assert_eq!(right_entries(&[]), []);
    assert_eq!(right_log(&[]), b"");
}

/// Says that a start that no log can hold is refused, and leaves the ended state.
#[test]
fn starts_that_are_refused() {
    let right: Vec<u8> = (0..32).collect();
    let mut ran = 0;
    for (call, length, answer) in [
        (Call::Start1, 0, 2),
        (Call::Start1, 24, 2),
        (Call::Start1, 31, 2),
        (Call::Start1, 33, 3),
        (Call::Start2, 32, 2),
        (Call::Start2, 25, 3),
    ] {
        let calls = [
            (Call::Start1, right.clone()),
            (call, vec![0; length]),
            (Call::Ad, Vec::new()),
        ];
        let found = right_entries(&calls);
        assert_eq!(found[0].answer, 0);
        let refused = |entry: &Entry| (entry.answer, entry.out.len(), entry.rounds);
        assert_eq!(refused(&found[1]), (answer, 0, 0));
        assert_eq!(refused(&found[2]), (7, 0, 0));
        ran += 1;
    }
    assert_eq!(ran, 6);
}

/// Says that an empty log agrees and that no other text without entries does.
#[test]
fn no_entries() {
    check("", agree(0));
    let cases = [
        "\n",
        "\n\n",
        " ",
        "\r\n",
        "\0",
        "x",
        "entry=1\n",
        "rounds=0\n",
    ];
    for text in cases {
        check(text, unread(1, 1, 1));
    }
    check(&(log() + "\n"), unread(18, 1, 1));
    check(&(log() + "\r\n"), unread(18, 1, 1));
    check(&("\n".to_string() + &log()), unread(1, 1, 1));
    let with_gap = lines(LOG[0]) + "\n" + &lines(LOG[1]);
    check(&with_gap, unread(2, 1, 1));
}

/// Gives other answers than the given one.
fn other_answers(right: u64) -> Vec<u64> {
    let all = [0, 1, 5, 6, 7, 8, 9, 10, 12, 99, 256, 9_999_999];
    all.into_iter().filter(|answer| *answer != right).collect()
}

/// Gives other outs than the given one: cut anywhere, longer, and with one bit changed.
fn other_outs(right: &[u8]) -> Vec<Vec<u8>> {
    let mut all: Vec<Vec<u8>> = (0..right.len()).map(|end| right[..end].to_vec()).collect();
    for more in [&[0][..], &[0, 0], &[0x80], &[0xff; 16]] {
        all.push([right, more].concat());
    }
    let mut filled = right.to_vec();
    filled.resize(256, 0);
    all.push(filled);
    for bit in 0..right.len() * 8 {
        let mut changed = right.to_vec();
        changed[bit / 8] ^= 1 << (bit % 8);
        all.push(changed);
    }
    all
}

/// Gives other rounds than the given ones.
fn other_rounds(right: u64) -> Vec<u64> {
    let all = [0, 6, 8, 12, 24, right + 1, right + 6, right + 12, 9_999_999];
    all.into_iter().filter(|rounds| *rounds != right).collect()
}

/// Checks that the log with that entry, from 1, in its place differs there in the field, and gives 1.
fn check_altered(number: usize, altered: &Entry, field: Field) -> usize {
    let mut all = entries();
    all[number - 1] = altered.clone();
    assert_eq!(replay(logs::text(&all).as_bytes()), differs(number, field));
    1
}

/// Says that any one field altered in any one entry is named.
#[test]
fn one_field_altered() {
    let (mut answers, mut outs, mut rounds) = (0, 0, 0);
    for (number, right) in (1..).zip(entries()) {
        for answer in other_answers(right.answer) {
            let altered = Entry {
                answer,
                ..right.clone()
            };
            answers += check_altered(number, &altered, Field::Answer);
        }
        for out in other_outs(&right.out) {
            let altered = Entry {
                out,
                ..right.clone()
            };
            outs += check_altered(number, &altered, Field::Out);
        }
        for other in other_rounds(right.rounds) {
            let altered = Entry {
                rounds: other,
                ..right.clone()
            };
            rounds += check_altered(number, &altered, Field::Rounds);
        }
    }
    assert_eq!(answers, 17 * 11);
    // Of the outs, 7, 4, 16, 33 and 12 bytes long, each is cut at each length and has each bit changed.
    assert_eq!(outs, 17 * 5 + 72 * 9);
    assert!(rounds >= 17 * 7);
}

/// Says that of several altered fields the answer is named before the out, and that before the rounds.
#[test]
fn several_fields_altered() {
    let mut ran = 0;
    for (number, right) in (1..).zip(entries()) {
        for mixture in 1..8 {
            let mut altered = right.clone();
            let mut field = Field::Rounds;
            if mixture & 1 == 1 {
                altered.rounds += 1;
            }
            if mixture & 2 == 2 {
                altered.out.push(0);
                field = Field::Out;
            }
            if mixture & 4 == 4 {
                altered.answer = 99;
                field = Field::Answer;
            }
            ran += check_altered(number, &altered, field);
        }
    }
    assert_eq!(ran, 17 * 7);
}

/// Says that a refused call said to be done, with all that it would give, differs in its answer.
#[test]
fn refusals_said_to_be_done() {
    let text = lines(["text", "00", "0", "00", "0"]);
    check(&text, differs(1, Field::Answer));
    check(
        &lines(["finish", "", "0", "", "12"]),
        differs(1, Field::Answer),
    );
    let out_of_a_refusal = lines(["text", "00", "7", "00", "0"]);
    check(&out_of_a_refusal, differs(1, Field::Out));
    check(
        &lines(["ad", "00", "7", "", "6"]),
        differs(1, Field::Rounds),
    );
}

/// Says that of two altered entries the first is named, whichever of their fields are altered.
#[test]
fn two_entries_altered() {
    let mut ran = 0;
    for first in 1..17 {
        for second in first + 1..=17 {
            let mut all = entries();
            all[first - 1].rounds += 1;
            all[second - 1].answer = 99;
            check(&logs::text(&all), differs(first, Field::Rounds));
            all[first - 1] = entries()[first - 1].clone();
            check(&logs::text(&all), differs(second, Field::Answer));
            ran += 1;
        }
    }
    assert_eq!(ran, 17 * 16 / 2);
}

/// Says that a log cut at any byte agrees only where an entry ends, and breaks behind its last byte elsewhere.
#[test]
fn cut_anywhere() {
    let log = log();
    let (mut whole, mut cut) = (0, 0);
    let (mut line, mut column) = (1, 1);
    for (end, byte) in log.bytes().enumerate() {
        if (line, column) == (1, 1) {
            check(&log[..end], agree(whole as u64));
        } else {
            check(&log[..end], unread(whole + 1, line, column));
            cut += 1;
        }
        column += 1;
        if byte == b'\n' {
            (line, column) = (line + 1, 1);
        }
        if line == 6 {
            (line, whole) = (1, whole + 1);
        }
    }
    check(&log, agree(17));
    assert_eq!((whole, cut), (17, log.len() - 17));
}

/// Gives texts that may stand behind any entry.
fn behind(random: &mut Random) -> Vec<Vec<u8>> {
    let mut all = vec![
        Vec::new(),
        b"\n".to_vec(),
        b"call=".to_vec(),
        b"\xff\0".to_vec(),
        lines(LOG[0]).into_bytes(),
        log().into_bytes(),
        lines(["text", "00", "99", "", "0"]).into_bytes(),
        lines(["finish", "00", "0", "", "0"]).into_bytes(),
    ];
    all.push(random.bytes(500));
    all
}

/// Says that what stands behind the entry that decides doesn't matter.
#[test]
fn behind_the_deciding_entry() {
    let mut random = Random::new(71);
    let mut ran = 0;
    for number in 1..=17 {
        let before = logs::text(&entries()[..number - 1]);
        let mut right = entries()[number - 1].clone();
        right.answer += 1;
        let differing = before.clone() + &logs::lines(&right);
        for more in behind(&mut random) {
            let text = [differing.as_bytes(), &more].concat();
            assert_eq!(replay(&text), differs(number, Field::Answer));
            let text = [before.as_bytes(), b"call=finish\ndata=0", &more].concat();
            assert_eq!(replay(&text), unread(number, 2, 6));
            ran += 1;
        }
    }
    assert_eq!(ran, 17 * 9);
}

/// Says that the first entry that is broken or differs decides, and that a broken one isn't compared.
#[test]
fn broken_and_differing_entries() {
    let [right, last] = [LOG[0], LOG[1]].map(lines);
    let wrong = lines(["ad", "202122", "0", "", "0"]);
    let broken = "call=text\ndata=\nanswer=7\nout=\nrounds=00\n";
    let both = "call=text\ndata=\nanswer=0\nout=00\nrounds=1x\n";
    let cases = [
        (right.clone() + &wrong + broken, differs(2, Field::Answer)),
        (right.clone() + broken + &wrong, unread(2, 5, 9)),
        (right.clone() + both + &wrong, unread(2, 5, 9)),
        (right.clone() + &wrong + both, differs(2, Field::Answer)),
        (right.clone() + &last + both, unread(3, 5, 9)),
        (wrong.clone() + both, differs(1, Field::Answer)),
        (both.to_string() + &wrong, unread(1, 5, 9)),
        // Without its last line feed an entry that differs is still no entry.
        (wrong.trim_end().to_string(), unread(1, 5, 9)),
        (right.clone() + wrong.trim_end(), unread(2, 5, 9)),
    ];
    let mut ran = 0;
    for (text, wanted) in cases {
        check(&text, wanted);
        ran += 1;
    }
    assert_eq!(ran, 9);
}

/// Says that start data of a wrong length and data on finish are broken second lines, whatever the chip answered.
#[test]
fn broken_second_lines() {
    let mut ran = 0;
    for answer in ["0", "2", "3", "7", "10"] {
        for (call, data, column) in [
            ("start1", 0, 6),
            ("start1", 24, 54),
            ("start1", 31, 68),
            ("start1", 33, 70),
            ("start2", 0, 6),
            ("start2", 23, 52),
            ("start2", 25, 54),
            ("start2", 32, 54),
            ("finish", 1, 6),
            ("finish", 16, 6),
            ("ad", 257, 518),
            ("text", 257, 518),
        ] {
            let entry = lines([call, &"00".repeat(data), answer, "", "0"]);
            check(&entry, unread(1, 2, column));
            check(&(log() + &entry + &log()), unread(18, 2, column));
            ran += 1;
        }
    }
    assert_eq!(ran, 5 * 12);
}

/// Says that every line's fault is told with the entry's number, wherever the entry stands.
#[test]
fn every_line_in_every_place() {
    let faults = [
        ("call=", "call= ", 1, 6),
        ("data=", "data ", 2, 5),
        ("answer=", "answer=0", 3, 9),
        ("out=", "out=A0", 4, 5),
        ("rounds=", "rounds=-", 5, 8),
    ];
    let mut ran = 0;
    for number in 1..=17 {
        let before = logs::text(&entries()[..number - 1]);
        let after = logs::text(&entries()[number..]);
        for (right, wrong, line, column) in faults {
            let broken = lines(LOG[number - 1]).replace(right, wrong);
            check(
                &(before.clone() + &broken + &after),
                unread(number, line, column),
            );
            ran += 1;
        }
    }
    assert_eq!(ran, 17 * 5);
}

/// Says what is printed of each verdict, letter for letter, and with which status.
#[test]
fn what_is_printed() {
    let cases = [
        (
            agree(0),
            "entry=0\nverdict=agrees\nfield=none\n",
            "bench: done: entries=0\n",
            0,
        ),
        (
            agree(17),
            "entry=17\nverdict=agrees\nfield=none\n",
            "bench: done: entries=17\n",
            0,
        ),
        (
            differs(1, Field::Answer),
            "entry=1\nverdict=differs\nfield=answer\n",
            "bench: done: entries=1\n",
            1,
        ),
        (
            differs(20, Field::Out),
            "entry=20\nverdict=differs\nfield=out\n",
            "bench: done: entries=20\n",
            1,
        ),
        (
            differs(345, Field::Rounds),
            "entry=345\nverdict=differs\nfield=rounds\n",
            "bench: done: entries=345\n",
            1,
        ),
        (
            unread(1, 1, 1),
            "entry=1\nverdict=unread\nfield=1\n",
            "bench: entry 1: line 1, column 1\nbench: done: entries=1\n",
            1,
        ),
        (
            unread(12, 4, 517),
            "entry=12\nverdict=unread\nfield=4\n",
            "bench: entry 12: line 4, column 517\nbench: done: entries=12\n",
            1,
        ),
    ];
    let mut ran = 0;
    for (replayed, report, said, status) in cases {
        assert_eq!(replayed.report(), report);
        assert_eq!(replayed.said(), said);
        assert_eq!(replayed.status(), status);
        ran += 1;
    }
    assert_eq!(ran, 7);
}
