//! Logs of chips that are right in every call: cut messages, refusals, limits, restarts and calls in any order.

mod common;
mod logs;

use common::{flipped, message, Message};
use second::cipher::{seal_published, set_of, Set};
use second::log::{Call, Entry, CALLS};
use second::random::Random;
use second::replay::{replay, right_entries, right_log, Field, Replay, Verdict};

/// Gives the entry of a call that is done.
fn done(call: Call, data: &[u8], out: &[u8], rounds: u64) -> Entry {
    Entry {
        call,
        data: data.to_vec(),
        answer: 0,
        out: out.to_vec(),
        rounds,
    }
}

/// Gives the entry of a call that is refused.
fn refused(call: Call, data: &[u8], answer: u64) -> Entry {
    Entry {
        call,
        data: data.to_vec(),
        answer,
        out: Vec::new(),
        rounds: 0,
    }
}

/// The sets of which logs have a start: W12 names no others, and W5 adds none.
const LOGGED: [u64; 2] = [1, 2];

/// Gives the start of the set.
fn start_of(set: u64) -> Call {
    match set {
        1 => Call::Start1,
        _ => Call::Start2,
    }
}

/// Gives the rounds of the blocks that are filled on the way from one count to another.
fn filling(set: &Set, before: usize, after: usize) -> u64 {
    (set.middle * (after / set.block - before / set.block)) as u64
}

/// Gives the rounds of closing so much data.
fn closing(set: &Set, ad: usize) -> u64 {
    if ad == 0 {
        0
    } else {
        set.middle as u64
    }
}

/// Gives the right entries of a message in those pieces, told from the whole message and the rules' counts.
fn entries_of(m: &Message, data: &[&[u8]], pieces: &[&[u8]]) -> Vec<Entry> {
    let start = [&m.key[..], &m.nonce].concat();
    let mut entries = vec![done(start_of(m.set.number), &start, &[], 12)];
    let mut count = 0;
    for piece in data {
        let next = count + piece.len();
        let rounds = filling(m.set, count, next);
        entries.push(done(Call::Ad, piece, &[], rounds));
        count = next;
    }
    assert_eq!(data.concat(), m.ad);

    let mut left = closing(m.set, m.ad.len());
    let mut count = 0;
    for piece in pieces {
        let next = count + piece.len();
        let rounds = filling(m.set, count, next) + left;
        entries.push(done(Call::Text, piece, &m.cipher[count..next], rounds));
        (count, left) = (next, 0);
    }
    assert_eq!(pieces.concat(), m.text);
    entries.push(done(Call::Finish, &[], &m.tag, 12 + left));
    let sum: u64 = entries.iter().map(|entry| entry.rounds).sum();
    assert_eq!(sum, m.rounds);
    entries
}

/// Checks that a log of the entries agrees, and that they and it are our own.
fn check_agree(entries: &[Entry]) {
    let text = logs::text(entries);
    let wanted = Replay {
        entry: entries.len() as u64,
        verdict: Verdict::Agrees,
    };
    assert_eq!(replay(text.as_bytes()), wanted);
    let calls: Vec<_> = entries.iter().map(|e| (e.call, e.data.clone())).collect();
    assert_eq!(right_entries(&calls), entries);
    assert_eq!(right_log(&calls), text.as_bytes());
}

/// Checks that a log of the entries first differs in the field of the entry with that number.
fn check_differs(entries: &[Entry], number: usize, field: Field) {
    let wanted = Replay {
        entry: number as u64,
        verdict: Verdict::Differs(field),
    };
    let shown = logs::lines(&entries[number - 1]);
    assert_eq!(replay(logs::text(entries).as_bytes()), wanted, "{shown}");
}

const WAYS: usize = 6;

/// Gives the bytes cut in one of six ways; four of them make no piece of empty bytes.
fn cut<'a>(random: &mut Random, set: &Set, bytes: &'a [u8], way: usize) -> Vec<&'a [u8]> {
    match way {
        0 => vec![bytes],
        1 => bytes.chunks(1).collect(),
        2 => bytes.chunks(set.block).collect(),
        3 => bytes.chunks(set.block + 3).collect(),
        4 => vec![b"", bytes, b"", b""],
        _ => {
            let mut pieces = Vec::new();
            let mut rest = bytes;
            while !rest.is_empty() {
                let (piece, after) = rest.split_at(random.below(rest.len().min(40) + 1));
                pieces.push(piece);
                rest = after;
            }
            pieces
        }
    }
}

/// Says that messages around the block edges agree in all mixtures of cuts, and don't with one bit of the cipher or tag changed.
#[test]
fn cut_messages() {
    let mut random = Random::new(81);
    let mut ran = 0;
    for number in LOGGED {
        let b = set_of(number).expect("a known set").block;
        let edges = [0, 1, b - 1, b, b + 1, 3 * b];
        for pair in 0..36 {
            let m = message(&mut random, number, edges[pair / 6], edges[pair % 6]);
            for way in 0..WAYS * WAYS {
                let data = cut(&mut random, m.set, &m.ad, way / WAYS);
                let pieces = cut(&mut random, m.set, &m.text, way % WAYS);
                let mut entries = entries_of(&m, &data, &pieces);
                check_agree(&entries);
                let has_out = |at: &usize| !entries[*at].out.is_empty();
                let with_out: Vec<usize> = (0..entries.len()).filter(has_out).collect();
                let at = with_out[random.below(with_out.len())];
                let bit = random.below(entries[at].out.len() * 8);
                entries[at].out = flipped(&entries[at].out, bit);
                check_differs(&entries, at + 1, Field::Out);
                ran += 1;
            }
        }
    }
    assert_eq!(ran, 2 * 36 * 36);
}

/// Says that a long piece is taken whole, up to the most that an entry holds.
#[test]
fn the_longest_pieces() {
    let mut random = Random::new(82);
    let mut ran = 0;
    for number in LOGGED {
        for length in [255, 256] {
            let m = message(&mut random, number, length, length);
            check_agree(&entries_of(&m, &[&m.ad], &[&m.text]));
            ran += 1;
        }
    }
    assert_eq!(ran, 4);
}

/// Gives a message of the set in a few pieces of each kind, some of them empty.
fn sample(random: &mut Random, set: u64) -> Vec<Entry> {
    let m = message(random, set, 21, 37);
    let data: Vec<&[u8]> = vec![b"", &m.ad[..9], b"", &m.ad[9..]];
    let pieces: Vec<&[u8]> = vec![b"", &m.text[..5], &m.text[5..30], b"", &m.text[30..]];
    entries_of(&m, &data, &pieces)
}

/// Gives the refusals by the phase before the entry at that place, from 0, of a whole message's entries.
fn refusals(entries: &[Entry], place: usize) -> Vec<Entry> {
    let is_text = |entry: &Entry| entry.call == Call::Text;
    if place == 0 || place == entries.len() {
        vec![
            refused(Call::Ad, &[], 7),
            refused(Call::Ad, &[1, 2, 3], 7),
            refused(Call::Ad, &[0; 256], 7),
            refused(Call::Text, &[], 7),
            refused(Call::Text, &[1, 2, 3], 7),
            refused(Call::Text, &[0; 256], 7),
            refused(Call::Finish, &[], 7),
        ]
    } else if entries[..place].iter().any(is_text) {
        vec![
            refused(Call::Ad, &[], 7),
            refused(Call::Ad, &[9], 7),
            refused(Call::Ad, &[0; 256], 7),
        ]
    } else {
        Vec::new()
    }
}

/// Says that calls before a start, behind a finish and data behind text are refused with 7 and leave the state as it was.
#[test]
fn refused_calls_leave_the_state() {
    let mut random = Random::new(83);
    let mut ran = 0;
    for set in LOGGED {
        let entries = sample(&mut random, set);
        let mut with_all = Vec::new();
        for place in 0..=entries.len() {
            let all = refusals(&entries, place);
            for refusal in &all {
                let (before, after) = entries.split_at(place);
                let with = |call: &Entry| [before, std::slice::from_ref(call), after].concat();
                check_agree(&with(refusal));
                let said_done = Entry {
                    answer: 0,
                    ..refusal.clone()
                };
                check_differs(&with(&said_done), place + 1, Field::Answer);
                let other = Entry {
                    answer: 8,
                    ..refusal.clone()
                };
                check_differs(&with(&other), place + 1, Field::Answer);
                let out = Entry {
                    out: vec![0],
                    ..refusal.clone()
                };
                check_differs(&with(&out), place + 1, Field::Out);
                let rounds = Entry {
                    rounds: 12,
                    ..refusal.clone()
                };
                check_differs(&with(&rounds), place + 1, Field::Rounds);
                ran += 1;
            }
            with_all.extend(all);
            with_all.extend(entries.get(place).cloned());
        }
        check_agree(&with_all);
    }
    // Seven at either end, and three behind each of the five text calls.
    assert_eq!(ran, 2 * (14 + 15));
}

/// Says that finishing twice is refused the second time, and that a finish without text seals the empty text.
#[test]
fn finishing_twice() {
    let mut random = Random::new(84);
    let mut ran = 0;
    for set in LOGGED {
        for ad in [0, 5, 16, 20] {
            let m = message(&mut random, set, ad, 0);
            let mut entries = entries_of(&m, &[&m.ad], &[]);
            entries.push(refused(Call::Finish, &[], 7));
            check_agree(&entries);
            let again = entries[2].clone();
            let last = entries.len();
            entries[last - 1] = again;
            check_differs(&entries, last, Field::Answer);
            ran += 1;
        }
    }
    assert_eq!(ran, 8);
}

/// Says that a start drops the open stream, wherever it is and whichever set it is of.
#[test]
fn restarts() {
    let mut random = Random::new(85);
    let mut ran = 0;
    for first in LOGGED {
        for second in LOGGED {
            let (one, other) = (sample(&mut random, first), sample(&mut random, second));
            for place in 0..=one.len() {
                let entries = [&one[..place], &other, &one, &other[..1]].concat();
                check_agree(&entries);
                ran += 1;
            }
        }
    }
    assert_eq!(ran, 4 * 12);
    // A start that is followed by nothing, or by another start, is an open stream all the same.
    let m = message(&mut random, 1, 0, 0);
    let start = &entries_of(&m, &[], &[])[..1];
    check_agree(start);
    check_agree(&[start, start, start].concat());
}

/// Says where a message whose start was left out differs, when another stream is open in its place.
#[test]
fn restarts_without_their_start() {
    let mut random = Random::new(86);
    // The open stream has taken 9 bytes. In set 1, the data pieces fill as many blocks from there; in
    // set 2, the next 9 bytes fill a block that they wouldn't fill alone.
    for (set, number, field) in [(1, 9, Field::Out), (2, 5, Field::Rounds)] {
        let (one, other) = (sample(&mut random, set), sample(&mut random, set));
        check_differs(&[&one[..3], &other[1..]].concat(), number, field);
        check_agree(&[&one[..3], &other].concat());
    }
}

/// Says that 65,536 bytes of data are taken in pieces, that more are refused with 5, and that the message goes on.
#[test]
fn the_limit_of_data() {
    let mut random = Random::new(87);
    let mut ran = 0;
    for set in LOGGED {
        let m = message(&mut random, set, 65_536, 20);
        let data: Vec<&[u8]> = m.ad.chunks(256).collect();
        let right = entries_of(&m, &data, &[&m.text]);
        assert_eq!(right.len(), 1 + 256 + 2);
        check_agree(&right);
        let (full, rest) = right.split_at(257);
        let refusals = [
            refused(Call::Ad, &[0], 5),
            refused(Call::Ad, &[0; 2], 5),
            refused(Call::Ad, &[0; 256], 5),
        ];
        let nothing = done(Call::Ad, &[], &[], 0);
        check_agree(&[full, &refusals, &[nothing], &refusals, rest].concat());
        let (text, finish) = rest.split_at(1);
        // Behind the text a data piece doesn't fit the phase, which is tested before the limit.
        let late = refused(Call::Ad, &[0], 7);
        check_agree(&[full, text, &[late], finish].concat());
        let said_done = done(Call::Ad, &[0], &[], 0);
        check_differs(&[full, &[said_done], rest].concat(), 258, Field::Answer);
        // A new start counts from nothing again.
        check_agree(&[full, &right].concat());
        ran += 1;
    }
    assert_eq!(ran, 2);
}

/// Says that a data piece that would pass the limit is refused whole, and a shorter one then taken.
#[test]
fn one_byte_below_the_limit_of_data() {
    let mut random = Random::new(88);
    for set in LOGGED {
        let m = message(&mut random, set, 65_536, 3);
        let (most, last) = m.ad.split_at(65_535);
        let mut data: Vec<&[u8]> = most.chunks(256).collect();
        data.push(last);
        let right = entries_of(&m, &data, &[&m.text]);
        let (before, after) = right.split_at(257);
        let refusals = [
            refused(Call::Ad, &[0; 2], 5),
            refused(Call::Ad, &[0; 256], 5),
        ];
        check_agree(&[before, &refusals, after].concat());
    }
}

/// Says that 1,048,576 bytes of text are taken in pieces, that more are refused with 5, and that the finish comes right.
#[test]
fn the_limit_of_text() {
    let mut random = Random::new(89);
    for set in LOGGED {
        let m = message(&mut random, set, 10, 1_048_576);
        let (most, last) = m.text.split_at(1_048_575);
        let mut pieces: Vec<&[u8]> = most.chunks(256).collect();
        pieces.push(last);
        let right = entries_of(&m, &[&m.ad], &pieces);
        assert_eq!(right.len(), 2 + 4_096 + 2);
        let (before, after) = right.split_at(2 + 4_096);
        let (one, finish) = after.split_at(1);
        let [two, many] = [&[0; 2][..], &[0; 256]].map(|piece| refused(Call::Text, piece, 5));
        let byte = refused(Call::Text, &[0], 5);
        let nothing = done(Call::Text, &[], &[], 0);
        let refusals = [byte.clone(), two.clone(), many.clone()];
        let below = [two, many];
        let entries = [
            before,
            &below,
            one,
            &refusals,
            &[nothing],
            &refusals,
            finish,
        ]
        .concat();
        check_agree(&entries);
        let mut with_out = entries.clone();
        with_out[4_101].out = vec![0];
        check_differs(&with_out, 4_102, Field::Out);
        assert_eq!(with_out[4_101].data, [0]);
        let said_done = done(Call::Text, &[0], &[0], 0);
        let wrong = [before, one, &[said_done], finish].concat();
        check_differs(&wrong, 4_100, Field::Answer);
    }
}

/// Says that an out where the right one is empty differs, before the rounds are looked at.
#[test]
fn outs_of_calls_that_have_none() {
    let mut random = Random::new(90);
    let mut ran = 0;
    for set in LOGGED {
        let right = sample(&mut random, set);
        for (place, entry) in right.iter().enumerate() {
            if !entry.out.is_empty() {
                continue;
            }
            for length in [1, 16, 256] {
                let mut entries = right.clone();
                entries[place].out = vec![0; length];
                entries[place].rounds += 1;
                check_differs(&entries, place + 1, Field::Out);
                ran += 1;
            }
        }
    }
    // The start, the four data pieces and the two empty text pieces.
    assert_eq!(ran, 2 * 7 * 3);
}

/// What a chip that is right in every call has been handed since its last start, and whether text came.
struct Open {
    set: &'static Set,
    key: Vec<u8>,
    nonce: Vec<u8>,
    ad: Vec<u8>,
    text: Vec<u8>,
    in_text: bool,
}

/// A chip that seals the whole message anew at every call.
struct Chip {
    open: Option<Open>,
}

impl Chip {
    /// Starts a message, whatever was open, and gives the entry.
    fn start(&mut self, call: Call, data: &[u8]) -> Entry {
        let number = if call == Call::Start1 { 1 } else { 2 };
        let set = set_of(number).expect("a known set");
        self.open = Some(Open {
            set,
            key: data[..set.key].to_vec(),
            nonce: data[set.key..].to_vec(),
            ad: Vec::new(),
            text: Vec::new(),
            in_text: false,
        });
        done(call, data, &[], 12)
    }

    /// Makes a call that passes no limit and gives its entry.
    fn call(&mut self, call: Call, data: &[u8]) -> Entry {
        if matches!(call, Call::Start1 | Call::Start2) {
            return self.start(call, data);
        }
        let Some(open) = &mut self.open else {
            return refused(call, data, 7);
        };
        let (set, ad, text) = (open.set, open.ad.len(), open.text.len());
        let close = if open.in_text { 0 } else { closing(set, ad) };
        match call {
            Call::Ad if open.in_text => refused(call, data, 7),
            Call::Ad => {
                open.ad.extend(data);
                done(call, data, &[], filling(set, ad, open.ad.len()))
            }
            Call::Text => {
                open.text.extend(data);
                open.in_text = true;
                let sealed = seal_published(set, &open.key, &open.nonce, &open.ad, &open.text);
                let rounds = close + filling(set, text, open.text.len());
                done(call, data, &sealed.cipher[text..], rounds)
            }
            _ => {
                let sealed = seal_published(set, &open.key, &open.nonce, &open.ad, &open.text);
                self.open = None;
                done(call, data, &sealed.tag, 12 + close)
            }
        }
    }
}

/// Gives the entries of so many calls in any order; starts and finishes are rarer than pieces.
fn any_calls(random: &mut Random, count: usize) -> Vec<Entry> {
    let mut chip = Chip { open: None };
    let mut entries = Vec::new();
    for _ in 0..count {
        let call = match random.below(12) {
            0 => Call::Start1,
            1 => Call::Start2,
            2..=5 => Call::Ad,
            6..=10 => Call::Text,
            _ => Call::Finish,
        };
        let length = match call {
            Call::Start1 => 32,
            Call::Start2 => 24,
            Call::Finish => 0,
            _ => [0, 1, 7, 8, 9, 16, 23, 256][random.below(8)],
        };
        let data = random.bytes(length);
        entries.push(chip.call(call, &data));
    }
    entries
}

/// Says that calls in any order agree, and that one altered field is found in its place.
#[test]
fn calls_in_any_order() {
    let mut random = Random::new(91);
    let mut ran = 0;
    let mut answers = [0; 10];
    for _ in 0..600 {
        let count = random.below(40) + 1;
        let right = any_calls(&mut random, count);
        check_agree(&right);
        for entry in &right {
            answers[entry.answer as usize] += 1;
        }
        let place = random.below(count);
        for field in [Field::Answer, Field::Out, Field::Rounds] {
            let mut entries = right.clone();
            let altered = &mut entries[place];
            match field {
                Field::Answer => altered.answer = 7 - altered.answer,
                Field::Out => match altered.out.pop() {
                    Some(_) => (),
                    None => altered.out.push(0),
                },
                Field::Rounds => altered.rounds += 1,
            }
            check_differs(&entries, place + 1, field);
            ran += 1;
        }
    }
    assert_eq!(ran, 1_800);
    assert!(answers[0] > 1_000 && answers[7] > 1_000);
    assert_eq!(answers.iter().sum::<i32>(), answers[0] + answers[7]);
}

/// Says that any three calls agree behind nothing, behind a start, and behind a start and text.
#[test]
fn every_three_calls() {
    let mut ran = 0;
    for first in CALLS {
        for second in CALLS {
            for third in CALLS {
                for lead in [&[][..], &[Call::Start1], &[Call::Start2, Call::Text]] {
                    let mut chip = Chip { open: None };
                    let calls = [lead, &[first, second, third]].concat();
                    let entries: Vec<Entry> = calls
                        .into_iter()
                        .map(|call| match call {
                            Call::Start1 => chip.call(call, &[1; 32]),
                            Call::Start2 => chip.call(call, &[2; 24]),
                            Call::Ad => chip.call(call, &[3; 16]),
                            Call::Text => chip.call(call, &[4; 17]),
                            Call::Finish => chip.call(call, &[]),
                        })
                        .collect();
                    check_agree(&entries);
                    ran += 1;
                }
            }
        }
    }
    assert_eq!(ran, 125 * 3);
}
