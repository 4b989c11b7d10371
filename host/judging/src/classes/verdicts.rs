//! Records in form, right ones and ones that differ.

use crate::input::{Input, Said};
use crate::lines::Lines;
use second::cipher::{Set, SETS};
use second::record::{Form, Line};

/// The lines whose fields are compared, in the order of comparison.
const COMPARED: [(Line, &str); 3] = [
    (Line::Rounds, "rounds"),
    (Line::Cipher, "cipher"),
    (Line::Tag, "tag"),
];

/// Gives records that differ in one field or several, or in what they were sealed from.
pub fn differing(form: Form) -> Vec<Input> {
    let mut inputs = Vec::new();
    for set in &SETS {
        inputs.extend((0..8).map(|choice| differing_in(form, set, choice)));
        let lines = Lines::right(form, set, 3, 2 * set.block + 3);
        let mut add = |what: String, lines: Lines, field| {
            let what = format!("set {} {what}", set.number);
            inputs.push(Input::differs(what, lines, field));
        };
        for (line, field) in [(Line::Cipher, "cipher"), (Line::Tag, "tag")] {
            let digits = lines.value(line).len();
            for place in [0, 1, digits / 2, digits - 2, digits - 1] {
                let what = format!("{field} from digit {place}");
                add(what, lines.with_other_digit(line, place), field);
            }
            let zeros = lines.with_value(line, "0".repeat(digits));
            add(format!("{field} of zeros"), zeros, field);
        }
        let second_block = lines.with_other_digit(Line::Cipher, 2 * set.block);
        add("cipher from a block on".to_string(), second_block, "cipher");
        for (line, field) in [
            (Line::Key, "key"),
            (Line::Nonce, "nonce"),
            (Line::Ad, "ad"),
            (Line::Text, "text"),
        ] {
            let other = lines.with_other_digit(line, lines.value(line).len() - 1);
            add(format!("another {field}"), other, "cipher");
        }
        let textless = Lines::right(form, set, 3, 0);
        for (line, field) in [(Line::Key, "key"), (Line::Nonce, "nonce"), (Line::Ad, "ad")] {
            let other = textless.with_other_digit(line, 0);
            add(format!("another {field} without text"), other, "tag");
        }
    }
    inputs
}

/// Gives a record that differs in those compared fields that are bits of the choice.
fn differing_in(form: Form, set: &Set, choice: usize) -> Input {
    let mut lines = Lines::right(form, set, 9, 9);
    let mut fields = Vec::new();
    for (bit, (line, field)) in COMPARED.into_iter().enumerate() {
        if choice >> bit & 1 == 1 {
            lines = lines.with_other_digit(line, 1);
            fields.push(field);
        }
    }
    let what = format!("set {} choice {choice} {}", set.number, fields.join(" "));
    match fields[..] {
        [] => Input::equal(what, lines),
        [first, ..] => Input::differs(what, lines, first),
    }
}

/// Gives right records that are called another set whose keys are as long.
pub fn called_another(form: Form) -> Vec<Input> {
    let mut inputs = Vec::new();
    for set in &SETS {
        for other in &SETS {
            if set != other && set.key == other.key {
                // With 5 bytes of data and of text the rounds show the rounds between, and not the constants.
                let same_rounds = set.middle == other.middle;
                let field = if same_rounds { "cipher" } else { "rounds" };
                let renamed =
                    Lines::right(form, set, 5, 5).with_value(Line::Set, other.number.to_string());
                let what = format!("set {} called {}", set.number, other.number);
                inputs.push(Input::differs(what, renamed, field));
            }
        }
    }
    inputs
}

/// Gives right records whose cipher was cut at every length, each row with the whole one at its end.
pub fn cut_off(form: Form) -> Vec<Input> {
    let mut inputs = Vec::new();
    for set in &SETS {
        for text in [1, 2, 3, 5, 7, 8, 9, 15, 16, 17, 33, 64, 255, 256] {
            let lines = Lines::right(form, set, 3, text);
            let kept = |bytes: usize| {
                lines
                    .with_value(Line::Cipher, &lines.value(Line::Cipher)[..2 * bytes])
                    .bytes()
            };
            let records: Vec<_> = (0..=text).map(kept).collect();
            let mut said = vec![Said::Differs("cipher"); text];
            said.push(Said::Equal);
            let what = format!("set {} text {text}", set.number);
            inputs.push(Input::of(what, records.concat(), &said));
        }
    }
    inputs
}

/// Gives right records whose cipher goes on to four longer lengths, each row with the right one at its end.
pub fn lengthened(form: Form) -> Vec<Input> {
    const SAID: [Said; 5] = {
        let mut said = [Said::Differs("cipher"); 5];
        said[4] = Said::Equal;
        said
    };
    let mut inputs = Vec::new();
    for set in &SETS {
        for (text, longer) in [
            (0, [1, 2, 8, 256]),
            (1, [2, 3, 9, 256]),
            (5, [6, 7, 13, 256]),
            (8, [9, 10, 16, 256]),
            (16, [17, 18, 24, 256]),
            (252, [253, 254, 255, 256]),
        ] {
            let lines = Lines::right(form, set, 3, text);
            for more in [&b"00"[..], b"5a"] {
                let grown = |length: usize| {
                    let cipher = [lines.value(Line::Cipher), &more.repeat(length - text)].concat();
                    lines.with_value(Line::Cipher, cipher).bytes()
                };
                let records = [longer.map(grown).concat(), lines.bytes()].concat();
                let what = format!("set {} text {text} then {}", set.number, more[0] as char);
                inputs.push(Input::of(what, records, &SAID));
            }
        }
    }
    inputs
}

/// Gives records whose cipher is shorter or longer than their text, also beside another fault.
pub fn other_lengths(form: Form) -> Vec<Input> {
    let mut inputs = Vec::new();
    for set in &SETS {
        let short = Lines::right(form, set, 3, 5);
        let cut =
            |digits: usize| short.with_value(Line::Cipher, &short.value(Line::Cipher)[..digits]);
        let grown = |bytes| {
            short.with_value(
                Line::Cipher,
                [short.value(Line::Cipher), &b"5a".repeat(bytes)].concat(),
            )
        };
        let long = Lines::right(form, set, 0, 256);
        let none = Lines::right(form, set, 0, 0);
        for (what, lines) in [
            ("none of 5", cut(0)),
            ("1 of 5", cut(2)),
            ("4 of 5", cut(8)),
            ("6 of 5", grown(1)),
            ("256 of 5", grown(251)),
            (
                "1 of 256",
                long.with_value(Line::Cipher, &long.value(Line::Cipher)[..2]),
            ),
            ("1 of none", none.with_value(Line::Cipher, "00")),
            (
                "256 of none",
                none.with_value(Line::Cipher, "5a".repeat(256)),
            ),
        ] {
            let what = format!("set {} {what}", set.number);
            inputs.push(Input::differs(what, lines, "cipher"));
        }
        for (what, lines, line, place, field) in [
            (
                "4 of 5 and the last differs",
                cut(8),
                Line::Cipher,
                7,
                "cipher",
            ),
            (
                "14 of 5 and the first differs",
                grown(9),
                Line::Cipher,
                0,
                "cipher",
            ),
            (
                "14 of 5 and the fifth differs",
                grown(9),
                Line::Cipher,
                9,
                "cipher",
            ),
            ("2 of 5 and another tag", cut(4), Line::Tag, 9, "cipher"),
            ("9 of 5 and another tag", grown(4), Line::Tag, 9, "cipher"),
            ("2 of 5 and other rounds", cut(4), Line::Rounds, 1, "rounds"),
        ] {
            let what = format!("set {} {what}", set.number);
            let other = lines.with_other_digit(line, place);
            inputs.push(Input::differs(what, other, field));
        }
    }
    inputs
}

/// Gives right records of each data length below, with each of the lengths as text in turn.
pub fn right(form: Form) -> Vec<Input> {
    const LENGTHS: [usize; 13] = [0, 1, 7, 8, 9, 15, 16, 17, 31, 32, 33, 255, 256];
    let mut inputs = Vec::new();
    for set in &SETS {
        for ad in LENGTHS {
            let records = LENGTHS.map(|text| Lines::right(form, set, ad, text).bytes());
            let what = format!("set {} ad {ad}", set.number);
            let said = [Said::Equal; LENGTHS.len()];
            inputs.push(Input::of(what, records.concat(), &said));
        }
    }
    inputs
}
