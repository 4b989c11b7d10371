//! The classes of records that the program is given, each with the numbers of inputs and records that it has to come to.

use judging::classes::{largest, many_in};
use judging::lines::{label, Lines, UP_TO_256};
use second::cipher::{Set, SETS};
use second::random::Random;
use second::record::Form::{self, One, Two};
use second::record::{Field, Line, Record};
use second::vectors;

/// Lengths at the ends and around the blocks.
const EDGES: [usize; 10] = [0, 1, 7, 8, 9, 15, 16, 17, 255, 256];

/// How many records an input has at most; so many always fit into what the program takes.
const AT_A_TIME: usize = 25;

/// A class: what it is, how many inputs and records it has, the form of these, and what makes its inputs.
pub struct Class {
    pub name: &'static str,
    pub inputs: usize,
    pub records: usize,
    pub form: Form,
    pub make: fn(Form) -> Vec<Vec<u8>>,
}

/// All classes; the numbers are written down so that a class that shrinks is noticed.
#[rustfmt::skip]
pub const CLASSES: [Class; 18] = [
    Class { name: "data and text at the edges", inputs: 16, records: 400, form: One, make: right },
    Class { name: "data, text and cipher of the same bytes", inputs: 15, records: 360, form: One, make: uniform },
    Class { name: "pseudo-random messages", inputs: 8, records: 200, form: One, make: pseudo_random },
    Class { name: "rounds of every length", inputs: 4, records: 84, form: One, make: rounds },
    Class { name: "a cipher of another length than the text", inputs: 2, records: 40, form: One, make: ciphers },
    Class { name: "behind a record one that can't be read", inputs: 8, records: 8, form: One, make: broken },
    Class { name: "no record", inputs: 3, records: 0, form: One, make: none },
    Class { name: "more than the program takes", inputs: 1, records: 38, form: One, make: too_many },
    Class { name: "form 2, data and text at the edges", inputs: 16, records: 400, form: Two, make: right },
    Class { name: "form 2, data, text and cipher of the same bytes", inputs: 15, records: 360, form: Two, make: uniform },
    Class { name: "form 2, pseudo-random messages", inputs: 8, records: 200, form: Two, make: pseudo_random },
    Class { name: "form 2, rounds of every length", inputs: 4, records: 84, form: Two, make: rounds },
    Class { name: "form 2, a cipher of another length than the text", inputs: 2, records: 40, form: Two, make: ciphers },
    Class { name: "form 2, behind a record one that can't be read", inputs: 10, records: 10, form: Two, make: broken },
    Class { name: "form 2, no record", inputs: 3, records: 0, form: Two, make: none },
    Class { name: "form 2, more than the program takes", inputs: 1, records: 38, form: Two, make: too_many },
    Class { name: "chips of every length", inputs: 3, records: 68, form: Two, make: chips },
    Class { name: "both forms in turn", inputs: 4, records: 100, form: Two, make: in_turn },
];

/// Gives right records in each set with data and text of every pair of edges.
fn right(form: Form) -> Vec<Vec<u8>> {
    let mut records = Vec::new();
    for set in &SETS {
        for ad in EDGES {
            records.extend(EDGES.map(|text| Lines::right(form, set, ad, text).bytes()));
        }
    }
    rows(records)
}

/// Gives records in each set of one byte only: of zeros, so that a field with one byte less has zeros behind it, and of others.
fn uniform(form: Form) -> Vec<Vec<u8>> {
    let mut records = Vec::new();
    for set in &SETS {
        for byte in [0x00, 0x01, 0xff] {
            for line in UP_TO_256 {
                records.extend(EDGES.map(|length| all_of(form, set, byte, line, length)));
            }
        }
    }
    rows(records)
}

/// Gives a record of one byte only, with as many of them in its data, text or cipher and none in the other two.
fn all_of(form: Form, set: &Set, byte: u8, line: Line, length: usize) -> Vec<u8> {
    let bytes = vec![byte; length];
    let field = |other| Field::of(if line == other { &bytes } else { &[] }).expect("it fits");
    let keyed = || Field::of(&vec![byte; set.key]).expect("it fits");
    let record = Record {
        set: set.number,
        chip: 0,
        key: keyed(),
        nonce: keyed(),
        ad: field(Line::Ad),
        text: field(Line::Text),
        cipher: field(Line::Cipher),
        tag: keyed(),
        rounds: length as u64,
    };
    Lines::of(form, &record).bytes()
}

/// Gives right records of pseudo-random messages.
fn pseudo_random(form: Form) -> Vec<Vec<u8>> {
    let mut random = Random::new(6);
    let record = |index| {
        let record = vectors::record_in(form, &mut random, index);
        Lines::of(form, &record).bytes()
    };
    rows((0..200).map(record).collect())
}

/// Gives records with the smallest, the largest and a middle number of one to seven digits.
fn rounds(form: Form) -> Vec<Vec<u8>> {
    let mut records = Vec::new();
    for set in &SETS {
        let lines = Lines::right(form, set, 3, 5);
        for digits in 0..7 {
            let ten = 10_u64.pow(digits);
            let least = if digits == 0 { 0 } else { ten };
            let numbers = [least, 5 * ten, 10 * ten - 1];
            records.extend(numbers.map(|n| lines.with_value(Line::Rounds, n.to_string()).bytes()));
        }
    }
    rows(records)
}

/// Gives records whose cipher has the length of an edge beside a text of three bytes.
fn ciphers(form: Form) -> Vec<Vec<u8>> {
    let mut records = Vec::new();
    for set in &SETS {
        let lines = Lines::right(form, set, 4, 3);
        records.extend(
            EDGES.map(|length| lines.with_value(Line::Cipher, "5a".repeat(length)).bytes()),
        );
    }
    rows(records)
}

/// Gives a record and behind it one that is broken in each line.
fn broken(form: Form) -> Vec<Vec<u8>> {
    let damaged = |(turn, line): (usize, &Line)| {
        Lines::short(form, turn).with_line(*line, label(*line).to_vec())
    };
    let behind = |lines: Lines| [Lines::short(form, 0), lines].map(Vec::from).concat();
    let lines = (1..).zip(form.lines());
    lines.map(damaged).map(behind).collect()
}

/// Gives inputs that hold no record.
fn none(form: Form) -> Vec<Vec<u8>> {
    let whole = Lines::short(form, 1).bytes();
    vec![
        Vec::new(),
        b"\n".to_vec(),
        whole[..whole.len() - 1].to_vec(),
    ]
}

/// Gives more of the largest record than fits into what the program takes.
fn too_many(form: Form) -> Vec<Vec<u8>> {
    vec![largest(form).bytes().repeat(40)]
}

/// Gives records with chips of one to five digits, the smallest, the largest and some between them.
fn chips(form: Form) -> Vec<Vec<u8>> {
    const CHIPS: [u64; 17] = [
        0, 1, 7, 9, 10, 50, 99, 100, 500, 999, 1_000, 5_000, 9_999, 10_000, 50_000, 65_534, 65_535,
    ];
    let mut records = Vec::new();
    for set in &SETS {
        let lines = Lines::right(form, set, 3, 5);
        records.extend(CHIPS.map(|chip| lines.with_chip(chip).bytes()));
    }
    rows(records)
}

/// Gives rows in which records of this form and of the other take turns.
fn in_turn(form: Form) -> Vec<Vec<u8>> {
    let form_of = |index| if index % 2 == 0 { form } else { One };
    let row = |seed| many_in(form_of, AT_A_TIME as u64, seed);
    (0..4).map(row).collect()
}

/// Gives the records in rows, each an input.
fn rows(records: Vec<Vec<u8>>) -> Vec<Vec<u8>> {
    records.chunks(AT_A_TIME).map(|row| row.concat()).collect()
}
