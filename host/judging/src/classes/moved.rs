//! The classes that are moved, each made of records of the form that is read, and what only these have.

use super::edges::{row, BUFFERS};
use super::in_a_row::{behind_two, broken, many_in, trailing};
use super::mixed::every_row;
use super::{any_line, by_hand, cuts, digits, form_2, largest, lengths};
use super::{mixed, mutations, numbers, places, verdicts, Row};
use crate::input::Input;
use crate::lines::Lines;
use second::cipher::SETS;
use second::record::Form::{self, One, Two};
use second::record::Line;

/// How many bytes can be moved at a time.
pub const HELD: usize = 1_048_576;

/// The classes that any task meets which reads records of one form, with their numbers of inputs in form 1 and in form 2.
#[rustfmt::skip]
pub const READ: [Row; 24] = [
    Row { name: "nothing", inputs: [1, 1], make: |_| vec![Input::told("nothing", "")] },
    Row { name: "right records around block edges", inputs: [52, 52], make: |form| of_chip_0(verdicts::right(form)) },
    Row { name: "records that differ", inputs: [112, 112], make: |form| of_chip_0(verdicts::differing(form)) },
    Row { name: "ciphers of another length than the text", inputs: [56, 56], make: |form| of_chip_0(verdicts::other_lengths(form)) },
    Row { name: "rounds in form", inputs: [40, 40], make: |form| of_chip_0(numbers::rounds_in_form(form)) },
    Row { name: "lengths of ad text and cipher", inputs: [36, 36], make: |form| of_chip_0(lengths::up_to_256(form)) },
    Row { name: "the largest record", inputs: [12, 13], make: |form| of_chip_0(largest::around(form)) },
    Row { name: "many records", inputs: [5, 5], make: many },
    Row { name: "as much as is held", inputs: [9, 9], make: as_much_as_is_held },
    Row { name: "around buffer edges", inputs: [18, 18], make: around_buffer_edges },
    Row { name: "written by hand", inputs: [19, 23], make: by_hand::whole_cases },
    Row { name: "faults written by hand", inputs: [23, 21], make: by_hand::faults },
    Row { name: "lines doubled or moved", inputs: [19, 23], make: |form| any_line::moved(form, 0) },
    Row { name: "wrong digits", inputs: [90, 90], make: digits::wrong },
    Row { name: "odd digits", inputs: [24, 24], make: |form| digits::odd(form, 0) },
    Row { name: "lengths of key nonce and tag", inputs: [64, 64], make: lengths::exact },
    Row { name: "set values", inputs: [31, 31], make: |form| numbers::sets(form, 0) },
    Row { name: "rounds out of form", inputs: [108, 108], make: numbers::rounds_broken },
    Row { name: "a wrong character at every place", inputs: [314, 343], make: places::wrong_characters },
    Row { name: "three records cut at every byte", inputs: [436, 478], make: three_cut },
    Row { name: "a third record with each line damaged", inputs: [208, 260], make: |form| behind_two(form, any_line::damaged(form, 1)) },
    Row { name: "bytes after the last record", inputs: [32, 32], make: |form| of_chip_0(trailing(form)) },
    Row { name: "one broken in a row", inputs: [24, 30], make: |form| of_chip_0(broken(form)) },
    Row { name: "one byte mutated", inputs: [120, 120], make: |form| of_chip_0(mutations::mutated(&[form])) },
];

/// The classes that are only moved from one form to the other, with their numbers of inputs going forward and going back.
#[rustfmt::skip]
pub const MOVED: [Row; 12] = [
    Row { name: "each line damaged", inputs: [208, 260], make: |form| any_line::damaged(form, 0) },
    Row { name: "lines far too long", inputs: [40, 50], make: lengths::far_too_long },
    Row { name: "a line feed at every place", inputs: [314, 343], make: places::line_feeds },
    Row { name: "cut at every byte", inputs: [316, 348], make: |form| cuts::every(form, 0) },
    Row { name: "the first refused decides", inputs: [340, 340], make: first_decides },
    Row { name: "form lines", inputs: [112, 112], make: |_| form_2::form_lines() },
    Row { name: "the largest record of chip 65535", inputs: [12, 13], make: largest::around },
    Row { name: "of chip 0 a third record with each line damaged", inputs: [208, 260], make: |form| of_chip_0(behind_two(form, any_line::damaged(form, 1))) },
    Row { name: "a chip at one place", inputs: [66, 66], make: one_chip },
    Row { name: "chips", inputs: [80, 80], make: |_| form_2::chips() },
    Row { name: "chips out of form", inputs: [90, 90], make: |_| form_2::no_chips() },
    Row { name: "both forms in every order", inputs: [258, 258], make: |_| mixed::orders() },
];

/// Gives the inputs with chip 0 in place of every other; only the second program tells what becomes of them.
fn of_chip_0(inputs: Vec<Input>) -> Vec<Input> {
    let zero = |Input { name, bytes, .. }| {
        let lines = bytes.split_inclusive(|byte| *byte == b'\n');
        let bytes: Vec<&[u8]> = lines.map(chip_0).collect();
        Input::told(name, bytes.concat())
    };
    inputs.into_iter().map(zero).collect()
}

/// Gives the line, or that of chip 0 in place of another chip's.
fn chip_0(line: &[u8]) -> &[u8] {
    let value = line.strip_prefix(b"chip=").unwrap_or_default();
    let text = String::from_utf8_lossy(value);
    let number: Option<u16> = text.trim_end().parse().ok();
    match number {
        Some(chip) if text == format!("{chip}\n") => b"chip=0\n",
        _ => line,
    }
}

/// Gives long rows: all of them right, with a broken record at the end, and with one of another chip there.
fn many(form: Form) -> Vec<Input> {
    let many = |count| many_in(|_| form, count, 11);
    let last = Lines::short(form, 0);
    let broken = last.with_value(Line::Rounds, "x").with_chip(0);
    let inputs = vec![
        Input::told("12 records", many(12)),
        Input::told("101 records", many(101)),
        Input::told("1001 records", many(1_001)),
        Input::told(
            "1000 records and a broken one",
            [many(1_000), broken.bytes()].concat(),
        ),
    ];
    let mut inputs = of_chip_0(inputs);
    let thousand = inputs[2].bytes.clone();
    let last = last.with_chip(7).bytes();
    inputs.push(Input::told(
        "1001 records and a chip",
        [thousand, last].concat(),
    ));
    inputs
}

/// Gives inputs as long as one may be, or almost.
fn as_much_as_is_held(form: Form) -> Vec<Input> {
    let full = row(form, HELD);
    let shortest = Lines::right(form, &SETS[1], 0, 0).with_value(Line::Rounds, "0");
    let chip = Lines::short(form, 0).with_chip(7).bytes();
    let repeated = |lines: Lines| {
        let record = lines.with_chip(0).bytes();
        record.repeat(HELD / record.len())
    };
    let with_byte = |place: usize| {
        let mut bytes = full.clone();
        bytes[place] = b'x';
        bytes
    };
    let inputs = [
        ("all but a byte", row(form, HELD - 1)),
        ("all", full.clone()),
        ("the shortest records", repeated(shortest)),
        ("the largest records", repeated(largest::largest(form))),
        (
            "the last record cut by a byte",
            row(form, HELD + 1)[..HELD].to_vec(),
        ),
        ("the first byte wrong", with_byte(0)),
        ("the last byte wrong", with_byte(HELD - 1)),
        (
            "another chip at the end",
            [row(form, HELD - chip.len()), chip].concat(),
        ),
        ("line feeds", b"\n".repeat(HELD)),
    ];
    assert!(inputs.iter().all(|(_, bytes)| bytes.len() <= HELD));
    inputs.map(|(what, bytes)| Input::told(what, bytes)).into()
}

/// Gives right records that end at a likely buffer's end or beside it.
fn around_buffer_edges(form: Form) -> Vec<Input> {
    let places = BUFFERS.into_iter().flat_map(|end| [end - 1, end, end + 1]);
    let input = |place| Input::told(format!("{place} bytes"), row(form, place));
    places.map(input).collect()
}

/// Gives three records of chip 0 cut at each of their bytes.
fn three_cut(form: Form) -> Vec<Input> {
    let record = |turn: usize| Lines::right(form, &SETS[turn % 2], turn, 2 - turn).with_chip(0);
    let whole = [0, 1, 2].map(|turn| record(turn).bytes()).concat();
    let cut = |length| Input::told(format!("the first {length} bytes"), &whole[..length]);
    (0..=whole.len()).map(cut).collect()
}

/// Gives every row of one to four records of which each is right, of another chip than 0, broken or of the other form.
fn first_decides(form: Form) -> Vec<Input> {
    let right = Lines::short(form, 0).with_chip(0);
    let other = match form {
        One => Two,
        Two => One,
    };
    let kinds = [
        ("right", right.bytes()),
        ("chip", right.with_chip(7).bytes()),
        ("broken", right.with_value(Line::Tag, "7").bytes()),
        ("other", Lines::short(other, 0).with_chip(0).bytes()),
    ];
    let input = |row: Vec<(&str, Vec<u8>)>| {
        let (names, records): (Vec<_>, Vec<_>) = row.into_iter().unzip();
        Input::told(names.join(" "), records.concat())
    };
    every_row(&kinds, 4).into_iter().map(input).collect()
}

/// Gives rows of right records of which one, at each place, is of another chip than 0.
fn one_chip(form: Form) -> Vec<Input> {
    let mut inputs = Vec::new();
    for count in [1, 2, 3, 5] {
        for place in 0..count {
            for chip in [1, 7, 9, 10, 256, 65_535] {
                let of = |turn| if turn == place { chip } else { 0 };
                let record = |turn| Lines::short(form, turn).with_chip(of(turn)).bytes();
                let rows: Vec<_> = (0..count).map(record).collect();
                let what = format!("chip {chip} in record {} of {count}", place + 1);
                inputs.push(Input::told(what, rows.concat()));
            }
        }
    }
    inputs
}
