//! Values of the lines that hold numbers, and of the form line.

use crate::input::Input;
use crate::lines::{column, Lines};
use second::cipher::SETS;
use second::record::{Form, Line};

/// Gives set lines that name no set, and those that name one; sets 1 and 2 take turns, from this one on, in the other lines of those that name none.
pub fn sets(form: Form, turn: usize) -> Vec<Input> {
    let values: [(&str, &[u8]); 27] = [
        ("empty", b""),
        ("0", b"0"),
        ("5", b"5"),
        ("6", b"6"),
        ("9", b"9"),
        ("01", b"01"),
        ("02", b"02"),
        ("03", b"03"),
        ("001", b"001"),
        ("10", b"10"),
        ("11", b"11"),
        ("12", b"12"),
        ("21", b"21"),
        ("33", b"33"),
        ("257", b"257"),
        ("4294967297", b"4294967297"),
        ("4294967299", b"4294967299"),
        ("plus 1", b"+1"),
        ("minus 1", b"-1"),
        ("1 and a point", b"1."),
        ("1 and a blank", b"1 "),
        ("a blank and 2", b" 2"),
        ("1 and a zero byte", b"1\0"),
        ("the byte 1", b"\x01"),
        ("the letter l", b"l"),
        ("1 with the high bit", b"\xb1"),
        ("one", b"one"),
    ];
    let mut inputs = Vec::new();
    for (number, (what, value)) in values.into_iter().enumerate() {
        let lines = Lines::short(form, turn + number).with_value(Line::Set, value);
        let number = lines.number(Line::Set);
        inputs.push(Input::unread(what, lines, number));
    }
    for set in &SETS {
        let number = set.number.to_string();
        inputs.push(Input::equal(number, Lines::right(form, set, 3, 5)));
    }
    inputs
}

/// Gives each of the 256 characters as the form, as the set, and as the first and the second digit of the chip and of the rounds, where the form has them.
pub fn each_character(form: Form) -> Vec<Input> {
    const PLACES: [(Line, usize, &str); 6] = [
        (Line::Set, 0, "set"),
        (Line::Rounds, 0, "first digit of the rounds"),
        (Line::Rounds, 1, "second digit of the rounds"),
        (Line::Form, 0, "form"),
        (Line::Chip, 0, "first digit of the chip"),
        (Line::Chip, 1, "second digit of the chip"),
    ];
    let own = |(line, _, _): &(Line, usize, &str)| form.lines().contains(line);
    let mut inputs = Vec::new();
    for character in 0..=u8::MAX {
        for (line, place, name) in PLACES.into_iter().filter(own) {
            let lines = Lines::short(form, usize::from(character) + place).with_chip(6_553);
            let lines = lines.with_character(line, place, character);
            let what = format!("character {character} as the {name}");
            let number = lines.number(line);
            inputs.push(match character {
                // These may leave a right line.
                b'0'..=b'9' | b'\n' => Input::told(what, lines),
                _ => Input::unread_at(what, lines, number, column(line, place)),
            });
        }
    }
    inputs
}

/// Gives values that are no decimal of one to seven digits; many would be the right number if read less strictly.
pub fn broken_decimals(right: u64) -> [(&'static str, String); 25] {
    [
        ("empty", String::new()),
        ("00", "00".to_string()),
        ("0000000", "0000000".to_string()),
        ("a zero in front", format!("0{right}")),
        ("zeros up to eight digits", format!("{right:08}")),
        ("10000000", "10000000".to_string()),
        ("99999999", "99999999".to_string()),
        ("23 digits", "12345678901234567890123".to_string()),
        ("more by 2 to the 24", (right + (1 << 24)).to_string()),
        ("more by 2 to the 32", (right + (1 << 32)).to_string()),
        (
            "more by 2 to the 64",
            (u128::from(right) + (1 << 64)).to_string(),
        ),
        ("plus", format!("+{right}")),
        ("minus", format!("-{right}")),
        ("a blank before", format!(" {right}")),
        ("a blank after", format!("{right} ")),
        ("a tab before", format!("\t{right}")),
        ("a point after", format!("{right}.")),
        ("hex letters", "ff".to_string()),
        ("a letter after", format!("{right}a")),
        ("a letter before", format!("a{right}")),
        ("hex with its sign", format!("{right:#x}")),
        ("a colon", "4:".to_string()),
        ("a slash", "4/".to_string()),
        ("a zero byte after", format!("{right}\0")),
        ("digits of another script", "\u{664}\u{668}".to_string()),
    ]
}

/// Gives rounds that have no right form.
pub fn rounds_broken(form: Form) -> Vec<Input> {
    let mut inputs = Vec::new();
    for set in &SETS {
        let lines = Lines::right(form, set, 9, 20);
        let right = rounds_of(&lines);
        let own = [
            ("zeros up to seven digits", format!("{right:07}")),
            ("a blank inside", "4 8".to_string()),
        ];
        for (what, value) in broken_decimals(right).into_iter().chain(own) {
            let what = format!("set {} {what}", set.number);
            let number = lines.number(Line::Rounds);
            let lines = lines.with_value(Line::Rounds, value);
            inputs.push(Input::unread(what, lines, number));
        }
    }
    inputs
}

/// Gives rounds that are in form and not ours; some are ours in fewer bits.
pub fn rounds_in_form(form: Form) -> Vec<Input> {
    let mut inputs = Vec::new();
    for set in &SETS {
        let lines = Lines::right(form, set, 9, 20);
        let right = rounds_of(&lines);
        for (what, value) in [
            ("0", 0),
            ("1", 1),
            ("1000000", 1_000_000),
            ("9999999", 9_999_999),
            ("one fewer", right - 1),
            ("one more", right + 1),
            ("a zero behind", 10 * right),
            ("a digit fewer", right / 10),
            ("more by 2 to the 8", right + (1 << 8)),
            ("more by 2 to the 16", right + (1 << 16)),
        ] {
            let what = format!("set {} {what}", set.number);
            let lines = lines.with_value(Line::Rounds, value.to_string());
            inputs.push(Input::differs(what, lines, "rounds"));
        }
    }
    inputs
}

/// Gives the number in the rounds line.
fn rounds_of(lines: &Lines) -> u64 {
    let digits = std::str::from_utf8(lines.value(Line::Rounds)).expect("decimal digits");
    digits.parse().expect("a number")
}
