//! What only form 2 has: the form line and the chip.

use crate::input::Input;
use crate::lines::{column, label, Lines};
use second::cipher::SETS;
use second::record::Form::Two;
use second::record::Line;

/// First lines that are neither form's, without their line feed, and the column at which each breaks.
#[rustfmt::skip]
const FORM_LINES: [(&str, &[u8], usize); 36] = [
    ("f", b"f", 1),
    ("fo", b"fo", 1),
    ("for", b"for", 1),
    ("form", b"form", 1),
    ("no value", b"form=", 6),
    ("form 0", b"form=0", 6),
    ("form 1", b"form=1", 6),
    ("form 3", b"form=3", 6),
    ("form 22", b"form=22", 7),
    ("form 20", b"form=20", 7),
    ("form 12", b"form=12", 6),
    ("form 02", b"form=02", 6),
    ("form 00", b"form=00", 6),
    ("a blank after", b"form=2 ", 7),
    ("a tab after", b"form=2\t", 7),
    ("a point after", b"form=2.", 7),
    ("a carriage return after", b"form=2\r", 7),
    ("a zero byte after", b"form=2\0", 7),
    ("a blank before the value", b"form= 2", 6),
    ("plus", b"form=+2", 6),
    ("minus", b"form=-2", 6),
    ("two", b"form=two", 6),
    ("the byte 2", b"form=\x02", 6),
    ("2 with the high bit", b"form=\xb2", 6),
    ("two equals signs", b"form==2", 6),
    ("a blank before the equals sign", b"form =2", 1),
    ("colon", b"form:2", 1),
    ("no equals sign", b"form2", 1),
    ("a blank before", b" form=2", 1),
    ("upper-case letter", b"Form=2", 1),
    ("upper-case last letter", b"forM=2", 1),
    ("upper-case name", b"FORM=2", 1),
    ("longer name", b"forms=2", 1),
    ("shorter name", b"orm=2", 1),
    ("another name", b"from=2", 1),
    ("a mark in front", b"\xef\xbb\xbfform=2", 1),
];

/// Gives records with each of the first lines, right before the rest, with a line feed before it, and at the end of the input.
pub fn form_lines() -> Vec<Input> {
    let lines = Lines::short(Two, 0);
    let whole = lines.bytes();
    let (right, rest) = whole.split_at(lines.line(Line::Form).len() - 1);
    let mut inputs = vec![
        Input::equal("form 2", &whole[..]),
        Input::unread_at("form 2 at the end", right, 1, 7),
        Input::unread_at(
            "form 2 and the next line",
            [right, &rest[1..]].concat(),
            1,
            7,
        ),
        Input::unread_at("form 2 and its line feed", [right, b"\n"].concat(), 2, 1),
    ];
    for (what, line, column) in FORM_LINES {
        for (at, more) in [
            ("at the end", &b""[..]),
            ("with its line feed", rest),
            ("and the next line", &rest[1..]),
        ] {
            let bytes = [line, more].concat();
            inputs.push(Input::unread_at(format!("{what} {at}"), bytes, 1, column));
        }
    }
    inputs
}

/// Gives right records of many chips, in each set; a chip takes no part in judging.
pub fn chips() -> Vec<Input> {
    const CHIPS: [u64; 20] = [
        0, 1, 2, 7, 9, 10, 11, 99, 100, 255, 256, 999, 1_000, 6_553, 9_999, 10_000, 32_768, 65_530,
        65_534, 65_535,
    ];
    let mut inputs = Vec::new();
    for set in &SETS {
        for chip in CHIPS {
            let what = format!("set {} chip {chip}", set.number);
            let lines = Lines::right(Two, set, 3, 5).with_chip(chip);
            inputs.push(Input::equal(what, lines));
        }
    }
    inputs
}

/// Values that are no chip, and how many of their characters could still be one's.
#[rustfmt::skip]
const NO_CHIPS: [(&str, &[u8], usize); 45] = [
    ("empty", b"", 0),
    ("00", b"00", 1),
    ("01", b"01", 1),
    ("07", b"07", 1),
    ("00000", b"00000", 1),
    ("065535", b"065535", 1),
    ("65536", b"65536", 4),
    ("65537", b"65537", 4),
    ("65539", b"65539", 4),
    ("65540", b"65540", 4),
    ("65600", b"65600", 4),
    ("66000", b"66000", 4),
    ("70000", b"70000", 4),
    ("99999", b"99999", 4),
    ("100000", b"100000", 5),
    ("655350", b"655350", 5),
    ("655355", b"655355", 5),
    ("123456", b"123456", 5),
    ("9999999", b"9999999", 4),
    ("131072", b"131072", 5),
    ("4294967296", b"4294967296", 5),
    ("18446744073709551615", b"18446744073709551615", 5),
    ("18446744073709551616", b"18446744073709551616", 5),
    ("18446744073709551623", b"18446744073709551623", 5),
    ("plus 7", b"+7", 0),
    ("minus 7", b"-7", 0),
    ("minus 0", b"-0", 0),
    ("a blank before", b" 7", 0),
    ("a blank after", b"7 ", 1),
    ("a blank inside", b"7 7", 1),
    ("a tab before", b"\t7", 0),
    ("a tab after", b"7\t", 1),
    ("a carriage return after", b"7\r", 1),
    ("a point after", b"7.", 1),
    ("a point and a zero after", b"7.0", 1),
    ("a letter after", b"7a", 1),
    ("a letter before", b"a7", 0),
    ("hex", b"ff", 0),
    ("hex with its sign", b"0x7", 1),
    ("seven", b"seven", 0),
    ("a slash", b"6/", 1),
    ("a colon", b"6:", 1),
    ("a zero byte after", b"7\0", 1),
    ("7 with the high bit", b"\xb7", 0),
    ("digits of another script", b"\xd9\xa4", 0),
];

/// Gives records with each of the values that are no chip, before the other lines and at the end of the input.
pub fn no_chips() -> Vec<Input> {
    let mut inputs = Vec::new();
    for (turn, (what, value, good)) in NO_CHIPS.into_iter().enumerate() {
        let lines = Lines::short(Two, turn);
        let number = lines.number(Line::Chip);
        let column = column(Line::Chip, good);
        let cut = [&lines.before(Line::Chip), label(Line::Chip), value].concat();
        let whole = lines.with_value(Line::Chip, value);
        inputs.push(Input::unread_at(what, whole, number, column));
        let what = format!("{what} at the end");
        inputs.push(Input::unread_at(what, cut, number, column));
    }
    inputs
}
