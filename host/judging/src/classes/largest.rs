//! The largest record, what is larger, and faults far to the right in it.

use crate::input::{Input, Said};
use crate::lines::{column, Lines, UP_TO_256};
use second::cipher::SETS;
use second::record::{Form, Line, LONGEST_1, LONGEST_2};

/// Gives the largest record alone, in company, cut, and one byte or digit too large.
pub fn around(form: Form) -> Vec<Input> {
    let largest = largest(form);
    let right = Lines::right(form, &SETS[0], 256, 256);
    let whole = largest.bytes();
    let last = form.lines().len();

    let differs = Said::Differs("rounds");
    let mut inputs = vec![
        Input::of("alone", whole.clone(), &[differs]),
        Input::of("twice", whole.repeat(2), &[differs; 2]),
        Input::of("40 times", whole.repeat(40), &[differs; 40]),
        Input::unread("cut by a byte", &whole[..whole.len() - 1], last),
    ];
    for (what, tail, said) in [
        (
            "itself cut by a byte",
            &whole[..whole.len() - 1],
            Said::Unread(last),
        ),
        ("a line feed", b"\n", Said::Unread(1)),
        ("garbage", &[0xa7; 5_000], Said::Unread(1)),
        ("a right one as large", &right.bytes(), Said::Equal),
    ] {
        let what = format!("and {what}");
        inputs.push(Input::of(what, [&whole, tail].concat(), &[differs, said]));
    }
    let numbers = [Line::Chip, Line::Rounds].into_iter();
    let own = numbers.filter(|line| form.lines().contains(line));
    for line in UP_TO_256.into_iter().chain(own) {
        let longer = [largest.value(line), b"00"].concat();
        let number = largest.number(line);
        let what = format!("too long in line {number}");
        inputs.push(Input::unread(
            what,
            largest.with_value(line, longer),
            number,
        ));
    }
    inputs
}

/// Gives the largest record of the form.
pub fn largest(form: Form) -> Lines {
    let right = Lines::right(form, &SETS[0], 256, 256);
    let largest = right.with_value(Line::Rounds, "9999999").with_chip(65_535);
    let length = match form {
        Form::One => LONGEST_1,
        Form::Two => LONGEST_2,
    };
    assert_eq!(largest.bytes().len(), length, "the largest record");
    largest
}

/// Gives records as large with a wrong character among the 512 digits of a line, or right behind them.
pub fn wrong_digits(form: Form) -> Vec<Input> {
    let mut inputs = Vec::new();
    for set in &SETS {
        let lines = Lines::right(form, set, 256, 256);
        for line in UP_TO_256 {
            let number = lines.number(line);
            for place in [0, 1, 255, 256, 511, 512] {
                let column = column(line, place);
                let mut there = lines.line(line).to_vec();
                there[column - 1] = b'G';
                let what = format!("set {} line {number} column {column}", set.number);
                let lines = lines.with_line(line, there);
                inputs.push(Input::unread_at(what, lines, number, column));
            }
        }
    }
    inputs
}
