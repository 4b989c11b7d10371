//! Records that meet the ends of likely buffers.

use super::in_a_row::two_right;
use crate::input::Input;
use crate::lines::Lines;
use second::cipher::SETS;
use second::record::{Form, Line};

/// The lengths of likely buffers.
pub const BUFFERS: [usize; 6] = [2_048, 4_096, 8_192, 16_384, 32_768, 65_536];

/// Gives rows in which a record ends, the input ends, is cut or is damaged at a buffer's end or beside it.
pub fn around(form: Form) -> Vec<Input> {
    let pair = two_right(form).concat();
    let mut inputs = Vec::new();
    for buffer in BUFFERS {
        for place in [buffer - 1, buffer, buffer + 1] {
            let up_to = row(form, place);
            let across = [&row(form, place - 100), &pair[..]].concat();
            let mut damaged = across.clone();
            damaged[place] = b'g';
            for (what, bytes) in [
                ("a record ends", [&up_to, &pair[..]].concat()),
                ("the input ends", up_to),
                ("a record is cut", across[..place].to_vec()),
                ("a record is damaged", damaged),
            ] {
                inputs.push(Input::told(format!("{what} at {place}"), bytes));
            }
        }
    }
    inputs
}

/// Gives records in form, of chip 0, with exactly as many bytes in all.
pub fn row(form: Form, length: usize) -> Vec<u8> {
    let record = with_data(form, 50, 60).bytes();
    let count = length / record.len() - 1;
    let mut bytes = record.repeat(count);
    bytes.extend(record_of_length(form, length - bytes.len()));
    bytes
}

/// Gives a record in form of exactly this length, with rounds that no message takes.
fn record_of_length(form: Form, length: usize) -> Vec<u8> {
    let empty = with_data(form, 0, 0).with_value(Line::Rounds, "1").bytes();
    let spare = length - empty.len();
    let (ad, cipher) = ((spare / 2).min(256), (spare / 2).saturating_sub(256));
    let rounds = if spare.is_multiple_of(2) { "1" } else { "10" };
    with_data(form, ad, 0)
        .with_value(Line::Cipher, "5a".repeat(cipher))
        .with_value(Line::Rounds, rounds)
        .bytes()
}

/// Gives the right record of chip 0 with data and text of these lengths.
fn with_data(form: Form, ad: usize, text: usize) -> Lines {
    Lines::right(form, &SETS[0], ad, text).with_chip(0)
}
