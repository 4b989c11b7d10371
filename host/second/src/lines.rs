//! Lines of text, each a label, a value and one line feed: taking them from the front, and writing one.

use crate::hex::{self, BadDigit, Case};
use crate::record::{Broken, Field};

/// How many characters stand before the first one with which no right line can go on.
pub type Good = usize;

/// Takes a line of each kind in turn and gives how many bytes they are, or where the first bad one breaks.
pub fn take_lines<K: Copy>(
    kinds: &[K],
    text: &[u8],
    mut take: impl FnMut(K, &[u8]) -> Result<usize, Good>,
) -> Result<usize, Broken> {
    let mut place = 0;
    for (number, kind) in (1..).zip(kinds) {
        let broken = |good: Good| Broken {
            line: number,
            column: good as u64 + 1,
        };
        place += take(*kind, &text[place..]).map_err(broken)?;
    }
    Ok(place)
}

/// Takes the line at the front, its value by the given function, and gives its length with its line feed.
pub fn take_line(
    label: &[u8],
    text: &[u8],
    take_value: impl FnOnce(&[u8]) -> Result<usize, Good>,
) -> Result<usize, Good> {
    begins(text, label)?;
    let start = label.len();
    let end = start + take_value(&text[start..]).map_err(|good| start + good)?;
    begins(&text[end..], b"\n").map_err(|good| end + good)?;
    Ok(end + 1)
}

/// Makes sure that the text begins with the wanted characters.
pub fn begins(text: &[u8], wanted: &[u8]) -> Result<(), Good> {
    for (place, character) in wanted.iter().enumerate() {
        if text.get(place) != Some(character) {
            return Err(place);
        }
    }
    Ok(())
}

/// Gives the field of `least` to `most` bytes at the front and its length in characters.
pub fn field<const N: usize>(
    case: Case,
    text: &[u8],
    least: usize,
    most: usize,
) -> Result<(Field<N>, usize), Good> {
    let (bytes, length) = hex_bytes(case, text, least, most)?;
    let field = Field::of(&bytes).expect("no more bytes than places");
    Ok((field, length))
}

/// Gives the `least` to `most` bytes whose digits stand at the front and the number of those digits.
pub fn hex_bytes(
    case: Case,
    text: &[u8],
    least: usize,
    most: usize,
) -> Result<(Vec<u8>, usize), Good> {
    let mut bytes = Vec::new();
    let mut place = 0;
    while bytes.len() < most {
        if bytes.len() >= least && text.get(place) == Some(&b'\n') {
            break;
        }
        let byte = hex::pair_in(case, &text[place..]).map_err(|bad| place + good_in_pair(bad))?;
        bytes.push(byte);
        place += 2;
    }
    Ok((bytes, place))
}

/// Gives how many characters of a pair stand before the one at fault.
fn good_in_pair(bad: BadDigit) -> Good {
    match bad {
        BadDigit::First => 0,
        BadDigit::Second => 1,
    }
}

/// Gives the number at the front and its length in digits; no digit is taken that makes it wrong.
pub fn number(text: &[u8], most: u64) -> Result<(u64, usize), Good> {
    let mut number = 0;
    let mut length = 0;
    for digit in text.iter().take_while(|c| c.is_ascii_digit()) {
        let longer = number * 10 + u64::from(digit - b'0');
        let leads_with_zero = length > 0 && number == 0;
        if longer > most || leads_with_zero {
            break;
        }
        number = longer;
        length += 1;
    }
    if length == 0 {
        return Err(0);
    }
    Ok((number, length))
}

/// Gives the line of a label and a value, with its line feed.
pub fn line_of(label: &[u8], value: &[u8]) -> Vec<u8> {
    [label, value, b"\n"].concat()
}
