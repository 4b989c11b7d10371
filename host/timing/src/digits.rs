//! The reading of digits: by the model's list, and by plain Rust in two ways.

use crate::{model, plain, race::race};

/// How many digits a text has.
const LENGTH: usize = 1 << 16;

/// Times a text of mixed digits, as keys and ciphertexts are, and one of zeros, in which the processor foresees each comparison.
pub fn time() {
    for (name, text) in [("mixed", mixed()), ("zeros", vec![b'0'; LENGTH])] {
        beside(&text, name, "chain", plain::read_by_chain);
        beside(&text, name, "list", plain::read_by_list);
    }
}

/// Prints how many digits of the text the model reads in a second, and how many a plain program does.
fn beside(text: &[u8], name: &str, way: &str, plain: fn(&mut [u8]) -> u64) {
    let read =
        |by: fn(&mut [u8]) -> u64| move |place: &mut Vec<u8>| assert_eq!(by(place), LENGTH as u64);
    let what = format!("{LENGTH} digits, {name}, plain by a {way}");
    // One call a repetition: a second one would find values in place of the digits.
    let raced = race(
        &what,
        1,
        &text.to_vec(),
        read(model::read_digits),
        read(plain),
    );
    let [model, plain] = [raced.model, raced.plain].map(|time| 1e3 * LENGTH as f64 / time);
    println!("    million digits a second: model {model:.0}, plain {plain:.0}");
}

/// Digits with no order that a processor could learn.
fn mixed() -> Vec<u8> {
    let mut state: u64 = 1;
    let mut digit = || {
        state = state.wrapping_mul(6364136223846793005).wrapping_add(1);
        b"0123456789abcdef"[(state >> 60) as usize]
    };
    (0..LENGTH).map(|_| digit()).collect()
}

#[cfg(test)]
mod tests {
    use super::*;

    /// Says that each of the 256 characters is read as it was read before, as the first one and behind a digit.
    #[test]
    fn each_character_is_read_as_before() {
        let mut read = 0;
        for character in 0..=u8::MAX {
            for text in [[character, b'7'], [b'7', character]] {
                let [mut model, mut chain, mut list] = [text; 3];
                let count = model::read_digits(&mut model);
                assert_eq!((count, model), (plain::read_by_chain(&mut chain), chain));
                assert_eq!((count, model), (plain::read_by_list(&mut list), list));
                read += count;
            }
        }
        // Of the 256, 16 are digits, and both characters of such a text are read; of any other text none or one, as the character stands first or second.
        assert_eq!(read, 16 * 4 + 240);
    }
}
