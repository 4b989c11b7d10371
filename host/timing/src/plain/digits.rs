//! Digits read as the model read them before it had a list, by comparisons, and by a list of plain Rust.

/// Reads as the model does, each character by a chain of comparisons.
#[inline(never)]
pub fn read_by_chain(text: &mut [u8]) -> u64 {
    read(text, chain)
}

/// Reads as the model does, each character by a list.
#[inline(never)]
pub fn read_by_list(text: &mut [u8]) -> u64 {
    read(text, |character| {
        let value = LIST[usize::from(character)];
        (value < 16).then_some(value)
    })
}

/// Puts the values of the digits at the front of a text in their places, and gives how many they are.
fn read(text: &mut [u8], value_of: impl Fn(u8) -> Option<u8>) -> u64 {
    let mut count = 0;
    for character in text {
        let Some(value) = value_of(*character) else {
            break;
        };
        *character = value;
        count += 1;
    }
    count
}

/// The value of a digit, compared in the order of the model's code of before.
fn chain(character: u8) -> Option<u8> {
    if character < b'0' {
        return None;
    }
    if character <= b'9' {
        return Some(character - b'0');
    }
    if character < b'a' {
        return None;
    }
    if character <= b'f' {
        return Some(character - b'a' + 10);
    }
    None
}

/// The value of each character, 255 where it is no digit.
static LIST: [u8; 256] = {
    let mut list = [255; 256];
    let digits = b"0123456789abcdef";
    let mut value = 0;
    while value < digits.len() {
        list[digits[value] as usize] = value as u8;
        value += 1;
    }
    list
};
