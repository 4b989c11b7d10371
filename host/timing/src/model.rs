//! The model's permutation and its reading of digits, through the C boundary. The only `unsafe` of this program.

unsafe extern "C" {
    fn kvistmaur_permute(rounds: u64, words: *mut u64) -> u64;
    fn kvistmaur_read_digits(text: *mut u8, length: usize) -> u64;
}

/// Runs twelve, eight or six rounds in place and gives their number; 0 for any other number.
pub fn permute(rounds: u64, words: &mut [u64; 5]) -> u64 {
    // The library reads and writes five words behind the pointer, and keeps nothing.
    unsafe { kvistmaur_permute(rounds, words.as_mut_ptr()) }
}

/// Puts the values of the digits at the front of a text in their places, up to the first character that is no digit, and gives how many they are.
pub fn read_digits(text: &mut [u8]) -> u64 {
    // The library reads and writes `text.len()` bytes behind the pointer, and keeps nothing.
    unsafe { kvistmaur_read_digits(text.as_mut_ptr(), text.len()) }
}
