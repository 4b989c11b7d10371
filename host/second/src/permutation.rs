//! One round of Ascon on 64 columns of five bits, and runs of rounds in both editions.

/// The state as five words, x0 first.
pub type Words = [u64; 5];

/// The state as 64 columns; column `j` holds bit `j` of every word, counted from the lowest.
pub type Columns = [u8; 64];

/// The editions of the cipher, which share the round.
#[derive(Clone, Copy, Debug, PartialEq, Eq)]
pub enum Edition {
    /// Ascon v1, as source document 004 prints it.
    V1,
    /// Ascon v1.2, as request W5 tells where it differs.
    V1Dot2,
}

/// The constants of rounds 0 to 11, as the v1 document prints them.
pub const CONSTANTS: [u64; 12] = [
    0xf0, 0xe1, 0xd2, 0xc3, 0xb4, 0xa5, 0x96, 0x87, 0x78, 0x69, 0x5a, 0x4b,
];

/// The printed substitution table: at place v stands what a column of value v becomes.
pub const TABLE: [u8; 32] = [
    4, 11, 31, 20, 26, 21, 9, 2, 27, 5, 8, 18, 29, 3, 6, 28, //
    30, 19, 7, 14, 0, 13, 17, 24, 16, 12, 1, 25, 22, 10, 15, 23,
];

/// For each word, the two distances by which it is turned right.
pub const TURNS: [[u32; 2]; 5] = [[19, 28], [61, 39], [1, 6], [10, 17], [7, 41]];

/// Gives the constants of a run of `n` rounds (at most 12), in their order.
///
/// In v1 they are the first `n`, from round 0 on (004, table 2); "a run of n rounds takes the last n
/// constants" in v1.2 (W5).
pub fn constants_of_run(edition: Edition, n: usize) -> &'static [u64] {
    match edition {
        Edition::V1 => &CONSTANTS[..n],
        Edition::V1Dot2 => &CONSTANTS[CONSTANTS.len() - n..],
    }
}

/// Gives the value that a column of the given value (below 32) is replaced by.
pub fn substitute(column: u8) -> u8 {
    TABLE[usize::from(column)]
}

/// Gives word number `i` (0 to 4) after diffusion, when it was `x` before.
pub fn sigma(i: usize, x: u64) -> u64 {
    let [first, second] = TURNS[i];
    x ^ x.rotate_right(first) ^ x.rotate_right(second)
}

/// Gives the columns of five words, the bit of x0 highest in each.
pub fn columns_of(words: Words) -> Columns {
    let mut columns = [0; 64];
    for (place, column) in columns.iter_mut().enumerate() {
        for word in words {
            let bit = if (word >> place) & 1 == 1 { 1 } else { 0 };
            *column = *column * 2 + bit;
        }
    }
    columns
}

/// Gives the five words that have the given columns.
pub fn words_of(columns: Columns) -> Words {
    let mut words = [0; 5];
    for (place, column) in columns.iter().enumerate() {
        for (i, word) in words.iter_mut().enumerate() {
            let bit = u64::from((column >> (4 - i)) & 1);
            *word |= bit << place;
        }
    }
    words
}

/// Gives the words after one round with the given constant.
pub fn round(words: Words, constant: u64) -> Words {
    let mut added = words;
    added[2] ^= constant;

    let mut columns = columns_of(added);
    for column in columns.iter_mut() {
        *column = substitute(*column);
    }

    let mut diffused = words_of(columns);
    for (i, word) in diffused.iter_mut().enumerate() {
        *word = sigma(i, *word);
    }
    diffused
}

/// Gives the words after one round for each of the constants, in their order.
pub fn run(words: Words, constants: &[u64]) -> Words {
    let mut now = words;
    for constant in constants {
        now = round(now, *constant);
    }
    now
}
