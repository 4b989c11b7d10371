//! The numbers of the sets: the two of v1 and the two of the later edition.

use crate::permutation::Edition;

/// The numbers of one set; all lengths are in bytes.
#[derive(Debug, PartialEq, Eq)]
pub struct Set {
    /// The number by which callers name the set.
    pub number: u64,
    /// The edition whose constants and first bytes the set has.
    pub edition: Edition,
    /// Length of key, nonce and tag.
    pub key: usize,
    /// Length of a block.
    pub block: usize,
    /// Rounds at start and end.
    pub outer: usize,
    /// Rounds between.
    pub middle: usize,
}

/// All sets: Ascon-128 and Ascon-96 of v1, Ascon-128 and Ascon-128a of v1.2.
///
/// W5 tells the lengths and the middle rounds of set 4. The words that it prints hold these numbers of
/// both its sets: key bits `80`, block bits `40` or `80`, rounds `0c`, and `06` or `08`. In 004 nonce and
/// tag have the key's length.
pub static SETS: [Set; 4] = [
    Set {
        number: 1,
        edition: Edition::V1,
        key: 16,
        block: 8,
        outer: 12,
        middle: 6,
    },
    Set {
        number: 2,
        edition: Edition::V1,
        key: 12,
        block: 16,
        outer: 12,
        middle: 8,
    },
    Set {
        number: 3,
        edition: Edition::V1Dot2,
        key: 16,
        block: 8,
        outer: 12,
        middle: 6,
    },
    Set {
        number: 4,
        edition: Edition::V1Dot2,
        key: 16,
        block: 16,
        outer: 12,
        middle: 8,
    },
];

/// Gives the set with the given number, if there is one.
pub fn set_of(number: u64) -> Option<&'static Set> {
    SETS.iter().find(|set| set.number == number)
}

/// Gives the numbers of all sets, in their order.
pub fn set_numbers() -> impl Iterator<Item = u64> {
    SETS.iter().map(|set| set.number)
}
