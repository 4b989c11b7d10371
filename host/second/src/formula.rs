//! The round count by arithmetic, for tests and for entries that are read: sealing counts what it runs.

use crate::cipher::Set;

/// Gives the rounds of a whole message from its two lengths alone.
pub fn rounds_by_formula(set: &Set, ad: usize, text: usize) -> u64 {
    let s = if ad == 0 { 0 } else { ad / set.block + 1 };
    let t = text / set.block + 1;
    (24 + set.middle * (s + t - 1)) as u64
}
