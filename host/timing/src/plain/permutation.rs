//! The permutation, bit-sliced.

/// Table 2 of the Ascon v1 document.
const CONSTANTS: [u64; 12] = [
    0xf0, 0xe1, 0xd2, 0xc3, 0xb4, 0xa5, 0x96, 0x87, 0x78, 0x69, 0x5a, 0x4b,
];

/// One round in place.
#[inline(always)]
fn round(x: &mut [u64; 5], constant: u64) {
    x[2] ^= constant;
    x[0] ^= x[4];
    x[4] ^= x[3];
    x[2] ^= x[1];
    let t: [u64; 5] = std::array::from_fn(|i| !x[i] & x[(i + 1) % 5]);
    x[0] ^= t[1];
    x[1] ^= t[2];
    x[2] ^= t[3];
    x[3] ^= t[4];
    x[4] ^= t[0];
    x[1] ^= x[0];
    x[0] ^= x[4];
    x[3] ^= x[2];
    x[2] = !x[2];
    x[0] ^= x[0].rotate_right(19) ^ x[0].rotate_right(28);
    x[1] ^= x[1].rotate_right(61) ^ x[1].rotate_right(39);
    x[2] ^= x[2].rotate_right(1) ^ x[2].rotate_right(6);
    x[3] ^= x[3].rotate_right(10) ^ x[3].rotate_right(17);
    x[4] ^= x[4].rotate_right(7) ^ x[4].rotate_right(41);
}

/// The rounds of the table from one up to another, in place.
#[inline(always)]
pub fn run<const FROM: usize, const TO: usize>(words: &mut [u64; 5]) {
    for &constant in &CONSTANTS[FROM..TO] {
        round(words, constant);
    }
}

/// Runs twelve, eight or six rounds in place and gives their number; 0 for any other number.
#[inline(never)]
pub fn permute(rounds: u64, words: &mut [u64; 5]) -> u64 {
    match rounds {
        12 => run::<0, 12>(words),
        8 => run::<0, 8>(words),
        6 => run::<0, 6>(words),
        _ => return 0,
    }
    rounds
}
