//! The round against the other forms in which the v1 document prints it.

use second::permutation::*;
use second::random::Random;

/// Gives the five words after the printed word program of the substitution (figure 7).
fn figure_7(words: Words) -> Words {
    let [mut x0, mut x1, mut x2, mut x3, mut x4] = words;
    x0 ^= x4;
    x4 ^= x3;
    x2 ^= x1;
    let t0 = !x0 & x1;
    let t1 = !x1 & x2;
    let t2 = !x2 & x3;
    let t3 = !x3 & x4;
    let t4 = !x4 & x0;
    x0 ^= t1;
    x1 ^= t2;
    x2 ^= t3;
    x3 ^= t4;
    x4 ^= t0;
    x1 ^= x0;
    x0 ^= x4;
    x3 ^= x2;
    x2 = !x2;
    [x0, x1, x2, x3, x4]
}

/// Gives the column that the printed sums of products (section 3.1) make of a column.
fn sums(column: u8) -> u8 {
    let x: Vec<u8> = (0..5).map(|i| column >> (4 - i) & 1).collect();
    let y = [
        x[4] * x[1] + x[3] + x[2] * x[1] + x[2] + x[1] * x[0] + x[1] + x[0],
        x[4] + x[3] * x[2] + x[3] * x[1] + x[3] + x[2] * x[1] + x[2] + x[1] + x[0],
        x[4] * x[3] + x[4] + x[2] + x[1] + 1,
        x[4] * x[0] + x[4] + x[3] * x[0] + x[3] + x[2] + x[1] + x[0],
        x[4] * x[1] + x[4] + x[3] + x[1] * x[0] + x[1],
    ];
    y.iter().fold(0, |all, bit| all * 2 + bit % 2)
}

/// Gives bit `place` of the word, counted from the lowest, as 0 or 1.
fn bit(word: u64, place: usize) -> u64 {
    word >> (place % 64) & 1
}

/// Gives five pseudo-random words.
fn any_words(random: &mut Random) -> Words {
    [0; 5].map(|_| random.number())
}

/// Says that table, word program and sums of products agree on all 32 columns.
#[test]
fn three_forms_of_the_substitution_agree() {
    let mut ran = 0;
    for column in 0..32u8 {
        let words = [0, 1, 2, 3, 4].map(|i| u64::from(column >> (4 - i) & 1));
        let mut by_program = 0;
        for word in figure_7(words) {
            by_program = by_program * 2 + (word & 1) as u8;
        }
        assert_eq!(substitute(column), by_program, "column {column}");
        assert_eq!(substitute(column), sums(column), "column {column}");
        ran += 1;
    }
    assert_eq!(ran, 32);
}

/// Says that the table reaches every value once and leaves none in its place.
#[test]
fn the_table_is_a_permutation_without_fixed_values() {
    let mut ran = 0;
    for value in 0..32u8 {
        assert_eq!(TABLE.iter().filter(|found| **found == value).count(), 1);
        assert_ne!(substitute(value), value);
        ran += 1;
    }
    assert_eq!(ran, 32);
}

/// Says that each diffusion moves bits as three single bits combined.
#[test]
fn diffusion_agrees_bit_by_bit() {
    let printed = [(19, 28), (61, 39), (1, 6), (10, 17), (7, 41)];
    let mut random = Random::new(11);
    let mut ran = 0;
    for (i, (first, second)) in printed.into_iter().enumerate() {
        for _ in 0..200 {
            let x = random.number();
            for place in 0..64 {
                let wanted = bit(x, place) ^ bit(x, place + first) ^ bit(x, place + second);
                assert_eq!(bit(sigma(i, x), place), wanted, "word {i} bit {place}");
                ran += 1;
            }
        }
    }
    assert_eq!(ran, 5 * 200 * 64);
}

/// Says that the turning direction is that of the printed difference trails (tables 6 to 8).
#[test]
fn diffusion_agrees_with_the_printed_trails() {
    let top = 1 << 63;
    assert_eq!(sigma(3, top), 0x8020_4000_0000_0000);
    assert_eq!(sigma(2, top), 0xc200_0000_0000_0000);
    assert_eq!(sigma(1, top) | sigma(4, top), 0x8100_0000_0140_0004);
}

/// Says that the columns hold the words' bits with x0 highest and can be turned back.
#[test]
fn columns_and_words_are_two_views_of_one_state() {
    let mut random = Random::new(12);
    let mut ran = 0;
    for i in 0..5 {
        for place in 0..64 {
            let mut words = [0; 5];
            words[i] = 1 << place;
            let mut wanted = [0; 64];
            wanted[place] = [16, 8, 4, 2, 1][i];
            assert_eq!(columns_of(words), wanted);
            assert_eq!(words_of(wanted), words);
            ran += 1;
        }
    }
    for _ in 0..500 {
        let words = any_words(&mut random);
        assert_eq!(words_of(columns_of(words)), words);
        ran += 1;
    }
    assert_eq!(ran, 5 * 64 + 500);
}

/// Says that a round is constant, then word program, then diffusion, for any state and constant.
#[test]
fn a_round_agrees_with_the_word_program() {
    let mut random = Random::new(13);
    let mut ran = 0;
    for trial in 0..2_400 {
        let words = any_words(&mut random);
        let constant = match trial % 13 {
            12 => random.number(),
            place => CONSTANTS[place],
        };
        let mut wanted = words;
        wanted[2] ^= constant;
        wanted = figure_7(wanted);
        for (i, word) in wanted.iter_mut().enumerate() {
            *word = sigma(i, *word);
        }
        assert_eq!(round(words, constant), wanted);
        ran += 1;
    }
    assert_eq!(ran, 2_400);
}

/// The constants as the v1 document prints them.
const PRINTED: [u64; 12] = [
    0xf0, 0xe1, 0xd2, 0xc3, 0xb4, 0xa5, 0x96, 0x87, 0x78, 0x69, 0x5a, 0x4b,
];

/// Says that in v1 a run of n rounds takes the first n printed constants, in their order.
#[test]
fn runs_start_with_round_0_in_v1() {
    let of_run = |n| constants_of_run(Edition::V1, n);
    assert_eq!(of_run(6), [0xf0, 0xe1, 0xd2, 0xc3, 0xb4, 0xa5]);
    assert_eq!(of_run(8), [0xf0, 0xe1, 0xd2, 0xc3, 0xb4, 0xa5, 0x96, 0x87]);
    let mut ran = 0;
    for n in 0..=12 {
        assert_eq!(of_run(n), &PRINTED[..n]);
        ran += 1;
    }
    assert_eq!(ran, 13);
}

/// Says that in v1.2 a run of n rounds takes the last n printed constants, in their order.
#[test]
fn runs_end_with_round_11_in_v1_2() {
    let of_run = |n| constants_of_run(Edition::V1Dot2, n);
    assert_eq!(of_run(6), [0x96, 0x87, 0x78, 0x69, 0x5a, 0x4b]);
    assert_eq!(of_run(8), [0xb4, 0xa5, 0x96, 0x87, 0x78, 0x69, 0x5a, 0x4b]);
    let mut ran = 0;
    for n in 0..=12 {
        assert_eq!(of_run(n), &PRINTED[12 - n..]);
        ran += 1;
    }
    assert_eq!(ran, 13);
}

/// Says that a run is its rounds one after another, in either edition.
#[test]
fn a_run_is_its_rounds_in_order() {
    let mut random = Random::new(14);
    let mut ran = 0;
    for n in 0..=12 {
        for (edition, skipped) in [(Edition::V1, 0), (Edition::V1Dot2, 12 - n)] {
            let words = any_words(&mut random);
            let mut wanted = words;
            for constant in CONSTANTS.iter().skip(skipped).take(n) {
                wanted = round(wanted, *constant);
            }
            assert_eq!(run(words, constants_of_run(edition, n)), wanted);
            ran += 1;
        }
    }
    assert_eq!(ran, 13 * 2);
}
