//! Answers that were published elsewhere: for one round, for twelve, and for the later edition's shorter runs, which v1.2 must give and v1 must not.

use second::permutation::*;

const FROM: Words = [
    0x0123456789abcdef,
    0xef0123456789abcd,
    0xcdef0123456789ab,
    0xabcdef0123456789,
    0x89abcdef01234567,
];

/// Says what one round with the constant 1f gives.
#[test]
fn one_round() {
    let from = [
        0x0123456789abcdef,
        0x23456789abcdef01,
        0x456789abcdef0123,
        0x6789abcdef012345,
        0x89abcde01234567f,
    ];
    let published = [
        0x3c1748c9be2892ce,
        0x5eafb305cd26164f,
        0xf9470254bb3a4213,
        0xf0428daf0c5d3948,
        0x281375af0b294899,
    ];
    assert_eq!(round(from, 0x1f), published);
}

/// Says what twelve rounds give, from a pattern and from zeros.
#[test]
fn twelve_rounds() {
    let of_pattern = [
        0x206416dfc624bb14,
        0x1b0c47a601058aab,
        0x8934cfc93814cddd,
        0xa9738d287a748e4b,
        0xddd934f058afc7e1,
    ];
    let of_zeros = [
        0x78ea7ae5cfebb108,
        0x9b9bfb8513b560f7,
        0x6937f83e03d11a50,
        0x3fe53f36f2c1178c,
        0x045d648e4def12c9,
    ];
    for edition in [Edition::V1, Edition::V1Dot2] {
        assert_eq!(run(FROM, constants_of_run(edition, 12)), of_pattern);
        assert_eq!(run([0; 5], constants_of_run(edition, 12)), of_zeros);
    }
}

/// Says that the last eight and six constants give the later edition's runs, and that those of v1 are others.
#[test]
fn the_later_edition_is_another() {
    let last_eight = [
        0x67ed228272f46eee,
        0x80bc0b097aad7944,
        0x2fa599382c6db215,
        0x368133fae2f7667a,
        0x28cefb195a7c651c,
    ];
    let last_six = [
        0xc27b505c635eb07f,
        0xd388f5d2a72046fa,
        0x9e415c204d7b15e7,
        0xce0d71450fe44581,
        0xdd7c5fef57befe48,
    ];
    assert_eq!(run(FROM, &CONSTANTS[4..]), last_eight);
    assert_eq!(run(FROM, &CONSTANTS[6..]), last_six);
    let runs = |edition| [8, 6].map(|n| run(FROM, constants_of_run(edition, n)));
    assert_eq!(runs(Edition::V1Dot2), [last_eight, last_six]);
    assert_ne!(runs(Edition::V1)[0], last_eight);
    assert_ne!(runs(Edition::V1)[1], last_six);
}
