//! Pairs of hex digits: their byte, or which of the two is at fault.

use second::hex::{pair, pair_in, read, written, written_in, BadDigit, Case};

/// Gives the value of a digit as the rules have it, or none.
fn value(digit: u8) -> Option<u8> {
    match digit {
        b'0'..=b'9' => Some(digit - b'0'),
        b'a'..=b'f' => Some(digit - b'a' + 10),
        _ => None,
    }
}

/// Says what is told in cases small enough to be read off.
#[test]
fn cases_written_down() {
    let (first, second) = (Err(BadDigit::First), Err(BadDigit::Second));
    let cases: [(&[u8], Result<u8, BadDigit>); 25] = [
        (b"00", Ok(0)),
        (b"09", Ok(9)),
        (b"0a", Ok(10)),
        (b"10", Ok(16)),
        (b"9f", Ok(159)),
        (b"a0", Ok(160)),
        (b"ff", Ok(255)),
        (b"ffg", Ok(255)),
        (b"1234", Ok(18)),
        (b"g0", first),
        (b"A0", first),
        (b" 0", first),
        (b"\n0", first),
        (b"gg", first),
        (b"AF", first),
        (b"  00", first),
        (b"g", first),
        (b"", first),
        (b"0g", second),
        (b"0A", second),
        (b"f ", second),
        (b"f\n", second),
        (b"0x", second),
        (b"0", second),
        (b"a", second),
    ];
    let mut ran = 0;
    for (digits, wanted) in cases {
        assert_eq!(pair(digits), wanted, "{digits:?}");
        ran += 1;
    }
    assert_eq!(ran, 25);
}

/// Says what is told of any two characters, with and without more after them.
#[test]
fn every_pair() {
    let (mut right, mut first_bad, mut second_bad) = (0, 0, 0);
    for first in 0..=255 {
        for second in 0..=255 {
            let wanted = match (value(first), value(second)) {
                (Some(high), Some(low)) => {
                    right += 1;
                    Ok(high * 16 + low)
                }
                (Some(_), None) => {
                    second_bad += 1;
                    Err(BadDigit::Second)
                }
                (None, _) => {
                    first_bad += 1;
                    Err(BadDigit::First)
                }
            };
            assert_eq!(pair(&[first, second]), wanted);
            assert_eq!(pair(&[first, second, second]), wanted);
        }
    }
    assert_eq!(
        (right, first_bad, second_bad),
        (16 * 16, 240 * 256, 16 * 240)
    );
}

/// Says what is told of one character alone.
#[test]
fn every_character_alone() {
    let (mut digits, mut others) = (0, 0);
    for character in 0..=255 {
        if value(character).is_some() {
            assert_eq!(pair(&[character]), Err(BadDigit::Second));
            digits += 1;
        } else {
            assert_eq!(pair(&[character]), Err(BadDigit::First));
            others += 1;
        }
    }
    assert_eq!((digits, others), (16, 240));
}

/// Says that many pairs are read as one would read each, or not at all.
#[test]
fn many_pairs() {
    let bytes: Vec<u8> = (0..=255).collect();
    let digits = written(&bytes);
    assert_eq!(read(&digits), Some(bytes));
    assert_eq!(read(b""), Some(Vec::new()));
    let mut ran = 0;
    for end in (1..512).step_by(2) {
        assert_eq!(read(&digits[..end]), None);
        ran += 1;
    }
    for place in 0..512 {
        let mut other = digits.clone();
        other[place] = b'G';
        assert_eq!(read(&other), None);
        ran += 1;
    }
    assert_eq!(ran, 256 + 512);
}

/// Says that upper-case digits are read where lower-case ones of the same value would be, and no others.
#[test]
fn every_upper_case_pair() {
    let lowered = |digit: u8| match digit {
        b'A'..=b'F' => digit - b'A' + b'a',
        b'a'..=b'f' => b'x',
        other => other,
    };
    let mut right = 0;
    for first in 0..=255 {
        for second in 0..=255 {
            let wanted = pair(&[lowered(first), lowered(second)]);
            assert_eq!(pair_in(Case::Upper, &[first, second]), wanted);
            assert_eq!(
                pair_in(Case::Lower, &[first, second]),
                pair(&[first, second])
            );
            right += usize::from(wanted.is_ok());
        }
    }
    assert_eq!(right, 16 * 16);
}

/// Says how bytes are written in either case.
#[test]
fn written_in_either_case() {
    let bytes = [0x00, 0x09, 0x0a, 0x1f, 0xa0, 0xbc, 0xde, 0xff];
    assert_eq!(written_in(Case::Lower, &bytes), b"00090a1fa0bcdeff");
    assert_eq!(written_in(Case::Upper, &bytes), b"00090A1FA0BCDEFF");
    assert_eq!(written(&bytes), b"00090a1fa0bcdeff");
}
