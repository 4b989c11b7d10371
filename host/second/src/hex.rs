//! Hex, two digits a byte: lower-case as in bench records, upper-case as in published test files.

/// Which letters the digits above nine are.
#[derive(Clone, Copy, Debug, PartialEq, Eq)]
pub enum Case {
    Lower,
    Upper,
}

impl Case {
    /// Gives the sixteen digits in the order of their values.
    fn digits(self) -> &'static [u8; 16] {
        match self {
            Case::Lower => b"0123456789abcdef",
            Case::Upper => b"0123456789ABCDEF",
        }
    }
}

/// Gives the lower-case digits of the given bytes.
pub fn written(bytes: &[u8]) -> Vec<u8> {
    written_in(Case::Lower, bytes)
}

/// Gives the digits of the given bytes in the case.
pub fn written_in(case: Case, bytes: &[u8]) -> Vec<u8> {
    let mut digits = Vec::new();
    for byte in bytes {
        digits.push(case.digits()[usize::from(byte / 16)]);
        digits.push(case.digits()[usize::from(byte % 16)]);
    }
    digits
}

/// Which digit of a pair is at fault.
#[derive(Clone, Copy, Debug, PartialEq, Eq)]
pub enum BadDigit {
    /// The first is wrong or missing, whatever the second is.
    First,
    /// The first is right, but the second is wrong or missing.
    Second,
}

/// Gives the byte that the two lower-case digits at the front stand for, or which of them is at fault.
pub fn pair(digits: &[u8]) -> Result<u8, BadDigit> {
    pair_in(Case::Lower, digits)
}

/// Gives the byte that the two digits of the case at the front stand for, or which of them is at fault.
pub fn pair_in(case: Case, digits: &[u8]) -> Result<u8, BadDigit> {
    let high = value(case, digits.first()).ok_or(BadDigit::First)?;
    let low = value(case, digits.get(1)).ok_or(BadDigit::Second)?;
    Ok(high * 16 + low)
}

/// Gives the bytes that the digits stand for, or none when they aren't lower-case hex in pairs.
pub fn read(digits: &[u8]) -> Option<Vec<u8>> {
    digits.chunks(2).map(|two| pair(two).ok()).collect()
}

/// Gives the value of one digit, or none when it is missing or no hex digit of the case.
fn value(case: Case, digit: Option<&u8>) -> Option<u8> {
    case.digits()
        .iter()
        .position(|known| Some(known) == digit)
        .map(|v| v as u8)
}
