//! The parameter sets.

use crate::Refusal;

/// A parameter set: two of Ascon v1, and two of the later edition, v1.2.
///
/// The sets are different ciphers: a message is opened in the set in which it was sealed.
///
/// ```
/// use kvistmaur::{Refusal, Set};
///
/// assert_eq!(Set::try_from(3), Ok(Set::Ascon128V12));
/// assert_eq!(Set::try_from(5), Err(Refusal::UnknownSet));
/// ```
#[derive(Clone, Copy, Debug, PartialEq, Eq, Hash)]
#[non_exhaustive]
pub enum Set {
    /// Set 1, Ascon-128 of v1: key, nonce and tag of 16 bytes.
    Ascon128,
    /// Set 2, Ascon-96 of v1: key, nonce and tag of 12 bytes.
    Ascon96,
    /// Set 3, Ascon-128 of v1.2: key, nonce and tag of 16 bytes.
    Ascon128V12,
    /// Set 4, Ascon-128a of v1.2: key, nonce and tag of 16 bytes.
    Ascon128aV12,
}

impl Set {
    /// All sets, in the order of their numbers.
    pub const ALL: &'static [Set] = &[
        Set::Ascon128,
        Set::Ascon96,
        Set::Ascon128V12,
        Set::Ascon128aV12,
    ];

    /// The number that names the set at the boundary.
    #[must_use]
    pub const fn number(self) -> u64 {
        match self {
            Set::Ascon128 => 1,
            Set::Ascon96 => 2,
            Set::Ascon128V12 => 3,
            Set::Ascon128aV12 => 4,
        }
    }

    /// The bytes of the key, of the nonce and of the tag, which have one length.
    #[must_use]
    pub const fn key_length(self) -> usize {
        match self {
            Set::Ascon96 => 12,
            Set::Ascon128 | Set::Ascon128V12 | Set::Ascon128aV12 => 16,
        }
    }
}

/// The set of a number, as when the number comes from outside; [`Refusal::UnknownSet`] where no set has it.
impl TryFrom<u64> for Set {
    type Error = Refusal;

    fn try_from(number: u64) -> Result<Set, Refusal> {
        let known = Set::ALL.iter().find(|set| set.number() == number);
        known.copied().ok_or(Refusal::UnknownSet)
    }
}
