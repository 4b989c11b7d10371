//! Nonces.

use super::kept::Kept;
use super::made_of_bytes;
use std::fmt;

/// A nonce, the number of a message: 16 bytes, or 12 in set 2.
///
/// It is no secret, but must be another one for each message: who seals two messages under one key and nonce loses the
/// cipher's protection.
///
/// ```
/// use kvistmaur::{Nonce, Refusal};
///
/// let nonce = Nonce::from([1; 12]);
/// assert_eq!(nonce.as_ref(), [1; 12]);
/// assert_eq!(format!("{nonce:?}"), "Nonce(010101010101010101010101)");
/// assert_eq!(Nonce::try_from(&[1; 15][..]), Err(Refusal::NonceLength));
/// ```
#[derive(Clone, Copy, PartialEq, Eq, Hash)]
pub struct Nonce(Kept);

made_of_bytes!(Nonce, NonceLength);

impl Nonce {
    /// The nonce of these bytes.
    fn holding(bytes: &[u8]) -> Nonce {
        Nonce(Kept::holding(bytes))
    }
}

impl AsRef<[u8]> for Nonce {
    fn as_ref(&self) -> &[u8] {
        self.0.get()
    }
}

impl fmt::Debug for Nonce {
    fn fmt(&self, to: &mut fmt::Formatter<'_>) -> fmt::Result {
        self.0.write("Nonce", to)
    }
}
