//! Sealing, checking and opening with the verified model of Ascon v1 and v1.2, of whole messages and of streams.
//!
//! [`seal`] and [`open`] take whole messages:
//!
//! ```
//! use kvistmaur::{open, seal, Key, Nonce, Refusal, Set};
//!
//! let key = Key::from(*b"a key of 16 byte");
//! let nonce = Nonce::from(*b"message no. 0001");
//!
//! let mut cipher = [0; 5];
//! let sealed = seal(Set::Ascon128, &key, &nonce, b"valve 12", b"close", &mut cipher)?;
//!
//! let mut order = [0; 5];
//! open(Set::Ascon128, &key, &nonce, b"valve 12", &cipher, &sealed.tag, &mut order)?;
//! assert_eq!(&order, b"close");
//! # Ok::<(), Refusal>(())
//! ```
//!
//! A stream takes a message in pieces, and however it is cut, the result is the same. [`Sealing`] hands out the
//! ciphertext and then the tag; [`Checking`] says whether a tag is right, and hands out nothing; [`Opening`] hands out
//! text that is unverified until its finish is done.
//!
//! A call takes any input, reads nothing but what it is lent, and, but for the state of a stream, keeps nothing. Who seals
//! two messages under one key and nonce loses the cipher's protection: choosing nonces is the caller's part.
//!
//! [`boundary`] has the library's calls on numbers and slices, as C has them.

#![deny(unsafe_op_in_unsafe_fn)]

mod answer;
#[allow(unsafe_code)] // Cargo.toml denies it everywhere else.
pub mod boundary;
mod message;
mod parts;
mod refusal;
mod rounds;
mod sealed;
mod set;
mod streams;

pub use message::{open, seal};
pub use parts::{Key, Nonce, Tag};
pub use refusal::Refusal;
pub use rounds::{Rounds, START_ROUNDS};
pub use sealed::Sealed;
pub use set::Set;
pub use streams::{Checking, Opening, Sealing};

/// The most bytes of associated data in a message.
pub const DATA_LIMIT: usize = 65_536;

/// The most bytes of text or ciphertext in a message, and the largest limit of a stream.
pub const TEXT_LIMIT: usize = 1_048_576;

/// The bytes of a stream's state, for callers of [`boundary`].
pub const STATE_LENGTH: usize = 112;
