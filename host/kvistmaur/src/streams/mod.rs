//! Streams: messages in pieces, with a type for each direction.

mod checking;
mod opening;
mod sealing;
mod state;

pub use checking::Checking;
pub use opening::Opening;
pub use sealing::Sealing;

/// Gives a stream, which holds a `State` and nothing else, what the streams of all directions have: starts, data, and `Debug`.
macro_rules! shared_calls {
    ($stream:ident, $start:path) => {
        impl $stream {
            /// Starts a stream with the largest limit, [`TEXT_LIMIT`](crate::TEXT_LIMIT).
            ///
            /// A refusal is the first that holds of [`Refusal::KeyLength`](crate::Refusal::KeyLength) and
            /// [`Refusal::NonceLength`](crate::Refusal::NonceLength). The rounds of a start are always
            /// [`START_ROUNDS`](crate::START_ROUNDS).
            pub fn start(
                set: $crate::Set,
                key: &$crate::Key,
                nonce: &$crate::Nonce,
            ) -> Result<Self, $crate::Refusal> {
                Self::start_limited(set, $crate::TEXT_LIMIT, key, nonce)
            }

            /// Starts a stream that takes no more than `limit` bytes of text.
            ///
            /// A refusal is the first that holds of those of `start` and
            /// [`Refusal::PastLimit`](crate::Refusal::PastLimit), where the limit is over
            /// [`TEXT_LIMIT`](crate::TEXT_LIMIT).
            pub fn start_limited(
                set: $crate::Set,
                limit: usize,
                key: &$crate::Key,
                nonce: &$crate::Nonce,
            ) -> Result<Self, $crate::Refusal> {
                $crate::streams::state::State::start($start, set, limit, key, nonce).map(Self)
            }

            /// Takes a piece of the data, which is not sent sealed but is covered by the tag, and gives the rounds.
            ///
            /// All data stands before the text: after a text call that was done, of no bytes too, this is
            /// [`Refusal::OutOfPhase`](crate::Refusal::OutOfPhase). More than [`DATA_LIMIT`](crate::DATA_LIMIT)
            /// bytes in all are [`Refusal::PastLimit`](crate::Refusal::PastLimit). A refusal changes nothing, and the
            /// stream goes on.
            pub fn data(&mut self, data: &[u8]) -> Result<$crate::Rounds, $crate::Refusal> {
                self.0.data(data)
            }
        }

        /// Shows how far the stream is, and nothing of its key or its words.
        impl std::fmt::Debug for $stream {
            fn fmt(&self, to: &mut std::fmt::Formatter<'_>) -> std::fmt::Result {
                self.0.show(stringify!($stream), to)
            }
        }
    };
}
use shared_calls;
