//! Counts of rounds.

/// The rounds that the published definition runs: of a whole message, or in one call of a stream.
///
/// [`START_ROUNDS`] and those of all other calls of a stream, its finish too, add up to those of the whole message.
#[derive(Clone, Copy, Debug, PartialEq, Eq, PartialOrd, Ord, Hash)]
pub struct Rounds(pub u64);

/// The rounds of every start of a stream, which gives the stream in place of them.
pub const START_ROUNDS: Rounds = Rounds(12);
