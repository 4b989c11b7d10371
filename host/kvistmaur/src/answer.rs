//! What the one number of the library, 16 × rounds + answer, says to this crate.

use crate::{boundary, Refusal, Rounds, START_ROUNDS};
use std::ops::RangeInclusive;

/// A call as the types of this crate make it: the answers that it can be given, and the rounds that it can report.
///
/// What the types rule out is no answer, an unknown set or a broken state for example. If the library gave one, the
/// library or this crate would be wrong, and nothing could be said of the message.
pub struct Call {
    answers: &'static [u64],
    rounds: RangeInclusive<u64>,
}

const OF_A_MESSAGE: RangeInclusive<u64> = 24..=u64::MAX;
const OF_A_START: RangeInclusive<u64> = START_ROUNDS.0..=START_ROUNDS.0;
const OF_A_PIECE: RangeInclusive<u64> = 0..=u64::MAX;
const OF_A_FINISH: RangeInclusive<u64> = 12..=u64::MAX;

/// Each call of the library that is made with types; those of a kind that answer alike are one.
#[rustfmt::skip]
impl Call {
    pub const SEAL: Call = Call { answers: &[0, 2, 3, 5, 6], rounds: OF_A_MESSAGE };
    pub const OPEN: Call = Call { answers: &[0, 2, 3, 4, 5, 6, 9], rounds: OF_A_MESSAGE };
    pub const START: Call = Call { answers: &[0, 2, 3, 5], rounds: OF_A_START };
    pub const STREAM_DATA: Call = Call { answers: &[0, 5, 7], rounds: OF_A_PIECE };
    pub const STREAM_SEAL: Call = Call { answers: &[0, 5, 6], rounds: OF_A_PIECE };
    pub const STREAM_CHECK: Call = Call { answers: &[0, 5], rounds: OF_A_PIECE };
    pub const STREAM_OPEN: Call = Call { answers: &[0, 5, 6], rounds: OF_A_PIECE };
    pub const FINISH_SEALING: Call = Call { answers: &[0], rounds: OF_A_FINISH };
    pub const FINISH_WITH_TAG: Call = Call { answers: &[0, 4, 9], rounds: OF_A_FINISH };
}

impl Call {
    /// What a number says; panics where it is no answer to this call.
    pub fn read(&self, number: u64) -> Result<Rounds, Refusal> {
        let said = self.said(number);
        said.unwrap_or_else(|| panic!("the library gave {number}, which is no answer to this call"))
    }

    /// What a number says, if it is an answer to this call.
    fn said(&self, number: u64) -> Option<Result<Rounds, Refusal>> {
        let (answer, rounds) = (boundary::answer(number), boundary::rounds(number));
        if !self.answers.contains(&answer) {
            return None;
        }
        match answer {
            0 | 9 if !self.rounds.contains(&rounds) => None,
            0 => Some(Ok(Rounds(rounds))),
            9 => Some(Err(Refusal::TagDiffers {
                rounds: Rounds(rounds),
            })),
            _ if rounds > 0 => None,
            _ => Refusal::silent(answer).map(Err),
        }
    }
}

#[cfg(test)]
mod tests {
    use super::*;
    use std::panic::catch_unwind;

    /// A call, its answers that report rounds, those that don't, and the rounds that are reported; all else is no answer.
    type Row = (Call, &'static [u64], &'static [u64], RangeInclusive<u64>);

    #[rustfmt::skip]
    const CALLS: [Row; 9] = [
        (Call::SEAL, &[0], &[2, 3, 5, 6], 24..=u64::MAX),
        (Call::OPEN, &[0, 9], &[2, 3, 4, 5, 6], 24..=u64::MAX),
        (Call::START, &[0], &[2, 3, 5], 12..=12),
        (Call::STREAM_DATA, &[0], &[5, 7], 0..=u64::MAX),
        (Call::STREAM_SEAL, &[0], &[5, 6], 0..=u64::MAX),
        (Call::STREAM_CHECK, &[0], &[5], 0..=u64::MAX),
        (Call::STREAM_OPEN, &[0], &[5, 6], 0..=u64::MAX),
        (Call::FINISH_SEALING, &[0], &[], 12..=u64::MAX),
        (Call::FINISH_WITH_TAG, &[0, 9], &[4], 12..=u64::MAX),
    ];

    /// Each number is read as what it says, or not at all.
    #[test]
    fn only_answers_are_read() {
        let mut read = 0;
        for (call, reporting, silent, reported) in &CALLS {
            for rounds in [0, 1, 11, 12, 13, 23, 24, 25, 835_614, u64::MAX / 16] {
                for answer in 0..16 {
                    let reports = reporting.contains(&answer) && reported.contains(&rounds);
                    let refuses = silent.contains(&answer) && rounds == 0;
                    let wanted = (reports || refuses).then_some((answer, rounds));
                    let result = catch_unwind(|| call.read(16 * rounds + answer));
                    assert_eq!(result.ok().map(numbers), wanted);
                    read += 1;
                }
            }
        }
        assert_eq!(read, 9 * 10 * 16);
    }

    /// The answer and the rounds that a result stands for.
    fn numbers(result: Result<Rounds, Refusal>) -> (u64, u64) {
        match result {
            Ok(Rounds(rounds)) => (0, rounds),
            Err(refusal @ Refusal::TagDiffers { rounds }) => (refusal.number(), rounds.0),
            Err(refusal) => (refusal.number(), 0),
        }
    }
}
