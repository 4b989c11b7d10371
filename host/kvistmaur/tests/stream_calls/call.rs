//! The stream calls, by the model and by the second program.

use crate::lending::Memory;
use kvistmaur::boundary;
use second::area;
use second::stream::Direction;

/// A stream call.
#[derive(Clone, Copy, Debug, PartialEq, Eq, PartialOrd, Ord)]
pub enum Call {
    StartSealing,
    StartChecking,
    StartOpening,
    Data,
    Seal,
    Check,
    Open,
    FinishSealing,
    FinishChecking,
    FinishOpening,
    End,
}

use Call::*;

/// All calls: three starts, then those on a stream, of which three are for text and three finish it.
#[rustfmt::skip]
pub const CALLS: [Call; 11] = [
    StartSealing, StartChecking, StartOpening, Data, Seal, Check, Open, FinishSealing, FinishChecking, FinishOpening, End,
];

impl Call {
    /// The calls on a stream.
    pub const ON_STREAMS: &'static [Call] = CALLS.split_at(3).1;

    /// The start of a direction.
    pub fn start(direction: Direction) -> Call {
        [StartSealing, StartChecking, StartOpening][direction as usize]
    }

    /// The text call of a direction.
    pub fn text(direction: Direction) -> Call {
        [Seal, Check, Open][direction as usize]
    }

    /// The finish of a direction.
    pub fn finish(direction: Direction) -> Call {
        [FinishSealing, FinishChecking, FinishOpening][direction as usize]
    }

    /// The answers that it has, in the order in which they are tested.
    pub fn answers(self) -> &'static [u64] {
        match self {
            StartSealing | StartChecking | StartOpening => &[8, 1, 2, 3, 5, 0],
            Data | Check => &[8, 7, 5, 0],
            Seal | Open => &[8, 7, 5, 6, 0],
            FinishSealing => &[8, 7, 4, 0],
            FinishChecking | FinishOpening => &[8, 7, 4, 9, 0],
            End => &[8, 0],
        }
    }
}

/// A program: it makes a call in a memory, and gives 16 × rounds + answer.
pub type Program = fn(Call, &mut Memory) -> u64;

/// The calls of a module, which have the same names and arguments in both programs.
macro_rules! program {
    ($module:ident) => {
        |call, memory| {
            let Memory { set, limit, .. } = *memory;
            let (key, nonce) = (memory.key.get(), memory.nonce.get());
            let (state, piece) = (memory.state.get_mut(), memory.piece.get());
            let (out, tag) = (memory.out.get_mut(), &mut memory.tag);
            match call {
                StartSealing => $module::start_sealing(set, limit, key, nonce, state),
                StartChecking => $module::start_checking(set, limit, key, nonce, state),
                StartOpening => $module::start_opening(set, limit, key, nonce, state),
                Data => $module::stream_data(state, piece),
                Seal => $module::stream_seal(state, piece, out),
                Check => $module::stream_check(state, piece),
                Open => $module::stream_open(state, piece, out),
                FinishSealing => $module::finish_sealing(state, tag.get_mut()),
                FinishChecking => $module::finish_checking(state, tag.get()),
                FinishOpening => $module::finish_opening(state, tag.get()),
                End => $module::stream_end(state),
            }
        }
    };
}

/// The model.
pub const MODEL: Program = program!(boundary);

/// The second program.
pub const SECOND: Program = program!(area);
