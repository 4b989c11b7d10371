//! What can be wrong with a call, one fault for each answer's cause.

use crate::call::{Call, Direction};
use kvistmaur::{DATA_LIMIT, TEXT_LIMIT};

/// Set numbers that no set has; most are a set's when cut to 8, 16 or 32 bits, or without the highest bit.
pub const UNKNOWN_SETS: [u64; 16] = [
    0,
    5,
    256,
    257,
    258,
    260,
    65_537,
    65_538,
    65_539,
    (1 << 32) + 1,
    (1 << 32) + 2,
    (1 << 32) + 3,
    (1 << 63) + 1,
    (1 << 63) + 2,
    (1 << 63) + 4,
    u64::MAX,
];

/// A fault of a call; data and text past their limits are two.
#[derive(Clone, Copy, PartialEq)]
pub enum Fault {
    Set,
    Key,
    Nonce,
    Tag,
    Data,
    Text,
    Output,
    Mismatch,
}

use Fault::*;

/// The faults in the order in which they are brought into a call; only opening can have the last.
const ALL: [Fault; 8] = [Set, Key, Nonce, Tag, Data, Text, Output, Mismatch];

impl Fault {
    /// The faults that a call of this direction can have.
    pub fn of(direction: Direction) -> &'static [Fault] {
        match direction {
            Direction::Seal => &ALL[..7],
            Direction::Open => &ALL,
        }
    }

    /// The answer to this fault alone; of two faults, the lower answer is given.
    pub fn answer(self) -> u64 {
        match self {
            Set => 1,
            Key => 2,
            Nonce => 3,
            Tag => 4,
            Data | Text => 5,
            Output => 6,
            Mismatch => 9,
        }
    }

    /// The number of ways in which the fault can be brought in.
    pub fn ways(self) -> usize {
        match self {
            Set => UNKNOWN_SETS.len(),
            Key | Nonce | Tag => 5,
            Data | Text | Output | Mismatch => 2,
        }
    }

    /// Brings the fault into a call that fits, or has only faults that stand before this one.
    pub fn bring(self, call: &mut Call, way: usize) {
        match self {
            Set => call.set = UNKNOWN_SETS[way],
            Key => other_length(&mut call.key, way),
            Nonce => other_length(&mut call.nonce, way),
            Tag => other_length(&mut call.tag, way),
            Data => call.data.resize(DATA_LIMIT + [1, 4096][way], 0x5a),
            Text => {
                call.body.resize(TEXT_LIMIT + [1, 4096][way], 0x5a);
                call.room = call.body.len();
            }
            Output => call.room = [call.body.len() - 1, 0][way],
            Mismatch => {
                let part = match way {
                    0 => &mut call.body,
                    _ => &mut call.data,
                };
                *part.last_mut().expect("a fitting call has no empty part") ^= 1;
            }
        }
    }
}

/// Gives a key, nonce or tag another length: one less, one more, none, the other one that a set has, far more.
fn other_length(bytes: &mut Vec<u8>, way: usize) {
    let right = bytes.len();
    let length = [right - 1, right + 1, 0, 28 - right, 40][way];
    bytes.resize(length, 0x5a);
}
