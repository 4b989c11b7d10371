//! The cipher as a Rust programmer would write it, and the reading of digits as the model did it before and as a Rust programmer would: the baseline
//! that the model is timed beside.

mod digits;
mod message;
mod permutation;
mod pieces;
mod sets;
mod sponge;
mod stream;

pub use digits::{read_by_chain, read_by_list};
pub use message::{open, seal};
pub use permutation::permute;
pub use stream::Stream;
