//! A slow and plain second program for Ascon v1 and v1.2, their whole-message calls, their
//! sealing, checking and opening streams, on states and on areas of bytes that spell them, their
//! bench records, published test files and logs of a chip's calls.
//! It is there to be compared with, so every part follows the printed
//! definition step by step.

pub mod area;
pub mod calls;
pub mod cases;
pub mod cipher;
pub mod entry;
pub mod exchange;
pub mod formula;
pub mod hex;
pub mod judge;
mod lines;
pub mod log;
pub mod make;
pub mod moving;
pub mod permutation;
pub mod random;
pub mod record;
pub mod replay;
pub mod stream;
pub mod vectors;
mod whole;
