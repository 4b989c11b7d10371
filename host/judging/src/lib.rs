//! Inputs for the bench program and for the command that runs it, and ways to have both judge, move or replay
//! them: records, entries of test files, logs of a chip's calls. What they have to print comes from the second program and, where a case says it by
//! itself, from the case.
//!
//! The program is what `host/run bench` runs; the variable `KVISTMAUR_BENCH` names another
//! executable in its place, by a whole path. `KVISTMAUR_REWRITING` does so for `rewriting`, the
//! program that writes records again.

pub mod classes;
pub mod command;
pub mod comparing;
pub mod end;
pub mod entry;
pub mod failing;
pub mod folder;
pub mod input;
pub mod layout;
pub mod lines;
pub mod log;
mod message;
pub mod program;
pub mod right_texts;
pub mod session;
pub mod text;
