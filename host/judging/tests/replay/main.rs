//! Logs of a chip's calls replayed by the program and the command: what they print and say, beside the second program.

mod command;
mod ends;
mod streams;

use judging::classes::classes_of;
use judging::comparing::all_agree;
use judging::program::Task;
use std::io::{self, Write};
use std::path::Path;

/// Says that for each log of each class all that is printed and said is what the second program says.
#[test]
fn the_program_replays_as_the_second_program_replays() {
    let folder = Path::new(env!("CARGO_TARGET_TMPDIR")).join("replayed");
    let said = all_agree(Task::Replay, &classes_of(Task::Replay), &folder);
    // Past the test runner, which would keep it back.
    writeln!(io::stderr(), "replay: {said}").expect("it can be said");
}
