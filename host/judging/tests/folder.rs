//! Every input of the judged classes: what the program and the command print and say, beside the second program.

use judging::classes::classes_of;
use judging::comparing::all_agree;
use judging::program::Task;
use std::io::{self, Write};
use std::path::Path;

/// Says that the program prints for each input what the second program says, ends with the place of an unread record and the line that
/// counts all, and says nothing else; and that the command passes all on, with the status that it gives.
#[test]
fn the_program_says_what_the_second_program_says() {
    let folder = Path::new(env!("CARGO_TARGET_TMPDIR")).join("inputs");
    let said = all_agree(Task::Judge, &classes_of(Task::Judge), &folder);
    // Past the test runner, which would keep it back.
    writeln!(io::stderr(), "folder: {said}").expect("it can be said");
}
