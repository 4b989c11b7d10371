//! Records of form 1 and of form 2, and what each becomes.

use super::{moved, refused, Case};
use judging::classes::by_hand::CLOSE as OLD;
use judging::program::Task;
use second::moving::Direction;

const FORWARD: Task = Task::Move(Direction::Forward);
const BACK: Task = Task::Move(Direction::Back);

/// The record `OLD` in form 2, of chip 0.
const NEW: &str = "form=2
set=2
chip=0
key=000102030405060708090a0b
nonce=f0f1f2f3f4f5f6f7f8f9fafb
ad=76616c7665203132
text=636c6f7365
cipher=06bf4bf2a4
tag=da672106d0b341a823aa0ef5
rounds=32
";

/// Gives the record of this chip.
fn of_chip(chip: &str) -> String {
    NEW.replace("chip=0", &format!("chip={chip}"))
}

/// Gives the cases.
#[rustfmt::skip]
pub fn cases() -> Vec<Case> {
    let (seven, most) = (of_chip("7"), of_chip("65535"));
    let broken = NEW.replace("rounds=32", "rounds=032");
    let broken_and_seven = broken.replace("chip=0", "chip=7");
    vec![
        moved("nothing forward", FORWARD, &[], &[], "done: records=0"),
        moved("nothing back", BACK, &[], &[], "done: records=0"),
        moved("one forward", FORWARD, &[OLD], &[NEW], "done: records=1"),
        moved("one back", BACK, &[NEW], &[OLD], "done: records=1"),
        moved("three forward", FORWARD, &[OLD; 3], &[NEW; 3], "done: records=3"),
        moved("three back", BACK, &[NEW; 3], &[OLD; 3], "done: records=3"),
        moved("other rounds", BACK, &[&NEW.replace("rounds=32", "rounds=0")], &[&OLD.replace("rounds=32", "rounds=0")], "done: records=1"),
        refused("chip 7", BACK, &[&seven], "refused: answer=11 record=1"),
        refused("chip 1", BACK, &[&of_chip("1")], "refused: answer=11 record=1"),
        refused("chip 65535", BACK, &[&most], "refused: answer=11 record=1"),
        refused("chip 7 in the second", BACK, &[NEW, &seven, NEW], "refused: answer=11 record=2"),
        refused("chip 7 in the last", BACK, &[NEW, NEW, &seven], "refused: answer=11 record=3"),
        refused("two chips", BACK, &[NEW, &seven, &most], "refused: answer=11 record=2"),
        refused("a broken one behind a chip", BACK, &[&seven, &broken], "refused: answer=11 record=1"),
        refused("a chip behind a broken one", BACK, &[&broken, &seven], "refused: answer=10 record=1 line=10 column=9"),
        refused("a broken one of chip 7", BACK, &[&broken_and_seven], "refused: answer=10 record=1 line=10 column=9"),
        refused("no chip", BACK, &[&of_chip("")], "refused: answer=10 record=1 line=3 column=6"),
        refused("chip 00", BACK, &[&of_chip("00")], "refused: answer=10 record=1 line=3 column=7"),
        refused("chip 65536", BACK, &[&of_chip("65536")], "refused: answer=10 record=1 line=3 column=10"),
        refused("chip 70000", BACK, &[&of_chip("70000")], "refused: answer=10 record=1 line=3 column=10"),
        refused("chip 100000", BACK, &[&of_chip("100000")], "refused: answer=10 record=1 line=3 column=11"),
        refused("chip x", BACK, &[NEW, &of_chip("x")], "refused: answer=10 record=2 line=3 column=6"),
        refused("form 1 going back", BACK, &[OLD], "refused: answer=10 record=1 line=1 column=1"),
        refused("form 1 behind form 2", BACK, &[NEW, OLD], "refused: answer=10 record=2 line=1 column=1"),
        refused("form 2 going forward", FORWARD, &[NEW], "refused: answer=10 record=1 line=1 column=1"),
        refused("form 2 of chip 7 going forward", FORWARD, &[&seven], "refused: answer=10 record=1 line=1 column=1"),
        refused("form 2 behind form 1", FORWARD, &[OLD, OLD, NEW], "refused: answer=10 record=3 line=1 column=1"),
        refused("form 1 is no value", BACK, &[&NEW.replace("form=2", "form=1")], "refused: answer=10 record=1 line=1 column=6"),
        refused("form 3", BACK, &[&NEW.replace("form=2", "form=3")], "refused: answer=10 record=1 line=1 column=6"),
        refused("half of the first name", BACK, &["fo"], "refused: answer=10 record=1 line=1 column=3"),
        refused("a broken line", FORWARD, &[OLD, &OLD.replace("ad=7", "ad=g")], "refused: answer=10 record=2 line=4 column=4"),
        refused("a broken line going back", BACK, &[NEW, &NEW.replace("ad=7", "ad=g")], "refused: answer=10 record=2 line=6 column=4"),
        refused("no last line feed", FORWARD, &[OLD.trim_end()], "refused: answer=10 record=1 line=8 column=10"),
        refused("no last line feed going back", BACK, &[NEW.trim_end()], "refused: answer=10 record=1 line=10 column=10"),
        refused("an empty line behind it", FORWARD, &[OLD, "\n"], "refused: answer=10 record=2 line=1 column=1"),
        refused("an empty line behind it going back", BACK, &[NEW, "\n"], "refused: answer=10 record=2 line=1 column=1"),
    ]
}
