//! Answers and rounds that have no right form.

use crate::classes::numbers::broken_decimals;
use crate::input::Input;
use crate::log::{bytes_of, logged, message, startable, Line};

/// Gives each of these in place of the answer and of the rounds, of a start and of a piece.
pub fn broken() -> Vec<Input> {
    let mut inputs = Vec::new();
    for line in [Line::Answer, Line::Rounds] {
        for place in [0, 2] {
            let entries = logged(&message(&startable()[place / 2], &[3], &[20]));
            let right = entries[place].number_in(line);
            let own = ("a carriage return", format!("{right}\r"));
            for (what, value) in broken_decimals(right).into_iter().chain([own]) {
                let mut all = entries.clone();
                all[place] = all[place].with_value(line, value);
                let what = format!("entry {} {line:?} {what}", place + 1);
                let fault = [place + 1, all[place].number(line)];
                inputs.push(Input::first_breaks(what, bytes_of(&all), fault));
            }
        }
    }
    inputs
}
