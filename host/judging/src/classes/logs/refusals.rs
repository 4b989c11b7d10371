//! Calls that are refused, since there is no open stream, or since it takes no more data.

use crate::classes::mixed::every_row;
use crate::input::Input;
use crate::log::{ad, bytes_of, finish, logged, start, startable, text, Handed, Line};
use second::replay::right_log;

/// How many rows stand in one log.
const TOGETHER: usize = 26;

/// Gives every row of one to four calls, each behind an ended stream; what each leaves open is ended, which is refused where nothing is open.
pub fn rows() -> Vec<Input> {
    let calls = [
        start(&startable()[0]),
        start(&startable()[1]),
        ad(3),
        text(5),
        finish(),
    ];
    let rows = every_row(&calls, 4);
    let together = |(number, rows): (usize, &[Vec<Handed>])| {
        let ended = rows.iter().flat_map(|row| [&row[..], &[finish()]].concat());
        let calls: Vec<Handed> = ended.collect();
        let what = format!("rows from {}", number * TOGETHER);
        Input::agrees(what, right_log(&calls), calls.len())
    };
    rows.chunks(TOGETHER).enumerate().map(together).collect()
}

/// Gives logs in which a refused call is said to be done, with what an open stream would have given, or a right call to be refused.
pub fn otherwise() -> Vec<Input> {
    let mut inputs = Vec::new();
    for set in startable() {
        let refused = [
            ("data before a start", vec![ad(3)]),
            ("text before a start", vec![text(3)]),
            ("an end before a start", vec![finish()]),
            ("data behind text", vec![start(set), text(3), ad(3)]),
            ("data behind no text", vec![start(set), text(0), ad(0)]),
            ("data behind the end", vec![start(set), finish(), ad(3)]),
            ("text behind the end", vec![start(set), finish(), text(3)]),
            ("two ends", vec![start(set), finish(), finish()]),
        ];
        for (what, calls) in refused {
            let mut entries = logged(&calls);
            let last = entries.len() - 1;
            entries[last] = entries[last].with_value(Line::Answer, "0");
            let what = format!("set {} {what}", set.number);
            let bytes = bytes_of(&entries);
            inputs.push(Input::first_differs(what, bytes, entries.len(), "answer"));
        }
        let done = [
            ("a start", vec![start(set)]),
            ("data", vec![start(set), ad(3)]),
            ("text", vec![start(set), text(3)]),
            ("an end", vec![start(set), finish()]),
        ];
        for (what, calls) in done {
            let mut entries = logged(&calls);
            let last = entries.len() - 1;
            let refused = entries[last].with_value(Line::Answer, "7");
            entries[last] = refused
                .with_value(Line::Out, "")
                .with_value(Line::Rounds, "0");
            let what = format!("set {} {what} refused", set.number);
            let bytes = bytes_of(&entries);
            inputs.push(Input::first_differs(what, bytes, entries.len(), "answer"));
        }
    }
    inputs
}
