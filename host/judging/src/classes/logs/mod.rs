//! The classes of logs that are replayed.

mod by_chance;
mod by_hand;
mod calls;
mod cuts;
mod data;
mod fields;
mod in_a_row;
mod limits;
mod lines;
mod messages;
mod numbers;
mod outs;
mod refusals;
mod restarts;

use super::mutations::mutated_logs;
use super::Own;

/// The classes, with their numbers of inputs.
#[rustfmt::skip]
pub const OWN: [Own; 36] = [
    ("written by hand", 21, by_hand::cases),
    ("messages cut into pieces", 72, messages::cut),
    ("rows of pieces", 24, messages::rows),
    ("logs that end with an open stream", 18, messages::open),
    ("every row of four calls", 30, refusals::rows),
    ("chips that refuse otherwise", 24, refusals::otherwise),
    ("limits of data", 14, limits::of_data),
    ("limits of text", 9, limits::of_text),
    ("restarts in an open stream", 36, restarts::right),
    ("chips that restart otherwise", 18, restarts::otherwise),
    ("fields that differ", 91, fields::differing),
    ("two entries that differ or break", 102, fields::two),
    ("answers", 79, fields::answers),
    ("rounds", 46, fields::rounds),
    ("outs cut off or too long", 80, outs::lengths),
    ("outs with another bit", 62, outs::bits),
    ("outs of calls that give none", 21, outs::none),
    ("a log cut at every byte", 542, cuts::every),
    ("a long log cut by chance", 40, cuts::by_chance),
    ("each line damaged", 130, || lines::damaged(1)),
    ("a third entry with each line damaged", 130, || lines::damaged(3)),
    ("lines doubled or moved", 22, lines::moved),
    ("names of calls", 66, calls::names),
    ("data of a start", 32, data::of_starts),
    ("data of an end", 16, data::of_ends),
    ("lengths of data and outs", 42, data::lengths),
    ("wrong digits", 76, data::wrong_digits),
    ("each character as a digit", 256, data::each_character),
    ("answers and rounds out of form", 104, numbers::broken),
    ("bytes behind the deciding entry", 56, in_a_row::behind),
    ("bytes behind the last entry", 34, in_a_row::trailing),
    ("entries in a row", 18, in_a_row::agreeing),
    ("entries in a row and one that differs or breaks", 36, in_a_row::deciding),
    ("around buffer edges", 36, in_a_row::around_buffer_edges),
    ("one byte mutated", 120, mutated_logs),
    ("calls by chance", 150, by_chance::calls),
];
