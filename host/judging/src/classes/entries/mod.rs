//! The classes of test files, each of entries of one set, and of files for no set.

mod any_line;
mod counts;
mod cuts;
mod digits;
mod in_a_row;
mod lengths;
mod of_length;
mod others;
mod places;

pub use of_length::of_length;

use super::mutations::mutated_entries;
use super::{Own, Row};
use crate::input::Input;
use second::cipher::{Set, SETS};

/// A class that each set has.
type Of = Row<&'static Set, { SETS.len() }>;

/// The classes, with their numbers of inputs of each set; one that has none of a set is left to the others, so that the gate stays short.
#[rustfmt::skip]
pub const ROWS: [Of; 37] = [
    Row { name: "nothing", inputs: [1, 1, 1, 1], make: |set| vec![Input::done("nothing", "", set, 0)] },
    Row { name: "right entries in a row", inputs: [14, 14, 14, 14], make: in_a_row::right },
    Row { name: "right entries around block edges", inputs: [13, 13, 13, 13], make: in_a_row::around_block_edges },
    Row { name: "as much as is held", inputs: [10, 10, 0, 0], make: in_a_row::as_much_as_is_held },
    Row { name: "around buffer edges", inputs: [18, 18, 0, 0], make: in_a_row::around_buffer_edges },
    Row { name: "ciphers of another length than the text", inputs: [14, 14, 14, 14], make: lengths::other_ciphers },
    Row { name: "lengths of PT and AD", inputs: [20, 20, 0, 0], make: lengths::up_to_256 },
    Row { name: "lengths of CT", inputs: [30, 30, 30, 30], make: lengths::of_ct },
    Row { name: "lengths of key and nonce", inputs: [12, 12, 12, 12], make: lengths::exact },
    Row { name: "lines far too long", inputs: [35, 35, 0, 0], make: lengths::far_too_long },
    Row { name: "counts", inputs: [116, 116, 0, 0], make: counts::values },
    Row { name: "counts in a row", inputs: [15, 15, 0, 0], make: counts::in_a_row },
    Row { name: "each line damaged", inputs: [204, 0, 0, 0], make: |set| any_line::damaged(set, 1) },
    Row { name: "a third entry with each line damaged", inputs: [0, 204, 0, 0], make: |set| any_line::damaged(set, 3) },
    Row { name: "lines doubled or moved", inputs: [16, 16, 0, 0], make: |set| any_line::moved(set, 1) },
    Row { name: "a third entry with lines doubled or moved", inputs: [16, 16, 0, 0], make: |set| any_line::moved(set, 3) },
    Row { name: "ends of an entry", inputs: [17, 17, 0, 0], make: |set| any_line::ends(set, 1) },
    Row { name: "ends of a third entry", inputs: [17, 17, 0, 0], make: |set| any_line::ends(set, 3) },
    Row { name: "wrong digits", inputs: [85, 85, 0, 0], make: digits::wrong },
    Row { name: "each character as a digit", inputs: [256, 256, 0, 0], make: digits::each_character },
    Row { name: "odd digits", inputs: [25, 25, 0, 0], make: |set| digits::odd(set, 1) },
    Row { name: "a third entry with odd digits", inputs: [25, 25, 0, 0], make: |set| digits::odd(set, 3) },
    Row { name: "three entries cut at every byte", inputs: [448, 376, 0, 0], make: cuts::three },
    Row { name: "two entries with g at every place", inputs: [300, 252, 0, 0], make: places::letters },
    Row { name: "two entries with the other case at every place", inputs: [300, 0, 0, 0], make: places::other_case },
    Row { name: "two entries with a carriage return before every place", inputs: [0, 252, 0, 0], make: places::carriage_returns },
    Row { name: "two entries with a line feed before every place", inputs: [300, 0, 0, 0], make: places::line_feeds },
    Row { name: "two entries without one character", inputs: [0, 252, 0, 0], make: places::removed },
    Row { name: "one broken in a row", inputs: [21, 21, 0, 0], make: in_a_row::broken },
    Row { name: "two broken lines", inputs: [15, 15, 0, 0], make: in_a_row::two_lines },
    Row { name: "the first refused decides", inputs: [155, 0, 0, 0], make: in_a_row::first_decides },
    Row { name: "bytes after the last entry", inputs: [36, 36, 0, 0], make: in_a_row::trailing },
    Row { name: "entries of a set with other keys", inputs: [6, 6, 6, 6], make: others::other_set },
    Row { name: "records", inputs: [9, 9, 0, 0], make: others::records },
    Row { name: "other test files", inputs: [11, 11, 0, 0], make: others::files },
    Row { name: "one byte mutated", inputs: [120, 120, 120, 120], make: |set| mutated_entries(set) },
    Row { name: "written by chance", inputs: [40, 40, 40, 40], make: in_a_row::by_chance },
];

/// The class of files for a set that there is not.
pub const OF_NO_SET: Own = ("files for no set", 9, others::for_no_set);
