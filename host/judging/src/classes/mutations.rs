//! Right records, entries and logs in which chance has changed a byte.

use crate::entry::Entry;
use crate::input::Input;
use crate::lines::Lines;
use crate::log::{message, startable};
use second::cipher::{Set, SETS};
use second::random::Random;
use second::record::Form;
use second::replay::right_log;

const INPUTS: usize = 120;

/// Bytes that a record could hold at another place, and some that it never holds.
const BYTES: &[u8] = b"0123456789abcdefABF= \n\r\t\0gxst\x80\xff";

/// Makes a right record, entry or log of a message; the number is that of its place in the row, counted from 1.
type Make<'a> = &'a dyn Fn(&mut Random, usize) -> Vec<u8>;

/// Gives rows of up to four short records of these forms, one of them with a byte changed, removed, inserted or doubled.
pub fn mutated(forms: &[Form]) -> Vec<Input> {
    rows_of(&|random, _| record(forms, random))
}

/// Gives such rows of entries of a set.
pub fn mutated_entries(set: &Set) -> Vec<Input> {
    rows_of(&|random, place| Entry::right(set, place, random.below(41), random.below(41)).bytes())
}

/// Gives such rows of messages, of each the log.
pub fn mutated_logs() -> Vec<Input> {
    rows_of(&|random, _| {
        let [data, text] = [random.below(41), random.below(41)];
        right_log(&message(
            &startable()[random.below(2)],
            &[data, 0],
            &[text, 9],
        ))
    })
}

/// Gives rows of up to four of what is made, one of them mutated.
fn rows_of(make: Make) -> Vec<Input> {
    let mut random = Random::new(2_025);
    (0..INPUTS)
        .map(|number| input(make, &mut random, number))
        .collect()
}

/// Gives one such row.
fn input(make: Make, random: &mut Random, number: usize) -> Input {
    let before = rows(make, random, 1, 3);
    let own = before.len() + 1;
    let after = rows(make, random, own + 1, 2);
    let mut record = make(random, own);
    let place = random.below(record.len());
    let byte = BYTES[random.below(BYTES.len())];
    let what = match number % 4 {
        0 => {
            record[place] = byte;
            "changed"
        }
        1 => {
            record.remove(place);
            "removed"
        }
        2 => {
            record.insert(place, byte);
            "inserted"
        }
        _ => {
            record.insert(place, record[place]);
            "doubled"
        }
    };
    let name = format!("{number:03} byte {place} {what}");
    Input::told(name, [before.concat(), record, after.concat()].concat())
}

/// Gives fewer than the number given of what is made, from this place on.
fn rows(make: Make, random: &mut Random, first: usize, end: usize) -> Vec<Vec<u8>> {
    let count = random.below(end);
    let places = first..first + count;
    places.map(|place| make(random, place)).collect()
}

/// Gives a right record with at most 40 bytes of data and of text.
fn record(forms: &[Form], random: &mut Random) -> Vec<u8> {
    let set = &SETS[random.below(SETS.len())];
    let form = match forms {
        [only] => *only,
        _ => forms[random.below(forms.len())],
    };
    Lines::right(form, set, random.below(41), random.below(41)).bytes()
}
