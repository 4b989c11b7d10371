//! The classes of inputs, each with the number of inputs that it has to come to.

mod any_line;
pub mod by_hand;
mod cuts;
mod digits;
mod edges;
mod entries;
mod exported;
mod form_2;
mod in_a_row;
mod largest;
mod lengths;
mod logs;
mod mixed;
mod moved;
mod mutations;
mod numbers;
mod places;
mod verdicts;

pub use edges::row;
pub use entries::of_length;
pub use in_a_row::{many, many_in};
pub use largest::largest;
pub use moved::HELD;

use crate::input::Input;
use crate::program::Task;
use in_a_row::behind_two;
use second::cipher::{set_of, Set, SETS};
use second::moving::Direction::{Back, Forward};
use second::record::Form::{self, One, Two};

/// A class: what it is, how many inputs it has, and what makes them.
pub struct Class {
    pub name: String,
    pub inputs: usize,
    pub make: Box<dyn Fn() -> Vec<Input>>,
}

/// A class that each form or each set has: what it is, how many inputs it has in each of the N forms or sets, and what makes them.
struct Row<K = Form, const N: usize = 2> {
    name: &'static str,
    inputs: [usize; N],
    make: fn(K) -> Vec<Input>,
}

impl Row {
    /// Gives the class in a form.
    fn of(&self, form: Form) -> Class {
        match form {
            One => self.at(0, form, ""),
            Two => self.at(1, form, "form 2 "),
        }
    }
}

impl Row<&'static Set, { SETS.len() }> {
    /// Gives the class of a set.
    fn of(&self, set: &'static Set) -> Class {
        self.at(set.number as usize - 1, set, "")
    }
}

impl<K: Copy + 'static, const N: usize> Row<K, N> {
    /// Gives the class that has this place among the row's, of this kind, and words before its name.
    fn at(&self, place: usize, kind: K, before: &str) -> Class {
        let make = self.make;
        Class {
            name: format!("{before}{}", self.name),
            inputs: self.inputs[place],
            make: Box::new(move || make(kind)),
        }
    }
}

/// Gives a set whose keys have another length.
fn with_other_keys(set: &Set) -> &'static Set {
    let other = SETS.iter().find(|other| other.key != set.key);
    other.expect("keys have one of two lengths")
}

/// A class that only one form has, or that has inputs of both: what it is, how many inputs it has, and what makes them.
type Own = (&'static str, usize, fn() -> Vec<Input>);

/// Gives the classes that are judged.
fn judged() -> Vec<Class> {
    let of = |form| IN_EACH_FORM.iter().map(move |row| row.of(form));
    of(One)
        .chain(of(Two))
        .chain(IN_BOTH_FORMS.map(own))
        .collect()
}

/// Gives the classes of inputs for a task.
pub fn classes_of(task: Task) -> Vec<Class> {
    match task {
        Task::Judge => judged(),
        Task::Move(Forward) => moved(One),
        Task::Move(Back) => moved(Two),
        Task::Import(number) => match set_of(number) {
            Some(set) => of_set(set),
            None => vec![own(entries::OF_NO_SET)],
        },
        Task::Export => exported(),
        Task::Replay => logs::OWN.map(own).into(),
    }
}

/// Gives the classes that are moved from this form to the other.
fn moved(form: Form) -> Vec<Class> {
    let rows = moved::READ.iter().chain(&moved::MOVED);
    rows.map(|row| row.of(form)).collect()
}

/// Gives the classes of test files of a set, without those that only others have.
fn of_set(set: &'static Set) -> Vec<Class> {
    let classes = entries::ROWS.iter().map(|row| row.of(set));
    classes.filter(|class| class.inputs > 0).collect()
}

/// Gives the classes of records that become entries.
fn exported() -> Vec<Class> {
    let read = moved::READ.iter().map(|row| row.of(One));
    read.chain(exported::OWN.map(own)).collect()
}

/// Gives such a class.
fn own((name, inputs, make): Own) -> Class {
    Class {
        name: name.to_string(),
        inputs,
        make: Box::new(make),
    }
}

/// The judged classes that each form has; the numbers are written down so that a class that shrinks is noticed.
#[rustfmt::skip]
const IN_EACH_FORM: [Row; 38] = [
    Row { name: "written by hand", inputs: [19, 23], make: by_hand::whole_cases },
    Row { name: "each line damaged", inputs: [208, 260], make: |form| any_line::damaged(form, 0) },
    Row { name: "lines doubled or moved", inputs: [19, 23], make: |form| any_line::moved(form, 0) },
    Row { name: "wrong digits", inputs: [90, 90], make: digits::wrong },
    Row { name: "each character as a digit", inputs: [512, 512], make: digits::each_character },
    Row { name: "odd digits", inputs: [24, 24], make: |form| digits::odd(form, 0) },
    Row { name: "lengths of key nonce and tag", inputs: [64, 64], make: lengths::exact },
    Row { name: "lengths of ad text and cipher", inputs: [36, 36], make: lengths::up_to_256 },
    Row { name: "lines far too long", inputs: [40, 50], make: lengths::far_too_long },
    Row { name: "set values", inputs: [31, 31], make: |form| numbers::sets(form, 0) },
    Row { name: "rounds out of form", inputs: [108, 108], make: numbers::rounds_broken },
    Row { name: "rounds in form", inputs: [40, 40], make: numbers::rounds_in_form },
    Row { name: "records called another set", inputs: [6, 6], make: verdicts::called_another },
    Row { name: "fields that differ", inputs: [112, 112], make: verdicts::differing },
    Row { name: "ciphers of another length than the text", inputs: [56, 56], make: verdicts::other_lengths },
    Row { name: "ciphers cut off at every length", inputs: [56, 56], make: verdicts::cut_off },
    Row { name: "ciphers that go on", inputs: [48, 48], make: verdicts::lengthened },
    Row { name: "right records around block edges", inputs: [52, 52], make: verdicts::right },
    Row { name: "one broken in a row", inputs: [24, 30], make: in_a_row::broken },
    Row { name: "bytes after the last record", inputs: [32, 32], make: in_a_row::trailing },
    Row { name: "many records", inputs: [6, 6], make: in_a_row::long },
    Row { name: "cut at every byte", inputs: [316, 348], make: |form| cuts::every(form, 0) },
    Row { name: "around buffer edges", inputs: [72, 72], make: edges::around },
    Row { name: "the largest record", inputs: [12, 13], make: largest::around },
    Row { name: "one byte mutated", inputs: [120, 120], make: |form| mutations::mutated(&[form]) },
    Row { name: "faults written by hand", inputs: [23, 21], make: by_hand::faults },
    Row { name: "a wrong character at every place", inputs: [314, 343], make: places::wrong_characters },
    Row { name: "a line feed at every place", inputs: [314, 343], make: places::line_feeds },
    Row { name: "each character in a number", inputs: [768, 1_536], make: numbers::each_character },
    Row { name: "wrong digits in the largest record", inputs: [72, 72], make: largest::wrong_digits },
    Row { name: "a third record with each line damaged", inputs: [208, 260], make: |form| behind_two(form, any_line::damaged(form, 1)) },
    Row { name: "a third record with lines doubled or moved", inputs: [19, 23], make: |form| behind_two(form, any_line::moved(form, 1)) },
    Row { name: "a third record with odd digits", inputs: [24, 24], make: |form| behind_two(form, digits::odd(form, 1)) },
    Row { name: "a third record with other lengths of key nonce and tag", inputs: [64, 64], make: |form| behind_two(form, lengths::exact(form)) },
    Row { name: "a third record with other lengths of ad text and cipher", inputs: [36, 36], make: |form| behind_two(form, lengths::up_to_256(form)) },
    Row { name: "a third record with set values", inputs: [31, 31], make: |form| behind_two(form, numbers::sets(form, 1)) },
    Row { name: "a third record with rounds out of form", inputs: [108, 108], make: |form| behind_two(form, numbers::rounds_broken(form)) },
    Row { name: "a third record cut at every byte", inputs: [316, 348], make: |form| behind_two(form, cuts::every(form, 1)) },
];

/// The judged classes of what only form 2 has, and of both forms in one input.
#[rustfmt::skip]
const IN_BOTH_FORMS: [Own; 11] = [
    ("form lines", 112, form_2::form_lines),
    ("chips", 80, form_2::chips),
    ("chips out of form", 90, form_2::no_chips),
    ("both forms in every order", 258, mixed::orders),
    ("both forms and many records", 5, mixed::long),
    ("both forms by chance", 100, mixed::by_chance),
    ("both forms and one byte mutated", 120, || mutations::mutated(&[One, Two])),
    ("behind form 1 a form 2 record damaged", 260, || behind_two(One, any_line::damaged(Two, 1))),
    ("behind form 1 a form 2 record cut at every byte", 348, || behind_two(One, cuts::every(Two, 1))),
    ("behind form 2 a form 1 record damaged", 208, || behind_two(Two, any_line::damaged(One, 1))),
    ("behind form 2 a form 1 record cut at every byte", 316, || behind_two(Two, cuts::every(One, 1))),
];
