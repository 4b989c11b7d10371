//! Files of another set, records and other texts in place of entries, and files for no set.

use crate::classes::with_other_keys;
use crate::entry::{short_up_to, Entry, Part};
use crate::input::Input;
use crate::lines::Lines;
use second::cipher::{Set, SETS};
use second::record::Form::{One, Two};

/// Gives files of which all entries or one are of such a set; the key of the first such one is at fault.
pub fn other_set(set: &Set) -> Vec<Input> {
    let fault = |entry| [entry, 2, 7 + 2 * set.key.min(with_other_keys(set).key)];
    let [own, others] =
        [set, with_other_keys(set)].map(|set| move |count| Entry::short(set, count).bytes());
    let keyed = Entry::short(with_other_keys(set), 1).with_value(Part::Key, "A5".repeat(set.key));
    let nonce_column = 9 + 2 * set.key.min(with_other_keys(set).key);
    vec![
        Input::broken_at("one", others(1), set, fault(1)),
        Input::broken_at("three", short_up_to(with_other_keys(set), 3), set, fault(1)),
        Input::broken_at("the second", [own(1), others(2)].concat(), set, fault(2)),
        Input::broken_at(
            "the third",
            [own(1), own(2), others(3), own(4)].concat(),
            set,
            fault(3),
        ),
        Input::broken_at(
            "the first of two",
            [others(1), own(2)].concat(),
            set,
            fault(1),
        ),
        Input::broken_at("with our key", keyed, set, [1, 3, nonce_column]),
    ]
}

/// Gives records of both forms, alone and behind entries or before them.
pub fn records(set: &Set) -> Vec<Input> {
    let [one, two] = [One, Two].map(|form| Lines::right(form, set, 3, 5).with_chip(0).bytes());
    let own = |count| Entry::short(set, count).bytes();
    let upper = one.to_ascii_uppercase();
    [
        ("form 1", one.clone(), 1),
        ("form 2", two.clone(), 1),
        ("three of form 1", one.repeat(3), 1),
        ("form 1 behind an entry", [own(1), one.clone()].concat(), 2),
        ("form 2 behind an entry", [own(1), two].concat(), 2),
        (
            "form 1 behind two",
            [own(1), own(2), one.clone()].concat(),
            3,
        ),
        ("form 1 before an entry", [one.clone(), own(1)].concat(), 1),
        ("an empty line and form 1", [b"\n", &one[..]].concat(), 1),
        ("upper-case form 1", upper, 1),
    ]
    .map(|(what, bytes, entry)| Input::broken_at(what, bytes, set, [entry, 1, 1]))
    .into()
}

/// Gives files as others write them: of hashes, with remarks, with tags apart, with other line ends.
pub fn files(set: &Set) -> Vec<Input> {
    let file = short_up_to(set, 2);
    let text = String::from_utf8(file).expect("plain text");
    let replaced = |from: &str, to: &str| text.replace(from, to).into_bytes();
    let hashes = "Count = 1\nMsg = \nMD = 0F\n\n";
    vec![
        Input::broken_at("hashes", hashes, set, [1, 2, 1]),
        Input::broken_at(
            "a remark in front",
            format!("# a file\n\n{text}"),
            set,
            [1, 1, 1],
        ),
        Input::broken_at("a mark in front", format!("\u{feff}{text}"), set, [1, 1, 1]),
        Input::broken_at("carriage returns", replaced("\n", "\r\n"), set, [1, 1, 10]),
        Input::broken_at("no empty lines", replaced("\n\n", "\n"), set, [1, 7, 1]),
        Input::broken_at(
            "two empty lines",
            replaced("\n\n", "\n\n\n"),
            set,
            [2, 1, 1],
        ),
        Input::broken_at("AD before PT", replaced("PT", "AD"), set, [1, 4, 1]),
        Input::broken_at("Npub", replaced("Nonce", "Npub"), set, [1, 3, 2]),
        Input::broken_at("no blanks", replaced(" = ", "="), set, [1, 1, 6]),
        Input::broken_at("COUNT", replaced("Count", "COUNT"), set, [1, 1, 2]),
        Input::broken("lower case", text.to_ascii_lowercase(), set, [1, 1]),
    ]
}

/// Gives files, right and wrong ones: for a set that there is not each is answered alike.
pub fn for_no_set() -> Vec<Input> {
    let [one, two] = [0, 1].map(|place| short_up_to(&SETS[place], 2));
    [
        ("nothing", vec![]),
        ("entries of set 1", one.clone()),
        ("entries of set 2", two.clone()),
        ("entries of both", [&one[..], &two].concat()),
        ("a broken entry", [b"x", &one[1..]].concat()),
        (
            "a broken second entry",
            [&two[..], b"Count = 3\nKey"].concat(),
        ),
        ("half an entry", one[..50].to_vec()),
        ("a line feed", b"\n".to_vec()),
        ("a record", Lines::short(One, 0).bytes()),
    ]
    .map(|(what, bytes)| Input::told(what, bytes))
    .into()
}
