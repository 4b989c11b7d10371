//! Counts that are not the entry's place.

use crate::entry::{short_up_to, Entry, Part};
use crate::input::Input;
use crate::text::column;
use second::cipher::Set;

/// The places whose counts are put wrong.
const PLACES: [usize; 4] = [1, 2, 10, 100];

/// What stands in place of a count.
type Other = (&'static str, fn(usize) -> String);

#[rustfmt::skip]
const OTHERS: [Other; 29] = [
    ("empty", |_| String::new()),
    ("0", |_| "0".to_string()),
    ("counted from 0", |place| (place - 1).to_string()),
    ("skipping one", |place| (place + 1).to_string()),
    ("skipping ten", |place| (place + 10).to_string()),
    ("a zero in front", |place| format!("0{place}")),
    ("ten digits", |place| format!("{place:010}")),
    ("twenty digits", |place| format!("{place:020}")),
    ("a zero behind", |place| format!("{place}0")),
    ("twice", |place| format!("{place}{place}")),
    ("a digit fewer in front", |place| place.to_string()[1..].to_string()),
    ("a digit fewer behind", |place| (place / 10).to_string()),
    ("more by 2 to the 8", |place| (place + (1 << 8)).to_string()),
    ("more by 2 to the 16", |place| (place + (1 << 16)).to_string()),
    ("more by 2 to the 32", |place| (place + (1 << 32)).to_string()),
    ("more by 2 to the 64", |place| (place as u128 + (1 << 64)).to_string()),
    ("18446744073709551615", |_| u64::MAX.to_string()),
    ("thirty nines", |_| "9".repeat(30)),
    ("plus", |place| format!("+{place}")),
    ("minus", |place| format!("-{place}")),
    ("a blank before", |place| format!(" {place}")),
    ("a blank after", |place| format!("{place} ")),
    ("a point after", |place| format!("{place}.")),
    ("a letter after", |place| format!("{place}A")),
    ("hex with its sign", |place| format!("0x{place:X}")),
    ("hex of another count", |place| format!("{:X}", place + 160)),
    ("a carriage return after", |place| format!("{place}\r")),
    ("a zero byte after", |place| format!("{place}\0")),
    ("in words", |_| "one".to_string()),
];

/// Gives files of which the entry at one place has another count.
pub fn values(set: &Set) -> Vec<Input> {
    let mut inputs = Vec::new();
    for place in PLACES {
        let before = short_up_to(set, place - 1);
        for (what, other) in OTHERS {
            let value = other(place);
            let entry = Entry::short(set, place).with_value(Part::Count, &value);
            let after = Entry::short(set, place + 1);
            let bytes = [&before[..], &entry.bytes(), &after.bytes()].concat();
            let fault = [place, 1, column(Part::Count, shared(place, &value))];
            let what = format!("entry {place} {what}");
            inputs.push(Input::broken_at(what, bytes, set, fault));
        }
    }
    inputs
}

/// Gives how many characters of a line with this value are those of the count's own line.
fn shared(count: usize, value: &str) -> usize {
    let [own, other] = [count.to_string(), value.to_string()].map(|value| value + "\n");
    let pairs = own.bytes().zip(other.bytes());
    pairs.take_while(|(one, other)| one == other).count()
}

/// Gives files whose counts go on in another way, with the first entry that is wrong.
pub fn in_a_row(set: &Set) -> Vec<Input> {
    let counted = |counts: &[usize]| -> Vec<u8> {
        let entry = |count: &usize| Entry::short(set, *count).bytes();
        counts.iter().flat_map(entry).collect()
    };
    let up_to = |last: usize| (1..=last).collect::<Vec<_>>();
    [
        ("from 0", vec![0, 1, 2], 1),
        ("from 2", vec![2, 3, 4], 1),
        ("all 0", vec![0; 3], 1),
        ("all 1", vec![1; 3], 2),
        ("1 and 3", vec![1, 3, 4], 2),
        ("2 twice", vec![1, 2, 2, 3], 3),
        ("2 and 4", vec![1, 2, 4], 3),
        ("back to 1", vec![1, 2, 1], 3),
        ("downwards", vec![3, 2, 1], 1),
        ("two files in one", vec![1, 2, 3, 1, 2, 3], 4),
        ("9 twice", [up_to(9), vec![9, 10]].concat(), 10),
        ("9 and 11", [up_to(9), vec![11]].concat(), 10),
        ("10 twice", [up_to(10), vec![10]].concat(), 11),
        ("9 and 1", [up_to(9), vec![1]].concat(), 10),
        ("99 and 10", [up_to(99), vec![10]].concat(), 100),
    ]
    .map(|(what, counts, first)| {
        let wrong = counts[first - 1].to_string();
        let fault = [first, 1, column(Part::Count, shared(first, &wrong))];
        Input::broken_at(what, counted(&counts), set, fault)
    })
    .into()
}
