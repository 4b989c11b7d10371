//! Files that end too early.

use crate::entry::Entry;
use crate::input::Input;
use second::cipher::Set;

/// Gives three entries cut at each of their bytes, from none of them to all.
pub fn three(set: &Set) -> Vec<Input> {
    let entries = [1, 2, 3].map(|count| Entry::right(set, count, count, 3 - count).bytes());
    let whole = entries.concat();
    let cut = |length| {
        let bytes = &whole[..length];
        let what = format!("the first {length} bytes");
        match place(&entries, length) {
            (right, None) => Input::done(what, bytes, set, right),
            (right, Some(begun)) => {
                let parts: Vec<&[u8]> = begun.split(|byte| *byte == b'\n').collect();
                let column = parts[parts.len() - 1].len() + 1;
                Input::broken_at(what, bytes, set, [right + 1, parts.len(), column])
            }
        }
    };
    (0..=whole.len()).map(cut).collect()
}

/// Gives how many whole entries the first bytes have, and what they have of the next, if anything.
fn place(entries: &[Vec<u8>], mut length: usize) -> (usize, Option<&[u8]>) {
    for (right, entry) in entries.iter().enumerate() {
        match length {
            0 => return (right, None),
            _ if length < entry.len() => return (right, Some(&entry[..length])),
            _ => length -= entry.len(),
        }
    }
    (entries.len(), None)
}
