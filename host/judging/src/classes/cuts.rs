//! Records that end too early.

use crate::input::{Input, Said};
use crate::lines::{fault_column, Lines};
use second::cipher::SETS;
use second::record::Form;

/// Gives a record of sets 1 and 2 each, cut at each of its bytes, from none of them to all; that of this set is the shorter one.
pub fn every(form: Form, short: usize) -> Vec<Input> {
    let mut inputs = Vec::new();
    for (set, ad, text) in [(&SETS[short], 1, 2), (&SETS[1 - short], 5, 6)] {
        let whole = Lines::right(form, set, ad, text).bytes();
        for length in 0..=whole.len() {
            let bytes = &whole[..length];
            let parts: Vec<&[u8]> = bytes.split(|byte| *byte == b'\n').collect();
            let (number, rest) = (parts.len(), parts[parts.len() - 1]);
            let said: &[Said] = match form.lines().get(number - 1) {
                _ if length == 0 => &[],
                Some(line) => &[Said::UnreadAt(number, fault_column(*line, rest.len()))],
                None => &[Said::Equal],
            };
            let what = format!("set {} the first {length} bytes", set.number);
            inputs.push(Input::of(what, bytes, said));
        }
    }
    inputs
}
