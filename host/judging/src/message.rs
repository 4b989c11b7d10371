//! Pseudo-random messages, sealed by the second program.

use second::cipher::Set;
use second::make::right_record;
use second::random::Random;
use second::record::Record;
use second::vectors::chip;

/// Gives the right record of a message with data and text of these lengths, of a chip that they choose.
pub fn right_of(set: &Set, ad: usize, text: usize) -> Record {
    let mut random = Random::new((set.number << 32) + ((ad as u64) << 16) + text as u64);
    let turn = (ad + 2 * text) as u64;
    let mut bytes = |count| random.bytes(count);
    let (key, nonce, ad, text) = (bytes(set.key), bytes(set.key), bytes(ad), bytes(text));
    let record = right_record(set.number, &key, &nonce, &ad, &text);
    Record {
        chip: chip(&mut random, turn),
        ..record.expect("the message fits a record")
    }
}
