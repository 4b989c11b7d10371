//! What a call gave out, of another length, with another bit, or where it gives nothing.

use crate::input::Input;
use crate::log::{ad, bytes_of, finish, logged, message, start, startable, text, Line, Logged};
use second::cipher::Set;

/// Gives the entries of a short message, and the places of those that give something out.
fn giving(set: &Set) -> (Vec<Logged>, [usize; 2]) {
    (logged(&message(set, &[3], &[17])), [2, 3])
}

/// Gives the log of the entries with this out at a place, where it differs.
fn with_out(what: String, entries: &[Logged], place: usize, out: Vec<u8>) -> Input {
    let mut all = entries.to_vec();
    all[place] = all[place].with_value(Line::Out, out);
    Input::first_differs(what, bytes_of(&all), place + 1, "out")
}

/// Gives ciphertexts and tags cut at every length, and those that go on.
pub fn lengths() -> Vec<Input> {
    let mut inputs = Vec::new();
    for set in startable() {
        let (entries, places) = giving(set);
        for place in places {
            let right = entries[place].value(Line::Out).to_vec();
            let bytes = right.len() / 2;
            let longer = [bytes + 1, bytes + 2, 2 * bytes, 256];
            for length in (0..bytes).chain(longer) {
                let out = match length < bytes {
                    true => right[..2 * length].to_vec(),
                    false => [&right[..], &b"00".repeat(length - bytes)].concat(),
                };
                let what = format!("set {} entry {} of {length} bytes", set.number, place + 1);
                inputs.push(with_out(what, &entries, place, out));
            }
        }
        // Another message's first bytes are no out of a longer one.
        let doubled = entries[2].value(Line::Out).repeat(2);
        let what = format!("set {} out doubled", set.number);
        inputs.push(with_out(what, &entries, 2, doubled));
    }
    inputs
}

/// Gives ciphertexts and tags with another bit in each of their bytes.
pub fn bits() -> Vec<Input> {
    let mut inputs = Vec::new();
    for set in startable() {
        let (entries, places) = giving(set);
        for place in places {
            let right = entries[place].value(Line::Out);
            for (byte, digits) in right.chunks(2).enumerate() {
                let text = std::str::from_utf8(digits).expect("digits");
                let number = u8::from_str_radix(text, 16).expect("two digits");
                let other = format!("{:02x}", number ^ (1 << (byte % 8)));
                let mut out = right.to_vec();
                out[2 * byte..2 * byte + 2].copy_from_slice(other.as_bytes());
                let what = format!("set {} entry {} byte {byte}", set.number, place + 1);
                inputs.push(with_out(what, &entries, place, out));
            }
        }
    }
    inputs
}

/// Gives calls that give nothing out, done or refused, with something there; the sets take turns.
pub fn none() -> Vec<Input> {
    let mut inputs = Vec::new();
    for (turn, out) in ["00".to_string(), "5a".repeat(16), "ff".repeat(256)]
        .into_iter()
        .enumerate()
    {
        let set = &startable()[turn % 2];
        for (what, calls) in [
            ("start", vec![start(set)]),
            ("ad", vec![start(set), ad(16)]),
            ("empty ad", vec![start(set), ad(0)]),
            ("empty text", vec![start(set), text(0)]),
            ("refused ad", vec![start(set), text(16), ad(16)]),
            ("refused text", vec![text(16)]),
            ("refused finish", vec![start(set), finish(), finish()]),
        ] {
            let entries = logged(&calls);
            let what = format!("{what} {} bytes", out.len() / 2);
            let last = entries.len() - 1;
            inputs.push(with_out(what, &entries, last, out.clone().into_bytes()));
        }
    }
    inputs
}
