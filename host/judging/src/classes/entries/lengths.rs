//! Fields and lines of other lengths than the rules give them.

use crate::classes::with_other_keys;
use crate::entry::{Entry, Part, PARTS};
use crate::input::Input;
use crate::text::{column, label};
use second::cipher::Set;

/// Gives keys and nonces of lengths that are not the set's.
pub fn exact(set: &Set) -> Vec<Input> {
    let other = with_other_keys(set).key;
    let entry = Entry::short(set, 1);
    let mut inputs = Vec::new();
    for line in [Part::Key, Part::Nonce] {
        let number = entry.number(line);
        for (what, length) in [
            ("one byte fewer", set.key - 1),
            ("one byte more", set.key + 1),
            ("no byte", 0),
            ("one byte", 1),
            ("twice as many", 2 * set.key),
            ("the other set's length", other),
        ] {
            let what = format!("line {number} {what}");
            let bytes = entry.with_value(line, "A5".repeat(length));
            let fault = [1, number, column(line, 2 * length.min(set.key))];
            inputs.push(Input::broken_at(what, bytes, set, fault));
        }
    }
    inputs
}

/// Gives text and data of none, of up to 256 bytes, and of more.
pub fn up_to_256(set: &Set) -> Vec<Input> {
    let mut inputs = Vec::new();
    for (ad, text) in [(0, 0), (0, 256), (256, 0), (255, 255), (256, 256), (1, 1)] {
        let entry = Entry::right(set, 1, ad, text);
        inputs.push(Input::done(format!("ad {ad} text {text}"), entry, set, 1));
    }
    let short = Entry::short(set, 1);
    for line in [Part::Pt, Part::Ad] {
        let number = short.number(line);
        for (what, digits) in [
            ("257 bytes", 514),
            ("258 bytes", 516),
            ("512 bytes", 1_024),
            ("256 bytes and a digit", 513),
            ("255 bytes and a digit", 511),
            ("a digit", 1),
        ] {
            let what = format!("line {number} {what}");
            let bytes = short.with_value(line, "C".repeat(digits));
            let fault = [1, number, column(line, digits.min(512))];
            inputs.push(Input::broken_at(what, bytes, set, fault));
        }
    }
    let long = "C".repeat(514);
    let both = short
        .with_value(Part::Pt, &long)
        .with_value(Part::Ad, &long);
    inputs.push(Input::broken("257 bytes in both", both, set, [1, 4]));
    let all = short.with_value(Part::Ad, &long).with_cipher(set, 257);
    inputs.push(Input::broken("257 bytes in AD and CT", all, set, [1, 5]));
    inputs
}

/// Gives ciphers with their tag of every length around the tag's and around 256 bytes more, beside texts of none and of 256 bytes.
pub fn of_ct(set: &Set) -> Vec<Input> {
    let (tag, most) = (2 * set.key, 2 * set.key + 512);
    let lengths = [
        0,
        1,
        2,
        tag - 2,
        tag - 1,
        tag,
        tag + 1,
        tag + 2,
        tag + 510,
        most - 1,
        most,
        most + 1,
        most + 2,
        512,
        2 * most,
    ];
    let mut inputs = Vec::new();
    for text in [0, 256] {
        for digits in lengths {
            let entry = Entry::right(set, 1, 3, text).with_value(Part::Ct, "E".repeat(digits));
            let what = format!("text {text} CT of {digits} digits");
            let right = digits >= tag && digits <= most && digits % 2 == 0;
            inputs.push(match right {
                true => Input::done(what, entry, set, 1),
                false => {
                    let fault = [1, 6, column(Part::Ct, digits.min(most))];
                    Input::broken_at(what, entry, set, fault)
                }
            });
        }
    }
    inputs
}

/// Gives entries in form whose cipher is shorter or longer than their text; the text alone decides the rounds.
pub fn other_ciphers(set: &Set) -> Vec<Input> {
    let mut inputs = Vec::new();
    for (ad, text) in [(3, 5), (0, set.block - 1)] {
        for cipher in [0, 1, 4, 6, set.block, 2 * set.block + 1, 256] {
            let entry = Entry::right(set, 1, ad, text).with_cipher(set, cipher);
            let what = format!("text {text} cipher {cipher}");
            inputs.push(Input::done(what, entry, set, 1));
        }
    }
    inputs
}

/// Gives each line far longer than an entry: its digits, digits to the end, a long name, many empty lines.
pub fn far_too_long(set: &Set) -> Vec<Input> {
    let entry = Entry::short(set, 1);
    let mut inputs = Vec::new();
    for (number, line) in (1..).zip(PARTS) {
        let digits = |count| [label(line), &b"1".repeat(count)].concat();
        let ended = |count| [digits(count), b"\n".to_vec()].concat();
        let long_name = [&b"a".repeat(100_000), entry.line(line)].concat();
        for (what, there) in [
            ("2000 digits", ended(2_000)),
            ("100000 digits", ended(100_000)),
            ("name of 100000 letters", long_name),
        ] {
            let what = format!("line {number} {what}");
            let bytes = entry.with_line(line, there);
            inputs.push(Input::broken(what, bytes, set, [1, number]));
        }
        let feeds = entry.with_line(line, b"\n".repeat(100_000));
        // The first of them is the empty line itself, and the next ones are where the next entry would begin.
        let place = match line {
            Part::End => [2, 1],
            _ => [1, number],
        };
        let what = format!("line {number} 100000 line feeds");
        inputs.push(Input::broken(what, feeds, set, place));
        let endless = [entry.before(line), digits(100_000)].concat();
        let what = format!("line {number} digits to the end");
        inputs.push(Input::broken(what, endless, set, [1, number]));
    }
    inputs
}
