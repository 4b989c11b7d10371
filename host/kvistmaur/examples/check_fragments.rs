//! Checks an order that comes in fragments, without keeping any: `cargo run -p kvistmaur --example check_fragments`.

use kvistmaur::{seal, Checking, Key, Nonce, Refusal, Set, Tag};

const SET: Set = Set::Ascon128;

/// The most bytes that an order has: one that goes on is refused as soon as it is too long.
const LONGEST: usize = 200;

/// Whether the fragments, joined, were sealed for this address under the checking's key and nonce.
fn is_genuine<'a>(
    mut checking: Checking,
    address: &[u8],
    fragments: impl Iterator<Item = &'a [u8]>,
    tag: &Tag,
) -> Result<bool, Refusal> {
    checking.data(address)?;
    for fragment in fragments {
        checking.check(fragment)?;
    }
    match checking.finish(tag) {
        Ok(_) => Ok(true),
        Err(Refusal::TagDiffers { .. }) => Ok(false),
        Err(refusal) => Err(refusal),
    }
}

fn main() -> Result<(), Refusal> {
    let key = Key::from(*b"a key of 16 byte");
    let nonce = Nonce::from(*b"message no. 0004");
    let order = b"close, wait for the crew, then report the pressure on both sides";
    let mut cipher = [0; 64];
    let tag = seal(SET, &key, &nonce, b"valve 12", order, &mut cipher)?.tag;

    let start = || Checking::start_limited(SET, LONGEST, &key, &nonce);
    let say = |what: &str, yes: bool| println!("{what}: {}", if yes { "yes" } else { "no" });
    for length in [1, 7, 64] {
        let yes = is_genuine(start()?, b"valve 12", cipher.chunks(length), &tag)?;
        say(&format!("in fragments of {length}"), yes);
    }
    let yes = is_genuine(start()?, b"valve 13", cipher.chunks(7), &tag)?;
    say("to another valve", yes);

    cipher[40] ^= 1;
    let yes = is_genuine(start()?, b"valve 12", cipher.chunks(7), &tag)?;
    say("damaged", yes);

    let endless = std::iter::repeat(&cipher[..]);
    let refusal = is_genuine(start()?, b"valve 12", endless, &tag).unwrap_err();
    println!("without end: {refusal}");
    Ok(())
}
