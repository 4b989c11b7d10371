//! Checks a stored order in a first walk, and hands it out in a second: `cargo run -p kvistmaur --example second_walk`.
//!
//! After the first walk's yes, each piece of the second is the text that was sealed, as long as the store holds what it
//! held. Whether the second walk read the same bytes, its own finish says: up to then what it hands out is unverified.

use kvistmaur::{seal, Checking, Key, Nonce, Opening, Refusal, Rounds, Set, Tag};

const SET: Set = Set::Ascon128V12;

/// The first walk: whether the stored ciphertext is the tag's.
fn check(mut checking: Checking, store: &[u8], tag: &Tag) -> Result<Rounds, Refusal> {
    checking.data(b"valve 12")?;
    for piece in store.chunks(10) {
        checking.check(piece)?;
    }
    checking.finish(tag)
}

/// The second walk: prints each piece of the text, unverified, and says at the end whether all of them were right.
fn hand_out(mut opening: Opening, store: &[u8], tag: &Tag) -> Result<Rounds, Refusal> {
    opening.data(b"valve 12")?;
    let mut room = [0; 16];
    for piece in store.chunks(room.len()) {
        let text = &mut room[..piece.len()];
        opening.open(piece, text)?;
        println!("  unverified: {:?}", String::from_utf8_lossy(text));
    }
    opening.finish(tag)
}

fn main() -> Result<(), Refusal> {
    let key = Key::from(*b"a key of 16 byte");
    let nonce = Nonce::from(*b"message no. 0005");
    let order = b"step 1: close; step 2: wait for the crew";
    let mut store = [0; 40];
    let tag = seal(SET, &key, &nonce, b"valve 12", order, &mut store)?.tag;

    check(Checking::start(SET, &key, &nonce)?, &store, &tag)?;
    println!("first walk: yes");
    hand_out(Opening::start(SET, &key, &nonce)?, &store, &tag)?;
    println!("second walk: yes, all of it is verified");

    // A byte of the store changes between the walks. What is handed out then must not be used.
    store[39] ^= b'w' ^ b'p';
    let refusal = hand_out(Opening::start(SET, &key, &nonce)?, &store, &tag).unwrap_err();
    println!("second walk, damaged: {refusal}");

    let refusal = check(Checking::start(SET, &key, &nonce)?, &store, &tag).unwrap_err();
    println!("first walk, damaged: {refusal}, so there is no second");
    Ok(())
}
