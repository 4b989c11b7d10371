//! Seals an order to a valve, opens it, and shows that a damaged one is refused: `cargo run -p kvistmaur --example order`.

use kvistmaur::{open, seal, Key, Nonce, Refusal, Rounds, Set};

const SET: Set = Set::Ascon128;

fn main() -> Result<(), Refusal> {
    // A real gateway keeps its key secret, and never uses a nonce twice under one key.
    let key = Key::from(*b"a key of 16 byte");
    let nonce = Nonce::from(*b"message no. 0001");
    let address = b"valve 12";
    let order = b"close, crew in the trench";

    let mut cipher = [0; 25];
    let sealed = seal(SET, &key, &nonce, address, order, &mut cipher)?;
    let (Rounds(rounds), tag) = (sealed.rounds, sealed.tag);
    println!("sealed in {rounds} rounds: {}", hex(&cipher));
    println!("tag: {}", hex(tag.as_ref()));

    let mut opened = [0; 25];
    open(SET, &key, &nonce, address, &cipher, &tag, &mut opened)?;
    println!("opened: {}", String::from_utf8_lossy(&opened));

    cipher[0] ^= 1;
    let answer = open(SET, &key, &nonce, address, &cipher, &tag, &mut opened);
    let refusal = answer.expect_err("one bit of the ciphertext is wrong");
    println!("damaged: {refusal} (answer {})", refusal.number());
    println!("what is left of the order: {}", hex(&opened));
    Ok(())
}

/// The bytes in hexadecimal digits, two a byte.
fn hex(bytes: &[u8]) -> String {
    bytes.iter().map(|byte| format!("{byte:02x}")).collect()
}
