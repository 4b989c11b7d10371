//! Seals what a reader gives, in pieces, into a writer: `cargo run -p kvistmaur --example seal_stream`.

use kvistmaur::{open, Key, Nonce, Sealed, Sealing, Set};
use std::io::{self, Read, Write};

const SET: Set = Set::Ascon128aV12;
const DATA: &[u8] = b"report of valve 12";

/// Seals all that the reader gives, with no more than 64 bytes of it in memory at a time.
fn seal_all(mut sealing: Sealing, mut from: impl Read, mut to: impl Write) -> io::Result<Sealed> {
    let (mut text, mut cipher) = ([0; 64], [0; 64]);
    sealing.data(DATA).map_err(io::Error::other)?;
    loop {
        let length = from.read(&mut text)?;
        if length == 0 {
            return Ok(sealing.finish());
        }
        // Text past the stream's limit is refused here. The stream is dropped, which clears what it holds of the key.
        let done = sealing.seal(&text[..length], &mut cipher);
        done.map_err(io::Error::other)?;
        to.write_all(&cipher[..length])?;
    }
}

fn main() -> Result<(), Box<dyn std::error::Error>> {
    let key = Key::from(*b"a key of 16 byte");
    let nonce = Nonce::from(*b"message no. 0002");
    let report = b"valve 12 is closed\n".repeat(1_000);

    // Any reader and writer do: a file, a socket, or, as here, memory.
    let mut cipher = Vec::new();
    let tag = seal_all(Sealing::start(SET, &key, &nonce)?, &report[..], &mut cipher)?.tag;
    println!("sealed: {} bytes", cipher.len());

    let mut opened = vec![0; cipher.len()];
    open(SET, &key, &nonce, DATA, &cipher, &tag, &mut opened)?;
    println!("opened: {}", opened == report);

    cipher[12_345] ^= 1;
    let answer = open(SET, &key, &nonce, DATA, &cipher, &tag, &mut opened);
    println!("damaged: {}", answer.unwrap_err());

    let other_nonce = Nonce::from(*b"message no. 0003");
    let limited = Sealing::start_limited(SET, 200, &key, &other_nonce)?;
    let too_long = seal_all(limited, &report[..], io::sink());
    println!("limited to 200 bytes: {}", too_long.unwrap_err());
    Ok(())
}
