//! Entries of published test files written down by hand, each beside the record that it tells.

use second::cipher::SETS;
use second::exchange::{Done, Refused};
use second::record::Broken;

/// The byte that fills a lent output before a call.
const BEFORE: u8 = 0x77;

/// What turning a text into the other kind gives.
pub type Given = Result<Done, Refused>;

/// The lines of the entry of set 1 behind its count.
const REST_1: [&str; 6] = [
    "Key = 000102030405060708090A0B0C0D0E0F",
    "Nonce = 101112131415161718191A1B1C1D1E1F",
    "PT = B0B1B2",
    "AD = A0A1",
    "CT = C0C1C2F0E0D0C0B0A090807060504030201000",
    "",
];

/// The record that the entry of set 1 tells.
pub const RECORD_1: &str = "set=1\n\
    key=000102030405060708090a0b0c0d0e0f\n\
    nonce=101112131415161718191a1b1c1d1e1f\n\
    ad=a0a1\n\
    text=b0b1b2\n\
    cipher=c0c1c2\n\
    tag=f0e0d0c0b0a090807060504030201000\n\
    rounds=30\n";

/// The lines of the entry of set 2 behind its count.
const REST_2: [&str; 6] = [
    "Key = DEADBEEF0405060708090A0B",
    "Nonce = 101112131415161718191A1B",
    "PT = ",
    "AD = ",
    "CT = F0E0D0C0B0A0908070605040",
    "",
];

/// The record that the entry of set 3 tells; its entry is letter for letter that of set 1.
pub const RECORD_3: &str = "set=3\n\
    key=000102030405060708090a0b0c0d0e0f\n\
    nonce=101112131415161718191a1b1c1d1e1f\n\
    ad=a0a1\n\
    text=b0b1b2\n\
    cipher=c0c1c2\n\
    tag=f0e0d0c0b0a090807060504030201000\n\
    rounds=30\n";

/// The lines of the entry of set 4 behind its count: 16 bytes of text, which fill a block.
const REST_4: [&str; 6] = [
    "Key = FFFFFFFFFFFFFFFFFFFFFFFFFFFFFFFF",
    "Nonce = 101112131415161718191A1B1C1D1E1F",
    "PT = B0B1B2B3B4B5B6B7B8B9BABBBCBDBEBF",
    "AD = A0A1A2A3A4A5A6A7A8",
    "CT = C0F0E0D0C0B0A090807060504030201000",
    "",
];

/// The record that the entry of set 4 tells: one block of data, two of text, 24 + 8 × 2 rounds.
pub const RECORD_4: &str = "set=4\n\
    key=ffffffffffffffffffffffffffffffff\n\
    nonce=101112131415161718191a1b1c1d1e1f\n\
    ad=a0a1a2a3a4a5a6a7a8\n\
    text=b0b1b2b3b4b5b6b7b8b9babbbcbdbebf\n\
    cipher=c0\n\
    tag=f0e0d0c0b0a090807060504030201000\n\
    rounds=40\n";

/// The record that the entry of set 2 tells.
pub const RECORD_2: &str = "set=2\n\
    key=deadbeef0405060708090a0b\n\
    nonce=101112131415161718191a1b\n\
    ad=\n\
    text=\n\
    cipher=\n\
    tag=f0e0d0c0b0a0908070605040\n\
    rounds=24\n";

/// Gives the lines behind the count of the entry of the set.
fn rest(set: u64) -> [&'static str; 6] {
    [REST_1, REST_2, REST_1, REST_4][set as usize - 1]
}

/// Gives the entry of the set with that count.
pub fn entry(set: u64, count: usize) -> String {
    format!("Count = {count}\n{}\n", rest(set).join("\n"))
}

/// Gives so many entries of the set, counted from 1.
pub fn entries(set: u64, count: usize) -> String {
    (1..=count).map(|place| entry(set, place)).collect()
}

/// The records that the entries of the sets tell.
const RECORDS: [&str; SETS.len()] = [RECORD_1, RECORD_2, RECORD_3, RECORD_4];

/// Gives the record that an entry of the set tells.
pub fn record(set: u64) -> &'static str {
    RECORDS[set as usize - 1]
}

/// Gives the answer of a text whose record or entry with that number breaks there.
pub fn broken(record: u64, line: u64, column: u64) -> Given {
    let at = Broken { line, column };
    Err(Refused::Broken { record, at })
}

/// Gives what a call gives with so much room and that room, having checked that nothing else was touched.
pub fn tried(room: usize, call: impl FnOnce(&mut [u8]) -> Given) -> (Given, Vec<u8>) {
    let mut out = vec![BEFORE; room];
    let given = call(&mut out);
    let used = given.map_or(0, |done| done.written);
    assert!(out[used..].iter().all(|byte| *byte == BEFORE));
    (given, out)
}
