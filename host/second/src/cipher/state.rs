//! The 40 bytes of the state and the count of the rounds run on them.

use crate::permutation::{constants_of_run, round, Edition, Words};

/// The state as bytes, high byte of x0 first, with its round counter.
#[derive(Clone, Debug)]
pub struct State {
    bytes: [u8; 40],
    rounds: u64,
}

impl State {
    /// Gives a state of the given 40 bytes on which no round has run.
    pub fn new(bytes: &[u8]) -> State {
        let mut all = [0; 40];
        all.copy_from_slice(bytes);
        State {
            bytes: all,
            rounds: 0,
        }
    }

    /// Gives the number of rounds run so far.
    pub fn rounds(&self) -> u64 {
        self.rounds
    }

    /// Gives the first `n` bytes of the state.
    pub fn first(&self, n: usize) -> &[u8] {
        &self.bytes[..n]
    }

    /// Gives the last `n` bytes of the state.
    pub fn last(&self, n: usize) -> &[u8] {
        &self.bytes[40 - n..]
    }

    /// Combines the given bytes into the state from byte `place` on.
    pub fn combine(&mut self, place: usize, bytes: &[u8]) {
        for (i, byte) in bytes.iter().enumerate() {
            self.bytes[place + i] ^= byte;
        }
    }

    /// Combines the given bytes into the state's last ones.
    pub fn combine_last(&mut self, bytes: &[u8]) {
        self.combine(self.bytes.len() - bytes.len(), bytes);
    }

    /// Puts the given bytes in the place of the state's first ones.
    pub fn replace_front(&mut self, bytes: &[u8]) {
        self.bytes[..bytes.len()].copy_from_slice(bytes);
    }

    /// Runs `n` rounds of the edition and counts each of them as it runs.
    pub fn run(&mut self, edition: Edition, n: usize) {
        let mut words = self.words();
        for constant in constants_of_run(edition, n) {
            words = round(words, *constant);
            self.rounds += 1;
        }
        self.put_words(words);
    }

    /// Gives the state as five words.
    pub fn words(&self) -> Words {
        let mut words = [0; 5];
        for (i, byte) in self.bytes.iter().enumerate() {
            words[i / 8] = words[i / 8] << 8 | u64::from(*byte);
        }
        words
    }

    /// Puts five words in the place of the state's bytes.
    fn put_words(&mut self, words: Words) {
        for (i, word) in words.iter().enumerate() {
            self.bytes[i * 8..i * 8 + 8].copy_from_slice(&word.to_be_bytes());
        }
    }
}
