//! Messages that fit, with what the second program makes of them as a whole.

use crate::history::Start;
use crate::states::DIRECTIONS;
use second::calls;
use second::cipher::{Set, SETS};
use second::random::Random;
use second::stream::Direction::{self, Checking, Opening, Sealing};
use second::stream::LARGEST_LIMIT;

/// A message, the direction in which a stream takes it, and the stream's limit.
pub struct Message {
    pub set: &'static Set,
    pub direction: Direction,
    pub limit: u64,
    pub key: Vec<u8>,
    pub nonce: Vec<u8>,
    pub data: Vec<u8>,
    pub text: Vec<u8>,
    pub cipher: Vec<u8>,
    pub tag: Vec<u8>,
    /// The rounds of the whole message.
    pub rounds: u64,
}

impl Message {
    /// A message of any set and direction with data and text of these lengths, and a limit that it does not pass.
    pub fn of_lengths(random: &mut Random, data: usize, text: usize) -> Message {
        let set = &SETS[random.below(SETS.len())];
        let [key, nonce, data, text] = [set.key, set.key, data, text].map(|n| random.bytes(n));
        let (mut cipher, mut tag) = (text.clone(), vec![0; set.key]);
        let sealed = calls::seal(
            set.number,
            &key,
            &nonce,
            &data,
            &text,
            &mut cipher,
            &mut tag,
        );
        assert_eq!(sealed.number, 0, "the message fits");
        Message {
            set,
            direction: DIRECTIONS[random.below(3)],
            limit: any_limit(random, text.len() as u64),
            key,
            nonce,
            data,
            text,
            cipher,
            tag,
            rounds: sealed.rounds,
        }
    }

    /// A message of a few bytes; data and text are often empty.
    pub fn short(random: &mut Random) -> Message {
        let (data, text) = (short_length(random), short_length(random));
        Message::of_lengths(random, data, text)
    }

    /// What its stream takes after the data.
    pub fn body(&self) -> &[u8] {
        match self.direction {
            Sealing => &self.text,
            Checking | Opening => &self.cipher,
        }
    }

    /// What its stream hands out for that.
    pub fn handed_out(&self) -> &[u8] {
        match self.direction {
            Sealing => &self.cipher,
            Checking => &[],
            Opening => &self.text,
        }
    }

    /// What its start is given.
    pub fn start(&self) -> Start {
        Start {
            set: self.set.number,
            limit: self.limit,
            key: self.key.clone(),
            nonce: self.nonce.clone(),
        }
    }

    /// Opens it as a whole by the second program, and gives the answer, the rounds and the text.
    pub fn opened_whole(&self) -> (u64, u64, Vec<u8>) {
        let Message {
            key,
            nonce,
            data,
            cipher,
            tag,
            ..
        } = self;
        let mut text = vec![0; cipher.len()];
        let opened = calls::open(self.set.number, key, nonce, data, cipher, tag, &mut text);
        (opened.number, opened.rounds, text)
    }
}

/// A length of up to some blocks, and often none.
fn short_length(random: &mut Random) -> usize {
    let most = [1, 9, 20, 40, 40, 90][random.below(6)];
    random.below(most)
}

/// A limit that a text of this length does not pass: just that, a bit more, that of valve orders, the largest.
fn any_limit(random: &mut Random, text: u64) -> u64 {
    let more = random.below(40) as u64;
    [
        text,
        text + more,
        text.max(200),
        LARGEST_LIMIT - more,
        LARGEST_LIMIT,
    ][random.below(5)]
}
