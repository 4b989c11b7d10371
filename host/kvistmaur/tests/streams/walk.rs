//! A message as a whole, and streams of any direction over it.

use kvistmaur::{seal, Checking, Key, Nonce, Opening, Refusal, Rounds, Sealing, Set, Tag};
use std::fmt::Debug;

/// A message, and what it is sealed to as a whole.
pub struct Message {
    pub set: Set,
    pub key: Key,
    pub nonce: Nonce,
    pub data: Vec<u8>,
    pub text: Vec<u8>,
    pub cipher: Vec<u8>,
    pub tag: Tag,
    pub rounds: u64,
}

impl Message {
    /// A message with these data and text.
    pub fn new(set: Set, data: &[u8], text: &[u8]) -> Message {
        let bytes = |from: u8| (from..).take(set.key_length()).collect::<Vec<u8>>();
        let key = Key::try_from(&bytes(0x20)[..]).expect("the set's length");
        let nonce = Nonce::try_from(&bytes(0x80)[..]).expect("the set's length");
        let mut cipher = vec![0; text.len()];
        let sealed = seal(set, &key, &nonce, data, text, &mut cipher).expect("it fits");
        Message {
            set,
            key,
            nonce,
            data: data.to_vec(),
            text: text.to_vec(),
            cipher,
            tag: sealed.tag,
            rounds: sealed.rounds.0,
        }
    }

    /// Its tag with one bit wrong.
    pub fn wrong_tag(&self, bit: usize) -> Tag {
        let mut bytes = self.tag.as_ref().to_vec();
        bytes[bit / 8] ^= 1 << (bit % 8);
        Tag::try_from(&bytes[..]).expect("the set's length")
    }
}

/// A stream of any direction, for what is the same in all three.
pub trait Walk: Sized + Debug {
    /// Whether the stream hands something out for its text.
    const GIVES: bool;

    /// Starts a stream of the message with a limit.
    fn begin(message: &Message, limit: usize) -> Result<Self, Refusal>;

    /// Takes a piece of the data.
    fn take_data(&mut self, data: &[u8]) -> Result<Rounds, Refusal>;

    /// Takes a piece of the text or of the ciphertext.
    fn take(&mut self, piece: &[u8], out: &mut [u8]) -> Result<Rounds, Refusal>;

    /// Ends the stream, and compares its tag with the given one.
    fn end(self, tag: &Tag) -> Result<Rounds, Refusal>;

    /// What the stream takes of the message.
    fn body(message: &Message) -> &[u8];

    /// What it hands out, if it does.
    fn given(message: &Message) -> &[u8];
}

/// What is written alike for the three.
macro_rules! begin_and_take_data {
    () => {
        fn begin(message: &Message, limit: usize) -> Result<Self, Refusal> {
            Self::start_limited(message.set, limit, &message.key, &message.nonce)
        }

        fn take_data(&mut self, data: &[u8]) -> Result<Rounds, Refusal> {
            self.data(data)
        }
    };
}

impl Walk for Sealing {
    const GIVES: bool = true;

    begin_and_take_data!();

    fn take(&mut self, piece: &[u8], out: &mut [u8]) -> Result<Rounds, Refusal> {
        self.seal(piece, out)
    }

    fn end(self, tag: &Tag) -> Result<Rounds, Refusal> {
        let sealed = self.finish();
        let rounds = sealed.rounds;
        let equal = sealed.tag == *tag;
        equal
            .then_some(rounds)
            .ok_or(Refusal::TagDiffers { rounds })
    }

    fn body(message: &Message) -> &[u8] {
        &message.text
    }

    fn given(message: &Message) -> &[u8] {
        &message.cipher
    }
}

impl Walk for Checking {
    const GIVES: bool = false;

    begin_and_take_data!();

    fn take(&mut self, piece: &[u8], _: &mut [u8]) -> Result<Rounds, Refusal> {
        self.check(piece)
    }

    fn end(self, tag: &Tag) -> Result<Rounds, Refusal> {
        self.finish(tag)
    }

    fn body(message: &Message) -> &[u8] {
        &message.cipher
    }

    fn given(_: &Message) -> &[u8] {
        &[]
    }
}

impl Walk for Opening {
    const GIVES: bool = true;

    begin_and_take_data!();

    fn take(&mut self, piece: &[u8], out: &mut [u8]) -> Result<Rounds, Refusal> {
        self.open(piece, out)
    }

    fn end(self, tag: &Tag) -> Result<Rounds, Refusal> {
        self.finish(tag)
    }

    fn body(message: &Message) -> &[u8] {
        &message.cipher
    }

    fn given(message: &Message) -> &[u8] {
        &message.text
    }
}
