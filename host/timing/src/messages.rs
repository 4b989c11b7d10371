//! Sealing and opening of whole messages by both programs.

use crate::{plain, race::race};
use kvistmaur::{Key, Nonce, Refusal, Rounds, Set, Tag};

const TEXTS: [(&str, usize); 3] = [("64 B", 1 << 6), ("1 KiB", 1 << 10), ("1 MiB", 1 << 20)];

/// The bytes that a repetition seals or opens in all, so that short messages are timed over many calls.
const BYTES: usize = 1 << 20;

/// Times every text in each set, with 16 bytes of data.
pub fn time() {
    for set in Set::ALL {
        for (name, length) in TEXTS {
            Message::new(*set, length).time(name);
        }
    }
}

/// A message to be sealed and opened; key and nonce as the plain program takes them, and as the model does.
pub struct Message {
    pub set: Set,
    pub plain_key: Vec<u8>,
    pub plain_nonce: Vec<u8>,
    pub key: Key,
    pub nonce: Nonce,
    pub data: [u8; 16],
    pub text: Vec<u8>,
}

/// What a call leaves.
#[derive(Clone, PartialEq)]
struct Left {
    out: Vec<u8>,
    tag: Vec<u8>,
    answer: Option<Result<Rounds, Refusal>>,
}

impl Message {
    /// A message with a text of the given length.
    pub fn new(set: Set, length: usize) -> Message {
        let (key, nonce) = (vec![7; set.key_length()], vec![1; set.key_length()]);
        Message {
            set,
            key: Key::try_from(&key[..]).expect("the set's length"),
            nonce: Nonce::try_from(&nonce[..]).expect("the set's length"),
            plain_key: key,
            plain_nonce: nonce,
            data: [2; 16],
            text: (0..length).map(|place| place as u8).collect(),
        }
    }

    /// Prints how long both programs take to seal the message and to open it.
    fn time(&self, name: &str) {
        let calls = BYTES / self.text.len();
        let cleared = Left {
            out: vec![0; self.text.len()],
            tag: vec![0; self.set.key_length()],
            answer: None,
        };
        let what = |call| format!("{call}, set {}, {name}", self.set.number());
        let (set, data, text) = (self.set, &self.data, &self.text);
        let (key, nonce) = (&self.key, &self.nonce);
        let (plain_key, plain_nonce) = (&self.plain_key, &self.plain_nonce);

        let model = |left: &mut Left| {
            let sealed = kvistmaur::seal(set, key, nonce, data, text, &mut left.out);
            left.answer = Some(sealed.map(|sealed| {
                left.tag.copy_from_slice(sealed.tag.as_ref());
                sealed.rounds
            }));
        };
        let plain = |Left { out, tag, answer }: &mut Left| {
            *answer = Some(plain::seal(
                set,
                plain_key,
                plain_nonce,
                data,
                text,
                out,
                tag,
            ));
        };
        let sealed = race(&what("seal"), calls, &cleared, model, plain).left;

        let (cipher, plain_tag) = (&sealed.out, &sealed.tag);
        let tag = Tag::try_from(&plain_tag[..]).expect("the set's length");
        let model = |Left { out, answer, .. }: &mut Left| {
            *answer = Some(kvistmaur::open(set, key, nonce, data, cipher, &tag, out));
        };
        let plain = |Left { out, answer, .. }: &mut Left| {
            *answer = Some(plain::open(
                set,
                plain_key,
                plain_nonce,
                data,
                cipher,
                plain_tag,
                out,
            ));
        };
        let opened = race(&what("open"), calls, &cleared, model, plain).left;
        assert!(opened.out == self.text, "opening gave another text");
    }
}
