//! Messages in pieces by both programs.

use crate::{messages::Message, plain::Stream as Plain, race::race};
use kvistmaur::{Checking, Opening, Refusal, Rounds, Sealing, Set, Tag, START_ROUNDS, TEXT_LIMIT};

/// The bytes of the message, and those of a piece.
const LENGTH: usize = 1 << 20;
const PIECES: [usize; 5] = [1, 8, 13, 256, 65_536];

/// Times a message of 1 MiB, sealed, checked and opened in pieces, in each set, with 16 bytes of data.
pub fn time() {
    for set in Set::ALL {
        let message = &Message::new(*set, LENGTH);
        for length in PIECES {
            InPieces { message, length }.time();
        }
    }
}

type Answer = Result<Rounds, Refusal>;

/// A message to be taken through streams, and how long a piece of its text is.
struct InPieces<'a> {
    message: &'a Message,
    length: usize,
}

/// What a stream leaves: what it handed out, its tag, and the rounds of all its calls, or why its end was refused.
#[derive(Clone, Debug, PartialEq)]
struct Left {
    out: Vec<u8>,
    tag: Vec<u8>,
    answer: Option<Answer>,
}

impl InPieces<'_> {
    /// Prints how long both programs take to seal, to check and to open the message, and gives what they left.
    fn time(&self) -> [Left; 3] {
        let sealed = self.seal();
        let (checked, opened) = (self.check(&sealed), self.open(&sealed));
        assert!(opened.out == self.message.text, "opening gave another text");
        [sealed, checked, opened]
    }

    /// Seals by both.
    fn seal(&self) -> Left {
        let Message {
            set,
            key,
            nonce,
            text,
            ..
        } = self.message;
        let model = |left: &mut Left| {
            let stream = Sealing::start(*set, key, nonce).expect("it fits");
            let end = |stream: Sealing, tag: &mut [u8]| {
                let sealed = stream.finish();
                tag.copy_from_slice(sealed.tag.as_ref());
                Ok(sealed.rounds)
            };
            self.walk(text, left, stream, Sealing::data, Sealing::seal, end);
        };
        let plain = |left: &mut Left| {
            let end = |stream: Plain, tag: &mut [u8]| Ok(stream.tag(tag));
            self.walk(text, left, self.plainly(), Plain::data, Plain::seal, end);
        };
        self.race("seal", model, plain)
    }

    /// Checks by both what sealing left.
    fn check(&self, sealed: &Left) -> Left {
        let Message {
            set, key, nonce, ..
        } = self.message;
        let tag = Tag::try_from(&sealed.tag[..]).expect("the set's length");
        let model = |left: &mut Left| {
            let stream = Checking::start(*set, key, nonce).expect("it fits");
            let check = |stream: &mut Checking, piece: &[u8], _: &mut [u8]| stream.check(piece);
            let end = |stream: Checking, _: &mut [u8]| stream.finish(&tag);
            self.walk(&sealed.out, left, stream, Checking::data, check, end);
        };
        let plain = |left: &mut Left| {
            let check = |stream: &mut Plain, piece: &[u8], _: &mut [u8]| stream.check(piece);
            let end = |stream: Plain, _: &mut [u8]| stream.finish(&sealed.tag);
            self.walk(&sealed.out, left, self.plainly(), Plain::data, check, end);
        };
        self.race("check", model, plain)
    }

    /// Opens by both what sealing left.
    fn open(&self, sealed: &Left) -> Left {
        let Message {
            set, key, nonce, ..
        } = self.message;
        let tag = Tag::try_from(&sealed.tag[..]).expect("the set's length");
        let model = |left: &mut Left| {
            let stream = Opening::start(*set, key, nonce).expect("it fits");
            let end = |stream: Opening, _: &mut [u8]| stream.finish(&tag);
            self.walk(&sealed.out, left, stream, Opening::data, Opening::open, end);
        };
        let plain = |left: &mut Left| {
            let end = |stream: Plain, _: &mut [u8]| stream.finish(&sealed.tag);
            self.walk(
                &sealed.out,
                left,
                self.plainly(),
                Plain::data,
                Plain::open,
                end,
            );
        };
        self.race("open", model, plain)
    }

    /// A stream of the plain program.
    fn plainly(&self) -> Plain {
        let Message {
            set,
            plain_key,
            plain_nonce,
            ..
        } = self.message;
        Plain::start(*set, TEXT_LIMIT, plain_key, plain_nonce).expect("it fits")
    }

    /// Takes the data, and a text or ciphertext, through a stream, by the calls of either program.
    fn walk<S>(
        &self,
        body: &[u8],
        left: &mut Left,
        mut stream: S,
        data: impl Fn(&mut S, &[u8]) -> Answer,
        piece: impl Fn(&mut S, &[u8], &mut [u8]) -> Answer,
        end: impl Fn(S, &mut [u8]) -> Answer,
    ) {
        let mut rounds = START_ROUNDS.0;
        let mut add = |answer: Answer| rounds += answer.expect("it fits").0;
        add(data(&mut stream, &self.message.data));
        let rooms = left.out.chunks_mut(self.length);
        for (body, room) in body.chunks(self.length).zip(rooms) {
            add(piece(&mut stream, body, room));
        }
        let ended = end(stream, &mut left.tag);
        left.answer = Some(ended.map(|Rounds(own)| Rounds(rounds + own)));
    }

    /// Times both programs, each over the whole message.
    fn race(&self, call: &str, model: impl Fn(&mut Left), plain: impl Fn(&mut Left)) -> Left {
        let (length, set) = (self.length, self.message.set);
        let what = format!("{call} in pieces of {length}, set {}", set.number());
        let cleared = Left {
            out: vec![0; self.message.text.len()],
            tag: vec![0; set.key_length()],
            answer: None,
        };
        race(&what, 1, &cleared, model, plain).left
    }
}

#[cfg(test)]
mod tests {
    use super::*;
    use kvistmaur::seal;

    /// However a message is cut, both programs leave what the whole message does; `race` compares the two.
    #[test]
    fn all_cuttings_leave_the_same() {
        let mut cut = 0;
        for set in Set::ALL {
            for text in [0, 1, 7, 8, 9, 16, 40, 100] {
                let message = &Message::new(*set, text);
                let (key, nonce, text) = (&message.key, &message.nonce, &message.text);
                let mut cipher = vec![0; text.len()];
                let whole = seal(*set, key, nonce, &message.data, text, &mut cipher);
                let whole = whole.expect("it fits");
                for length in [1, 3, 8, 13, 16, 21, 100] {
                    let all = InPieces { message, length }.time();
                    assert_eq!(all[0].out, cipher);
                    assert_eq!(all[0].tag, whole.tag.as_ref());
                    for left in all {
                        assert_eq!(left.answer, Some(Ok(whole.rounds)));
                        cut += 1;
                    }
                }
            }
        }
        assert_eq!(cut, 4 * 8 * 7 * 3);
    }

    /// The plain stream refuses as the model's do.
    #[test]
    fn refusals_are_the_models() {
        for set in Set::ALL {
            let message = Message::new(*set, 0);
            let (key, nonce) = (&message.key, &message.nonce);
            let (bytes, others) = (&message.plain_key[..], &message.plain_nonce[..]);
            let mut model = Sealing::start_limited(*set, 21, key, nonce).expect("it fits");
            let mut plain = Plain::start(*set, 21, bytes, others).expect("it fits");
            for length in [65_537, 65_530, 7, 6, 1] {
                let data = vec![2; length];
                assert_eq!(plain.data(&data), model.data(&data));
            }
            for (length, room) in [
                (22, 22),
                (22, 0),
                (20, 19),
                (20, 20),
                (2, 2),
                (1, 0),
                (1, 1),
                (1, 1),
            ] {
                let text = vec![3; length];
                let (mut out, mut other) = (vec![9; room], vec![9; room]);
                assert_eq!(plain.seal(&text, &mut out), model.seal(&text, &mut other));
                assert_eq!(out, other);
                assert_eq!(plain.data(b""), model.data(b""));
            }
            let sealed = model.finish();
            let mut tag = vec![0; set.key_length()];
            assert_eq!(plain.tag(&mut tag), sealed.rounds);
            assert_eq!(tag, sealed.tag.as_ref());

            for other in [&[0; 12][..], &[0; 16]] {
                let model = Checking::start(*set, key, nonce).expect("it fits");
                let plain = Plain::start(*set, 0, bytes, others).expect("it fits");
                let tag = Tag::try_from(other).expect("a length that sets have");
                assert_eq!(plain.finish(other), model.finish(&tag));
            }
            for (limit, key, nonce, refusal) in [
                (TEXT_LIMIT + 1, bytes, others, Refusal::PastLimit),
                (TEXT_LIMIT + 1, bytes, &others[1..], Refusal::NonceLength),
                (0, &bytes[1..], &others[1..], Refusal::KeyLength),
            ] {
                let refused = Plain::start(*set, limit, key, nonce).err();
                assert_eq!(refused, Some(refusal));
            }
        }
    }
}
