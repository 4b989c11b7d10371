//! Streams in one set, over the words of a message.

use super::message::same;
use super::sponge::Sponge;
use kvistmaur::{Refusal, Rounds, DATA_LIMIT, TEXT_LIMIT};

/// A message in pieces. Whole blocks go by the words; an unfilled block waits in a buffer.
pub struct Pieces<
    const KEY: usize,
    const BLOCK: usize,
    const WORD: u64,
    const FROM: usize,
    const TO: usize,
> {
    sponge: Sponge<KEY, BLOCK, WORD, FROM, TO>,
    key: [u8; KEY],
    /// What the front of the words will be when the block is filled, where `place` is not 0.
    front: [u8; BLOCK],
    /// How many bytes the unfilled block has.
    place: usize,
    in_text: bool,
    data: usize,
    text: usize,
    limit: usize,
}

/// A set that has streams.
pub trait InPieces {
    type Stream;
}

impl<const KEY: usize, const BLOCK: usize, const WORD: u64, const FROM: usize, const TO: usize>
    InPieces for Sponge<KEY, BLOCK, WORD, FROM, TO>
{
    type Stream = Pieces<KEY, BLOCK, WORD, FROM, TO>;
}

/// What happens to a byte of the front: the piece's byte is combined with it, or takes its place.
#[derive(Clone, Copy)]
enum Way {
    Combine,
    Replace,
}

impl<const KEY: usize, const BLOCK: usize, const WORD: u64, const FROM: usize, const TO: usize>
    Sponge<KEY, BLOCK, WORD, FROM, TO>
{
    /// A stream in this set.
    pub fn pieces(
        limit: usize,
        key: &[u8],
        nonce: &[u8],
    ) -> Result<Pieces<KEY, BLOCK, WORD, FROM, TO>, Refusal> {
        let key = key.try_into().map_err(|_| Refusal::KeyLength)?;
        let nonce = nonce.try_into().map_err(|_| Refusal::NonceLength)?;
        if limit > TEXT_LIMIT {
            return Err(Refusal::PastLimit);
        }
        Ok(Pieces {
            sponge: Sponge::begin(&key, &nonce),
            key,
            front: [0; BLOCK],
            place: 0,
            in_text: false,
            data: 0,
            text: 0,
            limit,
        })
    }
}

impl<const KEY: usize, const BLOCK: usize, const WORD: u64, const FROM: usize, const TO: usize>
    Pieces<KEY, BLOCK, WORD, FROM, TO>
{
    /// Takes a piece of the data.
    pub fn data(&mut self, data: &[u8]) -> Result<Rounds, Refusal> {
        if self.in_text {
            return Err(Refusal::OutOfPhase);
        }
        let before = self.data;
        self.data = counted(before, data, DATA_LIMIT)?;
        let (head, blocks, tail) = self.cut(data);
        self.take(head, &mut [0; BLOCK], Way::Combine);
        self.sponge.absorb(blocks);
        self.take(tail, &mut [0; BLOCK], Way::Combine);
        Ok(Self::filled(before, self.data))
    }

    /// Seals a piece of the text.
    pub fn seal(&mut self, text: &[u8], out: &mut [u8]) -> Result<Rounds, Refusal> {
        let after = counted(self.text, text, self.limit)?;
        let out = out.get_mut(..text.len()).ok_or(Refusal::OutputTooShort)?;
        let closing = self.close();
        let (head, blocks, tail) = self.cut(text);
        let (head_room, rooms) = out.split_at_mut(head.len());
        let (rooms, tail_room) = rooms.as_chunks_mut();
        self.take(head, head_room, Way::Combine);
        self.sponge.encrypt_blocks(blocks, rooms);
        self.take(tail, tail_room, Way::Combine);
        Ok(self.now_at(after, closing))
    }

    /// Takes a piece of the ciphertext that is to be checked.
    pub fn check(&mut self, cipher: &[u8]) -> Result<Rounds, Refusal> {
        let after = counted(self.text, cipher, self.limit)?;
        let closing = self.close();
        let (head, blocks, tail) = self.cut(cipher);
        self.take(head, &mut [0; BLOCK], Way::Replace);
        self.sponge.check_blocks(blocks);
        self.take(tail, &mut [0; BLOCK], Way::Replace);
        Ok(self.now_at(after, closing))
    }

    /// Opens a piece of the ciphertext.
    pub fn open(&mut self, cipher: &[u8], out: &mut [u8]) -> Result<Rounds, Refusal> {
        let after = counted(self.text, cipher, self.limit)?;
        let out = out.get_mut(..cipher.len()).ok_or(Refusal::OutputTooShort)?;
        let closing = self.close();
        let (head, blocks, tail) = self.cut(cipher);
        let (head_room, rooms) = out.split_at_mut(head.len());
        let (rooms, tail_room) = rooms.as_chunks_mut();
        self.take(head, head_room, Way::Replace);
        self.sponge.decrypt_blocks(blocks, rooms);
        self.take(tail, tail_room, Way::Replace);
        Ok(self.now_at(after, closing))
    }

    /// Ends the message: the tag, and the rounds of the end.
    pub fn tag(mut self) -> ([u8; KEY], Rounds) {
        let Rounds(closing) = self.close();
        self.pad();
        (self.sponge.end(&self.key), Rounds(12 + closing))
    }

    /// Ends the message, and compares its tag with another.
    pub fn finish(self, tag: &[u8]) -> Result<Rounds, Refusal> {
        if tag.len() != KEY {
            return Err(Refusal::TagLength);
        }
        let (ours, rounds) = self.tag();
        same(&ours, tag)
            .then_some(rounds)
            .ok_or(Refusal::TagDiffers { rounds })
    }

    /// The piece in three: what fills the unfilled block, as far as it goes; whole blocks; and the beginning of another.
    #[inline(always)]
    fn cut<'a>(&self, piece: &'a [u8]) -> (&'a [u8], &'a [[u8; BLOCK]], &'a [u8]) {
        let missing = match self.place {
            0 => 0,
            place => BLOCK - place,
        };
        let (head, rest) = piece.split_at(missing.min(piece.len()));
        let (blocks, tail) = rest.as_chunks();
        (head, blocks, tail)
    }

    /// Takes bytes of one block, and writes what comes of each to a room that is as long or longer; a full block is run at once.
    #[inline(always)]
    fn take(&mut self, bytes: &[u8], room: &mut [u8], way: Way) {
        if bytes.is_empty() {
            return;
        }
        if self.place == 0 {
            self.front = self.sponge.front();
        }
        let places = self.front[self.place..].iter_mut();
        for ((front, byte), room) in places.zip(bytes).zip(room) {
            *room = *front ^ *byte;
            *front = match way {
                Way::Combine => *room,
                Way::Replace => *byte,
            };
        }
        self.place += bytes.len();
        if self.place == BLOCK {
            self.sponge.replace(&self.front);
            self.sponge.run();
            self.place = 0;
        }
    }

    /// Combines the padding's `80` into the block, filled or not.
    fn pad(&mut self) {
        if self.place == 0 {
            self.front = self.sponge.front();
        }
        self.front[self.place] ^= 0x80;
        self.sponge.replace(&self.front);
        self.place = 0;
    }

    /// Ends the data, if that was not done before, and gives the rounds.
    #[inline(always)]
    fn close(&mut self) -> Rounds {
        if self.in_text {
            return Rounds(0);
        }
        self.in_text = true;
        let rounds = match self.data {
            0 => 0,
            _ => {
                self.pad();
                self.sponge.run();
                TO - FROM
            }
        };
        self.sponge.separate();
        Rounds(rounds as u64)
    }

    /// Counts the text up, and gives the rounds of the call.
    #[inline(always)]
    fn now_at(&mut self, after: usize, closing: Rounds) -> Rounds {
        let Rounds(filled) = Self::filled(self.text, after);
        self.text = after;
        Rounds(closing.0 + filled)
    }

    /// The rounds for the blocks that are filled between two counts.
    #[inline(always)]
    fn filled(before: usize, after: usize) -> Rounds {
        Rounds(((TO - FROM) * (after / BLOCK - before / BLOCK)) as u64)
    }
}

/// The count after a piece, when it does not pass the limit.
#[inline(always)]
fn counted(count: usize, piece: &[u8], limit: usize) -> Result<usize, Refusal> {
    if piece.len() > limit - count {
        return Err(Refusal::PastLimit);
    }
    Ok(count + piece.len())
}
