//! The five words of a message, worked on by whole blocks.

use super::permutation::run;

/// The words, in a set with these lengths of key and block, this first word, and middle runs from one constant up to another.
pub struct Sponge<
    const KEY: usize,
    const BLOCK: usize,
    const WORD: u64,
    const FROM: usize,
    const TO: usize,
> {
    words: [u64; 5],
}

impl<const KEY: usize, const BLOCK: usize, const WORD: u64, const FROM: usize, const TO: usize>
    Sponge<KEY, BLOCK, WORD, FROM, TO>
{
    /// The words at the start of a message.
    #[inline]
    pub fn begin(key: &[u8; KEY], nonce: &[u8; KEY]) -> Self {
        let mut bytes = [0; 40];
        bytes[..8].copy_from_slice(&WORD.to_be_bytes());
        bytes[40 - 2 * KEY..40 - KEY].copy_from_slice(key);
        bytes[40 - KEY..].copy_from_slice(nonce);
        let mut sponge = Sponge { words: [0; 5] };
        sponge.combine(&bytes);
        run::<0, 12>(&mut sponge.words);
        sponge.combine_key(40 - KEY, key);
        sponge
    }

    /// The words once the data is taken in.
    #[inline]
    pub fn start(key: &[u8; KEY], nonce: &[u8; KEY], data: &[u8]) -> Self {
        let mut sponge = Self::begin(key, nonce);
        if !data.is_empty() {
            let (blocks, last) = data.as_chunks::<BLOCK>();
            sponge.absorb(blocks);
            sponge.absorb(&[Self::padded(last)]);
        }
        sponge.separate();
        sponge
    }

    /// Takes in whole blocks of data.
    #[inline(always)]
    pub fn absorb(&mut self, blocks: &[[u8; BLOCK]]) {
        for block in blocks {
            self.combine(block);
            self.run();
        }
    }

    /// Marks the end of the data.
    #[inline(always)]
    pub fn separate(&mut self) {
        self.words[4] ^= 1;
    }

    /// Writes the ciphertext of the text to a room of the same length.
    #[inline]
    pub fn encrypt(&mut self, text: &[u8], out: &mut [u8]) {
        let (blocks, last) = text.as_chunks::<BLOCK>();
        let (rooms, last_room) = out.as_chunks_mut::<BLOCK>();
        self.encrypt_blocks(blocks, rooms);
        self.combine(&Self::padded(last));
        last_room.copy_from_slice(&self.front()[..last.len()]);
    }

    /// Writes the ciphertext of whole blocks of the text.
    #[inline(always)]
    pub fn encrypt_blocks(&mut self, blocks: &[[u8; BLOCK]], rooms: &mut [[u8; BLOCK]]) {
        for (block, room) in blocks.iter().zip(rooms) {
            self.combine(block);
            *room = self.front();
            self.run();
        }
    }

    /// Writes the text of the ciphertext to a room of the same length.
    #[inline]
    pub fn decrypt(&mut self, cipher: &[u8], out: &mut [u8]) {
        let (blocks, last) = cipher.as_chunks::<BLOCK>();
        let (rooms, last_room) = out.as_chunks_mut::<BLOCK>();
        self.decrypt_blocks(blocks, rooms);
        let mut front = self.front();
        for ((room, byte), front) in last_room.iter_mut().zip(last).zip(&mut front) {
            *room = *front ^ *byte;
            *front = *byte;
        }
        front[last.len()] ^= 0x80;
        self.replace(&front);
    }

    /// Writes the text of whole blocks of the ciphertext.
    #[inline(always)]
    pub fn decrypt_blocks(&mut self, blocks: &[[u8; BLOCK]], rooms: &mut [[u8; BLOCK]]) {
        for (block, room) in blocks.iter().zip(rooms) {
            self.combine(block);
            *room = self.front();
            self.replace(block);
            self.run();
        }
    }

    /// Takes in whole blocks of the ciphertext, without their text.
    #[inline(always)]
    pub fn check_blocks(&mut self, blocks: &[[u8; BLOCK]]) {
        for block in blocks {
            self.replace(block);
            self.run();
        }
    }

    /// Runs the rounds between two blocks.
    #[inline(always)]
    pub fn run(&mut self) {
        run::<FROM, TO>(&mut self.words);
    }

    /// The tag.
    #[inline]
    pub fn end(mut self, key: &[u8; KEY]) -> [u8; KEY] {
        self.combine_key(BLOCK, key);
        run::<0, 12>(&mut self.words);
        self.combine_key(40 - KEY, key);
        let mut bytes = [0; 40];
        self.put(&mut bytes);
        let mut tag = [0; KEY];
        tag.copy_from_slice(&bytes[40 - KEY..]);
        tag
    }

    /// The bytes as a block, with `80` behind them and zeros to its end.
    fn padded(bytes: &[u8]) -> [u8; BLOCK] {
        let mut block = [0; BLOCK];
        block[..bytes.len()].copy_from_slice(bytes);
        block[bytes.len()] = 0x80;
        block
    }

    /// Combines the key into the words, from byte `place` on.
    fn combine_key(&mut self, place: usize, key: &[u8; KEY]) {
        let mut bytes = [0; 40];
        bytes[place..place + KEY].copy_from_slice(key);
        self.combine(&bytes);
    }

    /// Combines the bytes into the first words.
    #[inline(always)]
    fn combine(&mut self, bytes: &[u8]) {
        for (word, eight) in self.words.iter_mut().zip(bytes.as_chunks().0) {
            *word ^= u64::from_be_bytes(*eight);
        }
    }

    /// Puts the block in the place of the first words.
    #[inline(always)]
    pub fn replace(&mut self, block: &[u8; BLOCK]) {
        for (word, eight) in self.words.iter_mut().zip(block.as_chunks().0) {
            *word = u64::from_be_bytes(*eight);
        }
    }

    /// The first block's worth of the words.
    #[inline(always)]
    pub fn front(&self) -> [u8; BLOCK] {
        let mut block = [0; BLOCK];
        self.put(&mut block);
        block
    }

    /// Fills the bytes with the first words.
    #[inline(always)]
    fn put(&self, bytes: &mut [u8]) {
        for (word, eight) in self.words.iter().zip(bytes.as_chunks_mut().0) {
            *eight = word.to_be_bytes();
        }
    }
}
