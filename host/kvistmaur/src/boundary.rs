//! The library's calls as C has them: numbers and slices in, the one number out. The only `unsafe` of this crate.
//!
//! It is for callers who have the number of a set from outside, keep the states of streams themselves, or have to see
//! every answer. The types of this crate stand on it, and rule most refusals out.
//!
//! A call takes any numbers and bytes, and gives 16 × rounds + answer: [`answer`] and [`rounds`] are its two parts. The
//! answer is the first that holds of those that a call has, in the order in which they are named below. With all but 0
//! (done) and 9 (the tag differs) the rounds are 0, and no lent byte changes; only a refused start leaves the ended
//! state. `include/kvistmaur.h` says of each call what each answer means and what each lent byte then holds, and how a
//! state is laid out.
//!
//! A state is [`STATE_LENGTH`](crate::STATE_LENGTH) bytes, which may be copied and kept. They hold the key, so they are
//! secret: [`stream_end`] clears them. A copy of a sealing's state can seal two texts under one key and nonce.
//!
//! ```
//! use kvistmaur::{boundary, STATE_LENGTH};
//!
//! let (set, limit) = (1, 200); // as they came from outside
//! let mut state = [0; STATE_LENGTH];
//! let number = boundary::start_sealing(set, limit, &[7; 16], &[1; 16], &mut state);
//! assert_eq!((boundary::answer(number), boundary::rounds(number)), (0, 12));
//!
//! let (mut cipher, mut tag) = ([0; 5], [0; 16]);
//! assert_eq!(boundary::stream_seal(&mut state, b"close", &mut cipher), 0);
//! assert_eq!(boundary::stream_data(&mut state, b"valve 12"), 7); // data stands before text
//! assert_eq!(boundary::finish_sealing(&mut state, &mut tag), 16 * 12);
//! ```

use std::sync::atomic::{compiler_fence, Ordering};

// As in include/kvistmaur.h: each slice is a pointer, then a length.
#[rustfmt::skip]
unsafe extern "C" {
    fn kvistmaur_seal(
        set: u64,
        key: *const u8, key_len: usize,
        nonce: *const u8, nonce_len: usize,
        data: *const u8, data_len: usize,
        text: *const u8, text_len: usize,
        out: *mut u8, out_len: usize,
        tag: *mut u8, tag_len: usize,
    ) -> u64;
    fn kvistmaur_open(
        set: u64,
        key: *const u8, key_len: usize,
        nonce: *const u8, nonce_len: usize,
        data: *const u8, data_len: usize,
        cipher: *const u8, cipher_len: usize,
        tag: *const u8, tag_len: usize,
        out: *mut u8, out_len: usize,
    ) -> u64;
    fn kvistmaur_start_sealing(
        set: u64, limit: u64,
        key: *const u8, key_len: usize,
        nonce: *const u8, nonce_len: usize,
        state: *mut u8, state_len: usize,
    ) -> u64;
    fn kvistmaur_start_checking(
        set: u64, limit: u64,
        key: *const u8, key_len: usize,
        nonce: *const u8, nonce_len: usize,
        state: *mut u8, state_len: usize,
    ) -> u64;
    fn kvistmaur_start_opening(
        set: u64, limit: u64,
        key: *const u8, key_len: usize,
        nonce: *const u8, nonce_len: usize,
        state: *mut u8, state_len: usize,
    ) -> u64;
    fn kvistmaur_stream_data(
        state: *mut u8, state_len: usize,
        data: *const u8, data_len: usize,
    ) -> u64;
    fn kvistmaur_stream_seal(
        state: *mut u8, state_len: usize,
        text: *const u8, text_len: usize,
        out: *mut u8, out_len: usize,
    ) -> u64;
    fn kvistmaur_stream_check(
        state: *mut u8, state_len: usize,
        cipher: *const u8, cipher_len: usize,
    ) -> u64;
    fn kvistmaur_stream_open(
        state: *mut u8, state_len: usize,
        cipher: *const u8, cipher_len: usize,
        out: *mut u8, out_len: usize,
    ) -> u64;
    fn kvistmaur_finish_sealing(
        state: *mut u8, state_len: usize,
        tag: *mut u8, tag_len: usize,
    ) -> u64;
    fn kvistmaur_finish_checking(
        state: *mut u8, state_len: usize,
        tag: *const u8, tag_len: usize,
    ) -> u64;
    fn kvistmaur_finish_opening(
        state: *mut u8, state_len: usize,
        tag: *const u8, tag_len: usize,
    ) -> u64;
    fn kvistmaur_stream_end(
        state: *mut u8, state_len: usize,
    ) -> u64;
}

/// The answer of a returned number: 0 is done.
#[must_use]
pub const fn answer(number: u64) -> u64 {
    number % 16
}

/// The rounds of a returned number.
#[must_use]
pub const fn rounds(number: u64) -> u64 {
    number / 16
}

// The calls below are sound for the same reasons. Each pointer and its length come from one borrowed slice, so that many
// bytes lie behind it, initialised, for the whole call. What the library writes comes from a `&mut`, so nothing else
// overlaps it. The library is proved to stay within the lengths, to write only where a `*mut` is declared, and to keep no
// pointer; it asks nothing of the numbers or of the bytes.

/// Seals a whole message. Answers 1, 2, 3, 4, 5, 6, 0.
#[must_use]
#[rustfmt::skip]
pub fn seal(set: u64, key: &[u8], nonce: &[u8], data: &[u8], text: &[u8], out: &mut [u8], tag: &mut [u8]) -> u64 {
    unsafe {
        kvistmaur_seal(
            set,
            key.as_ptr(), key.len(),
            nonce.as_ptr(), nonce.len(),
            data.as_ptr(), data.len(),
            text.as_ptr(), text.len(),
            out.as_mut_ptr(), out.len(),
            tag.as_mut_ptr(), tag.len(),
        )
    }
}

/// Opens a whole message; 9 leaves zeros in place of the text. Answers 1, 2, 3, 4, 5, 6, 9, 0.
#[must_use]
#[rustfmt::skip]
pub fn open(set: u64, key: &[u8], nonce: &[u8], data: &[u8], cipher: &[u8], tag: &[u8], out: &mut [u8]) -> u64 {
    unsafe {
        kvistmaur_open(
            set,
            key.as_ptr(), key.len(),
            nonce.as_ptr(), nonce.len(),
            data.as_ptr(), data.len(),
            cipher.as_ptr(), cipher.len(),
            tag.as_ptr(), tag.len(),
            out.as_mut_ptr(), out.len(),
        )
    }
}

/// Starts a sealing, and leaves its state; 1, 2, 3 and 5 leave the ended state. Answers 8, 1, 2, 3, 5, 0.
#[must_use]
#[rustfmt::skip]
pub fn start_sealing(set: u64, limit: u64, key: &[u8], nonce: &[u8], state: &mut [u8]) -> u64 {
    unsafe {
        kvistmaur_start_sealing(
            set, limit,
            key.as_ptr(), key.len(),
            nonce.as_ptr(), nonce.len(),
            state.as_mut_ptr(), state.len(),
        )
    }
}

/// Starts a checking, as [`start_sealing`] does a sealing.
#[must_use]
#[rustfmt::skip]
pub fn start_checking(set: u64, limit: u64, key: &[u8], nonce: &[u8], state: &mut [u8]) -> u64 {
    unsafe {
        kvistmaur_start_checking(
            set, limit,
            key.as_ptr(), key.len(),
            nonce.as_ptr(), nonce.len(),
            state.as_mut_ptr(), state.len(),
        )
    }
}

/// Starts an opening, as [`start_sealing`] does a sealing.
#[must_use]
#[rustfmt::skip]
pub fn start_opening(set: u64, limit: u64, key: &[u8], nonce: &[u8], state: &mut [u8]) -> u64 {
    unsafe {
        kvistmaur_start_opening(
            set, limit,
            key.as_ptr(), key.len(),
            nonce.as_ptr(), nonce.len(),
            state.as_mut_ptr(), state.len(),
        )
    }
}

/// Takes a piece of the data, in any direction. Answers 8, 7, 5, 0.
#[must_use]
#[rustfmt::skip]
pub fn stream_data(state: &mut [u8], data: &[u8]) -> u64 {
    unsafe {
        kvistmaur_stream_data(
            state.as_mut_ptr(), state.len(),
            data.as_ptr(), data.len(),
        )
    }
}

/// Seals a piece of the text. Answers 8, 7, 5, 6, 0.
#[must_use]
#[rustfmt::skip]
pub fn stream_seal(state: &mut [u8], text: &[u8], out: &mut [u8]) -> u64 {
    unsafe {
        kvistmaur_stream_seal(
            state.as_mut_ptr(), state.len(),
            text.as_ptr(), text.len(),
            out.as_mut_ptr(), out.len(),
        )
    }
}

/// Takes a piece of the ciphertext that is to be checked. Answers 8, 7, 5, 0.
#[must_use]
#[rustfmt::skip]
pub fn stream_check(state: &mut [u8], cipher: &[u8]) -> u64 {
    unsafe {
        kvistmaur_stream_check(
            state.as_mut_ptr(), state.len(),
            cipher.as_ptr(), cipher.len(),
        )
    }
}

/// Opens a piece of the ciphertext; what it hands out is unverified until [`finish_opening`] answers 0. Answers 8, 7, 5,
/// 6, 0.
#[must_use]
#[rustfmt::skip]
pub fn stream_open(state: &mut [u8], cipher: &[u8], out: &mut [u8]) -> u64 {
    unsafe {
        kvistmaur_stream_open(
            state.as_mut_ptr(), state.len(),
            cipher.as_ptr(), cipher.len(),
            out.as_mut_ptr(), out.len(),
        )
    }
}

/// Ends a sealing, and gives the tag. Answers 8, 7, 4, 0.
#[must_use]
#[rustfmt::skip]
pub fn finish_sealing(state: &mut [u8], tag: &mut [u8]) -> u64 {
    unsafe {
        kvistmaur_finish_sealing(
            state.as_mut_ptr(), state.len(),
            tag.as_mut_ptr(), tag.len(),
        )
    }
}

/// Ends a checking, and says whether the tag is the right one; 9 leaves the ended state, as 0 does. Answers 8, 7, 4, 9,
/// 0.
#[must_use]
#[rustfmt::skip]
pub fn finish_checking(state: &mut [u8], tag: &[u8]) -> u64 {
    unsafe {
        kvistmaur_finish_checking(
            state.as_mut_ptr(), state.len(),
            tag.as_ptr(), tag.len(),
        )
    }
}

/// Ends an opening, as [`finish_checking`] does a checking; 9 does not take back what was handed out.
#[must_use]
#[rustfmt::skip]
pub fn finish_opening(state: &mut [u8], tag: &[u8]) -> u64 {
    unsafe {
        kvistmaur_finish_opening(
            state.as_mut_ptr(), state.len(),
            tag.as_ptr(), tag.len(),
        )
    }
}

/// Ends a stream without a tag, and so clears its key and words, whatever the state holds. Answers 8, 0.
#[must_use]
#[rustfmt::skip]
pub fn stream_end(state: &mut [u8]) -> u64 {
    unsafe {
        kvistmaur_stream_end(
            state.as_mut_ptr(), state.len(),
        )
    }
}

/// Puts zeros in the place of all the bytes, also where nobody will read them again.
pub(crate) fn clear(bytes: &mut [u8]) {
    for byte in bytes {
        // Sound: the pointer is that of a `&mut`. The compiler may leave out an ordinary write before a drop, but no
        // volatile one.
        unsafe { std::ptr::write_volatile(byte, 0) };
    }
    compiler_fence(Ordering::SeqCst);
}
