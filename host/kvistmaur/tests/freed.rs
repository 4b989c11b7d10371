//! No memory is freed while it holds a key, or the words of a stream.

// An allocator that looks at what is freed can't be written without.
#![allow(unsafe_code)]

use kvistmaur::{boundary, Checking, Key, Nonce, Opening, Sealing, Set, Tag, STATE_LENGTH};
use std::alloc::{GlobalAlloc, Layout, System};
use std::sync::atomic::{AtomicU64, AtomicUsize, Ordering::SeqCst};

/// A key that nothing else in memory looks like.
const KEY: [u8; 16] = *b"\xd3\x1f\x82k\xe5Q\x07\xac\x9d4\xbe\x16\xf8i\x02\xc7";
const NONCE: [u8; 16] = *b"message no. 0006";

/// The words of a stream under this key and nonce: just started, and after the first piece of text.
static WORDS: [AtomicU64; 10] = [const { AtomicU64::new(0) }; 10];

/// How many blocks held the key or such a word when they were freed.
static FOUND: AtomicUsize = AtomicUsize::new(0);

/// The system's allocator, but it looks at each block that is freed.
struct Watching;

#[global_allocator]
static WATCHING: Watching = Watching;

// Sound as the system's allocator is: each call goes on to it with the same arguments. Blocks are cleared when they are
// handed out, so that all of a block can be read when it comes back.
unsafe impl GlobalAlloc for Watching {
    unsafe fn alloc(&self, layout: Layout) -> *mut u8 {
        unsafe { System.alloc_zeroed(layout) }
    }

    unsafe fn dealloc(&self, block: *mut u8, layout: Layout) {
        let bytes = unsafe { std::slice::from_raw_parts(block, layout.size()) };
        FOUND.fetch_add(usize::from(is_telling(bytes)), SeqCst);
        unsafe { System.dealloc(block, layout) }
    }
}

/// The number that eight bytes spell.
fn number(eight: &[u8]) -> u64 {
    let append = |number, byte: &u8| number << 8 | u64::from(*byte);
    eight.iter().fold(0, append)
}

/// Whether bytes hold four bytes of the key in a row, or a word.
fn is_telling(bytes: &[u8]) -> bool {
    let is_of_the_key = |four: &[u8]| KEY.windows(4).any(|part| part == four);
    let is_a_word = |eight: &[u8]| {
        let number = number(eight);
        number != 0 && WORDS.iter().any(|word| word.load(SeqCst) == number)
    };
    bytes.windows(4).any(is_of_the_key) || bytes.windows(8).any(is_a_word)
}

/// How many telling blocks are freed while something is done.
fn freed_by(done: impl FnOnce()) -> usize {
    let before = FOUND.load(SeqCst);
    done();
    FOUND.load(SeqCst) - before
}

/// Has the words of a state looked for, too; they are kept from a place on.
fn look_for(state: &[u8; STATE_LENGTH], place: usize) {
    for (word, eight) in WORDS[place..].iter().zip(state[..40].chunks(8)) {
        word.store(number(eight), SeqCst);
    }
}

/// Key and nonce.
fn parts() -> (Key, Nonce) {
    (Key::from(KEY), Nonce::from(NONCE))
}

#[test]
fn keys_and_streams_are_cleared_before_they_are_freed() {
    let mut state = [0; STATE_LENGTH];
    assert_eq!(
        boundary::start_sealing(1, 200, &KEY, &NONCE, &mut state),
        16 * 12
    );
    look_for(&state, 0);
    assert_eq!(boundary::stream_seal(&mut state, b"close", &mut [0; 5]), 0);
    look_for(&state, 5);

    // It is seen where a block is freed as it is.
    assert_eq!(freed_by(|| drop(KEY.to_vec())), 1);
    assert_eq!(freed_by(|| drop(state[..40].to_vec())), 1);
    assert_eq!(freed_by(|| drop(state[8..16].to_vec())), 1);
    assert_eq!(boundary::stream_end(&mut state), 0);
    assert_eq!(freed_by(|| drop(state.to_vec())), 0);

    assert_eq!(freed_by(|| drop(parts())), 0);
    assert_eq!(freed_by(|| drop(Key::try_from(&KEY[..]))), 0);
    assert_eq!(freed_by(|| drop(parts().0.clone())), 0);
    // A vector that grows moves its keys.
    let grow = || {
        let mut keys = vec![parts().0];
        (0..100).for_each(|_| keys.push(keys[0].clone()));
    };
    assert_eq!(freed_by(grow), 0);

    let (key, nonce) = parts();
    let sealing = || Sealing::start(Set::Ascon128, &key, &nonce).unwrap();
    let checking = || Checking::start(Set::Ascon128, &key, &nonce).unwrap();
    let opening = || Opening::start(Set::Ascon128, &key, &nonce).unwrap();
    let tag = Tag::from([0; 16]);

    // Dropped at once; moved, and dropped in the middle of the text; finished; and finished with another tag.
    assert_eq!(freed_by(|| drop((sealing(), checking(), opening()))), 0);
    let in_the_text = || {
        let mut streams = vec![(sealing(), checking(), opening())];
        for (sealing, checking, opening) in &mut streams {
            sealing.seal(b"close", &mut [0; 5]).unwrap();
            checking.check(b"close").unwrap();
            opening.open(b"close", &mut [0; 5]).unwrap();
        }
        streams.extend((0..9).map(|_| (sealing(), checking(), opening())));
    };
    assert_eq!(freed_by(in_the_text), 0);
    let finished = || {
        assert_ne!(sealing().finish().tag, tag);
        assert_eq!(checking().finish(&tag).unwrap_err().number(), 9);
        assert_eq!(opening().finish(&tag).unwrap_err().number(), 9);
    };
    assert_eq!(freed_by(finished), 0);
    // Refused, so that no stream comes of it.
    let refused = || assert!(Sealing::start(Set::Ascon96, &key, &nonce).is_err());
    assert_eq!(freed_by(refused), 0);
}
