//! The programs that are compared, each as a pair of calls that give 16 × rounds + answer.

use kvistmaur::{boundary, Key, Nonce, Refusal, Rounds, Set, Tag};
use second::calls;

type Seal = fn(u64, &[u8], &[u8], &[u8], &[u8], &mut [u8], &mut [u8]) -> u64;
type Open = fn(u64, &[u8], &[u8], &[u8], &[u8], &[u8], &mut [u8]) -> u64;

/// A program's name, its sealing and its opening.
pub struct Program {
    pub name: &'static str,
    pub seal: Seal,
    pub open: Open,
}

/// The model by its boundary, which takes every call.
pub const BOUNDARY: Program = Program {
    name: "the boundary",
    seal: boundary::seal,
    open: boundary::open,
};

/// The model by its types, which take the calls that they can say.
pub const TYPES: Program = Program {
    name: "the types",
    seal: |set, key, nonce, data, text, out, tag| {
        let (set, key, nonce) = typed(set, key, nonce);
        let sealed = kvistmaur::seal(set, &key, &nonce, data, text, out);
        one_number(sealed.map(|sealed| {
            tag.copy_from_slice(sealed.tag.as_ref());
            sealed.rounds
        }))
    },
    open: |set, key, nonce, data, cipher, tag, out| {
        let (set, key, nonce) = typed(set, key, nonce);
        let tag = Tag::try_from(tag).expect("a tag");
        one_number(kvistmaur::open(set, &key, &nonce, data, cipher, &tag, out))
    },
};

/// The second program.
pub const SECOND: Program = Program {
    name: "the second program",
    seal: |set, key, nonce, data, text, out, tag| {
        calls::seal(set, key, nonce, data, text, out, tag).one_number()
    },
    open: |set, key, nonce, data, cipher, tag, out| {
        calls::open(set, key, nonce, data, cipher, tag, out).one_number()
    },
};

/// Set, key and nonce of a call that the types can say.
fn typed(set: u64, key: &[u8], nonce: &[u8]) -> (Set, Key, Nonce) {
    (
        Set::try_from(set).expect("a set"),
        Key::try_from(key).expect("a key"),
        Nonce::try_from(nonce).expect("a nonce"),
    )
}

/// The number at the boundary that a result stands for.
fn one_number(result: Result<Rounds, Refusal>) -> u64 {
    match result {
        Ok(Rounds(rounds)) => 16 * rounds,
        Err(Refusal::TagDiffers { rounds }) => 16 * rounds.0 + 9,
        Err(refusal) => refusal.number(),
    }
}
