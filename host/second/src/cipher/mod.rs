//! Sealing and opening of well-formed messages, step by step as published.

mod blocks;
mod sets;
mod state;

pub use blocks::{cipher_blocks, first_bytes, padded_data, padded_text};
pub use sets::{set_numbers, set_of, Set, SETS};
pub use state::State;

/// What sealing gives: ciphertext, tag and the number of rounds that ran.
#[derive(Clone, Debug, PartialEq, Eq)]
pub struct Sealed {
    pub cipher: Vec<u8>,
    pub tag: Vec<u8>,
    pub rounds: u64,
}

/// What opening gives: the text, or nothing when the tag differs, and the rounds that ran.
#[derive(Clone, Debug, PartialEq, Eq)]
pub struct Opened {
    pub text: Option<Vec<u8>>,
    pub rounds: u64,
}

/// Gives the state after the start: first bytes, key and nonce, a long run, the key at the end.
pub(crate) fn started(set: &Set, key: &[u8], nonce: &[u8]) -> State {
    let mut bytes = first_bytes(set);
    bytes.extend(key);
    bytes.extend(nonce);
    let mut state = State::new(&bytes);
    state.run(set.edition, set.outer);
    // 004 combines a key behind block and key, which in v1 are all but the last key's length; in set 4
    // they reach further (W5: "no longer two keys long"), so the rules' "last bytes of the state" decide.
    state.combine_last(key);
    state
}

/// Takes the associated data into the state and flips the state's last bit.
fn take_data(set: &Set, state: &mut State, ad: &[u8]) {
    for block in padded_data(set, ad) {
        state.combine(0, &block);
        state.run(set.edition, set.middle);
    }
    state.combine(39, &[1]);
}

/// Ends the message and gives its tag.
pub(crate) fn finish(set: &Set, state: &mut State, key: &[u8]) -> Vec<u8> {
    // Right behind the block in every set: so says the formula of 004, which is written in the rate r.
    state.combine(set.block, key);
    state.run(set.edition, set.outer);
    combined(state.last(set.key), key)
}

/// Gives the bytewise exclusive or of two lists of the same length.
pub(crate) fn combined(one: &[u8], other: &[u8]) -> Vec<u8> {
    assert_eq!(one.len(), other.len());
    one.iter().zip(other).map(|(a, b)| a ^ b).collect()
}

/// Gives ciphertext, tag and counted rounds of a message whose key and nonce have the set's length.
pub fn seal_published(set: &Set, key: &[u8], nonce: &[u8], ad: &[u8], text: &[u8]) -> Sealed {
    let blocks = padded_text(set, text);
    let (last, before) = blocks.split_last().expect("text is always padded");
    let left = text.len() % set.block;

    let mut state = started(set, key, nonce);
    take_data(set, &mut state, ad);

    let mut cipher = Vec::new();
    for block in before {
        state.combine(0, block);
        cipher.extend(state.first(set.block));
        state.run(set.edition, set.middle);
    }
    state.combine(0, last);
    cipher.extend(state.first(left));

    let tag = finish(set, &mut state, key);
    Sealed {
        cipher,
        tag,
        rounds: state.rounds(),
    }
}

/// Gives the text of a sealed message, or none when its tag isn't ours, and the counted rounds.
pub fn open_published(
    set: &Set,
    key: &[u8],
    nonce: &[u8],
    ad: &[u8],
    cipher: &[u8],
    tag: &[u8],
) -> Opened {
    let blocks = cipher_blocks(set, cipher);
    let (last, before) = blocks.split_last().expect("there is always a last block");
    let left = last.len();

    let mut state = started(set, key, nonce);
    take_data(set, &mut state, ad);

    let mut text = Vec::new();
    for block in before {
        text.extend(combined(state.first(set.block), block));
        state.replace_front(block);
        state.run(set.edition, set.middle);
    }
    text.extend(combined(state.first(left), last));
    state.replace_front(last);
    state.combine(left, &[0x80]);

    let ours = finish(set, &mut state, key);
    Opened {
        text: if ours == tag { Some(text) } else { None },
        rounds: state.rounds(),
    }
}
