//! Blocks of a message as lists of bytes.

use super::Set;
use crate::permutation::Edition;

/// Gives the bytes with `80` and zeros added, cut into whole blocks.
fn padded(set: &Set, bytes: &[u8]) -> Vec<Vec<u8>> {
    let mut longer = bytes.to_vec();
    longer.push(0x80);
    let zeros = set.block - 1 - bytes.len() % set.block;
    longer.extend(vec![0; zeros]);
    longer.chunks(set.block).map(|part| part.to_vec()).collect()
}

/// Gives the padded blocks of a text; there is always at least one.
pub fn padded_text(set: &Set, text: &[u8]) -> Vec<Vec<u8>> {
    padded(set, text)
}

/// Gives the padded blocks of associated data; empty data has none.
pub fn padded_data(set: &Set, ad: &[u8]) -> Vec<Vec<u8>> {
    if ad.is_empty() {
        Vec::new()
    } else {
        padded(set, ad)
    }
}

/// Gives the blocks of a ciphertext: whole ones, and a last one that is shorter and may be empty.
pub fn cipher_blocks(set: &Set, cipher: &[u8]) -> Vec<Vec<u8>> {
    let whole = cipher.len() / set.block;
    let mut blocks = Vec::new();
    for i in 0..whole {
        blocks.push(cipher[i * set.block..(i + 1) * set.block].to_vec());
    }
    blocks.push(cipher[whole * set.block..].to_vec());
    blocks
}

/// Gives the bytes of the state that stand before key and nonce at the start.
///
/// In v1 they are the first block: key bits, both round numbers, zeros to its end. In v1.2 they are
/// "the first word" (W5), 8 bytes whatever the block, which "now carries the block size too", in bits
/// behind those of the key as the two printed words have it.
pub fn first_bytes(set: &Set) -> Vec<u8> {
    let [key, block] = [set.key, set.block].map(|bytes| (bytes * 8) as u8);
    let [outer, middle] = [set.outer, set.middle].map(|rounds| rounds as u8);
    let (mut bytes, length) = match set.edition {
        Edition::V1 => (vec![key, outer, middle], set.block),
        Edition::V1Dot2 => (vec![key, block, outer, middle], 8),
    };
    bytes.resize(length, 0);
    bytes
}
