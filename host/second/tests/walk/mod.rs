//! The cipher of all sets once more, on 40 bytes and by the formulas of document 004; it calls nothing of the program.

/// The numbers of a set as the papers print them; lengths are in bytes.
pub struct Numbers {
    pub set: u64,
    /// What stands before the key at the start.
    pub front: &'static [u8],
    pub key: usize,
    pub block: usize,
    pub middle: usize,
    /// The round, from 0, whose constant the first of the middle rounds takes.
    pub from: usize,
}

/// All sets: 1 and 2 from paper 01, 3 and 4 from request W5.
pub const ALL: [Numbers; 4] = [
    Numbers {
        set: 1,
        front: &[0x80, 0x0c, 0x06, 0, 0, 0, 0, 0],
        key: 16,
        block: 8,
        middle: 6,
        from: 0,
    },
    Numbers {
        set: 2,
        front: &[0x60, 0x0c, 0x08, 0, 0, 0, 0, 0, 0, 0, 0, 0, 0, 0, 0, 0],
        key: 12,
        block: 16,
        middle: 8,
        from: 0,
    },
    Numbers {
        set: 3,
        front: &[0x80, 0x40, 0x0c, 0x06, 0, 0, 0, 0],
        key: 16,
        block: 8,
        middle: 6,
        from: 6,
    },
    Numbers {
        set: 4,
        front: &[0x80, 0x80, 0x0c, 0x08, 0, 0, 0, 0],
        key: 16,
        block: 16,
        middle: 8,
        from: 4,
    },
];

/// The 40 bytes of a state.
pub type Bytes = [u8; 40];

/// Gives the five words of the state.
pub fn words(state: &Bytes) -> [u64; 5] {
    let mut words = [0; 5];
    for (word, bytes) in words.iter_mut().zip(state.chunks(8)) {
        *word = u64::from_be_bytes(bytes.try_into().expect("eight bytes"));
    }
    words
}

/// Gives the state of the five words.
pub fn bytes(words: [u64; 5]) -> Bytes {
    let all = words.map(u64::to_be_bytes).concat();
    all.try_into().expect("forty bytes")
}

/// Gives the words after round `i`, from 0, by the printed word program (figure 7) and the printed turns.
fn round(words: [u64; 5], i: usize) -> [u64; 5] {
    let [mut x0, mut x1, mut x2, mut x3, mut x4] = words;
    // The constants are a falling and a rising counter (section 5.2).
    x2 ^= ((15 - i) * 16 + i) as u64;
    x0 ^= x4;
    x4 ^= x3;
    x2 ^= x1;
    let (t0, t1, t2, t3, t4) = (!x0 & x1, !x1 & x2, !x2 & x3, !x3 & x4, !x4 & x0);
    x0 ^= t1;
    x1 ^= t2;
    x2 ^= t3;
    x3 ^= t4;
    x4 ^= t0;
    x1 ^= x0;
    x0 ^= x4;
    x3 ^= x2;
    x2 = !x2;
    let turned = |x: u64, one: u32, other: u32| x ^ x.rotate_right(one) ^ x.rotate_right(other);
    [
        turned(x0, 19, 28),
        turned(x1, 61, 39),
        turned(x2, 1, 6),
        turned(x3, 10, 17),
        turned(x4, 7, 41),
    ]
}

/// Runs `count` rounds, the first of them with the constant of round `from`.
pub fn run(state: &mut Bytes, from: usize, count: usize) {
    let mut now = words(state);
    for i in from..from + count {
        now = round(now, i);
    }
    *state = bytes(now);
}

/// Combines the bytes into the state from `place` on.
pub fn combine(state: &mut Bytes, place: usize, bytes: &[u8]) {
    for (i, byte) in bytes.iter().enumerate() {
        state[place + i] ^= byte;
    }
}

/// Gives the state after the start.
pub fn started(n: &Numbers, key: &[u8], nonce: &[u8]) -> Bytes {
    let whole = [n.front, key, nonce].concat();
    let mut state: Bytes = whole.try_into().expect("front, key and nonce are a state");
    run(&mut state, 0, 12);
    combine(&mut state, 40 - n.key, key);
    state
}

/// Ends a state that has taken the padded text, and gives the tag.
pub fn tag(n: &Numbers, mut state: Bytes, key: &[u8]) -> Vec<u8> {
    combine(&mut state, n.block, key);
    run(&mut state, 0, 12);
    combine(&mut state, 40 - n.key, key);
    state[40 - n.key..].to_vec()
}

/// Gives ciphertext, tag and the number of rounds of a message, byte by byte.
pub fn sealed(
    n: &Numbers,
    key: &[u8],
    nonce: &[u8],
    ad: &[u8],
    text: &[u8],
) -> (Vec<u8>, Vec<u8>, u64) {
    let mut state = started(n, key, nonce);
    let mut rounds = 12;
    for (i, byte) in ad.iter().enumerate() {
        state[i % n.block] ^= byte;
        if (i + 1) % n.block == 0 {
            run(&mut state, n.from, n.middle);
            rounds += n.middle;
        }
    }
    if !ad.is_empty() {
        state[ad.len() % n.block] ^= 0x80;
        run(&mut state, n.from, n.middle);
        rounds += n.middle;
    }
    state[39] ^= 1;
    let mut cipher = Vec::new();
    for (i, byte) in text.iter().enumerate() {
        state[i % n.block] ^= byte;
        cipher.push(state[i % n.block]);
        if (i + 1) % n.block == 0 {
            run(&mut state, n.from, n.middle);
            rounds += n.middle;
        }
    }
    state[text.len() % n.block] ^= 0x80;
    (cipher, tag(n, state, key), rounds as u64 + 12)
}
