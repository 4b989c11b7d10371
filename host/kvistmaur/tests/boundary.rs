//! States in the caller's hands: how the library lays them out, when it clears them, and what a copy does.

use kvistmaur::{boundary, STATE_LENGTH, TEXT_LIMIT};

/// The ended state: set 1, phase 2, and zeros.
const ENDED: [u8; STATE_LENGTH] = {
    let mut state = [0; STATE_LENGTH];
    state[63] = 1;
    state[79] = 2;
    state
};

const KEY: [u8; 16] = *b"a key of 16 byte";
const NONCE: [u8; 16] = *b"message no. 0007";

/// A start of the boundary.
type Start = fn(u64, u64, &[u8], &[u8], &mut [u8]) -> u64;

/// The starts, in the order of the directions' numbers.
const STARTS: [Start; 3] = [
    boundary::start_sealing,
    boundary::start_checking,
    boundary::start_opening,
];

/// The state of a stream that was just started, in a set whose keys have this length.
fn started(direction: usize, set: u64, limit: u64, length: usize) -> [u8; STATE_LENGTH] {
    let mut state = [0xee; STATE_LENGTH];
    let number = STARTS[direction](set, limit, &KEY[..length], &NONCE[..length], &mut state);
    assert_eq!(
        (boundary::answer(number), boundary::rounds(number)),
        (0, 12)
    );
    state
}

/// A number as it stands in a state.
fn eight(number: u64) -> [u8; 8] {
    number.to_be_bytes()
}

/// Behind the words stand the key, the set, the direction, the phase, the counts, the place and the limit.
#[test]
fn the_layout_of_a_state() {
    for (set, length) in [(1, 16), (2, 12), (3, 16), (4, 16)] {
        for direction in 0..3 {
            let mut state = started(direction, set, 0x12345, length);
            let mut key = KEY;
            key[length..].fill(0);
            let number = eight(direction as u64);
            let begun = [
                eight(set),
                number,
                eight(0),
                eight(0),
                eight(0),
                eight(0),
                eight(0x12345),
            ];
            assert_eq!(state[40..56], key);
            assert_eq!(state[56..], begun.concat());

            assert_eq!(boundary::stream_data(&mut state, b"val") % 16, 0);
            let told = [
                eight(set),
                number,
                eight(0),
                eight(3),
                eight(0),
                eight(3),
                eight(0x12345),
            ];
            assert_eq!(state[40..56], key);
            assert_eq!(state[56..], told.concat());

            let piece = b"close";
            let taken = match direction {
                0 => boundary::stream_seal(&mut state, piece, &mut [0; 5]),
                1 => boundary::stream_check(&mut state, piece),
                _ => boundary::stream_open(&mut state, piece, &mut [0; 5]),
            };
            assert_eq!(taken % 16, 0);
            let text = [
                eight(set),
                number,
                eight(1),
                eight(3),
                eight(5),
                eight(5),
                eight(0x12345),
            ];
            assert_eq!(state[40..56], key);
            assert_eq!(state[56..], text.concat());
        }
    }
}

/// The words of set 3 just started, whose key and nonce count up from zero: their first 8 bytes seal the first 8 of the text to what is published.
#[test]
fn the_words_of_a_state() {
    let counting: [u8; 16] = std::array::from_fn(|place| place as u8);
    let mut state = [0; STATE_LENGTH];
    assert_eq!(
        boundary::start_sealing(3, 8, &counting, &counting, &mut state),
        16 * 12
    );
    let front: Vec<u8> = state[..8]
        .iter()
        .zip(&counting)
        .map(|(x, y)| x ^ y)
        .collect();
    assert_eq!(front, [0xbc, 0x82, 0x0d, 0xbd, 0xf7, 0xa4, 0x63, 0x1c]);
}

/// A start that is refused leaves no stream, whatever stood there.
#[test]
fn a_refused_start_leaves_the_ended_state() {
    let largest = TEXT_LIMIT as u64;
    for start in STARTS {
        for before in [
            started(0, 1, 200, 16),
            [0; STATE_LENGTH],
            [0xff; STATE_LENGTH],
        ] {
            for (set, limit, key, nonce, answer) in [
                (5, 200, 16, 16, 1),
                (1, 200, 15, 16, 2),
                (1, 200, 16, 15, 3),
                (1, largest + 1, 16, 16, 5),
            ] {
                let mut state = before;
                let number = start(set, limit, &KEY[..key], &NONCE[..nonce], &mut state);
                assert_eq!((number, state), (answer, ENDED));
                assert_eq!(boundary::stream_data(&mut state, b""), 7);
            }
            // Another length is no place for a state: nothing changes there.
            let mut short = before;
            let number = start(1, 200, &KEY, &NONCE, &mut short[1..]);
            assert_eq!((number, short), (8, before));
        }
    }
}

/// An end without a tag clears all that a stream holds, and so does each finish.
#[test]
fn ends_clear_the_state() {
    for direction in 0..3 {
        let open = started(direction, 1, 200, 16);
        assert!(open.windows(16).any(|part| part == KEY));

        let mut state = open;
        assert_eq!((boundary::stream_end(&mut state), state), (0, ENDED));
        assert_eq!((boundary::stream_end(&mut state), state), (0, ENDED));

        let mut state = open;
        let (rounds, mut tag) = (16 * 12, [0; 16]);
        let finished = match direction {
            0 => boundary::finish_sealing(&mut state, &mut tag),
            1 => boundary::finish_checking(&mut state, &tag),
            _ => boundary::finish_opening(&mut state, &tag),
        };
        let answer = if direction == 0 { 0 } else { 9 };
        assert_eq!((finished, state), (rounds + answer, ENDED));
    }
    let mut any = [0xff; STATE_LENGTH];
    assert_eq!((boundary::stream_end(&mut any), any), (0, ENDED));
    let mut short = [0xff; STATE_LENGTH - 1];
    assert_eq!(
        (boundary::stream_end(&mut short), short),
        (8, [0xff; STATE_LENGTH - 1])
    );
}

/// A state that was kept goes on where it stood; so each copy of a sealing seals a text of its own under one nonce, which nobody should do.
#[test]
fn a_copy_goes_on_by_itself() {
    let mut kept = started(0, 1, 200, 16);
    assert_eq!(boundary::stream_data(&mut kept, b"valve 12"), 16 * 6);
    for text in [b"close", b"open!"] {
        let mut state = kept;
        let (mut cipher, mut tag) = ([0; 5], [0; 16]);
        assert_eq!(boundary::stream_seal(&mut state, text, &mut cipher), 16 * 6);
        assert_eq!(boundary::finish_sealing(&mut state, &mut tag), 16 * 12);

        let (mut whole, mut whole_tag) = ([0; 5], [0; 16]);
        let sealed = boundary::seal(
            1,
            &KEY,
            &NONCE,
            b"valve 12",
            text,
            &mut whole,
            &mut whole_tag,
        );
        assert_eq!((sealed, cipher, tag), (16 * 36, whole, whole_tag));
    }
}
