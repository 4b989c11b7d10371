//! Streams by their types: phases, room, limits, ends, starts, cuttings, and what they show; in each set and direction.

mod walk;

use kvistmaur::{
    Checking, Key, Nonce, Opening, Refusal, Rounds, Sealing, Set, Tag, DATA_LIMIT, START_ROUNDS,
    TEXT_LIMIT,
};
use walk::{Message, Walk};

const DATA: &[u8] = b"valve 12";
const TEXT: &[u8] = b"close, then report in";

/// Runs a case in each set, with a message, in each direction.
fn everywhere(cases: [fn(&Message); 3]) {
    let mut ran = 0;
    for set in Set::ALL {
        let message = Message::new(*set, DATA, TEXT);
        for case in cases {
            case(&message);
            ran += 1;
        }
    }
    assert_eq!(ran, 4 * 3);
}

/// The rounds between, and the bytes of a block.
fn middle_and_block(set: Set) -> (u64, usize) {
    match set.number() {
        1 | 3 => (6, 8),
        _ => (8, 16),
    }
}

/// A stream that has taken the data.
fn after_data<W: Walk>(message: &Message, limit: usize) -> W {
    let mut stream = W::begin(message, limit).expect("it fits");
    stream.take_data(&message.data).expect("it fits");
    stream
}

/// Takes all of the text in one piece, and says that it hands out what it should, and that the tag is right.
fn goes_on_to_its_end<W: Walk>(mut stream: W, message: &Message) {
    let mut out = vec![0; W::given(message).len()];
    stream.take(W::body(message), &mut out).expect("it fits");
    assert_eq!(out, W::given(message));
    assert_eq!(stream.end(&message.tag), Ok(Rounds(12)));
}

#[test]
fn data_after_text_is_out_of_phase() {
    fn case<W: Walk>(message: &Message) {
        let mut stream = after_data::<W>(message, TEXT_LIMIT);
        // A piece of no bytes closes the data, too.
        stream.take(&[], &mut []).expect("it fits");
        for data in [&b"more"[..], b"", &[0; DATA_LIMIT + 1]] {
            assert_eq!(stream.take_data(data), Err(Refusal::OutOfPhase));
        }
        goes_on_to_its_end(stream, message);
    }
    everywhere([case::<Sealing>, case::<Checking>, case::<Opening>]);
}

#[test]
fn a_refused_text_call_does_not_close_the_data() {
    fn case<W: Walk>(message: &Message) {
        let mut stream = W::begin(message, TEXT.len()).expect("it fits");
        let past = stream.take(&[0; 22], &mut [0; 22]);
        assert_eq!(past, Err(Refusal::PastLimit));
        stream.take_data(DATA).expect("data is still taken");
        goes_on_to_its_end(stream, message);
    }
    everywhere([case::<Sealing>, case::<Checking>, case::<Opening>]);
}

#[test]
fn room() {
    fn case<W: Walk>(message: &Message) {
        let mut stream = after_data::<W>(message, TEXT_LIMIT);
        let mut out = [9; 40];
        for room in [0, 1, 20] {
            let answer = stream.take(W::body(message), &mut out[..room]);
            assert_eq!(answer, Err(Refusal::OutputTooShort));
        }
        assert_eq!(out, [9; 40]);
        stream.take(W::body(message), &mut out).expect("it fits");
        assert_eq!(out[..21], *W::given(message));
        assert_eq!(out[21..], [9; 19]);
        assert_eq!(stream.end(&message.tag), Ok(Rounds(12)));
    }
    // A checking hands out nothing, and needs no room.
    everywhere([case::<Sealing>, goes_without_room, case::<Opening>]);
}

/// A checking is lent no place at all.
fn goes_without_room(message: &Message) {
    goes_on_to_its_end(after_data::<Checking>(message, TEXT_LIMIT), message);
}

#[test]
fn the_limit_of_the_text() {
    fn case<W: Walk>(message: &Message) {
        let mut out = [9; 30];
        let mut stream = after_data::<W>(message, TEXT.len());
        let body = W::body(message);
        assert_eq!(stream.take(&[0; 22], &mut out), Err(Refusal::PastLimit));
        // Where there is neither room, it is the limit that is named.
        assert_eq!(stream.take(&[0; 22], &mut []), Err(Refusal::PastLimit));
        stream.take(&body[..20], &mut out).expect("it fits");
        let two = stream.take(&[0; 2], &mut out[20..]);
        assert_eq!(two, Err(Refusal::PastLimit));
        stream.take(&body[20..], &mut out[20..]).expect("it fits");
        let given = W::given(message);
        assert_eq!(out[..given.len()], *given);
        assert_eq!(out[given.len()..], [9; 30][given.len()..]);
        assert_eq!(stream.take(&[0], &mut [0]), Err(Refusal::PastLimit));
        stream.take(&[], &mut []).expect("nothing is always taken");
        assert_eq!(stream.end(&message.tag), Ok(Rounds(12)));
    }
    everywhere([case::<Sealing>, case::<Checking>, case::<Opening>]);
}

#[test]
fn limits_of_starts() {
    fn case<W: Walk>(message: &Message) {
        let mut none = W::begin(message, 0).expect("0 is a limit");
        assert_eq!(none.take(&[0], &mut [0]), Err(Refusal::PastLimit));
        none.take(&[], &mut []).expect("nothing is always taken");
        for limit in [TEXT_LIMIT + 1, usize::MAX] {
            assert_eq!(W::begin(message, limit).unwrap_err(), Refusal::PastLimit);
        }
    }
    everywhere([case::<Sealing>, case::<Checking>, case::<Opening>]);
}

#[test]
fn all_that_a_message_may_have() {
    fn case<W: Walk>(message: &Message) {
        let full = Message::new(message.set, &[2; DATA_LIMIT], &[3; TEXT_LIMIT]);
        let mut stream = W::begin(&full, TEXT_LIMIT).expect("it is the largest limit");
        let (first, rest) = full.data.split_at(1_000);
        stream.take_data(first).expect("it fits");
        let past = stream.take_data(&full.data);
        assert_eq!(past, Err(Refusal::PastLimit));
        stream.take_data(rest).expect("it fits");
        assert_eq!(stream.take_data(&[2]), Err(Refusal::PastLimit));

        let mut out = vec![0; W::given(&full).len()];
        stream.take(W::body(&full), &mut out).expect("it fits");
        assert!(out == W::given(&full), "something else was handed out");
        assert_eq!(stream.take(&[3], &mut [0]), Err(Refusal::PastLimit));
        assert_eq!(stream.end(&full.tag), Ok(Rounds(12)));
    }
    everywhere([case::<Sealing>, case::<Checking>, case::<Opening>]);
}

#[test]
fn finishing_in_each_phase() {
    fn case<W: Walk>(message: &Message) {
        let (middle, _) = middle_and_block(message.set);
        for (data, closing) in [(&b""[..], 0), (DATA, middle)] {
            let empty = Message::new(message.set, data, b"");
            // Without a text call the finish closes the data.
            let stream = after_data::<W>(&empty, 0);
            assert_eq!(stream.end(&empty.tag), Ok(Rounds(12 + closing)));
            let mut stream = after_data::<W>(&empty, 0);
            assert_eq!(stream.take(&[], &mut []), Ok(Rounds(closing)));
            assert_eq!(stream.end(&empty.tag), Ok(Rounds(12)));
        }
    }
    everywhere([case::<Sealing>, case::<Checking>, case::<Opening>]);
}

#[test]
fn tags_of_another_length() {
    fn case<W: Walk>(message: &Message) {
        let other = match message.set.key_length() {
            12 => Tag::from([5; 16]),
            _ => Tag::from([5; 12]),
        };
        let stream = after_data::<W>(message, TEXT_LIMIT);
        assert_eq!(stream.end(&other), Err(Refusal::TagLength));
    }
    // A sealing is given no tag: its own has the set's length.
    let sealed = |message: &Message| {
        let sealing = Sealing::start(message.set, &message.key, &message.nonce).unwrap();
        assert_eq!(
            sealing.finish().tag.as_ref().len(),
            message.set.key_length()
        );
    };
    everywhere([sealed, case::<Checking>, case::<Opening>]);
}

#[test]
fn tags_that_differ() {
    fn case<W: Walk>(message: &Message) {
        let rounds = Rounds(12);
        for bit in 0..8 * message.set.key_length() {
            let mut stream = after_data::<W>(message, TEXT_LIMIT);
            let mut out = vec![0; W::given(message).len()];
            stream.take(W::body(message), &mut out).expect("it fits");
            let answer = stream.end(&message.wrong_tag(bit));
            assert_eq!(answer, Err(Refusal::TagDiffers { rounds }));
            // What an opening handed out is not taken back.
            assert_eq!(out, W::given(message));
        }
    }
    everywhere([case::<Sealing>, case::<Checking>, case::<Opening>]);
}

#[test]
fn a_tampered_ciphertext() {
    fn case<W: Walk>(message: &Message) {
        let rounds = Rounds(12);
        for byte in 0..TEXT.len() {
            let mut cipher = message.cipher.clone();
            cipher[byte] ^= 1;
            let mut stream = after_data::<W>(message, TEXT_LIMIT);
            let mut out = [9; 21];
            stream.take(&cipher, &mut out).expect("it fits");
            assert_eq!(
                stream.end(&message.tag),
                Err(Refusal::TagDiffers { rounds })
            );
            if W::GIVES {
                // Up to the wrong byte it is the text, which then has the same bit wrong.
                assert_eq!(out[..byte], TEXT[..byte]);
                assert_eq!(out[byte], TEXT[byte] ^ 1);
            } else {
                assert_eq!(out, [9; 21]);
            }
        }
    }
    let sealed = |_: &Message| (); // A sealing takes no ciphertext.
    everywhere([sealed, case::<Checking>, case::<Opening>]);
}

#[test]
fn cuttings_give_the_same() {
    fn case<W: Walk>(message: &Message) {
        let long: Vec<u8> = (0..101).collect();
        let message = &Message::new(message.set, &long[..37], &long);
        let (middle, block) = middle_and_block(message.set);
        for length in [1, 3, 8, 13, 16, 40, 101] {
            let mut stream = W::begin(message, 101).expect("it fits");
            let mut rounds = START_ROUNDS.0;
            let mut taken = 0;
            for piece in message.data.chunks(length) {
                let filled = (taken + piece.len()) / block - taken / block;
                let own = Rounds(middle * filled as u64);
                assert_eq!(stream.take_data(piece), Ok(own));
                (taken, rounds) = (taken + piece.len(), rounds + own.0);
            }
            let mut out = vec![0; 101];
            for (piece, room) in W::body(message).chunks(length).zip(out.chunks_mut(length)) {
                rounds += stream.take(piece, room).expect("it fits").0;
            }
            if W::GIVES {
                assert_eq!(out, W::given(message));
            }
            rounds += stream.end(&message.tag).expect("the tag is right").0;
            assert_eq!(rounds, message.rounds, "pieces of {length}");
        }
    }
    everywhere([case::<Sealing>, case::<Checking>, case::<Opening>]);
}

#[test]
fn refused_starts() {
    fn case<W: Walk>(message: &Message) {
        let other_key = || match message.set.key_length() {
            12 => Key::from([5; 16]),
            _ => Key::from([5; 12]),
        };
        let other_nonce = match message.set.key_length() {
            12 => Nonce::from([5; 16]),
            _ => Nonce::from([5; 12]),
        };
        for (key, nonce, limit, refusal) in [
            (other_key(), message.nonce, 0, Refusal::KeyLength),
            (message.key.clone(), other_nonce, 0, Refusal::NonceLength),
            (
                message.key.clone(),
                message.nonce,
                TEXT_LIMIT + 1,
                Refusal::PastLimit,
            ),
            // Of two causes the first is named.
            (other_key(), other_nonce, 0, Refusal::KeyLength),
            (
                other_key(),
                message.nonce,
                TEXT_LIMIT + 1,
                Refusal::KeyLength,
            ),
            (
                message.key.clone(),
                other_nonce,
                TEXT_LIMIT + 1,
                Refusal::NonceLength,
            ),
        ] {
            let wrong = Message {
                key,
                nonce,
                ..Message::new(message.set, DATA, TEXT)
            };
            assert_eq!(W::begin(&wrong, limit).unwrap_err(), refusal);
        }
    }
    everywhere([case::<Sealing>, case::<Checking>, case::<Opening>]);
}

/// A start without a limit has the largest.
#[test]
fn starts_without_a_limit() {
    for set in Set::ALL {
        let Message { key, nonce, .. } = Message::new(*set, DATA, TEXT);
        let shown = [
            format!("{:?}", Sealing::start(*set, &key, &nonce).unwrap()),
            format!("{:?}", Checking::start(*set, &key, &nonce).unwrap()),
            format!("{:?}", Opening::start(*set, &key, &nonce).unwrap()),
        ];
        for (shown, name) in shown.iter().zip(["Sealing", "Checking", "Opening"]) {
            let wanted = format!(
                "{name} {{ set: {set:?}, phase: data, data: 0, text: 0, limit: 1048576, .. }}"
            );
            assert_eq!(*shown, wanted);
        }
    }
}

/// A stream shows how far it is, and nothing of its key or its words.
#[test]
fn what_is_shown() {
    fn case<W: Walk>(message: &Message) {
        let mut stream = after_data::<W>(message, 200);
        stream
            .take(W::body(message), &mut [0; 21])
            .expect("it fits");
        let (shown, in_lines) = (format!("{stream:?}"), format!("{stream:#?}"));
        let wanted = format!(
            " {{ set: {:?}, phase: text, data: 8, text: 21, limit: 200, .. }}",
            message.set
        );
        assert!(shown.ends_with(&wanted), "{shown}");
        assert_eq!(in_lines.lines().count(), 8, "{in_lines}");
    }
    everywhere([case::<Sealing>, case::<Checking>, case::<Opening>]);
}

/// A stream can be sent to another thread, and so can all that goes into it and comes out of it.
#[test]
fn all_types_are_send_and_sync() {
    fn is_both<T: Send + Sync>(_: &T) {}
    let message = Message::new(Set::Ascon128, DATA, TEXT);
    is_both(&(message.set, &message.key, message.nonce, message.tag));
    let sealing = after_data::<Sealing>(&message, TEXT_LIMIT);
    let checking = after_data::<Checking>(&message, TEXT_LIMIT);
    let opening = after_data::<Opening>(&message, TEXT_LIMIT);
    is_both(&(&sealing, &checking, &opening));
    is_both(&(sealing.finish(), checking.finish(&message.tag)));

    std::thread::scope(|scope| {
        scope.spawn(|| goes_on_to_its_end(opening, &message));
    });
}
