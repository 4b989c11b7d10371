//! Making calls on our own sealing stream, and right logs of them.

use crate::cipher::set_of;
use crate::log::{log_of, Call, Entry};
use crate::stream::{
    ad, finish_sealing, seal, start, Direction, Given, Stream, ENDED, LARGEST_LIMIT,
};

/// Makes the call with room enough and gives its right entry and the next state.
pub fn called(stream: Stream, call: Call, data: &[u8]) -> (Entry, Stream) {
    let mut room = vec![0; room_for(&stream, call, data)];
    let (answer, rounds, next) = match call {
        Call::Start1 => started(1, data),
        Call::Start2 => started(2, data),
        Call::Ad => ad(stream, data),
        Call::Text => seal(stream, data, &mut room),
        Call::Finish => finish_sealing(stream, &mut room),
    };
    let entry = Entry {
        call,
        data: data.to_vec(),
        answer,
        out: if answer == 0 { room } else { Vec::new() },
        rounds,
    };
    (entry, next)
}

/// Gives how many bytes the call gives out when it is done.
fn room_for(stream: &Stream, call: Call, data: &[u8]) -> usize {
    match call {
        Call::Start1 | Call::Start2 | Call::Ad => 0,
        Call::Text => data.len(),
        Call::Finish => set_of(stream.set).map_or(0, |set| set.key),
    }
}

/// Starts a sealing stream of the set, with the largest limit, from a key and a nonce as long.
fn started(set: u64, key_and_nonce: &[u8]) -> Given {
    let (key, nonce) = key_and_nonce.split_at(key_and_nonce.len() / 2);
    start(Direction::Sealing, set, LARGEST_LIMIT, key, nonce)
}

/// Gives the right entries of the calls, each with its data, made in turn from the ended state.
pub fn right_entries(calls: &[(Call, Vec<u8>)]) -> Vec<Entry> {
    let mut stream = ENDED;
    let mut entries = Vec::new();
    for (call, data) in calls {
        let (entry, next) = called(stream, *call, data);
        entries.push(entry);
        stream = next;
    }
    entries
}

/// Gives the log that a chip right in every call writes of the calls, each with its data.
pub fn right_log(calls: &[(Call, Vec<u8>)]) -> Vec<u8> {
    log_of(&right_entries(calls))
}
