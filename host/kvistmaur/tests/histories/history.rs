//! A history: an area, and the calls that both programs make on it.

use crate::call::Call;
use crate::compare::compare;
use crate::lending::{Arguments, Memory};
use crate::record::Record;
use crate::rules::looks_at_state;
use crate::tally::Tally;
use crate::words::number_in_words;
use kvistmaur::boundary;
use second::area::LENGTH;
use second::random::Random;
use second::stream::Direction;
use std::mem::take;

/// The area, and what has happened to it.
pub struct History<'a> {
    pub random: Random,
    /// The area, as the last call or somebody else left it.
    pub area: Vec<u8>,
    /// An area that is laid aside, for histories that have two.
    pub other_area: Vec<u8>,
    pub record: Record,
    pub tally: &'a mut Tally,
    /// The damage since the last call, if there was any.
    damage: Option<&'static str>,
}

/// What a start is given beside the area.
pub struct Start {
    pub set: u64,
    pub limit: u64,
    pub key: Vec<u8>,
    pub nonce: Vec<u8>,
}

/// What a call is given that takes nothing beside the area.
const NOTHING: Arguments = Arguments {
    set: 0,
    limit: 0,
    key: Vec::new(),
    nonce: Vec::new(),
    state: Vec::new(),
    piece: Vec::new(),
    room: 0,
    tag: Vec::new(),
};

impl History<'_> {
    /// A history without a call, on an area of any bytes.
    pub fn new(record: Record, mut random: Random, tally: &mut Tally) -> History<'_> {
        let area = random.bytes(LENGTH);
        History {
            random,
            area,
            other_area: Vec::new(),
            record,
            tally,
            damage: None,
        }
    }

    /// Starts a stream of the direction in the area, and gives the number.
    pub fn start(&mut self, direction: Direction, start: &Start) -> u64 {
        let given = Arguments {
            set: start.set,
            limit: start.limit,
            key: start.key.clone(),
            nonce: start.nonce.clone(),
            ..NOTHING
        };
        self.call(Call::start(direction), given).0
    }

    /// Hands over a piece of the data, and gives the number.
    pub fn data(&mut self, piece: &[u8]) -> u64 {
        let piece = piece.to_vec();
        let given = Arguments { piece, ..NOTHING };
        self.call(Call::Data, given).0
    }

    /// Makes the text call of a direction, and gives the number and what the output then holds; a checking is lent none.
    pub fn text(&mut self, direction: Direction, piece: &[u8], room: usize) -> (u64, Vec<u8>) {
        let given = Arguments {
            piece: piece.to_vec(),
            room: match direction {
                Direction::Checking => 0,
                Direction::Sealing | Direction::Opening => room,
            },
            ..NOTHING
        };
        let (number, left) = self.call(Call::text(direction), given);
        (number, left.out.get().to_vec())
    }

    /// Makes the finish of a direction, and gives the number and what is left where the tag was; a sealing is lent a place of the tag's length with any bytes.
    pub fn finish(&mut self, direction: Direction, tag: &[u8]) -> (u64, Vec<u8>) {
        let tag = match direction {
            Direction::Sealing => self.random.bytes(tag.len()),
            Direction::Checking | Direction::Opening => tag.to_vec(),
        };
        let given = Arguments { tag, ..NOTHING };
        let (number, left) = self.call(Call::finish(direction), given);
        (number, left.tag.get().to_vec())
    }

    /// Gives the stream up, and gives the number.
    pub fn end(&mut self) -> u64 {
        self.call(Call::End, NOTHING).0
    }

    /// Makes a call on both programs with the area and what else it is given, and panics unless they agree in all.
    fn call(&mut self, call: Call, given: Arguments) -> (u64, Memory) {
        let state = take(&mut self.area);
        let given = Arguments { state, ..given };
        let before = given.memory(|| self.random.below(8));
        let (number, left) = compare(call, &before)
            .unwrap_or_else(|why| panic!("{call:?}: {why}\nIt was given {}", given.shown()));

        self.area.extend(left.state.get());
        self.record.write_call(call, &given, number);
        self.tally.count(call, number, &given.state, &self.area);
        if let (Some(damage), true) = (self.damage.take(), looks_at_state(call)) {
            self.tally.count_damage(damage, number);
            self.record.damages += 1;
        }
        (number, left)
    }

    /// Lets somebody else change the area between two calls.
    pub fn damage(&mut self, damage: &'static str, change: impl FnOnce(&mut Random, &mut Vec<u8>)) {
        change(&mut self.random, &mut self.area);
        self.damage = Some(damage);
        self.record.write(format!("damage: {damage}"));
    }
}

/// Panics unless a number has the answer that the history was made for, and gives its rounds.
pub fn expect(number: u64, answer: u64) -> u64 {
    let given = boundary::answer(number);
    let words = || number_in_words(number);
    assert_eq!(given, answer, "the call was made for another: {}", words());
    boundary::rounds(number)
}
