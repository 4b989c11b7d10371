//! Published test files in and out: a text of entries becomes a text of form 1 records, and the other way round.

use crate::cipher::set_of;
use crate::entry;
use crate::make::lines_of;
use crate::record::{read, Broken, Form};
use crate::whole::{each_turned, Moved, Whole};

/// How many entries or records there were, and how many bytes were written for all of them.
#[derive(Clone, Copy, Debug, PartialEq, Eq)]
pub struct Done {
    pub records: u64,
    pub written: usize,
}

/// Why a text wasn't turned into the other kind.
#[derive(Clone, Copy, Debug, PartialEq, Eq)]
pub enum Refused {
    /// The set is unknown.
    Set,
    /// The entry or record with that number, counted from 1, is the first that is broken, and this is where.
    Broken { record: u64, at: Broken },
    /// The output is shorter than all of the result.
    Short,
}

impl Refused {
    /// Gives the answer number of the refusal.
    pub fn number(&self) -> u64 {
        match self {
            Refused::Set => 1,
            Refused::Broken { .. } => 10,
            Refused::Short => 6,
        }
    }
}

/// Writes the entries of the text as records of the set; a refusal changes nothing.
pub fn import(set: u64, text: &[u8], out: &mut [u8]) -> Result<Done, Refused> {
    put(&imported(set, text)?, out)
}

/// Writes the form 1 records of the text as entries, counted from 1; a refusal changes nothing.
pub fn export(text: &[u8], out: &mut [u8]) -> Result<Done, Refused> {
    put(&exported(text)?, out)
}

/// Gives what is printed when all entries of the input are turned into records, or one is refused.
pub fn import_all(set: u64, input: &[u8]) -> Moved {
    printed(imported(set, input))
}

/// Gives what is printed when all records of the input are turned into entries, or one is refused.
pub fn export_all(input: &[u8]) -> Moved {
    printed(exported(input))
}

/// Gives the records of the set that the entries of the text tell.
fn imported(set: u64, text: &[u8]) -> Result<Whole, Refused> {
    let set = set_of(set).ok_or(Refused::Set)?;
    let turned = each_turned(text, |count, rest| {
        let (record, taken) = entry::read(set, count, rest)?;
        let lines = lines_of(Form::One, &record).expect("a record that was read can be written");
        Ok((lines, taken))
    });
    turned.map_err(broken)
}

/// Gives the entries that tell the records of the text.
fn exported(text: &[u8]) -> Result<Whole, Refused> {
    let turned = each_turned(text, |count, rest| {
        let (record, taken) = read(Form::One, rest)?;
        Ok((entry::written(count, &record), taken))
    });
    turned.map_err(broken)
}

/// Gives the refusal of the entry or record with that number, which is broken there.
fn broken((record, at): (u64, Broken)) -> Refused {
    Refused::Broken { record, at }
}

/// Puts the whole result into the output, or leaves that as it was when it is too short.
fn put(whole: &Whole, out: &mut [u8]) -> Result<Done, Refused> {
    let written = whole.text.len();
    let place = out.get_mut(..written).ok_or(Refused::Short)?;
    place.copy_from_slice(&whole.text);
    Ok(Done {
        records: whole.records,
        written,
    })
}

/// Gives what is printed of the result.
fn printed(result: Result<Whole, Refused>) -> Moved {
    match result {
        Ok(whole) => Moved::done(whole),
        Err(why) => match why {
            Refused::Broken { record, at } => Moved::refused(why.number(), Some(record), Some(at)),
            Refused::Set | Refused::Short => Moved::refused(why.number(), None, None),
        },
    }
}
