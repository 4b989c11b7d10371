//! Judging records against our own sealing, and the report on them.

use crate::calls::seal;
use crate::record::{first_broken_line, form_of, read, Broken, Form, Record};

/// What the bench says of one record.
#[derive(Clone, Copy, Debug, PartialEq, Eq)]
pub enum Verdict {
    /// The rounds, the whole cipher and the whole tag are ours.
    Equal,
    /// The named field is the first that isn't ours.
    Differs(&'static str),
    /// The record breaks its form, first at this line and column.
    Unread(Broken),
}

/// How a found text stands beside the wanted one.
#[derive(Clone, Copy, Debug, PartialEq, Eq)]
pub enum Difference<'a> {
    /// The two are one and the same text; the part is empty and lies where the found one ends.
    Same { part: &'a [u8] },
    /// They first disagree at this place; the part is what the found text holds from there on.
    At { place: usize, part: &'a [u8] },
}

/// Gives the first place where one text has a byte that the other hasn't there, if any, and the part.
pub fn first_difference<'a>(wanted: &[u8], found: &'a [u8]) -> Difference<'a> {
    for place in 0..wanted.len().max(found.len()) {
        if wanted.get(place) != found.get(place) {
            // All places before agree, so the found text reaches up to this one.
            let part = &found[place..];
            return Difference::At { place, part };
        }
    }
    let part = &found[found.len()..];
    Difference::Same { part }
}

/// Says whether the found text has another length or any other byte than the wanted one.
fn differs(wanted: &[u8], found: &[u8]) -> bool {
    matches!(first_difference(wanted, found), Difference::At { .. })
}

/// Gives the verdict on a record, in which its chip takes no part; one not right in the form is unread.
pub fn verdict(form: Form, record: &Record) -> Verdict {
    if let Some(line) = first_broken_line(form, record) {
        return Verdict::Unread(Broken { line, column: 0 });
    }
    let text = record.text.held();
    let mut cipher = vec![0; text.len()];
    let mut tag = vec![0; record.tag.len];
    let answer = seal(
        record.set,
        record.key.held(),
        record.nonce.held(),
        record.ad.held(),
        text,
        &mut cipher,
        &mut tag,
    );
    assert_eq!(answer.number, 0, "a record of right form can be sealed");
    if answer.rounds != record.rounds {
        return Verdict::Differs("rounds");
    }
    if differs(&cipher, record.cipher.held()) {
        return Verdict::Differs("cipher");
    }
    if differs(&tag, record.tag.held()) {
        return Verdict::Differs("tag");
    }
    Verdict::Equal
}

/// Gives the three report lines on the record with the given number.
pub fn report(number: u64, verdict: Verdict) -> String {
    let (word, field) = match verdict {
        Verdict::Equal => ("equal", "none".to_string()),
        Verdict::Differs(field) => ("differs", field.to_string()),
        Verdict::Unread(broken) => ("unread", broken.line.to_string()),
    };
    format!("record={number}\nverdict={word}\nfield={field}\n")
}

/// Gives the records and their forms up to the end or the first broken record, and where that breaks.
fn records(input: &[u8]) -> (Vec<(Form, Record)>, Option<Broken>) {
    let mut records = Vec::new();
    let mut place = 0;
    while place < input.len() {
        let form = form_of(&input[place..]);
        match read(form, &input[place..]) {
            Ok((record, taken)) => {
                records.push((form, record));
                place += taken;
            }
            Err(broken) => return (records, Some(broken)),
        }
    }
    (records, None)
}

/// Gives the whole standard output of the program for the given input.
pub fn judge_all(input: &[u8]) -> Vec<u8> {
    let (records, broken) = records(input);
    let verdicts = records.iter().map(|(form, record)| verdict(*form, record));
    let all = verdicts.chain(broken.map(Verdict::Unread));
    let reports = (1..).zip(all).map(|(number, one)| report(number, one));
    reports.collect::<String>().into_bytes()
}

/// Gives the line that tells where the input's broken record breaks, or nothing when there is none.
pub fn fault_line(input: &[u8]) -> String {
    let (records, broken) = records(input);
    let number = records.len() + 1;
    match broken {
        Some(Broken { line, column }) => {
            format!("bench: record {number}: line {line}, column {column}\n")
        }
        None => String::new(),
    }
}
