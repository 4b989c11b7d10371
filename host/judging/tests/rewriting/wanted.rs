//! What the program has to print, by the second program's reader and writer.

use second::cipher::SETS;
use second::record::{form_of, read, write, Broken, Field, Form, Line, Record, Refused};
use second::record::{MOST_CHIP, MOST_ROUNDS};

/// How many places the program writes in.
pub const PLACES: usize = 1_710;

/// How much of its input the program takes.
pub const TAKEN: usize = 65_536;

/// What is said of the place where every other answer than 10 breaks.
const NOWHERE: Broken = Broken { line: 0, column: 0 };

/// How a part of a record is changed.
#[derive(Clone, Copy)]
enum Change {
    Over,
    More,
    Less,
    Last,
}

use Change::*;

/// Gives the whole output for an input.
pub fn wanted(input: &[u8]) -> Vec<u8> {
    let mut rest = &input[..input.len().min(TAKEN)];
    let mut output = Vec::new();
    for number in 1.. {
        if rest.is_empty() {
            break;
        }
        output.extend(format!("record={number}\n").bytes());
        match read(form_of(rest), rest) {
            Ok((record, taken)) => {
                for (number, form) in (1..).zip([Form::One, Form::Two]) {
                    output.extend(format!("form={number}\n").bytes());
                    output.extend(rewritten(form, &record));
                }
                rest = &rest[taken..];
            }
            Err(Broken { line, column }) => {
                output.extend(format!("unread: line={line} column={column}\n").bytes());
                break;
            }
        }
    }
    output
}

/// Gives what is printed of a record that is written in the form.
fn rewritten(form: Form, record: &Record) -> Vec<u8> {
    let size = write(form, record, &mut [0; PLACES]).unwrap_or(0);
    let one_less = size.checked_sub(1);
    let rooms = [PLACES, size].into_iter().chain(one_less).chain([0]);
    let mut parts: Vec<_> = rooms
        .map(|room| attempt("as read", form, record, room))
        .collect();
    for (word, change) in [
        ("over", Over),
        ("more", More),
        ("less", Less),
        ("last", Last),
    ] {
        for (number, line) in changed_parts() {
            let mut changed = record.clone();
            change_part(&mut changed, line, change);
            let name = format!("{word} in part {number}");
            parts.push(attempt(&name, form, &changed, PLACES));
        }
    }
    let mut changed = record.clone();
    for (number, line) in changed_parts().into_iter().rev() {
        change_part(&mut changed, line, Over);
        let name = format!("over from part {number}");
        parts.push(attempt(&name, form, &changed, 0));
    }
    parts.concat()
}

/// Gives what is printed of one writing: its name and answer, that the rest is kept, and what was written.
fn attempt(name: &str, form: Form, record: &Record, room: usize) -> Vec<u8> {
    let mut places = [0; PLACES];
    let (answer, place, written) = match write(form, record, &mut places[..room]) {
        Ok(written) => (0, NOWHERE, written),
        Err(refused @ Refused::Broken(place)) => (refused.number(), place, 0),
        Err(refused @ (Refused::Chip | Refused::Short)) => (refused.number(), NOWHERE, 0),
    };
    let Broken { line, column } = place;
    let said = format!(
        "{name}: room={room} answer={answer} line={line} column={column} written={written} rest=kept\n"
    );
    [said.as_bytes(), &places[..written]].concat()
}

/// Gives the parts of a record that are changed, with the numbers of their lines in form 2: all but the form itself.
fn changed_parts() -> Vec<(usize, Line)> {
    let lines = (1..).zip(Form::Two.lines().iter().copied());
    lines.filter(|(_, line)| *line != Line::Form).collect()
}

/// Changes a part of a record.
fn change_part(record: &mut Record, part: Line, change: Change) {
    match part {
        Line::Form => {}
        Line::Set => change_number(&mut record.set, SETS.len() as u64 + 1, change),
        Line::Chip => change_number(&mut record.chip, MOST_CHIP + 1, change),
        Line::Key => change_field(&mut record.key, change),
        Line::Nonce => change_field(&mut record.nonce, change),
        Line::Ad => change_field(&mut record.ad, change),
        Line::Text => change_field(&mut record.text, change),
        Line::Cipher => change_field(&mut record.cipher, change),
        Line::Tag => change_field(&mut record.tag, change),
        Line::Rounds => change_number(&mut record.rounds, MOST_ROUNDS + 1, change),
    }
}

/// Changes a number.
fn change_number(number: &mut u64, over: u64, change: Change) {
    *number = match change {
        Over => over,
        More => number.wrapping_add(1),
        Less => number.wrapping_sub(1),
        Last => u64::MAX,
    };
}

/// Changes a field of 256 places; one that has fewer here, and so no such last place, is made not to fit instead.
fn change_field<const N: usize>(field: &mut Field<N>, change: Change) {
    match (change, field.bytes.get_mut(255)) {
        (Over, _) => field.len = 257,
        (More, _) => field.len = field.len.wrapping_add(1),
        (Less, _) => field.len = field.len.wrapping_sub(1),
        (Last, Some(place)) => *place = 1,
        (Last, None) => field.len = N + 1,
    }
}
