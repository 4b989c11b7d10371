//! The command line of the second program.

use second::calls::{open, seal, Answer, AD_LIMIT, TEXT_LIMIT};
use second::cipher::set_of;
use second::exchange::{export_all, import_all};
use second::judge::{fault_line, judge_all};
use second::make::{lines_of, right_record, Unmade};
use second::moving::{move_all, Direction, Moved};
use second::random::Random;
use second::record::Form;
use second::replay::{replay, Replay};
use second::{entry, hex, vectors};
use std::fs::File;
use std::io::{self, BufWriter, Read, Write};
use std::os::fd::AsFd;
use std::process::ExitCode;

const USAGE: &str = "usage:
  second judge
  second forward
  second back
  second import SET
  second export
  second replay
  second seal SET KEYHEX NONCEHEX ADHEX TEXTHEX
  second open SET KEYHEX NONCEHEX ADHEX CIPHERHEX TAGHEX
  second vectors COUNT SEED
  second vectors2 COUNT SEED
  second entries SET COUNT SEED
  second rounds SET ADLEN TEXTLEN
hex is lower-case, two digits a byte, and may be empty; numbers are decimal";

/// Why the program couldn't do what was asked.
enum Trouble {
    /// The command line has no right form.
    Usage,
    /// Something else, in words.
    Said(String),
}

/// Gives the status of the program: 0 done, 1 refused or failed, 2 a bad command line.
fn main() -> ExitCode {
    let (words, status) = match work() {
        Ok(status) => return ExitCode::from(status),
        Err(Trouble::Usage) => (USAGE.to_string(), 2),
        Err(Trouble::Said(words)) => (format!("second: {words}"), 1),
    };
    // Nothing is left to do when even this can't be said; the status still tells it.
    let _ = writeln!(io::stderr(), "{words}");
    ExitCode::from(status)
}

/// Does what the command line asks and gives the status, or the trouble met.
fn work() -> Result<u8, Trouble> {
    let mut arguments = Vec::new();
    for argument in std::env::args_os().skip(1) {
        arguments.push(argument.into_string().map_err(|_| Trouble::Usage)?);
    }
    let parts: Vec<&str> = arguments.iter().map(String::as_str).collect();
    let done = match parts.as_slice() {
        ["judge"] => print_judged(&input()?),
        ["forward"] => return print_moved(move_all(Direction::Forward, &input()?)),
        ["back"] => return print_moved(move_all(Direction::Back, &input()?)),
        ["import", set] => return print_moved(import_all(number(set)?, &input()?)),
        ["export"] => return print_moved(export_all(&input()?)),
        ["replay"] => return print_replayed(replay(&input()?)),
        ["seal", set, key, nonce, ad, text] => {
            let parts = [bytes(key)?, bytes(nonce)?, bytes(ad)?, bytes(text)?];
            print_sealed(number(set)?, parts)
        }
        ["open", set, key, nonce, ad, cipher, tag] => {
            let front = [bytes(key)?, bytes(nonce)?, bytes(ad)?];
            print_opened(number(set)?, front, bytes(cipher)?, bytes(tag)?)
        }
        ["vectors", count, seed] => print_vectors(Form::One, number(count)?, number(seed)?),
        ["vectors2", count, seed] => print_vectors(Form::Two, number(count)?, number(seed)?),
        ["entries", set, count, seed] => print_entries(number(set)?, number(count)?, number(seed)?),
        ["rounds", set, ad, text] => print_rounds(number(set)?, number(ad)?, number(text)?),
        _ => Err(Trouble::Usage),
    };
    done.map(|()| 0)
}

/// Gives the number that decimal digits write.
fn number(argument: &str) -> Result<u64, Trouble> {
    if !argument.bytes().all(|digit| digit.is_ascii_digit()) {
        return Err(Trouble::Usage);
    }
    argument.parse().map_err(|_| Trouble::Usage)
}

/// Gives the bytes that hex digits write.
fn bytes(argument: &str) -> Result<Vec<u8>, Trouble> {
    hex::read(argument.as_bytes()).ok_or(Trouble::Usage)
}

/// Gives all of standard input; the plain file is used because it reports every failed read.
fn input() -> Result<Vec<u8>, Trouble> {
    let failed = |error| Trouble::Said(format!("reading failed: {error}"));
    let own = io::stdin().as_fd().try_clone_to_owned().map_err(failed)?;
    let mut all = Vec::new();
    File::from(own).read_to_end(&mut all).map_err(failed)?;
    Ok(all)
}

/// Gives standard output or error as a plain file, because that reports every failed write.
fn plain(stream: impl AsFd) -> Result<BufWriter<File>, Trouble> {
    let own = stream.as_fd().try_clone_to_owned().map_err(unwritten)?;
    Ok(BufWriter::new(File::from(own)))
}

/// Gives the words for a failed write.
fn unwritten(error: io::Error) -> Trouble {
    Trouble::Said(format!("writing failed: {error}"))
}

/// Gives the words for a refused call.
fn refused(answer: u64) -> Trouble {
    Trouble::Said(format!("refused with answer {answer}"))
}

/// Writes the bytes to standard output and gives the trouble met, if any.
fn say(bytes: &[u8]) -> Result<(), Trouble> {
    write_all(io::stdout(), bytes)
}

/// Writes the bytes to standard output or error and gives the trouble met, if any.
fn write_all(stream: impl AsFd, bytes: &[u8]) -> Result<(), Trouble> {
    let mut out = plain(stream)?;
    out.write_all(bytes).map_err(unwritten)?;
    out.flush().map_err(unwritten)
}

/// Prints the report and then, on standard error, where a record breaks, and gives the trouble met.
fn print_judged(input: &[u8]) -> Result<(), Trouble> {
    say(&judge_all(input))?;
    write_all(io::stderr(), fault_line(input).as_bytes())
}

/// Prints what was moved, and on standard error how it went, and gives the status or the trouble met.
fn print_moved(moved: Moved) -> Result<u8, Trouble> {
    say(&moved.output)?;
    write_all(io::stderr(), moved.said.as_bytes())?;
    Ok(moved.status)
}

/// Prints what a replay says, and on standard error how it went, and gives the status or the trouble met.
fn print_replayed(replayed: Replay) -> Result<u8, Trouble> {
    say(replayed.report().as_bytes())?;
    write_all(io::stderr(), replayed.said().as_bytes())?;
    Ok(replayed.status())
}

/// Prints the record of one message and gives the trouble met, if any.
fn print_sealed(set: u64, [key, nonce, ad, text]: [Vec<u8>; 4]) -> Result<(), Trouble> {
    let record = right_record(set, &key, &nonce, &ad, &text).map_err(|unmade| match unmade {
        Unmade::Answer(answer) => refused(answer),
        Unmade::Line(line) => Trouble::Said(format!("too long for line {line} of a record")),
    })?;
    say(&lines_of(Form::One, &record).expect("a right record can be written"))
}

/// Prints what opening answers, with the text when it is done, and gives the trouble met, if any.
fn print_opened(
    set: u64,
    [key, nonce, ad]: [Vec<u8>; 3],
    cipher: Vec<u8>,
    tag: Vec<u8>,
) -> Result<(), Trouble> {
    let mut text = vec![0; cipher.len()];
    let answer = open(set, &key, &nonce, &ad, &cipher, &tag, &mut text);
    let Answer { number, rounds } = answer;
    let mut lines = format!("answer={number}\nrounds={rounds}\ntext=").into_bytes();
    if number == 0 {
        lines.extend(hex::written(&text));
    }
    lines.push(b'\n');
    say(&lines)
}

/// Prints pseudo-random right records one after another and gives the trouble met, if any.
fn print_vectors(form: Form, count: u64, seed: u64) -> Result<(), Trouble> {
    print_made(count, seed, |random, index| {
        let record = vectors::record_in(form, random, index);
        lines_of(form, &record).expect("a right record can be written")
    })
}

/// Prints pseudo-random right entries of the set one after another and gives the trouble met, if any.
fn print_entries(set: u64, count: u64, seed: u64) -> Result<(), Trouble> {
    let set = set_of(set).ok_or_else(|| refused(1))?;
    print_made(count, seed, |random, index| {
        entry::written(index + 1, &vectors::short_record(random, set))
    })
}

/// Prints so many texts, made in turn from pseudo-random numbers, and gives the trouble met, if any.
fn print_made(
    count: u64,
    seed: u64,
    made: impl Fn(&mut Random, u64) -> Vec<u8>,
) -> Result<(), Trouble> {
    let mut random = Random::new(seed);
    let mut out = plain(io::stdout())?;
    for index in 0..count {
        out.write_all(&made(&mut random, index))
            .map_err(unwritten)?;
    }
    out.flush().map_err(unwritten)
}

/// Prints the rounds counted when zero bytes of the given lengths are sealed, or gives the trouble.
fn print_rounds(set: u64, ad: u64, text: u64) -> Result<(), Trouble> {
    // One byte past a limit is refused just as any greater number is.
    let ad = vec![0; ad.min(AD_LIMIT as u64 + 1) as usize];
    let text = vec![0; text.min(TEXT_LIMIT as u64 + 1) as usize];
    let key = vec![0; set_of(set).map_or(0, |known| known.key)];
    let mut out = vec![0; text.len()];
    let mut tag = key.clone();
    let answer = seal(set, &key, &key, &ad, &text, &mut out, &mut tag);
    match answer.number {
        0 => say(format!("{}\n", answer.rounds).as_bytes()),
        other => Err(refused(other)),
    }
}
