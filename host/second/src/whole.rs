//! Whole inputs: every record or entry in turn, and what is printed of them.

use crate::record::Broken;

/// What all records or entries of an input became.
#[derive(Clone, Debug, PartialEq, Eq)]
pub struct Whole {
    /// How many there were.
    pub records: u64,
    /// All that they became, one after another.
    pub text: Vec<u8>,
}

/// Turns each record or entry of the input, or gives the number, from 1, of the first refused one and why.
///
/// The function is handed the number of the one at the front of the rest and that rest; it gives what the one
/// becomes and how many bytes it took.
pub fn each_turned<E>(
    input: &[u8],
    turn: impl Fn(u64, &[u8]) -> Result<(Vec<u8>, usize), E>,
) -> Result<Whole, (u64, E)> {
    let mut text = Vec::new();
    let mut place = 0;
    let mut records = 0;
    while place < input.len() {
        let number = records + 1;
        let (new, taken) = turn(number, &input[place..]).map_err(|why| (number, why))?;
        text.extend(new);
        place += taken;
        records = number;
    }
    Ok(Whole { records, text })
}

/// What moving a whole input prints, and its status.
#[derive(Clone, Debug, PartialEq, Eq)]
pub struct Moved {
    /// All of standard output.
    pub output: Vec<u8>,
    /// All of standard error: one line.
    pub said: String,
    /// 0 when all records were moved, 1 when one was refused.
    pub status: u8,
}

impl Moved {
    /// Gives what is printed when all of an input was done.
    pub(crate) fn done(whole: Whole) -> Moved {
        Moved {
            output: whole.text,
            said: format!("bench: done: records={}\n", whole.records),
            status: 0,
        }
    }

    /// Gives what is printed of a refusal; what doesn't apply to it is left out.
    pub(crate) fn refused(answer: u64, record: Option<u64>, broken: Option<Broken>) -> Moved {
        let mut said = format!("bench: refused: answer={answer}");
        if let Some(record) = record {
            said += &format!(" record={record}");
        }
        if let Some(Broken { line, column }) = broken {
            said += &format!(" line={line} column={column}");
        }
        Moved {
            output: Vec::new(),
            said: said + "\n",
            status: 1,
        }
    }
}
