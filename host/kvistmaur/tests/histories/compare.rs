//! A call on the model and on the second program, and what differs between them.

use crate::call::{Call, Program, MODEL, SECOND};
use crate::lending::Memory;
use crate::rules::broken_rule;
use crate::words::{difference_in_words, number_in_words};
use kvistmaur::boundary;
use std::panic::{catch_unwind, AssertUnwindSafe};

/// How a failure names the two.
const MODEL_NAME: &str = "the model";
const SECOND_NAME: &str = "the second program";

/// Makes a call on both programs, and gives the number and the memory that both leave, or says what differs.
pub fn compare(call: Call, before: &Memory) -> Result<(u64, Memory), String> {
    let (mut left, mut second) = (before.clone(), before.clone());
    let given = made(MODEL_NAME, MODEL, call, &mut left)?;
    let wanted = made(SECOND_NAME, SECOND, call, &mut second)?;
    if given != wanted {
        let [given, wanted] = [given, wanted].map(number_in_words);
        return Err(format!("{MODEL_NAME} gave {given}, {SECOND_NAME} {wanted}"));
    }
    if let Some(words) = difference_in_words((MODEL_NAME, &left), (SECOND_NAME, &second)) {
        return Err(format!("they differ in {words}"));
    }
    match broken_rule(call, boundary::answer(given), before, &left) {
        Some(rule) => Err(format!("both programs: {rule}")),
        None => Ok((given, left)),
    }
}

/// Makes a call on a program, and gives its number, or says why that is no answer to the call.
fn made(name: &str, program: Program, call: Call, memory: &mut Memory) -> Result<u64, String> {
    let number = catch_unwind(AssertUnwindSafe(|| program(call, memory)))
        .map_err(|_| format!("{name} panicked"))?;
    let (answer, rounds) = (boundary::answer(number), boundary::rounds(number));
    let reports = matches!(answer, 0 | 9);
    if !call.answers().contains(&answer) || (!reports && rounds > 0) {
        let number = number_in_words(number);
        return Err(format!(
            "{name} gave {number}, which this call never answers"
        ));
    }
    Ok(number)
}
