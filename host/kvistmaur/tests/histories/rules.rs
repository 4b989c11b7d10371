//! What a call leaves by the rules alone, so that it does not rest on the second program.

use crate::call::Call::{self, *};
use crate::lending::Memory;
use crate::words::difference_in_words;
use second::area;
use second::stream::ENDED;

/// Says which rule a call broke, if it did: with 1 to 8 nothing changes, but a refused start leaves the ended state, and so does each end.
pub fn broken_rule(call: Call, answer: u64, before: &Memory, left: &Memory) -> Option<String> {
    if ends(call, answer) && left.state.get() != area::spelled(&ENDED) {
        return Some(format!("answer {answer} did not leave the ended state"));
    }
    let mut allowed = before.clone();
    if ends(call, answer) || answer == 0 {
        allowed.state.get_mut().copy_from_slice(left.state.get());
    }
    match (call, answer) {
        (Seal | Open, 0) => {
            let length = left.piece.get().len();
            allowed.out.get_mut()[..length].copy_from_slice(&left.out.get()[..length]);
        }
        (FinishSealing, 0) => allowed.tag.get_mut().copy_from_slice(left.tag.get()),
        _ => (),
    }
    let changed = difference_in_words(("before", &allowed), ("after", left))?;
    Some(format!(
        "answer {answer} changed what it must not: {changed}"
    ))
}

/// Whether the ended state is what this answer to the call leaves.
fn ends(call: Call, answer: u64) -> bool {
    match call {
        StartSealing | StartChecking | StartOpening => matches!(answer, 1 | 2 | 3 | 5),
        Data | Seal | Check | Open => false,
        FinishSealing | FinishChecking | FinishOpening => matches!(answer, 0 | 9),
        End => answer == 0,
    }
}

/// Whether a call looks at what the area holds; for a start and an end it doesn't matter.
pub fn looks_at_state(call: Call) -> bool {
    !matches!(call, StartSealing | StartChecking | StartOpening | End)
}
