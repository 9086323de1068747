//! The numbers of an answer.

use crate::constants::{ANSWER_WORDS, DONE};

/// A refusal: its number and its place (docs/FORMAT.md, "Refusals").
#[derive(Clone, Copy, Debug, PartialEq, Eq)]
pub struct Refusal {
    pub number: u64,
    pub place: u64,
}

/// The numbers that a call answers with, in an area that it is lent.
pub(crate) fn answer(call: impl FnOnce(&mut [u64]) -> usize) -> Vec<u64> {
    let mut numbers = vec![0; ANSWER_WORDS];
    let answered = call(&mut numbers);
    numbers.truncate(answered);
    numbers
}

/// The refusal in an answer that is no result.
pub(crate) fn refusal(answer: &[u64]) -> Refusal {
    let number = |at: usize| answer.get(at).copied().unwrap_or(0);
    Refusal {
        number: number(0),
        place: number(1),
    }
}

/// The one number of a result, or the refusal.
pub(crate) fn only(answer: &[u64]) -> Result<usize, Refusal> {
    match *answer {
        [DONE, number] => Ok(number as usize),
        _ => Err(refusal(answer)),
    }
}
