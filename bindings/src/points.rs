//! The nearest call.

use crate::answer::{answer, refusal, Refusal};
use crate::constants::DONE;
use crate::library::LINKED;

/// The point of a list that is nearest to a place.
#[derive(Clone, Copy, Debug, PartialEq)]
pub struct Nearest {
    pub point: usize,
    pub squared_distance: f64,
}

/// The nearest call: none where the list is empty.
pub fn nearest(points: &[f64], query: [f64; 3]) -> Result<Option<Nearest>, Refusal> {
    let numbers = answer(|area| LINKED.nearest(points, query, area));
    match numbers[..] {
        [DONE] => Ok(None),
        [DONE, point, bits] => Ok(Some(Nearest {
            point: point as usize,
            squared_distance: f64::from_bits(bits),
        })),
        _ => Err(refusal(&numbers)),
    }
}
