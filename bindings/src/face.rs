//! The face call.

use crate::answer::answer;
use crate::constants::{ALONG, JOINED, LEFT, ROUND, SKIPPED, UNJOINED};
use crate::library::LINKED;

/// How two crossings of a face are joined. A corner is 0 a, 1 b, 2 c.
#[derive(Clone, Copy, Debug, PartialEq, Eq)]
pub enum How {
    Round(usize),
    Along,
}

/// Why a crossing of a face is unjoined: rule 2 left it, or rule 3 skipped it.
#[derive(Clone, Copy, Debug, PartialEq, Eq)]
pub enum Why {
    Left,
    Skipped,
}

/// What the face call answers. An edge is 0 ab, 1 ac, 2 bc.
#[derive(Clone, Copy, Debug, PartialEq, Eq)]
pub enum Join {
    Joined { edge: usize, index: usize, how: How },
    Unjoined(Why),
    NoCrossing,
}

/// The face call, for the crossing `index` of an edge of a face with these counts
/// of ab, ac, bc.
pub fn face(counts: [u16; 3], edge: usize, index: usize) -> Join {
    asked(edge, index, |edge, index, area| {
        LINKED.face(counts, edge, index, area)
    })
}

/// What a face call answers of an edge and an index. No crossing has a number that its
/// 32 bits do not hold.
pub(crate) fn asked(
    edge: usize,
    index: usize,
    call: impl FnOnce(u32, u32, &mut [u64]) -> usize,
) -> Join {
    match (u32::try_from(edge), u32::try_from(index)) {
        (Ok(edge), Ok(index)) => join(&answer(|area| call(edge, index, area))),
        _ => Join::NoCrossing,
    }
}

/// What the numbers of a face call say.
fn join(numbers: &[u64]) -> Join {
    let to = |edge: u64, index: u64, how| Join::Joined {
        edge: edge as usize,
        index: index as usize,
        how,
    };
    match *numbers {
        [JOINED, edge, index, ROUND, corner] => to(edge, index, How::Round(corner as usize)),
        [JOINED, edge, index, ALONG] => to(edge, index, How::Along),
        [UNJOINED, LEFT] => Join::Unjoined(Why::Left),
        [UNJOINED, SKIPPED] => Join::Unjoined(Why::Skipped),
        _ => Join::NoCrossing,
    }
}
