//! How many loops and triangles a cell has whose six counts are 0, 1 or 2. The
//! loops are walked here, so that a table of them can be held to the walk.

use crate::booking::loops;
use crate::cell::{triangle_count, CellWalker};

/// Counts of the cells in the table are below this.
pub const BASE: u16 = 3;

/// What the table has of a cell.
#[derive(Clone, Copy, Debug, PartialEq, Eq)]
pub struct Case {
    pub loops: u32,
    pub triangles: u32,
}

/// Loops and triangles of a cell with these counts, of its edges 01, 02, 03, 12,
/// 13, 23; none where it is outside the table.
pub fn case(walker: &mut CellWalker, counts: [u16; 6]) -> Option<Case> {
    if counts.iter().any(|&count| count >= BASE) {
        return None;
    }
    let loops = loops(walker, counts);
    let triangles = loops
        .iter()
        .map(|closed| triangle_count(closed.length, closed.normal));
    Some(Case {
        loops: loops.len() as u32,
        triangles: triangles.sum(),
    })
}

/// The counts of entry number `entry`: its six digits to the base 3, edge 01 the
/// most significant.
pub fn counts_of(entry: u16) -> [u16; 6] {
    [243, 81, 27, 9, 3, 1].map(|place| entry / place % BASE)
}
