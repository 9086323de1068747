//! What six counts tell of a cell: the booking, and the table of common cells.

use crate::answer::answer;
use crate::constants::DONE;
use crate::library::LINKED;

/// The counts of the edges 01, 02, 03, 12, 13, 23 of a cell.
pub type Counts = [u16; 6];

/// What is booked for a cell (docs/FORMAT.md, "Booking").
#[derive(Clone, Copy, Debug, PartialEq, Eq)]
pub struct Booked {
    pub corners: u64,
    pub d1: u64,
    pub d2: u64,
    pub triangles: u64,
}

/// The booking, or none where the cell has to be walked.
pub fn book(counts: Counts) -> Option<Booked> {
    match answer(|area| LINKED.book(counts, area))[..] {
        [DONE, corners, d1, d2, triangles] => Some(Booked {
            corners,
            d1,
            d2,
            triangles,
        }),
        _ => None,
    }
}

/// An entry of the table of common cells.
#[derive(Clone, Copy, Debug, PartialEq, Eq)]
pub struct Case {
    pub loops: u64,
    pub triangles: u64,
}

/// The table's entry for a cell, or none where a count is above 2.
pub fn case(counts: Counts) -> Option<Case> {
    match answer(|area| LINKED.case(counts, area))[..] {
        [DONE, loops, triangles] => Some(Case { loops, triangles }),
        _ => None,
    }
}
