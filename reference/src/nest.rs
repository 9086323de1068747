//! Cells whose loops other than triangles are two or more of length 8, one
//! inside the other: each of these loops has a middle of its own.

use crate::booking::{is_booked, least_corners, left_counts, ENDS};
use crate::cell::Stop;
use crate::places::Place;

/// Such a cell.
pub struct Nest {
    /// The edge of the pair with the most left that comes first, and its
    /// opposite, by the positions of their ends.
    axis: [[usize; 2]; 2],
    /// Crossing m + i of those left on the first edge, for each i below m.
    upper: Vec<u32>,
}

impl Nest {
    /// The nest of a cell with these counts and first crossings, and with loops
    /// of these lengths; none where it has other loops.
    pub fn of(counts: [u16; 6], starts: [u32; 6], lengths: &[usize]) -> Option<Nest> {
        let others: Vec<usize> = lengths.iter().copied().filter(|&n| n != 3).collect();
        let many = others.len() as u32;
        if many < 2 || others.iter().any(|&length| length != 8) || !is_booked(counts) {
            return None;
        }
        let left = left_counts(counts);
        let first = left.iter().position(|&kept| u32::from(kept) == 2 * many);
        let first = first.expect("an edge that keeps two crossings for each loop");
        let [u, v] = ENDS[first];
        let apart = |ends: &&[usize; 2]| !ends.contains(&u) && !ends.contains(&v);
        let opposite = ENDS.iter().find(apart).expect("an opposite edge");
        let lowest = starts[first] + least_corners(counts)[u] + many;
        Some(Nest {
            axis: [ENDS[first], *opposite],
            upper: (lowest..lowest + many).collect(),
        })
    }

    /// The middle of one of its loops, for the places of the cell's nodes.
    pub fn middle(&self, stops: &[Stop], nodes: [Place; 4]) -> Place {
        let passes = |&crossing: &u32| stops.iter().any(|s| u32::from(s.crossing) == crossing);
        let number = self.upper.iter().position(passes);
        let number = number.expect("a loop of the nest passes one of these crossings");
        let [from, to] = self.axis.map(|[u, v]| nodes[u].plus(nodes[v]).over(2.0));
        let part = (number + 1) as f64 / (self.upper.len() + 1) as f64;
        Place {
            x: from.x + (to.x - from.x) * part,
            y: from.y + (to.y - from.y) * part,
            z: from.z + (to.z - from.z) * part,
        }
    }
}
