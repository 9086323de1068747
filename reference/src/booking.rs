//! How many triangles a cell has, told from its six counts. The loops are
//! walked here, so that a booking which does not walk can be held to them; only
//! the triangles of a cell that is split are summed part by part.

use crate::cell::{triangle_count, CellWalker, Closed, FACE_EDGES};
use crate::face::corner_counts;
use crate::split;

/// Positions of a cell's nodes that each of its edges joins.
pub const ENDS: [[usize; 2]; 6] = [[0, 1], [0, 2], [0, 3], [1, 2], [1, 3], [2, 3]];

/// What is booked of a cell.
#[derive(Clone, Copy, Debug, PartialEq, Eq)]
pub struct Booking {
    /// Loops of three segments.
    pub corner_triangles: u32,
    /// The two smaller counts left at the lowest node, the larger first.
    pub left: [u32; 2],
    /// Those of the mesh: of a split cell, of all its parts.
    pub triangles: u64,
}

/// Whether no face has an odd sum or a count above the other two.
pub fn is_booked(counts: [u16; 6]) -> bool {
    FACE_EDGES.iter().all(|edges| {
        let face = edges.map(|edge| u32::from(counts[edge]));
        let sum: u32 = face.iter().sum();
        sum % 2 == 0 && face.iter().all(|&count| count <= sum - count)
    })
}

/// At each node the least of its three corner counts.
pub fn least_corners(counts: [u16; 6]) -> [u32; 4] {
    let mut least = [u32::MAX; 4];
    for (omitted, edges) in FACE_EDGES.iter().enumerate() {
        let cuts = corner_counts(edges.map(|edge| u32::from(counts[edge])));
        let nodes = (0..4).filter(|&node| node != omitted);
        for (node, cut) in nodes.zip(cuts) {
            least[node] = least[node].min(cut);
        }
    }
    least
}

/// What each edge keeps when these corner triangles go.
pub fn left_by(counts: [u16; 6], least: [u32; 4]) -> [u16; 6] {
    let mut left = counts;
    for (count, [u, v]) in left.iter_mut().zip(ENDS) {
        *count -= (least[u] + least[v]) as u16;
    }
    left
}

/// What each edge keeps when the corner triangles go.
pub fn left_counts(counts: [u16; 6]) -> [u16; 6] {
    left_by(counts, least_corners(counts))
}

/// The two smaller of the counts left at the lowest node, the larger first.
pub fn smaller_two([x, y, z, ..]: [u16; 6]) -> [u16; 2] {
    let mut at_lowest = [x, y, z];
    at_lowest.sort_unstable();
    [at_lowest[1], at_lowest[0]]
}

/// The two smaller counts left at the lowest node, d1 and d2 of document 02,
/// the larger first.
pub fn two_numbers(counts: [u16; 6]) -> [u16; 2] {
    smaller_two(left_counts(counts))
}

/// All loops of a cell with these counts, by lowest crossing.
pub fn loops(walker: &mut CellWalker, counts: [u16; 6]) -> Vec<Closed> {
    walker.load(&counts.map(u32::from), &[0; 6]);
    let mut stops = Vec::new();
    let mut loops = Vec::new();
    while let Some(closed) = walker.next_loop(&mut stops) {
        stops.clear();
        loops.push(closed);
    }
    loops
}

/// The booking of a cell with these counts, of its edges 01, 02, 03, 12, 13,
/// 23; none where it has to be walked.
pub fn book(walker: &mut CellWalker, counts: [u16; 6]) -> Option<Booking> {
    if !is_booked(counts) {
        return None;
    }
    let loops = loops(walker, counts);
    let three = loops.iter().filter(|closed| closed.length == 3);
    let spanned = loops
        .iter()
        .map(|closed| u64::from(triangle_count(closed.length, closed.normal)));
    let triangles = match split::totals(counts) {
        Some(totals) => totals.triangles,
        None => spanned.sum(),
    };
    Some(Booking {
        corner_triangles: three.count() as u32,
        left: two_numbers(counts).map(u32::from),
        triangles,
    })
}
