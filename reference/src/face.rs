//! Segments of one face, told from its three edge counts alone.
//!
//! A face has corners a < b < c (numbered 0, 1, 2) and edges ab, ac, bc
//! (numbered 0, 1, 2).

/// How a segment of a face runs.
#[derive(Clone, Copy, Debug, PartialEq, Eq)]
pub enum How {
    /// It cuts off this corner (0 for a, 1 for b, 2 for c).
    Round(u32),
    /// Both its ends are on one edge.
    Along,
}

/// Why no segment ends at a crossing.
#[derive(Clone, Copy, Debug, PartialEq, Eq)]
pub enum Why {
    /// Rule 2 takes 1 off each count and leaves this crossing of its edge.
    Left,
    /// Rule 3 skips the first of an odd number of residuals.
    Skipped,
}

/// What becomes of one crossing on a face.
#[derive(Clone, Copy, Debug, PartialEq, Eq)]
pub enum Join {
    /// A segment leads to this crossing.
    Joined { edge: u32, index: u32, how: How },
    /// The crossing is there, but no segment of the face ends at it.
    Unjoined(Why),
    /// The face has no such edge, or the edge no such crossing.
    NoCrossing,
}

/// Corners at the lower and the higher end of each edge. Read by corner, the
/// same table lists the two edges that meet there.
pub const INCIDENT: [[usize; 2]; 3] = [[0, 1], [0, 2], [1, 2]];

/// How many segments cut off each corner.
///
/// Sums are taken in 64 bits, so no count overflows them. Halving drops the
/// odd one, which has the effect of taking 1 off all three counts.
pub fn corner_counts(counts: [u32; 3]) -> [u32; 3] {
    let [ab, ac, bc] = counts.map(u64::from);
    let [a, b, c] = if ab > ac + bc {
        [ac, bc, 0]
    } else if ac > ab + bc {
        [ab, 0, bc]
    } else if bc > ab + ac {
        [0, ab, ac]
    } else {
        [(ab + ac - bc) / 2, (ab + bc - ac) / 2, (ac + bc - ab) / 2]
    };
    [a as u32, b as u32, c as u32]
}

/// The face call: where the segment from crossing `index` of `edge` leads.
pub fn join(counts: [u32; 3], edge: u32, index: u32) -> Join {
    if edge > 2 || index >= counts[edge as usize] {
        return Join::NoCrossing;
    }
    let edge = edge as usize;
    let cuts = corner_counts(counts);
    let [low, high] = INCIDENT[edge];
    let from_high = counts[edge] - 1 - index;
    if index < cuts[low] {
        across_corner(counts, low, edge, index)
    } else if from_high < cuts[high] {
        across_corner(counts, high, edge, from_high)
    } else {
        between_corners(counts, cuts, edge, index)
    }
}

/// Partner of the crossing that is `rank`-th from `corner` on `edge`.
fn across_corner(counts: [u32; 3], corner: usize, edge: usize, rank: u32) -> Join {
    let [first, second] = INCIDENT[corner];
    let other = first + second - edge;
    let index = if INCIDENT[other][0] == corner {
        rank
    } else {
        counts[other] - 1 - rank
    };
    Join::Joined {
        edge: other as u32,
        index,
        how: How::Round(corner as u32),
    }
}

/// A crossing between the corner cuts. Rule 3, where its edge has more
/// crossings than the other two: residuals pair up, an odd one out is the
/// first. Rule 2 otherwise.
fn between_corners(counts: [u32; 3], cuts: [u32; 3], edge: usize, index: u32) -> Join {
    let all: u64 = counts.iter().map(|&count| u64::from(count)).sum();
    if 2 * u64::from(counts[edge]) <= all {
        return Join::Unjoined(Why::Left);
    }
    let [low, high] = INCIDENT[edge];
    let residuals = counts[edge] - cuts[low] - cuts[high];
    let first_pair = cuts[low] + residuals % 2;
    if index < first_pair {
        return Join::Unjoined(Why::Skipped);
    }
    Join::Joined {
        edge: edge as u32,
        index: first_pair + ((index - first_pair) ^ 1),
        how: How::Along,
    }
}
