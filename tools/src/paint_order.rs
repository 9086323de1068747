//! The order in which a mesh is painted, the farthest first.
//!
//! Of two cells with a common face the one behind it is painted first; where that
//! leaves a choice, the one whose middle is farther. In a cell a flat piece is painted
//! before another where the other lies on the viewer's side of it.

use std::cmp::Ordering;
use std::collections::BinaryHeap;

use crate::calls::Grid;
use crate::faces::faces;
use crate::space::{cross, dot, length, less, node, Place};

/// So many pieces of a cell are compared one by one; more go by their middles.
const COMPARED: usize = 60;

/// A thing to be painted, and how near its middle is.
struct Next {
    near: f64,
    thing: usize,
}

impl PartialEq for Next {
    fn eq(&self, other: &Next) -> bool {
        self.cmp(other) == Ordering::Equal
    }
}

impl Eq for Next {}

impl PartialOrd for Next {
    fn partial_cmp(&self, other: &Next) -> Option<Ordering> {
        Some(self.cmp(other))
    }
}

impl Ord for Next {
    /// The farthest is the greatest; of equals the lowest number.
    fn cmp(&self, other: &Next) -> Ordering {
        let by_distance = other.near.total_cmp(&self.near);
        by_distance.then(other.thing.cmp(&self.thing))
    }
}

/// Things in an order in which each stands after those that it must follow, and else
/// the farthest first. Where they follow each other round, the farthest breaks it.
fn ordered(near: &[f64], follows: &[Vec<usize>]) -> Vec<usize> {
    let mut waits = vec![0; near.len()];
    follows
        .iter()
        .flatten()
        .for_each(|&thing| waits[thing] += 1);
    let mut done = vec![false; near.len()];
    let mut ready: BinaryHeap<Next> = BinaryHeap::new();
    let next = |thing: usize| Next {
        near: near[thing],
        thing,
    };
    ready.extend((0..near.len()).filter(|&thing| waits[thing] == 0).map(next));
    let mut left: BinaryHeap<Next> = (0..near.len()).map(next).collect();
    let mut order = Vec::new();
    while order.len() < near.len() {
        let thing = match ready.pop().or_else(|| left.pop()) {
            Some(found) if done[found.thing] => continue,
            Some(found) => found.thing,
            None => break,
        };
        done[thing] = true;
        order.push(thing);
        for &other in &follows[thing] {
            waits[other] -= 1;
            if waits[other] == 0 {
                ready.push(next(other));
            }
        }
    }
    order
}

/// The rank of each cell: the lowest is painted first.
pub fn cell_ranks(grid: &Grid, nodes: &[f64], towards: Place) -> Vec<usize> {
    let cells: Vec<&[u16]> = grid.lists().cells.chunks_exact(4).collect();
    let middle = |of: &[u16]| {
        of.iter()
            .map(|&of| dot(node(nodes, of), towards))
            .sum::<f64>()
    };
    let near: Vec<f64> = cells.iter().map(|of| middle(of)).collect();
    let mut follows = vec![Vec::new(); cells.len()];
    for face in faces(grid).iter().filter(|face| face.cells.len() == 2) {
        let (one, other) = (face.cells[0], face.cells[1]);
        match seen_from(face.nodes, cells[one], nodes, towards) {
            Some(true) => follows[one].push(other),
            Some(false) => follows[other].push(one),
            None => {}
        }
    }
    let mut ranks = vec![0; cells.len()];
    for (rank, cell) in ordered(&near, &follows).into_iter().enumerate() {
        ranks[cell] = rank;
    }
    ranks
}

/// Whether a face of a cell is seen from outside the cell; none where it is seen edge
/// on.
pub fn seen_from(face: [u16; 3], cell: &[u16], nodes: &[f64], towards: Place) -> Option<bool> {
    let [a, b, c] = face.map(|of| node(nodes, of));
    let fourth = cell.iter().find(|of| !face.contains(of))?;
    let normal = cross(less(b, a), less(c, a));
    let inside = dot(normal, less(node(nodes, *fourth), a));
    let facing = dot(normal, towards);
    (inside != 0.0 && facing != 0.0).then_some((inside > 0.0) != (facing > 0.0))
}

/// A flat piece of a cell: its corners, and how near its middle is.
pub struct Piece<'a> {
    pub corners: &'a [Place],
    pub near: f64,
}

/// The order of a cell's pieces.
pub fn piece_order(pieces: &[Piece<'_>], towards: Place) -> Vec<usize> {
    let near: Vec<f64> = pieces.iter().map(|piece| piece.near).collect();
    let mut follows = vec![Vec::new(); pieces.len()];
    if pieces.len() <= COMPARED {
        for one in 0..pieces.len() {
            for other in 0..pieces.len() {
                if one != other && covers(&pieces[other], &pieces[one], towards) {
                    follows[one].push(other);
                }
            }
        }
    }
    ordered(&near, &follows)
}

/// Whether a piece lies before the plane of another, or the other behind its plane,
/// and not both ways.
fn covers(front: &Piece<'_>, back: &Piece<'_>, towards: Place) -> bool {
    let over = side_of(back, front.corners, towards);
    let under = side_of(front, back.corners, towards);
    (over == Some(true) && under != Some(true)) || (under == Some(false) && over != Some(false))
}

/// Whether places lie on the viewer's side of a piece's plane, all of them, or all on
/// the other side.
fn side_of(piece: &Piece<'_>, places: &[Place], towards: Place) -> Option<bool> {
    let [a, b, c] = match piece.corners {
        [a, b, c, ..] => [*a, *b, *c],
        _ => return None,
    };
    let normal = cross(less(b, a), less(c, a));
    let facing = dot(normal, towards);
    if facing.abs() <= 1e-9 * length(normal) {
        return None;
    }
    let heights = places
        .iter()
        .map(|&place| dot(normal, less(place, a)) * facing.signum());
    let [least, most] = heights.fold([0.0_f64; 2], |[least, most], height| {
        [least.min(height), most.max(height)]
    });
    let rounding = 1e-9 * length(normal) * length(less(b, a));
    match (least >= -rounding, most <= rounding) {
        (true, false) => Some(true),
        (false, true) => Some(false),
        _ => None,
    }
}
