//! The faces of a grid, and how the face call joins their crossings.

use std::cmp::Reverse;
use std::collections::HashMap;

use crate::calls::{self, Grid, How, Join, Why};

/// The ends of a face's edges ab, ac, bc, as positions in its nodes.
pub const ENDS: [[usize; 2]; 3] = [[0, 1], [0, 2], [1, 2]];

/// A face of a grid.
#[derive(Clone, Debug, PartialEq, Eq)]
pub struct Face {
    /// 4 times the least cell that has it, plus its slot there.
    pub name: usize,
    pub nodes: [u16; 3],
    /// The cells that have it, one or two.
    pub cells: Vec<usize>,
    /// The numbers of its edges ab, ac, bc in the grid.
    pub edges: [usize; 3],
    pub counts: [u16; 3],
}

/// A crossing of a face: its edge (0 ab, 1 ac, 2 bc), its index there, and its
/// number in the grid.
#[derive(Clone, Copy, Debug, PartialEq, Eq)]
pub struct Crossing {
    pub edge: usize,
    pub index: usize,
    pub number: usize,
}

/// A segment; its end with the lower number stands first.
#[derive(Clone, Copy, Debug, PartialEq, Eq)]
pub struct Segment {
    pub ends: [Crossing; 2],
    pub how: How,
}

/// What the face call answers for all crossings of a face.
#[derive(Clone, Debug, Default, PartialEq, Eq)]
pub struct Joining {
    pub segments: Vec<Segment>,
    pub unjoined: Vec<(Crossing, Why)>,
}

/// The nodes of slot s of a cell: all but that at position s.
fn slot(cell: &[u16], s: usize) -> Option<[u16; 3]> {
    let others: Vec<u16> = (0..4).filter(|&at| at != s).map(|at| cell[at]).collect();
    others.try_into().ok()
}

/// All faces of a grid, by name.
pub fn faces(grid: &Grid) -> Vec<Face> {
    let lists = grid.lists();
    let numbers: HashMap<&[u16], usize> = lists.edges.chunks_exact(2).zip(0..).collect();
    let mut found: HashMap<[u16; 3], usize> = HashMap::new();
    let mut faces: Vec<Face> = Vec::new();
    for (cell, nodes) in lists.cells.chunks_exact(4).enumerate() {
        for (s, nodes) in (0..4).filter_map(|s| Some((s, slot(nodes, s)?))) {
            if let Some(&at) = found.get(&nodes) {
                faces[at].cells.push(cell);
                continue;
            }
            // the grid is accepted, so each edge of a cell is listed
            let edges = ENDS.map(|[low, high]| numbers[&[nodes[low], nodes[high]][..]]);
            found.insert(nodes, faces.len());
            faces.push(Face {
                name: 4 * cell + s,
                nodes,
                cells: vec![cell],
                edges,
                counts: edges.map(|edge| lists.counts[edge]),
            });
        }
    }
    faces
}

/// The faces of one cell, by slot.
pub fn faces_of_cell(faces: &[Face], cell: usize) -> Vec<&Face> {
    let mut own: Vec<&Face> = faces
        .iter()
        .filter(|face| face.cells.contains(&cell))
        .collect();
    // the slot omits a node: the higher the nodes that stay, the lower the slot
    own.sort_by_key(|face| Reverse(face.nodes));
    own
}

impl Face {
    /// How the crossings of the face are joined.
    pub fn joining(&self, grid: &Grid) -> Joining {
        let mut joining = Joining::default();
        for edge in 0..3 {
            for index in 0..usize::from(self.counts[edge]) {
                let crossing = self.crossing(grid, edge, index);
                match calls::face(self.counts, edge, index) {
                    Join::Joined { edge, index, how } => {
                        let partner = self.crossing(grid, edge, index);
                        if crossing.number < partner.number {
                            let ends = [crossing, partner];
                            joining.segments.push(Segment { ends, how });
                        }
                    }
                    Join::Unjoined(why) => joining.unjoined.push((crossing, why)),
                    Join::NoCrossing => {}
                }
            }
        }
        joining
    }

    fn crossing(&self, grid: &Grid, edge: usize, index: usize) -> Crossing {
        Crossing {
            edge,
            index,
            number: grid.start(self.edges[edge]) + index,
        }
    }
}
