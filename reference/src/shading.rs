//! The shading call: which side of the surfaces each node of a grid is on.

use crate::grid::{GridTables, Lists, NODE_LIMIT};
use crate::{refuse, Refusal};

/// What the area has for a node that no cell has.
pub const UNUSED: u8 = 255;

const NODES: usize = NODE_LIMIT as usize;

/// Spreads sides over grids. One value serves many grids in turn and keeps its
/// memory.
#[derive(Default)]
pub struct Shader {
    tables: GridTables,
    /// By node: where its neighbours start in `near`, and at the end where the
    /// last node's stop.
    first: Vec<usize>,
    /// A neighbour, and 1 where the count of the edge to it is odd.
    near: Vec<(u16, u8)>,
    sides: Vec<u8>,
    /// Nodes with a side whose neighbours are still to be looked at.
    queue: Vec<u16>,
}

/// Writes 0 or 1 for each node of a cell into an area of one byte a node, and
/// 255 for the others.
pub fn shade(lists: Lists, area: &mut [u8]) -> Result<(), Refusal> {
    Shader::default().shade(lists, area)
}

impl Shader {
    pub fn shade(&mut self, lists: Lists, area: &mut [u8]) -> Result<(), Refusal> {
        self.tables.check(lists)?;
        if area.len() != NODES {
            return refuse(19, 0);
        }
        self.list_neighbours(&lists);
        self.sides.clear();
        self.sides.resize(NODES, UNUSED);
        // from the lowest node without a side on, so that a part starts at its
        // own lowest
        for start in 0..NODE_LIMIT {
            let reached = self.sides[usize::from(start)] != UNUSED;
            if !reached && self.has_edges(start) && !self.spread(start) {
                return refuse(20, 0);
            }
        }
        area.copy_from_slice(&self.sides);
        Ok(())
    }

    fn list_neighbours(&mut self, lists: &Lists) {
        self.first.clear();
        self.first.resize(NODES + 1, 0);
        for &end in lists.edges {
            self.first[usize::from(end) + 1] += 1;
        }
        for node in 0..NODES {
            self.first[node + 1] += self.first[node];
        }
        self.near.clear();
        self.near.resize(lists.edges.len(), (0, 0));
        let mut next = self.first.clone();
        for (ends, count) in lists.edges.chunks_exact(2).zip(lists.counts) {
            let odd = (count % 2) as u8;
            for (from, to) in [(ends[0], ends[1]), (ends[1], ends[0])] {
                let place = &mut next[usize::from(from)];
                self.near[*place] = (to, odd);
                *place += 1;
            }
        }
    }

    /// In an accepted grid exactly the nodes of its cells have edges.
    fn has_edges(&self, node: u16) -> bool {
        let node = usize::from(node);
        self.first[node] < self.first[node + 1]
    }

    /// Gives the part of a node its sides, breadth first; false where two ways
    /// to a node disagree.
    fn spread(&mut self, start: u16) -> bool {
        self.sides[usize::from(start)] = 0;
        self.queue.clear();
        self.queue.push(start);
        let mut done = 0;
        while let Some(&node) = self.queue.get(done) {
            done += 1;
            let node = usize::from(node);
            for &(other, odd) in &self.near[self.first[node]..self.first[node + 1]] {
                let side = self.sides[node] ^ odd;
                let known = &mut self.sides[usize::from(other)];
                if *known == UNUSED {
                    *known = side;
                    self.queue.push(other);
                } else if *known != side {
                    return false;
                }
            }
        }
        true
    }
}
