//! Long spirals split: document 02's W12. A cell whose loops spiral is worked
//! part by part, the cell itself first and then its sub-cells, in the order in
//! which their triangles stand in the mesh.

use crate::booking::{is_booked, least_corners, left_by, smaller_two, two_numbers, ENDS};
use crate::cell::{CellWalker, Closed, Stop};

/// Number of the first inner crossing of each cell.
pub const FIRST_INNER_CROSSING: u32 = 65_536;
/// Name of the first inner face of each cell.
pub const FIRST_INNER_FACE: u32 = 8_192;
/// Word 0 of a triangle is the cell and this many times the sub-cell's number.
pub const SUB_CELL_STEP: u32 = 2_048;

/// The cell, or a sub-cell, with its four nodes by rank: new nodes come before
/// older ones, and the nodes of the cell are last, by number.
#[derive(Clone, Copy, Debug, PartialEq, Eq)]
pub struct Part {
    /// Positions in the cell; new nodes go on from 4 as they are made.
    pub nodes: [usize; 4],
    pub counts: [u16; 6],
    /// On each edge the number of the crossing next to the lower node.
    pub firsts: [u64; 6],
    /// Names of the faces by slot.
    pub faces: [u32; 4],
}

/// A split: the new node a, and what it is joined to.
#[derive(Clone, Copy, Debug, PartialEq, Eq)]
pub struct Split {
    pub new_node: usize,
    /// The nodes i, j, k, l.
    pub labelled: [usize; 4],
    /// Counts of the edges ai, aj, ak, al.
    pub counts: [u16; 4],
    /// Number of the crossing next to a on each of them.
    pub firsts: [u64; 4],
    /// Name of the first of its six inner faces.
    pub first_face: u32,
}

/// A part when its turn comes.
#[derive(Clone, Copy, Debug, PartialEq, Eq)]
pub struct Step {
    /// The sub-cell's number; 0 for the cell.
    pub number: u32,
    pub part: Part,
    /// How many corner triangles it has.
    pub corners: u32,
    /// Its two numbers, the larger first.
    pub numbers: [u16; 2],
    /// Set if the part is split, so that only its corner triangles are its own.
    pub split: Option<Split>,
}

/// The parts of a cell that is split, in order of working.
#[derive(Clone, Debug)]
pub struct Working {
    /// Parts still to be worked, the next one last.
    waiting: Vec<Part>,
    next_number: u32,
    next_node: usize,
    next_crossing: u64,
    next_face: u32,
}

/// Greatest common divisor.
pub fn gcd(a: u16, b: u16) -> u16 {
    if b == 0 {
        a
    } else {
        gcd(b, a % b)
    }
}

/// Whether a cell with these counts is split.
pub fn is_split(counts: [u16; 6]) -> bool {
    if !is_booked(counts) {
        return false;
    }
    let [d1, d2] = two_numbers(counts);
    d1 > d2 && d2 > 0 && gcd(d1, d2) > 1
}

/// Position of the edge between two nodes.
fn edge_of(u: usize, v: usize) -> usize {
    const EDGES: [[usize; 4]; 4] = [[6, 0, 1, 2], [0, 6, 3, 4], [1, 3, 6, 5], [2, 4, 5, 6]];
    EDGES[u][v]
}

/// The first i, j, k, l in node order with d1 left on ij, d2 on ik and the sum
/// on il.
fn labelling(left: [u16; 6], [d1, d2]: [u16; 2]) -> [usize; 4] {
    let pairs = (0..4).flat_map(|i| (0..4).map(move |j| (i, j)));
    let triples = pairs.flat_map(|(i, j)| (0..4).map(move |k| (i, j, k)));
    let apart = triples.filter(|&(i, j, k)| i != j && i != k && j != k);
    let mut all = apart.map(|(i, j, k)| [i, j, k, 6 - i - j - k]);
    let fits = |&[i, j, k, l]: &[usize; 4]| {
        [j, k, l].map(|node| left[edge_of(i, node)]) == [d1, d2, d1 + d2]
    };
    all.find(fits).expect("these counts stand at every node")
}

/// What the edges from the new node have, and what the others have.
fn six<T: Copy>([a, b, c]: [T; 3], [d, e, f]: [T; 3]) -> [T; 6] {
    [a, b, c, d, e, f]
}

impl Part {
    /// The part without its corner triangles, of which each node has so many.
    fn without_corners(&self, least: [u32; 4]) -> Part {
        let mut left = *self;
        left.counts = left_by(self.counts, least);
        for (first, [lower, _]) in left.firsts.iter_mut().zip(ENDS) {
            *first += u64::from(least[lower]);
        }
        left
    }

    /// The sub-cell of this part without corners that omits a node, for a split
    /// of it with the labels at these positions.
    fn sub_cell(&self, split: &Split, labels: [usize; 4], omitted: usize) -> Part {
        let mut kept = (0..4).filter(|&node| node != omitted);
        let kept = [(); 3].map(|()| kept.next().expect("three nodes are kept"));
        let label = |node: usize| labels.iter().position(|&at| at == node).expect("a label");
        let around = kept.map(label);
        let outer = [(0, 1), (0, 2), (1, 2)].map(|(u, v)| edge_of(kept[u], kept[v]));
        let inner_face =
            |u: usize, v: usize| split.first_face + edge_of(around[u], around[v]) as u32;
        Part {
            nodes: [
                split.new_node,
                self.nodes[kept[0]],
                self.nodes[kept[1]],
                self.nodes[kept[2]],
            ],
            counts: six(
                around.map(|at| split.counts[at]),
                outer.map(|edge| self.counts[edge]),
            ),
            firsts: six(
                around.map(|at| split.firsts[at]),
                outer.map(|edge| self.firsts[edge]),
            ),
            faces: [
                self.faces[omitted],
                inner_face(1, 2),
                inner_face(0, 2),
                inner_face(0, 1),
            ],
        }
    }
}

impl Working {
    /// The working of a cell with these counts, first crossings and face names;
    /// none where it is not split.
    pub fn of(counts: [u16; 6], starts: [u32; 6], faces: [u32; 4]) -> Option<Working> {
        let cell = Part {
            nodes: [0, 1, 2, 3],
            counts,
            firsts: starts.map(u64::from),
            faces,
        };
        is_split(counts).then(|| Working {
            waiting: vec![cell],
            next_number: 0,
            next_node: 4,
            next_crossing: u64::from(FIRST_INNER_CROSSING),
            next_face: FIRST_INNER_FACE,
        })
    }

    /// Splits a part, given without its corner triangles; its sub-cells wait in
    /// front of all others.
    fn split(&mut self, left: &Part, [d1, d2]: [u16; 2]) -> Split {
        let labels = labelling(left.counts, [d1, d2]);
        let split = Split {
            new_node: self.next_node,
            labelled: labels.map(|at| left.nodes[at]),
            counts: [2 * d2, d1, d2, d1 - d2],
            firsts: [2 * d2, d1, d2, d1 - d2].map(|count| self.number_crossings(count)),
            first_face: self.next_face,
        };
        self.next_node += 1;
        self.next_face += 6;
        for omitted in labels {
            self.waiting.push(left.sub_cell(&split, labels, omitted));
        }
        split
    }

    /// The first of so many new inner crossings.
    fn number_crossings(&mut self, count: u16) -> u64 {
        let first = self.next_crossing;
        self.next_crossing += u64::from(count);
        first
    }
}

impl Iterator for Working {
    type Item = Step;

    fn next(&mut self) -> Option<Step> {
        let part = self.waiting.pop()?;
        let number = self.next_number;
        self.next_number += 1;
        let least = least_corners(part.counts);
        let left = part.without_corners(least);
        let [d1, d2] = smaller_two(left.counts);
        let split = (d1 != d2 && d2 > 0).then(|| self.split(&left, [d1, d2]));
        Some(Step {
            number,
            part,
            corners: least.iter().sum(),
            numbers: [d1, d2],
            split,
        })
    }
}

/// What a cell that is split comes to, without its loops being walked.
#[derive(Clone, Copy, Debug, Default, PartialEq, Eq)]
pub struct Totals {
    pub splits: u64,
    pub triangles: u64,
    pub inner_crossings: u64,
    pub fans: u64,
}

impl Totals {
    /// Adds those of another cell.
    pub fn add(&mut self, other: Totals) {
        self.splits += other.splits;
        self.triangles += other.triangles;
        self.inner_crossings += other.inner_crossings;
        self.fans += other.fans;
    }
}

/// The totals of a cell with these counts; none where it is not split.
pub fn totals(counts: [u16; 6]) -> Option<Totals> {
    let mut sum = Totals::default();
    for step in Working::of(counts, [0; 6], [0; 4])? {
        sum.triangles += u64::from(step.corners);
        let [d1, d2] = step.numbers.map(u64::from);
        if let Some(split) = step.split {
            sum.splits += 1;
            sum.inner_crossings += split.counts.iter().map(|&c| u64::from(c)).sum::<u64>();
        } else if d2 == 0 {
            sum.triangles += 2 * d1;
        } else {
            sum.triangles += 4 * (d1 + d2);
            sum.fans += d1;
        }
    }
    Some(sum)
}

/// Finds the loops of one part after another. Their stops have the positions
/// of crossings among the part's own, by number.
#[derive(Default)]
pub struct PartWalker {
    walker: CellWalker,
    /// Stops of the last loop found.
    pub stops: Vec<Stop>,
    /// Number of the crossing at each position.
    pub numbers: Vec<u32>,
    /// Position of the first crossing on each edge.
    pub starts: [u32; 6],
}

impl PartWalker {
    /// Takes up a part.
    pub fn load(&mut self, part: &Part) {
        let mut order = [0, 1, 2, 3, 4, 5];
        order.sort_by_key(|&edge| part.firsts[edge]);
        self.numbers.clear();
        for edge in order {
            self.starts[edge] = self.numbers.len() as u32;
            let first = part.firsts[edge] as u32;
            self.numbers
                .extend(first..first + u32::from(part.counts[edge]));
        }
        let counts = part.counts.map(u32::from);
        self.walker.load_in_order(order, &counts, &self.starts);
    }

    /// Finds the next loop by lowest crossing and tells whether it is normal.
    pub fn next_loop(&mut self) -> Option<bool> {
        self.stops.clear();
        let Closed { normal, .. } = self.walker.next_loop(&mut self.stops)?;
        Some(normal)
    }

    /// The lengths of all loops of a part, which is taken up afresh after.
    pub fn lengths(&mut self, part: &Part) -> Vec<usize> {
        self.load(part);
        let mut lengths = Vec::new();
        while self.next_loop().is_some() {
            lengths.push(self.stops.len());
        }
        self.load(part);
        lengths
    }
}
