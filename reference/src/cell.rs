//! Loops of one cell, their types, and the triangles that span a loop.
//!
//! A cell has nodes at positions 0..3 and six edges 01, 02, 03, 12, 13, 23,
//! numbered in that order. A dart is one of the two ways to leave a crossing:
//! twice the crossing's position in the cell, plus 0 for the face whose third
//! node is lower or 1 for the other.

use crate::face::{corner_counts, INCIDENT};

/// Edges ab, ac, bc of the face in each slot.
pub const FACE_EDGES: [[usize; 3]; 4] = [[3, 4, 5], [1, 2, 5], [0, 2, 4], [0, 1, 3]];

/// The two slots at each edge; the one with the lower third node is first.
pub const EDGE_SLOTS: [[usize; 2]; 6] = [[3, 2], [3, 1], [2, 1], [3, 0], [2, 0], [1, 0]];

/// Word of a middle corner, and first word of an inner side.
pub const NO_NUMBER: u32 = u32::MAX;

/// Words of one triangle in a lent area.
pub const TRIANGLE_WORDS: usize = 11;

/// Link of a dart that no segment continues.
const UNJOINED: u32 = u32::MAX;
const SLOT_BITS: u32 = 0b011;
const SAME_EDGE: u32 = 0b100;
const DART_SHIFT: u32 = 3;

/// A crossing on a loop, with the slot of the face on which the loop leaves it.
///
/// Sixteen bits hold both: an accepted grid has at most 65,535 crossings.
#[derive(Clone, Copy, Debug, PartialEq, Eq)]
pub struct Stop {
    pub crossing: u16,
    pub slot: u16,
}

/// What a closed walk came to.
#[derive(Clone, Copy, Debug, PartialEq, Eq)]
pub struct Closed {
    pub length: u32,
    pub normal: bool,
}

/// Finds the loops of one cell after another, reusing its memory.
#[derive(Default)]
pub struct CellWalker {
    links: Vec<u32>,
    numbers: Vec<u16>,
    seen: Vec<bool>,
    cursor: usize,
}

/// The darts of one face along one of its edges, from the lower end.
#[derive(Clone, Copy, Default)]
struct DartRow {
    first: usize,
    count: usize,
}

impl DartRow {
    fn dart(&self, index: usize) -> usize {
        self.first + 2 * index
    }
}

impl CellWalker {
    /// Takes up a cell: the count of each of its edges and the number of the
    /// first crossing there.
    pub fn load(&mut self, counts: &[u32; 6], starts: &[u32; 6]) {
        self.load_in_order([0, 1, 2, 3, 4, 5], counts, starts);
    }

    /// As `load`, for edges whose crossings are numbered in this order.
    #[inline]
    pub fn load_in_order(&mut self, order: [usize; 6], counts: &[u32; 6], starts: &[u32; 6]) {
        self.numbers.clear();
        let mut bases = [0; 6];
        for edge in order {
            bases[edge] = self.numbers.len();
            let numbers = starts[edge]..starts[edge] + counts[edge];
            self.numbers.extend(numbers.map(|number| number as u16));
        }
        let total = self.numbers.len();
        self.links.clear();
        self.links.resize(2 * total, UNJOINED);
        self.seen.clear();
        self.seen.resize(total, false);
        self.cursor = 0;
        for slot in 0..4 {
            self.link_face(slot, counts, &bases);
        }
    }

    /// The next loop by lowest crossing; its stops are added to `stops`.
    pub fn next_loop(&mut self, stops: &mut Vec<Stop>) -> Option<Closed> {
        while self.cursor < self.seen.len() {
            let position = self.cursor;
            self.cursor += 1;
            if self.seen[position] {
                continue;
            }
            let before = stops.len();
            if let Some(normal) = self.follow(2 * position, stops) {
                let length = (stops.len() - before) as u32;
                return Some(Closed { length, normal });
            }
            stops.truncate(before);
            self.mark_tail(2 * position + 1);
        }
        None
    }

    /// Follows segments from a dart. A walk that comes back tells whether it
    /// is normal; one that ends in an unjoined dart tells nothing.
    fn follow(&mut self, start: usize, stops: &mut Vec<Stop>) -> Option<bool> {
        let mut dart = start;
        let mut flags = 0;
        loop {
            let link = self.links[dart];
            self.seen[dart / 2] = true;
            if link == UNJOINED {
                return None;
            }
            stops.push(Stop {
                crossing: self.numbers[dart / 2],
                slot: (link & SLOT_BITS) as u16,
            });
            flags |= link;
            dart = (link >> DART_SHIFT) as usize;
            if dart == start {
                return Some(flags & SAME_EDGE == 0);
            }
        }
    }

    /// Marks the rest of an open curve, so that no later walk starts on it.
    fn mark_tail(&mut self, start: usize) {
        let mut link = self.links[start];
        while link != UNJOINED {
            let dart = (link >> DART_SHIFT) as usize;
            self.seen[dart / 2] = true;
            link = self.links[dart];
        }
    }

    fn link_face(&mut self, slot: usize, counts: &[u32; 6], bases: &[usize; 6]) {
        let [ab, ac, bc] = FACE_EDGES[slot];
        let row = |edge: usize| DartRow {
            first: 2 * bases[edge] + usize::from(EDGE_SLOTS[edge][0] != slot),
            count: counts[edge] as usize,
        };
        let rows = [row(ab), row(ac), row(bc)];
        let cuts = corner_counts([counts[ab], counts[ac], counts[bc]]).map(|cut| cut as usize);
        self.link_low_corner(slot as u32, [rows[0], rows[1]], cuts[0]);
        self.link_middle_corner(slot as u32, [rows[0], rows[2]], cuts[1]);
        self.link_high_corner(slot as u32, [rows[1], rows[2]], cuts[2]);
        for (row, [low, high]) in rows.into_iter().zip(INCIDENT) {
            self.link_gap(slot as u32, row, cuts[low], row.count - cuts[high]);
        }
    }

    /// Corner a: the lower end of both its edges.
    fn link_low_corner(&mut self, slot: u32, [ab, ac]: [DartRow; 2], cut: usize) {
        for rank in 0..cut {
            self.link(slot, ab.dart(rank), ac.dart(rank));
        }
    }

    /// Corner b: the higher end of ab and the lower end of bc.
    fn link_middle_corner(&mut self, slot: u32, [ab, bc]: [DartRow; 2], cut: usize) {
        for rank in 0..cut {
            self.link(slot, ab.dart(ab.count - 1 - rank), bc.dart(rank));
        }
    }

    /// Corner c: the higher end of both its edges.
    fn link_high_corner(&mut self, slot: u32, [ac, bc]: [DartRow; 2], cut: usize) {
        for rank in 1..=cut {
            self.link(slot, ac.dart(ac.count - rank), bc.dart(bc.count - rank));
        }
    }

    /// Pairs up the crossings from `from` to `to` that no corner cut takes;
    /// an odd one out is the first.
    fn link_gap(&mut self, slot: u32, row: DartRow, from: usize, to: usize) {
        let mut index = from + (to - from) % 2;
        while index < to {
            self.link(slot | SAME_EDGE, row.dart(index), row.dart(index + 1));
            index += 2;
        }
    }

    /// Joins two darts of one face: who arrives by one goes on by the other
    /// dart of the crossing it reaches.
    fn link(&mut self, tag: u32, here: usize, there: usize) {
        self.links[here] = ((there ^ 1) as u32) << DART_SHIFT | tag;
        self.links[there] = ((here ^ 1) as u32) << DART_SHIFT | tag;
    }
}

/// How a loop parts the cell's nodes; positions in the cell or node numbers
/// of the grid, as the caller has them.
#[derive(Clone, Copy, Debug, PartialEq, Eq)]
pub enum LoopType {
    Contractible,
    /// Cuts off this node.
    Corner(u32),
    /// Keeps this node together with the cell's lowest node.
    Diagonal(u32),
}

/// Parity sum and type of a loop in the cell with these nodes.
pub fn loop_type(
    stops: &[Stop],
    counts: &[u32; 6],
    starts: &[u32; 6],
    nodes: [u32; 4],
) -> (u32, LoopType) {
    let parities = [0, 1, 2].map(|edge| {
        let range = starts[edge]..starts[edge] + counts[edge];
        let on_edge = |stop: &&Stop| range.contains(&u32::from(stop.crossing));
        stops.iter().filter(on_edge).count() % 2
    });
    let node_with = |parity| match parities.iter().position(|&p| p == parity) {
        Some(edge) => nodes[edge + 1],
        None => nodes[0],
    };
    match parities.iter().sum() {
        0 => (0, LoopType::Contractible),
        1 => (1, LoopType::Corner(node_with(1))),
        2 => (2, LoopType::Diagonal(node_with(0))),
        _ => (3, LoopType::Corner(node_with(0))),
    }
}

/// A corner of a triangle.
#[derive(Clone, Copy, Debug, PartialEq, Eq)]
pub enum Corner {
    Crossing(u32),
    Middle,
}

/// A side of a triangle.
#[derive(Clone, Copy, Debug, PartialEq, Eq)]
pub enum Side {
    Segment { face: u32, lower: u32 },
    Inner(u32),
}

/// A triangle by value.
#[derive(Clone, Copy, Debug, PartialEq, Eq)]
pub struct Triangle {
    pub cell: u32,
    pub p0: u32,
    pub corners: [Corner; 3],
    pub sides: [Side; 3],
}

impl Triangle {
    /// The triangle in the form that a lent area has.
    #[inline]
    pub fn words(&self) -> [u32; TRIANGLE_WORDS] {
        let [a, b, c] = self.corners.map(|corner| match corner {
            Corner::Crossing(number) => number,
            Corner::Middle => NO_NUMBER,
        });
        let [[d, e], [f, g], [h, i]] = self.sides.map(|side| match side {
            Side::Segment { face, lower } => [face, lower],
            Side::Inner(number) => [NO_NUMBER, number],
        });
        [self.cell, self.p0, a, b, c, d, e, f, g, h, i]
    }

    /// The same triangle with other numbers for its crossings, which keep
    /// their order.
    pub fn renumbered(&self, numbers: &[u32]) -> Triangle {
        Triangle {
            cell: self.cell,
            p0: numbers[self.p0 as usize],
            corners: self.corners.map(|corner| match corner {
                Corner::Crossing(number) => Corner::Crossing(numbers[number as usize]),
                Corner::Middle => Corner::Middle,
            }),
            sides: self.sides.map(|side| match side {
                Side::Segment { face, lower } => Side::Segment {
                    face,
                    lower: numbers[lower as usize],
                },
                Side::Inner(number) => Side::Inner(number),
            }),
        }
    }
}

/// Whether a loop is spanned by a fan round a middle point.
pub fn is_fan(length: u32, normal: bool) -> bool {
    !(length == 3 || (length == 4 && normal))
}

/// Number of triangles that span a loop.
pub fn triangle_count(length: u32, normal: bool) -> u32 {
    if is_fan(length, normal) {
        length
    } else {
        length - 2
    }
}

/// A closed loop in its cell, ready to be spanned.
pub struct Loop<'a> {
    pub cell: u32,
    /// Names of the cell's four faces by slot.
    pub names: [u32; 4],
    pub stops: &'a [Stop],
    pub normal: bool,
}

impl Loop<'_> {
    /// Gives the loop's triangles in order.
    #[inline]
    pub fn each_triangle(&self, mut give: impl FnMut(Triangle)) {
        let length = self.stops.len();
        if length == 3 {
            give(self.triangle(
                [0, 1, 2].map(|k| self.point(k)),
                [0, 1, 2].map(|k| self.segment(k)),
            ));
        } else if length == 4 && self.normal {
            give(self.first_half());
            give(self.second_half());
        } else {
            for k in 0..length {
                give(self.fan_blade(k));
            }
        }
    }

    fn triangle(&self, corners: [Corner; 3], sides: [Side; 3]) -> Triangle {
        Triangle {
            cell: self.cell,
            p0: u32::from(self.stops[0].crossing),
            corners,
            sides,
        }
    }

    fn first_half(&self) -> Triangle {
        self.triangle(
            [self.point(0), self.point(1), self.point(2)],
            [self.segment(0), self.segment(1), Side::Inner(0)],
        )
    }

    fn second_half(&self) -> Triangle {
        self.triangle(
            [self.point(0), self.point(2), self.point(3)],
            [Side::Inner(0), self.segment(2), self.segment(3)],
        )
    }

    fn fan_blade(&self, k: usize) -> Triangle {
        let next = self.after(k);
        self.triangle(
            [self.point(k), self.point(next), Corner::Middle],
            [
                self.segment(k),
                Side::Inner(next as u32),
                Side::Inner(k as u32),
            ],
        )
    }

    fn after(&self, k: usize) -> usize {
        if k + 1 == self.stops.len() {
            0
        } else {
            k + 1
        }
    }

    fn point(&self, k: usize) -> Corner {
        Corner::Crossing(u32::from(self.stops[k].crossing))
    }

    /// The segment from point `k` to the next.
    fn segment(&self, k: usize) -> Side {
        let here = self.stops[k];
        let there = self.stops[self.after(k)];
        Side::Segment {
            face: self.names[usize::from(here.slot)],
            lower: u32::from(here.crossing.min(there.crossing)),
        }
    }
}
