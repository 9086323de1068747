//! An independent check that the triangles of a mesh fit together: how often
//! each side is used, whether the triangles round each point form one ring,
//! and whether the segments of each face keep apart. Inner faces and crossings
//! of cells that are split are covered too, each told apart by its cell.

use std::collections::{BTreeMap, BTreeSet, HashMap, HashSet};

use crate::booking::ENDS;
use crate::cell::{FACE_EDGES, NO_NUMBER, TRIANGLE_WORDS};
use crate::face::{join, Join};
use crate::split::{Working, FIRST_INNER_CROSSING, FIRST_INNER_FACE, SUB_CELL_STEP};

/// What was found; every field but the first two counts faults, or what is a
/// fault only in a mesh that should close.
#[derive(Clone, Debug, Default, PartialEq, Eq)]
pub struct Report {
    pub triangles: usize,
    pub sides: usize,
    /// Sides in more than two triangles.
    pub crowded_sides: usize,
    /// Sides in one triangle only.
    pub open_sides: usize,
    /// Inner sides, and segments of inner faces, not in exactly two triangles.
    pub split_inner_sides: usize,
    /// Sides whose triangles disagree about their two ends.
    pub mismatched_sides: usize,
    /// Segment sides that are no segment of the named face.
    pub false_segments: usize,
    /// Segments of the grid's faces that no triangle has.
    pub undrawn_segments: usize,
    /// Segments of inner faces that no triangle has.
    pub undrawn_inner_segments: usize,
    /// Segments of the grid's faces that two triangles of one cell have.
    pub repeated_segments: usize,
    /// Segments of the grid's faces in a cell that is split which no triangle of
    /// that cell has.
    pub unspanned_segments: usize,
    /// Middles without one ring.
    pub broken_middles: usize,
    /// Crossings of the grid without one ring.
    pub broken_crossings: usize,
    /// Inner crossings without one ring.
    pub broken_inner_crossings: usize,
    /// Faces with two segments that alternate.
    pub alternating_faces: usize,
}

impl Report {
    /// No fault of the kinds that no accepted grid may show.
    pub fn sound(&self) -> bool {
        self.crowded_sides == 0
            && self.split_inner_sides == 0
            && self.mismatched_sides == 0
            && self.false_segments == 0
            && self.broken_middles == 0
            && self.undrawn_inner_segments == 0
            && self.repeated_segments == 0
            && self.unspanned_segments == 0
            && self.broken_inner_crossings == 0
            && self.alternating_faces == 0
    }

    /// Sound, and without a border or a bare crossing.
    pub fn closed(&self) -> bool {
        self.sound()
            && self.open_sides == 0
            && self.undrawn_segments == 0
            && self.broken_crossings == 0
    }
}

/// A side's identity: face and lower crossing, with the cell for an inner face,
/// or the mark of an inner side with its number and words 0 and 1.
type SideKey = [u32; 4];
/// A point's identity: a crossing, with the cell for an inner one, or the mark
/// of a middle with words 0 and 1.
type PointKey = [u32; 3];

/// The identity of a crossing that a triangle of the cell has.
fn crossing_key(cell: u32, crossing: u32) -> PointKey {
    let inner = crossing >= FIRST_INNER_CROSSING;
    [crossing, if inner { cell } else { 0 }, 0]
}

/// The identity of a segment that a triangle of the cell has.
fn segment_key(cell: u32, face: u32, lower: u32) -> SideKey {
    let inner = face >= FIRST_INNER_FACE;
    [face, lower, if inner { cell } else { 0 }, 0]
}

#[derive(Clone, Copy)]
struct Piece {
    cell: u32,
    points: [PointKey; 3],
    sides: [SideKey; 3],
}

fn read_piece(words: &[u32]) -> Piece {
    let (part, p0) = (words[0], words[1]);
    let cell = part % SUB_CELL_STEP;
    let points = [2, 3, 4].map(|at| match words[at] {
        NO_NUMBER => [NO_NUMBER, part, p0],
        crossing => crossing_key(cell, crossing),
    });
    let sides = [5, 7, 9].map(|at| match words[at] {
        NO_NUMBER => [NO_NUMBER, words[at + 1], part, p0],
        face => segment_key(cell, face, words[at + 1]),
    });
    Piece {
        cell,
        points,
        sides,
    }
}

/// The triangles of a mesh, found by side and by point.
struct Pieces {
    all: Vec<Piece>,
    by_side: HashMap<SideKey, Vec<usize>>,
    by_point: HashMap<PointKey, Vec<usize>>,
}

impl Pieces {
    fn new(words: &[u32]) -> Pieces {
        let all: Vec<Piece> = words.chunks_exact(TRIANGLE_WORDS).map(read_piece).collect();
        let mut by_side: HashMap<SideKey, Vec<usize>> = HashMap::new();
        let mut by_point: HashMap<PointKey, Vec<usize>> = HashMap::new();
        for (number, piece) in all.iter().enumerate() {
            for turn in 0..3 {
                by_side.entry(piece.sides[turn]).or_default().push(number);
                by_point.entry(piece.points[turn]).or_default().push(number);
            }
        }
        Pieces {
            all,
            by_side,
            by_point,
        }
    }

    /// The two sides of a triangle that end at the point.
    fn sides_at(&self, piece: usize, point: PointKey) -> [SideKey; 2] {
        let Piece { points, sides, .. } = self.all[piece];
        match points.iter().position(|&corner| corner == point) {
            Some(turn) => [sides[turn], sides[(turn + 2) % 3]],
            None => [[NO_NUMBER; 4]; 2],
        }
    }

    /// The other triangle with this side, if exactly two have it.
    fn across(&self, piece: usize, side: SideKey) -> Option<usize> {
        match self.by_side[&side][..] {
            [one, other] if one == piece && other != piece => Some(other),
            [other, one] if one == piece && other != piece => Some(other),
            _ => None,
        }
    }

    /// Whether stepping round the point meets each of its triangles once and
    /// comes back over the side that was not left by.
    fn one_ring(&self, point: PointKey) -> bool {
        let around = match self.by_point.get(&point) {
            Some(around) => around,
            None => return false,
        };
        let first = around[0];
        let [mut side, last_side] = self.sides_at(first, point);
        let mut visited = HashSet::from([first]);
        let mut here = first;
        loop {
            match self.across(here, side) {
                Some(next) if next == first => {
                    return side == last_side && visited.len() == around.len();
                }
                Some(next) if visited.insert(next) => here = next,
                _ => return false,
            }
            side = match self.sides_at(here, point) {
                [came, leave] if came == side && leave != side => leave,
                [leave, came] if came == side && leave != side => leave,
                _ => return false,
            };
        }
    }

    /// How many triangles of the cell have the side.
    fn uses_in(&self, side: SideKey, cell: u32) -> usize {
        let users = self.by_side.get(&side).into_iter().flatten();
        users.filter(|&&piece| self.all[piece].cell == cell).count()
    }

    /// The ends of a side as one of its triangles has them.
    fn ends(&self, piece: usize, side: SideKey) -> [PointKey; 2] {
        let Piece { points, sides, .. } = self.all[piece];
        let turn = sides.iter().position(|&s| s == side).unwrap_or(0);
        let mut ends = [points[turn], points[(turn + 1) % 3]];
        ends.sort_unstable();
        ends
    }
}

/// Counts and first crossings of a face's edges ab, ac, bc.
type FaceEdges = [(u32, u32); 3];

/// The grid's faces and the inner ones, named.
#[derive(Default)]
struct Faces {
    named: BTreeMap<u32, FaceEdges>,
    single: BTreeSet<u32>,
    crossings: u32,
    /// Count and first crossing of each edge.
    edges: HashMap<[u16; 2], (u32, u32)>,
    /// By the nodes of a face.
    names: HashMap<[u16; 3], u32>,
    /// By cell and name.
    inner: BTreeMap<(u32, u32), FaceEdges>,
    /// Cell and number.
    inner_crossings: Vec<(u32, u32)>,
    /// Cells that are split, with the names of their faces.
    split: Vec<(u32, [u32; 4])>,
}

impl Faces {
    fn new(cells: &[u16], edges: &[u16], counts: &[u16]) -> Faces {
        let mut faces = Faces::default();
        for (ends, &count) in edges.chunks_exact(2).zip(counts) {
            let edge = (u32::from(count), faces.crossings);
            faces.edges.insert([ends[0], ends[1]], edge);
            faces.crossings += u32::from(count);
        }
        for (cell, nodes) in (0..).zip(cells.chunks_exact(4)) {
            let [a, b, c, d] = [0, 1, 2, 3].map(|at| nodes[at]);
            let by_slot = [
                (0, [b, c, d]),
                (1, [a, c, d]),
                (2, [a, b, d]),
                (3, [a, b, c]),
            ];
            let names = by_slot.map(|(slot, face)| faces.add_face(4 * cell + slot, face));
            let edges = ENDS.map(|[u, v]| faces.edges[&[nodes[u], nodes[v]]]);
            faces.add_inner(cell, names, edges);
        }
        faces
    }

    /// Adds a face of a cell, named so unless an earlier cell has it; tells its
    /// name.
    fn add_face(&mut self, name: u32, face: [u16; 3]) -> u32 {
        let least = *self.names.entry(face).or_insert(name);
        if least == name {
            let pairs = [[0, 1], [0, 2], [1, 2]].map(|ends| ends.map(|at: usize| face[at]));
            self.single.insert(name);
            self.named.insert(name, pairs.map(|ends| self.edges[&ends]));
        } else {
            self.single.remove(&least);
        }
        least
    }

    /// Adds the inner faces and crossings of a cell. The first part with an
    /// inner face has its whole counts.
    fn add_inner(&mut self, cell: u32, names: [u32; 4], edges: [(u32, u32); 6]) {
        let counts = edges.map(|(count, _)| count as u16);
        let working = Working::of(counts, edges.map(|(_, first)| first), names);
        if working.is_some() {
            self.split.push((cell, names));
        }
        for step in working.into_iter().flatten() {
            let part = step.part;
            for (slot, edges) in FACE_EDGES.into_iter().enumerate() {
                let name = part.faces[slot];
                if name >= FIRST_INNER_FACE {
                    let of = |edge: usize| (u32::from(part.counts[edge]), part.firsts[edge] as u32);
                    self.inner.entry((cell, name)).or_insert(edges.map(of));
                }
            }
            if let Some(split) = step.split {
                for (first, count) in split.firsts.into_iter().zip(split.counts) {
                    let numbers = (first as u32..).take(usize::from(count));
                    self.inner_crossings.extend(numbers.map(|n| (cell, n)));
                }
            }
        }
    }

    /// Every face with its cell, name and edges; the cell of a face of the grid
    /// does not count.
    fn all(&self) -> impl Iterator<Item = (u32, u32, FaceEdges)> + '_ {
        let outer = self.named.iter().map(|(&name, &edges)| (0, name, edges));
        let inner = self.inner.iter();
        outer.chain(inner.map(|(&(cell, name), &edges)| (cell, name, edges)))
    }

    fn counts(&self, name: u32) -> [u32; 3] {
        self.named[&name].map(|(count, _)| count)
    }
}

/// All segments of a face as pairs of crossings, the lower one first.
fn segments(edges: FaceEdges) -> Vec<[u32; 2]> {
    let counts = edges.map(|(count, _)| count);
    let mut found = Vec::new();
    for (edge, (count, start)) in (0..).zip(edges) {
        for index in 0..count {
            if let Join::Joined {
                edge: other,
                index: there,
                ..
            } = join(counts, edge, index)
            {
                let partner = edges[other as usize].1 + there;
                if start + index < partner {
                    found.push([start + index, partner]);
                }
            }
        }
    }
    found
}

/// Whether every outer edge has count 0 and every face an even sum.
pub fn should_close(cells: &[u16], edges: &[u16], counts: &[u16]) -> bool {
    let faces = Faces::new(cells, edges, counts);
    faces.named.keys().all(|name| {
        let sum: u32 = faces.counts(*name).iter().sum();
        sum % 2 == 0 && (sum == 0 || !faces.single.contains(name))
    })
}

/// Whether two segments of a face with these counts alternate, found by one
/// walk round its rim: a segment must end before any that began earlier does.
pub fn alternates(counts: [u32; 3]) -> bool {
    let [ab, ac, bc] = counts;
    let rim = (0..ab).map(|index| (0, index));
    let rim = rim.chain((0..bc).map(|index| (2, index)));
    let rim = rim.chain((0..ac).rev().map(|index| (1, index)));
    let mut begun = Vec::new();
    let mut ended = BTreeSet::new();
    for (edge, index) in rim {
        let partner = match join(counts, edge, index) {
            Join::Joined { edge, index, .. } => (edge, index),
            Join::Unjoined(_) | Join::NoCrossing => continue,
        };
        if ended.contains(&(edge, index)) {
            if begun.pop() != Some(partner) {
                return true;
            }
        } else {
            begun.push((edge, index));
            ended.insert(partner);
        }
    }
    false
}

/// Examines the mesh of a grid, given as the words of its triangles.
pub fn inspect(cells: &[u16], edges: &[u16], counts: &[u16], words: &[u32]) -> Report {
    let faces = Faces::new(cells, edges, counts);
    let pieces = Pieces::new(words);
    let mut report = Report {
        triangles: pieces.all.len(),
        sides: pieces.by_side.len(),
        ..Report::default()
    };
    inspect_sides(&pieces, &mut report);
    inspect_segments(&faces, &pieces, &mut report);
    inspect_cells(&faces, &pieces, &mut report);
    inspect_points(&faces, &pieces, &mut report);
    report
}

fn inspect_sides(pieces: &Pieces, report: &mut Report) {
    for (&side, users) in &pieces.by_side {
        report.crowded_sides += usize::from(users.len() > 2);
        report.open_sides += usize::from(users.len() == 1);
        let inner = side[0] >= FIRST_INNER_FACE;
        report.split_inner_sides += usize::from(inner && users.len() != 2);
        let ends = pieces.ends(users[0], side);
        let differ = users.iter().any(|&piece| pieces.ends(piece, side) != ends);
        report.mismatched_sides += usize::from(differ);
    }
}

fn inspect_segments(faces: &Faces, pieces: &Pieces, report: &mut Report) {
    let mut real = HashSet::new();
    for (cell, name, edges) in faces.all() {
        let counts = edges.map(|(count, _)| count);
        report.alternating_faces += usize::from(alternates(counts));
        for [lower, higher] in segments(edges) {
            let side = segment_key(cell, name, lower);
            let ends = [crossing_key(cell, lower), crossing_key(cell, higher)];
            match pieces.by_side.get(&side) {
                Some(users) if pieces.ends(users[0], side) == ends => {
                    real.insert(side);
                }
                Some(_) => {}
                None if name >= FIRST_INNER_FACE => report.undrawn_inner_segments += 1,
                None => report.undrawn_segments += 1,
            }
        }
    }
    let drawn = pieces.by_side.keys().filter(|side| side[0] != NO_NUMBER);
    report.false_segments = drawn.filter(|&side| !real.contains(side)).count();
}

/// In one cell a segment of the grid's faces is in one triangle at most, and in
/// one where the cell is split.
fn inspect_cells(faces: &Faces, pieces: &Pieces, report: &mut Report) {
    for (&side, users) in &pieces.by_side {
        let cells: BTreeSet<u32> = users.iter().map(|&piece| pieces.all[piece].cell).collect();
        let repeated = side[0] < FIRST_INNER_FACE && cells.len() < users.len();
        report.repeated_segments += usize::from(repeated);
    }
    for &(cell, names) in &faces.split {
        for name in names {
            let lower = segments(faces.named[&name])
                .into_iter()
                .map(|[lower, _]| lower);
            let missing = lower.filter(|&lower| {
                let side = segment_key(cell, name, lower);
                pieces.uses_in(side, cell) == 0
            });
            report.unspanned_segments += missing.count();
        }
    }
}

fn inspect_points(faces: &Faces, pieces: &Pieces, report: &mut Report) {
    let broken = |point: &PointKey| !pieces.one_ring(*point);
    let middles = pieces.by_point.keys().filter(|point| point[0] == NO_NUMBER);
    report.broken_middles = middles.filter(|&point| broken(point)).count();
    let crossings = (0..faces.crossings).map(|number| crossing_key(0, number));
    report.broken_crossings = crossings.filter(broken).count();
    let inner = faces.inner_crossings.iter();
    let inner = inner.map(|&(cell, number)| crossing_key(cell, number));
    report.broken_inner_crossings = inner.filter(broken).count();
}
