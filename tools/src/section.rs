//! What a plane cuts of a placed mesh and of its grid.
//!
//! The rule: a point on the plane counts as above it. So each triangle is cut over two
//! of its sides or not at all, and the cut goes from triangle to triangle over shared
//! sides, by their names: it ends where the triangles do, and nowhere else. Where a
//! side's higher end lies on the plane, the cut goes exactly through it. A line that
//! two triangles give, since both hang down from a side in the plane, stands once.
//! A triangle that lies in the plane is none of the curves; it is told apart.

use std::collections::HashSet;

use crate::calls::Grid;
use crate::cut_plane::{meeting, size_of, CutPlane};
use crate::faces::{faces, Face, ENDS};
use crate::film::Flat;
use crate::joined_lines::joined_lines;
use crate::mesh::{Side, Triangle};
use crate::placed_mesh::PlacedMesh;
use crate::space::{node, Place};

/// A curve of a section, and its surface.
#[derive(Clone, Debug, PartialEq)]
pub struct Curve {
    pub surface: usize,
    pub places: Vec<Flat>,
    pub closed: bool,
}

/// What a plane cuts.
#[derive(Clone, Debug, Default, PartialEq)]
pub struct Section {
    pub curves: Vec<Curve>,
    /// Triangles that lie in the plane, and their surfaces.
    pub lying: Vec<(usize, [Flat; 3])>,
    /// Crossings that lie in the plane, by their numbers.
    pub crossings: Vec<(usize, Flat)>,
}

/// Where a cut meets a side of a triangle or an edge of the grid: at its higher end, a
/// point of the mesh or a node, or between the ends.
#[derive(Clone, Copy, Debug, PartialEq, Eq, Hash)]
enum Met {
    Point(usize),
    Side(Side),
    Node(u16),
    Edge(usize),
}

/// The points of a placed mesh with their heights over a plane.
struct Heights<'a> {
    plane: &'a CutPlane,
    placed: &'a PlacedMesh,
    points: Vec<f64>,
    size: f64,
}

impl<'a> Heights<'a> {
    fn of(placed: &'a PlacedMesh, plane: &'a CutPlane) -> Heights<'a> {
        let size = size_of(&placed.points);
        let points = placed.points.iter();
        Heights {
            points: points.map(|&place| plane.height(place, size)).collect(),
            plane,
            placed,
            size,
        }
    }

    /// The side `at` of a triangle, where it is cut: what is met, and where.
    fn cut(&self, triangle: &Triangle, at: usize) -> Option<(Met, Place)> {
        let ends = [at, (at + 1) % 3].map(|at| self.placed.mesh.point(triangle.corners[at]));
        let [below, above] = match ends.map(|end| self.points[end] < 0.0) {
            [true, false] => ends,
            [false, true] => [ends[1], ends[0]],
            _ => return None,
        };
        let with_height = |point: usize| (self.placed.points[point], self.points[point]);
        let met = match self.points[above] == 0.0 {
            true => Met::Point(above),
            false => Met::Side(triangle.sides[at]),
        };
        Some((met, meeting(with_height(below), with_height(above))))
    }
}

/// The section of a placed mesh.
pub fn section(placed: &PlacedMesh, grid: Option<&Grid>, plane: &CutPlane) -> Section {
    let heights = Heights::of(placed, plane);
    let mut section = Section::default();
    let mut cuts = Vec::new();
    for (at, triangle) in placed.mesh.triangles().enumerate() {
        let surface = placed.surfaces.of[at];
        let corners = triangle.corners.map(|corner| placed.mesh.point(corner));
        if corners.iter().all(|&point| heights.points[point] == 0.0) {
            let flat = corners.map(|point| plane.flat(placed.points[point]));
            if has_area(flat) {
                section.lying.push((surface, flat));
            }
        }
        let sides = (0..3).filter_map(|at| Some((triangle.sides[at], heights.cut(&triangle, at)?)));
        if let [one, other] = sides.collect::<Vec<_>>()[..] {
            cuts.push(([one, other], surface));
        }
    }
    section.curves = curves(plane, &cuts);
    let crossings = grid.map_or(0, Grid::crossings);
    let on_plane = (0..crossings).filter(|&of| heights.points[of] == 0.0);
    section.crossings = on_plane
        .map(|of| (of, plane.flat(placed.points[of])))
        .collect();
    section
}

/// Whether a triangle's corners are not in one line.
fn has_area([[a, b], [c, d], [e, f]]: [Flat; 3]) -> bool {
    let (one, other) = ([c - a, d - b], [e - a, f - b]);
    let turn = one[0] * other[1] - one[1] * other[0];
    turn.abs() > 1e-12 * one[0].hypot(one[1]) * other[0].hypot(other[1])
}

/// The cut of a triangle: the two sides that it goes over, what it meets there, and
/// where; with the surface.
type Cut = ([(Side, (Met, Place)); 2], usize);

/// The curves that cuts make, followed over sides.
fn curves(plane: &CutPlane, cuts: &[Cut]) -> Vec<Curve> {
    let ends: Vec<[Side; 2]> = cuts.iter().map(|(ends, _)| ends.map(|end| end.0)).collect();
    let mut drawn = HashSet::new();
    let mut curves = Vec::new();
    for line in joined_lines(&ends) {
        let surface = cuts[line.pieces[0].0].1;
        let met = |(piece, end): (usize, usize)| cuts[piece].0[end].1;
        let first = line.pieces.first().map(|&(piece, end)| met((piece, end)));
        let rest = line
            .pieces
            .iter()
            .map(|&(piece, end)| met((piece, 1 - end)));
        let all: Vec<(Met, Place)> = first.into_iter().chain(rest).collect();
        for part in once(&all, &mut drawn) {
            let whole = part.len() == all.len();
            let mut places: Vec<Flat> = part.iter().map(|of| plane.flat(of.1)).collect();
            let closed = line.closed && whole && places.len() > 2;
            if closed {
                places.pop();
            }
            curves.push(Curve {
                surface,
                places,
                closed,
            });
        }
    }
    curves
}

/// The parts of a curve that are not drawn yet, without steps that lead nowhere. Only
/// lines between two points on the plane can stand twice.
fn once(all: &[(Met, Place)], drawn: &mut HashSet<[usize; 2]>) -> Vec<Vec<(Met, Place)>> {
    let mut parts: Vec<Vec<(Met, Place)>> = vec![vec![all[0]]];
    for two in all.windows(2) {
        let new = match (two[0].0, two[1].0) {
            (one, other) if one == other => continue,
            (Met::Point(a), Met::Point(b)) => drawn.insert([a.min(b), a.max(b)]),
            _ => true,
        };
        match (new, parts.last_mut()) {
            (true, Some(part)) => part.push(two[1]),
            _ => parts.push(vec![two[1]]),
        }
    }
    parts.retain(|part| part.len() > 1);
    parts
}

/// The cut of a grid: lines of faces, and where there is a shading, the rings that
/// surround the grid and those that surround side 1.
#[derive(Clone, Debug, Default, PartialEq)]
pub struct GridCut {
    pub outer: Vec<[Flat; 2]>,
    pub inner: Vec<[Flat; 2]>,
    pub whole: Vec<Vec<Flat>>,
    pub side_1: Vec<Vec<Flat>>,
}

/// A grid with its nodes' heights over a plane.
struct GridHeights<'a> {
    grid: &'a Grid,
    heights: Heights<'a>,
}

impl GridHeights<'_> {
    fn node(&self, of: u16) -> (Place, f64) {
        let place = node(&self.heights.placed.nodes, of);
        (place, self.heights.plane.height(place, self.heights.size))
    }

    /// Where an edge of a face is cut: what is met, and where.
    fn edge(&self, face: &Face, edge: usize) -> Option<(Met, Place)> {
        let ends = ENDS[edge].map(|at| face.nodes[at]);
        let [u, v] = ends.map(|node| self.node(node));
        let (below, above, high) = match (u.1 < 0.0, v.1 < 0.0) {
            (true, false) => (u, v, ends[1]),
            (false, true) => (v, u, ends[0]),
            _ => return None,
        };
        let met = match above.1 == 0.0 {
            true => Met::Node(high),
            false => Met::Edge(face.edges[edge]),
        };
        Some((met, meeting(below, above)))
    }

    /// The side of an edge where it is cut: that of its lower node, changed by each
    /// crossing that is on the same side of the plane.
    fn side(&self, shading: &[u8], face: &Face, edge: usize) -> usize {
        let [low, _] = ENDS[edge].map(|at| face.nodes[at]);
        let below = self.node(low).1 < 0.0;
        let start = self.grid.start(face.edges[edge]);
        let own = start..start + usize::from(face.counts[edge]);
        let passed = own.filter(|&of| (self.heights.points[of] < 0.0) == below);
        (usize::from(shading[usize::from(low)]) + passed.count()) % 2
    }

    /// The cut of an outer face in pieces, from edge to edge over its segments: the
    /// ends of each piece, and its side.
    fn pieces(&self, shading: &[u8], face: &Face) -> Vec<([(Key, Place); 2], usize)> {
        let cut = (0..3).filter_map(|edge| Some((edge, self.edge(face, edge)?)));
        let cut: Vec<(usize, (Met, Place))> = cut.collect();
        let [(first, (_, from)), (last, (_, to))] = match cut[..] {
            [one, other] => [one, other],
            _ => return Vec::new(),
        };
        let flat = |place: Place| self.heights.plane.flat(place);
        let ([a, b], [c, d]) = (flat(from), flat(to));
        let along = |place: Place| {
            let [x, y] = flat(place);
            (x - a) * (c - a) + (y - b) * (d - b)
        };
        let mut met: Vec<(Key, Place)> = Vec::new();
        for segment in &face.joining(self.grid).segments {
            let ends = segment.ends.map(|end| end.number);
            let below = ends.map(|end| self.heights.points[end] < 0.0);
            if below[0] != below[1] {
                let [below, above] = if below[0] { ends } else { [ends[1], ends[0]] };
                let with_height =
                    |of: usize| (self.heights.placed.points[of], self.heights.points[of]);
                let place = meeting(with_height(below), with_height(above));
                let name = Side::Segment {
                    face: face.name as u32,
                    crossing: ends[0] as u32,
                };
                met.push((Key::Side(name), place));
            }
        }
        met.sort_by(|one, other| along(one.1).total_cmp(&along(other.1)));
        met.insert(0, (Key::Edge(face.edges[first]), from));
        met.push((Key::Edge(face.edges[last]), to));
        let side = self.side(shading, face, first);
        let pieces = met.windows(2).enumerate();
        pieces
            .map(|(at, two)| ([two[0], two[1]], (side + at) % 2))
            .collect()
    }
}

/// What ends of pieces are told apart by where areas are put together.
#[derive(Clone, Copy, Debug, PartialEq, Eq, Hash)]
enum Key {
    Side(Side),
    Edge(usize),
}

/// The cut of the grid of a placed mesh.
pub fn grid_cut(placed: &PlacedMesh, grid: &Grid, plane: &CutPlane) -> GridCut {
    let cut = GridHeights {
        grid,
        heights: Heights::of(placed, plane),
    };
    let all = faces(grid);
    let mut found = GridCut::default();
    let mut drawn = HashSet::new();
    for face in &all {
        let ends: Vec<(Met, Place)> = (0..3).filter_map(|edge| cut.edge(face, edge)).collect();
        if let [one, other] = ends[..] {
            let new = drawn.insert([one.0, other.0]) && drawn.insert([other.0, one.0]);
            let line = [plane.flat(one.1), plane.flat(other.1)];
            match (one.0 != other.0 && new, face.cells.len()) {
                (false, _) => {}
                (true, 1) => found.outer.push(line),
                (true, _) => found.inner.push(line),
            }
        }
    }
    if let Some(shading) = &placed.shading {
        add_areas(&mut found, &cut, shading, &all);
    }
    found
}

/// Puts together the rings of the grid's cut and of its side 1: outer faces, and for
/// side 1 the mesh besides.
fn add_areas(found: &mut GridCut, cut: &GridHeights<'_>, shading: &[u8], all: &[Face]) {
    let mut whole = Vec::new();
    let mut side_1 = Vec::new();
    for face in all.iter().filter(|face| face.cells.len() == 1) {
        for (piece, side) in cut.pieces(shading, face) {
            whole.push(piece);
            if side == 1 {
                side_1.push(piece);
            }
        }
    }
    for triangle in cut.heights.placed.mesh.triangles() {
        let sides =
            (0..3).filter_map(|at| Some((triangle.sides[at], cut.heights.cut(&triangle, at)?)));
        if let [one, other] = sides.collect::<Vec<_>>()[..] {
            side_1.push([one, other].map(|(side, (_, place))| (Key::Side(side), place)));
        }
    }
    let plane = cut.heights.plane;
    found.whole = rings(plane, &whole);
    found.side_1 = rings(plane, &side_1);
}

fn rings(plane: &CutPlane, pieces: &[[(Key, Place); 2]]) -> Vec<Vec<Flat>> {
    let ends: Vec<[Key; 2]> = pieces.iter().map(|ends| ends.map(|end| end.0)).collect();
    let closed = joined_lines(&ends).into_iter().filter(|line| line.closed);
    let place = |&(at, end): &(usize, usize)| plane.flat(pieces[at][end].1);
    closed
        .map(|line| line.pieces.iter().map(place).collect())
        .collect()
}
