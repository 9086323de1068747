//! The outside of a grid by sides: where side 0 or side 1 of a shading meets the faces
//! that only one cell has.

use crate::calls::Grid;
use crate::faces::{faces, Face, ENDS};
use crate::joined_lines::joined_lines;
use crate::placed_mesh::PlacedMesh;
use crate::space::{cross, length, less, node, plus, times, Place};

/// What a side takes of an outer face.
#[derive(Clone, Debug, PartialEq)]
pub struct OuterSide {
    pub nodes: [u16; 3],
    pub cell: usize,
    pub rings: Vec<Vec<Place>>,
}

impl OuterSide {
    pub fn area(&self) -> f64 {
        self.rings.iter().map(|ring| ring_area(ring)).sum()
    }
}

/// The area of a flat ring.
fn ring_area(ring: &[Place]) -> f64 {
    let corner = ring[0];
    let parts = ring
        .windows(2)
        .map(|two| cross(less(two[0], corner), less(two[1], corner)));
    0.5 * length(parts.fold([0.0; 3], plus))
}

/// A point of a face's rim.
#[derive(Clone, Copy, Debug, PartialEq, Eq, Hash)]
enum Rim {
    Node(u16),
    Crossing(usize),
}

/// What one side of the shading takes of each outer face.
pub fn outer_sides(placed: &PlacedMesh, grid: &Grid, side: u8) -> Vec<OuterSide> {
    let shading = match &placed.shading {
        None => return Vec::new(),
        Some(shading) => shading,
    };
    let outer = faces(grid).into_iter().filter(|face| face.cells.len() == 1);
    let taken = outer.map(|face| {
        let mut pieces = rim(grid, &face, shading[usize::from(face.nodes[0])]);
        pieces.retain(|piece| piece.1 == side);
        let joined = face.joining(grid).segments.into_iter();
        let segments = joined.map(|of| of.ends.map(|end| Rim::Crossing(end.number)));
        let ends: Vec<[Rim; 2]> = pieces.into_iter().map(|of| of.0).chain(segments).collect();
        let place = |&(at, end): &(usize, usize)| match ends[at][end] {
            Rim::Node(of) => node(&placed.nodes, of),
            Rim::Crossing(of) => placed.points[of],
        };
        let rings = joined_lines(&ends).into_iter().filter(|line| line.closed);
        OuterSide {
            nodes: face.nodes,
            cell: face.cells[0],
            rings: rings
                .map(|of| of.pieces.iter().map(place).collect())
                .collect(),
        }
    });
    taken.filter(|of| !of.rings.is_empty()).collect()
}

/// The rim of a face from its lowest node round, in pieces, each with its side: it
/// changes at each crossing.
fn rim(grid: &Grid, face: &Face, first: u8) -> Vec<([Rim; 2], u8)> {
    let [a, b, c] = face.nodes;
    let of_edge = |edge: usize| {
        let start = grid.start(face.edges[edge]);
        (start..start + usize::from(face.counts[edge])).map(Rim::Crossing)
    };
    let mut points = vec![Rim::Node(a)];
    points.extend(of_edge(0));
    points.push(Rim::Node(b));
    points.extend(of_edge(2));
    points.push(Rim::Node(c));
    points.extend(of_edge(1).rev());
    points.push(Rim::Node(a));
    let mut side = first;
    let mut pieces = Vec::new();
    for two in points.windows(2) {
        if matches!(two[0], Rim::Crossing(_)) {
            side = 1 - side;
        }
        pieces.push(([two[0], two[1]], side));
    }
    pieces
}

/// The outer edges at which the outside of a grid bends, or where only one outer face
/// is: what is left of a large grid that shows its shape.
pub fn bent_edges(grid: &Grid, nodes: &[f64], cells: &dyn Fn(usize) -> bool) -> Vec<usize> {
    let mut normals: Vec<Vec<Place>> = vec![Vec::new(); grid.lists().counts.len()];
    let all = faces(grid);
    let outer = all
        .iter()
        .filter(|face| face.cells.iter().filter(|&&cell| cells(cell)).count() == 1);
    for face in outer {
        let [a, b, c] = face.nodes.map(|of| node(nodes, of));
        let across = cross(less(b, a), less(c, a));
        let by = 1.0 / length(across).max(1e-300);
        for edge in 0..ENDS.len() {
            normals[face.edges[edge]].push(times(across, by));
        }
    }
    let bends = |of: &[Place]| match of {
        [] => false,
        [one, other] => length(cross(*one, *other)) > 1e-6,
        _ => true,
    };
    let edges = (0..normals.len()).filter(|&edge| bends(&normals[edge]));
    edges.collect()
}
