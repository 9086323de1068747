//! Texts of boxes of cubes, six cells each, with shapes in them.

#![allow(dead_code)]

use std::collections::{BTreeMap, BTreeSet};
use std::fmt::Write;

use citternblaze::bundle::pack;
use citternblaze::calls::{bundle_read, Grid};
use citternblaze::placed_mesh::PlacedMesh;
use citternblaze::source::Source;
use citternblaze::space::Place;
use citternblaze::text;

/// The three directions of a cube in every order.
const ORDERS: [[usize; 3]; 6] = [
    [0, 1, 2],
    [0, 2, 1],
    [1, 0, 2],
    [1, 2, 0],
    [2, 0, 1],
    [2, 1, 0],
];

/// A box of cubes: its cells, and the places of its nodes.
pub struct Cubes {
    pub cells: Vec<[u16; 4]>,
    pub places: BTreeMap<u16, Place>,
}

impl Cubes {
    /// So many cubes in each direction, each of this size.
    pub fn new(cubes: [usize; 3], size: f64) -> Cubes {
        let node =
            |at: [usize; 3]| ((at[0] * (cubes[1] + 1) + at[1]) * (cubes[2] + 1) + at[2]) as u16;
        let corners = |more: usize| {
            let [i, j, k] = cubes.map(move |of| of + more);
            (0..i).flat_map(move |x| (0..j).flat_map(move |y| (0..k).map(move |z| [x, y, z])))
        };
        let cell = |from: [usize; 3], order: [usize; 3]| {
            let mut at = from;
            let mut nodes = [node(from); 4];
            for (step, axis) in order.into_iter().enumerate() {
                at[axis] += 1;
                nodes[step + 1] = node(at);
            }
            nodes
        };
        let cells = corners(0).flat_map(|from| ORDERS.map(|order| cell(from, order)));
        let places = corners(1).map(|at| (node(at), at.map(|number| number as f64 * size)));
        Cubes {
            cells: cells.collect(),
            places: places.collect(),
        }
    }

    /// The same box with other numbers for its nodes.
    pub fn renumbered(self, numbers: &[u16]) -> Cubes {
        let number = |node: u16| numbers[usize::from(node)];
        let cells = self.cells.into_iter().map(|nodes| {
            let mut nodes = nodes.map(number);
            nodes.sort_unstable();
            nodes
        });
        let places = self.places.into_iter();
        Cubes {
            cells: cells.collect(),
            places: places.map(|(node, place)| (number(node), place)).collect(),
        }
    }

    /// The same box with its nodes elsewhere.
    pub fn moved(self, to: impl Fn(Place) -> Place) -> Cubes {
        let places = self.places.into_iter().map(|(node, at)| (node, to(at)));
        Cubes {
            places: places.collect(),
            ..self
        }
    }

    pub fn edges(&self) -> BTreeSet<[u16; 2]> {
        edges(&self.cells)
    }

    /// The text with the fractions at which each edge is crossed.
    pub fn text(&self, crossed: impl Fn(Place, Place) -> Vec<f64>) -> String {
        let fractions = |[u, v]: [u16; 2]| crossed(self.places[&u], self.places[&v]);
        text_of(&self.cells, &self.places, fractions)
    }
}

pub fn edges(cells: &[[u16; 4]]) -> BTreeSet<[u16; 2]> {
    let of = |&[a, b, c, d]: &[u16; 4]| [[a, b], [a, c], [a, d], [b, c], [b, d], [c, d]];
    cells.iter().flat_map(of).collect()
}

pub fn text_of(
    cells: &[[u16; 4]],
    places: &BTreeMap<u16, Place>,
    mut fractions: impl FnMut([u16; 2]) -> Vec<f64>,
) -> String {
    let mut out = format!("{}\n", text::FIRST_LINE);
    for [a, b, c, d] in cells {
        writeln!(out, "cell {a} {b} {c} {d}").expect("text");
    }
    for [u, v] in edges(cells) {
        let fractions = fractions([u, v]);
        writeln!(out, "edge {u} {v} {}", fractions.len()).expect("text");
        let stated: String = fractions.iter().map(|of| format!(" {of:?}")).collect();
        writeln!(out, "fractions {u} {v}{stated}").expect("text");
    }
    for (node, [x, y, z]) in places {
        writeln!(out, "node {node} {x:?} {y:?} {z:?}").expect("text");
    }
    out
}

/// Where an edge is crossed by the surface of a ball.
pub fn ball(centre: Place, radius: f64) -> impl Fn(Place, Place) -> Vec<f64> {
    move |from, to| {
        let along: Vec<f64> = (0..3).map(|axis| to[axis] - from[axis]).collect();
        let away: Vec<f64> = (0..3).map(|axis| from[axis] - centre[axis]).collect();
        let dot =
            |one: &[f64], other: &[f64]| one.iter().zip(other).map(|(a, b)| a * b).sum::<f64>();
        let (a, b) = (dot(&along, &along), dot(&away, &along));
        let room = b * b - a * (dot(&away, &away) - radius * radius);
        if room <= 0.0 {
            return Vec::new();
        }
        let both = [(-b - room.sqrt()) / a, (-b + room.sqrt()) / a];
        both.into_iter()
            .filter(|at| (0.0..1.0).contains(at) && *at > 0.0)
            .collect()
    }
}

/// Where an edge is crossed by a plane.
pub fn plane(normal: Place, distance: f64) -> impl Fn(Place, Place) -> Vec<f64> {
    move |from, to| {
        let height = |at: Place| (0..3).map(|axis| normal[axis] * at[axis]).sum::<f64>() - distance;
        let at = height(from) / (height(from) - height(to));
        if at > 0.0 && at < 1.0 {
            vec![at]
        } else {
            Vec::new()
        }
    }
}

/// The source of a text that is accepted.
pub fn source(written: &str) -> Source {
    let text = text::read(written.as_bytes()).expect("a text");
    let bytes = pack(&text).expect("a bundle");
    let grid = Grid::open(bundle_read(&bytes).expect("lists")).expect("a grid");
    Source {
        text,
        grid,
        name: "test".into(),
        places_name: "test".into(),
    }
}

/// The placed mesh of a text.
pub fn placed(written: &str) -> PlacedMesh {
    PlacedMesh::of(&source(written), false).expect("a placed mesh")
}
