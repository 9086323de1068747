//! A triangle mesh on the lattice, and its crossings with edges.

use std::collections::HashMap;

use super::bins::{Bins, Extent};
use super::lattice::{meeting, Lattice, Point};
use super::mesh_file::MeshFile;
use crate::space::Place;

/// A mesh on the lattice. Corners at one point of it are one corner.
pub struct Triangles {
    lattice: Lattice,
    points: Vec<Point>,
    triangles: Vec<[u32; 3]>,
    bins: Bins,
}

/// What the numbers of these places are at most.
fn farthest<'a>(places: impl Iterator<Item = &'a Place>) -> f64 {
    places
        .flatten()
        .fold(0.0, |most, number| most.max(number.abs()))
}

impl Triangles {
    /// A mesh, on a lattice for it and the nodes of a grid.
    pub fn of<'a>(file: &MeshFile, nodes: impl Iterator<Item = &'a Place>) -> Triangles {
        let lattice = Lattice::for_numbers(farthest(file.places.iter()).max(farthest(nodes)));
        let mut numbers = HashMap::new();
        let mut points = Vec::new();
        let mut number = |place: &Place| {
            let point = lattice.point(*place);
            *numbers.entry(point).or_insert_with(|| {
                points.push(point);
                points.len() as u32 - 1
            })
        };
        let merged: Vec<u32> = file.places.iter().map(&mut number).collect();
        let corners = |of: &[u32; 3]| of.map(|corner| merged[corner as usize]);
        let with_corners = |[a, b, c]: &[u32; 3]| a != b && b != c && c != a;
        let all = file.triangles.iter().map(corners);
        let triangles: Vec<[u32; 3]> = all.filter(with_corners).collect();
        let extents = triangles
            .iter()
            .map(|of| Extent::of(&of.map(|corner| points[corner as usize])));
        let bins = Bins::of(extents.collect());
        Triangles {
            lattice,
            points,
            triangles,
            bins,
        }
    }

    /// How many sides are in an odd number of triangles: a closed mesh has none.
    pub fn open_sides(&self) -> usize {
        let mut odd: HashMap<[u32; 2], bool> = HashMap::new();
        for &[a, b, c] in &self.triangles {
            for [from, to] in [[a, b], [b, c], [c, a]] {
                let is_odd = odd.entry([from.min(to), from.max(to)]).or_default();
                *is_odd = !*is_odd;
            }
        }
        odd.values().filter(|is_odd| **is_odd).count()
    }

    /// The fractions of an edge's crossings with the mesh, in no order.
    pub fn crossings(&mut self, ends: [Place; 2]) -> Vec<f64> {
        let ends = ends.map(|end| self.lattice.point(end));
        let (points, triangles) = (&self.points, &self.triangles);
        let near = self.bins.near(Extent::of(&ends));
        let met = near.filter_map(|at| {
            let corners = triangles[at as usize].map(|corner| points[corner as usize]);
            meeting(ends, corners)
        });
        met.map(|meeting| meeting.fraction()).collect()
    }
}
