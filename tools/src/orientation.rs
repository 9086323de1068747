//! How the triangles of a mesh are wound in files and pictures.
//!
//! The mesh winds a triangle as its loop runs. Here each surface is wound alike
//! throughout: a side of two triangles is run through once each way. Where the
//! shading call gives the nodes their sides, the corners run counter-clockwise as
//! seen from side 0, the side of the lowest node, so that an inclusion shows its
//! outside. A surface that has one side only stays as the mesh has it.
//!
//! Which way a surface is to be wound is told without looking at its places. A
//! segment of a face leaves its first crossing p, on the edge u v, into the face
//! u v w of the cell with the fourth node z. Where u, v, w, z are a right-handed
//! corner, the stretch of the edge from p towards v lies to the left of the segment
//! as seen from outside the cell, so the triangle's corners run counter-clockwise as
//! seen from that stretch. With i the index of p, the stretch has the side of u
//! changed i + 1 times. All segments of a surface tell the same where all cells have
//! the handedness that their neighbours ask for; each counts as its cell's volume, so
//! that cells that are nearly flat, or places that fold the grid, decide nothing.

use crate::calls::Grid;
use crate::mesh::{Corner, Mesh, Side, Triangle};
use crate::space::{node, six_volumes};
use crate::surfaces::Surfaces;

/// How a surface is wound.
#[derive(Clone, Copy, Debug, PartialEq, Eq)]
pub enum Winding {
    /// Alike throughout, counter-clockwise as seen from side 0.
    Shaded,
    /// Alike throughout, as its first triangle is.
    Alike,
    /// As the mesh has it, since it has one side only.
    OneSided,
    /// As the mesh has it.
    AsIs,
}

/// How each triangle of a mesh is wound.
#[derive(Clone, Debug, Default, PartialEq, Eq)]
pub struct Orientation {
    /// Whether a triangle is turned against the mesh's order.
    pub turned: Vec<bool>,
    /// How each surface is wound.
    pub of: Vec<Winding>,
}

/// A grid whose nodes have places and sides.
pub struct Sides<'a> {
    pub grid: &'a Grid,
    /// Three numbers for each node.
    pub nodes: &'a [f64],
    /// The side of each node, as the shading call has it.
    pub shading: &'a [u8],
}

impl Orientation {
    /// The mesh's own order.
    pub fn as_is(surfaces: &Surfaces) -> Orientation {
        Orientation {
            turned: vec![false; surfaces.of.len()],
            of: vec![Winding::AsIs; surfaces.list.len()],
        }
    }

    /// Each surface alike throughout, as its first triangle is.
    pub fn alike(surfaces: &Surfaces) -> Orientation {
        let winding = |one_sided| match one_sided {
            true => Winding::OneSided,
            false => Winding::Alike,
        };
        let list = surfaces.list.iter();
        Orientation {
            turned: surfaces.against.clone(),
            of: list.map(|of| winding(of.one_sided)).collect(),
        }
    }

    /// Each surface alike throughout, as seen from side 0.
    pub fn shaded(mesh: &Mesh, surfaces: &Surfaces, sides: &Sides<'_>) -> Orientation {
        let mut orientation = Orientation::alike(surfaces);
        let mut votes = vec![0.0; surfaces.list.len()];
        for (at, triangle) in mesh.triangles().enumerate() {
            let triangle = orientation.wound(at, triangle);
            votes[surfaces.of[at]] += sides.vote(&triangle);
        }
        for (winding, &vote) in orientation.of.iter_mut().zip(&votes) {
            if *winding == Winding::Alike && vote != 0.0 {
                *winding = Winding::Shaded;
            }
        }
        for (at, turned) in orientation.turned.iter_mut().enumerate() {
            let surface = surfaces.of[at];
            *turned ^= orientation.of[surface] == Winding::Shaded && votes[surface] < 0.0;
        }
        orientation
    }

    /// A triangle of the mesh as it is wound here. Side t runs from corner t to the
    /// next, as in the mesh.
    pub fn wound(&self, at: usize, triangle: Triangle) -> Triangle {
        if !self.turned[at] {
            return triangle;
        }
        let ([a, b, c], [ab, bc, ca]) = (triangle.corners, triangle.sides);
        Triangle {
            corners: [a, c, b],
            sides: [ca, bc, ab],
            ..triangle
        }
    }

    /// The triangles of the mesh in order, as they are wound here.
    pub fn triangles<'a>(&'a self, mesh: &'a Mesh) -> impl Iterator<Item = Triangle> + 'a {
        let numbered = mesh.triangles().enumerate();
        numbered.map(move |(at, triangle)| self.wound(at, triangle))
    }
}

impl Sides<'_> {
    /// Six times the volume of its cell for each of the triangle's segments that say
    /// that it is wound counter-clockwise as seen from side 0, less that for each
    /// that say the contrary. Segments of inner faces say nothing.
    fn vote(&self, triangle: &Triangle) -> f64 {
        let starts = triangle.sides.into_iter().zip(triangle.corners);
        let votes = starts.filter_map(|start| match start {
            (Side::Segment { face, .. }, Corner::Crossing(p)) => {
                self.vote_of_segment(triangle.part.cell as usize, face as usize, p as usize)
            }
            _ => None,
        });
        votes.sum()
    }

    /// The vote of a segment of this face that leaves the crossing p.
    fn vote_of_segment(&self, cell: usize, face: usize, p: usize) -> Option<f64> {
        let lists = self.grid.lists();
        let (edge, index) = self.grid.edge_of(p)?;
        let [u, v] = [lists.edges[2 * edge], lists.edges[2 * edge + 1]];
        let of_face = lists.cells.chunks_exact(4).nth(face / 4)?;
        let omitted = of_face[face % 4];
        let w = other_than(of_face, &[u, v, omitted])?;
        let z = other_than(lists.cells.chunks_exact(4).nth(cell)?, &[u, v, w])?;
        let six_volumes = six_volumes([u, v, w, z].map(|of| node(self.nodes, of)));
        let towards_v = usize::from(self.shading[usize::from(u)]) + index + 1;
        Some(match towards_v % 2 {
            0 => six_volumes,
            _ => -six_volumes,
        })
    }
}

fn other_than(nodes: &[u16], these: &[u16]) -> Option<u16> {
    nodes.iter().copied().find(|node| !these.contains(node))
}
