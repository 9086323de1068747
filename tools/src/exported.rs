//! What files tell of each triangle of a placed mesh, whatever their form.

use crate::calls::Grid;
use crate::mesh::{Part, Triangle};
use crate::orientation::{Orientation, Sides, Winding};
use crate::placed_mesh::PlacedMesh;
use crate::space::Place;
use crate::triangle_types::Loops;

/// The number of a type or of a side that nothing tells.
pub const UNKNOWN: u8 = 255;

/// A triangle as files have it: its points, and its numbers.
#[derive(Clone, Copy, Debug, PartialEq, Eq)]
pub struct Row {
    pub points: [usize; 3],
    pub part: Part,
    pub p0: u32,
    /// The number of its type: `UNKNOWN` without the grid.
    pub kind: u8,
    pub surface: usize,
    /// The side that its front looks to, from which its corners run
    /// counter-clockwise: 0, 1 or `UNKNOWN`.
    pub side: u8,
}

/// The points and triangles of a placed mesh.
pub struct Exported<'a> {
    pub points: &'a [Place],
    pub rows: Vec<Row>,
    pub surfaces: usize,
}

impl<'a> Exported<'a> {
    /// With what the grid tells, where there is one.
    pub fn of(placed: &'a PlacedMesh, grid: Option<(&Grid, &Loops)>) -> Exported<'a> {
        let loops = grid.map(|of| of.1);
        let sides = grid.map_or_else(
            || vec![UNKNOWN; placed.mesh.size()],
            |of| front_sides(placed, of.0),
        );
        let kind = |triangle: &Triangle| loops.and_then(|loops| loops.known_type(triangle));
        let row = |(at, triangle): (usize, Triangle)| Row {
            points: triangle.corners.map(|corner| placed.mesh.point(corner)),
            part: triangle.part,
            p0: triangle.p0,
            kind: kind(&triangle).map_or(UNKNOWN, |kind| kind.number() as u8),
            surface: placed.surfaces.of[at],
            side: sides[at],
        };
        Exported {
            points: &placed.points,
            rows: placed.triangles().enumerate().map(row).collect(),
            surfaces: placed.surfaces.list.len(),
        }
    }

    /// The triangles of each surface.
    pub fn by_surface(&self) -> Vec<Vec<&Row>> {
        let mut all = vec![Vec::new(); self.surfaces];
        for row in &self.rows {
            all[row.surface].push(row);
        }
        all
    }
}

/// The side that each triangle's front looks to. A surface that can be wound so that
/// it looks to side 0 throughout looks to side 1 where it is wound otherwise.
fn front_sides(placed: &PlacedMesh, grid: &Grid) -> Vec<u8> {
    let shading = match &placed.shading {
        Some(shading) => shading,
        None => return vec![UNKNOWN; placed.mesh.size()],
    };
    let sides = Sides {
        grid,
        nodes: &placed.nodes,
        shading,
    };
    let shaded = Orientation::shaded(&placed.mesh, &placed.surfaces, &sides);
    let side = |(at, &surface): (usize, &usize)| match shaded.of[surface] {
        Winding::Shaded => u8::from(shaded.turned[at] != placed.orientation.turned[at]),
        _ => UNKNOWN,
    };
    placed.surfaces.of.iter().enumerate().map(side).collect()
}
