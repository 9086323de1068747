//! A placed mesh with its surfaces, as pictures and files show it.

use crate::arguments::Flag;
use crate::calls::REFUSED_NO_SHADING;
use crate::fault::Fault;
use crate::measures::{measures, Measure};
use crate::mesh::{Mesh, Triangle};
use crate::orientation::{Orientation, Sides};
use crate::placed;
use crate::source::Source;
use crate::space::Place;
use crate::surfaces::Surfaces;

/// The option that keeps the mesh's own order.
pub const AS_IS: Flag = Flag {
    name: "--as-is",
    value: None,
    help: "keep the order of corners that the mesh has, and turn no triangle",
};

/// A mesh, the places of its points, its surfaces and how they are wound.
pub struct PlacedMesh {
    pub mesh: Mesh,
    pub points: Vec<Place>,
    pub surfaces: Surfaces,
    pub orientation: Orientation,
    /// Three numbers for each node of the grid; none where there is no grid.
    pub nodes: Vec<f64>,
    /// The side of each node, where the grid has a shading.
    pub shading: Option<Vec<u8>>,
}

impl PlacedMesh {
    /// The placed mesh of a grid, each surface wound alike, or as the mesh has it.
    pub fn of(source: &Source, as_is: bool) -> Result<PlacedMesh, Fault> {
        let misplaced = |fault| source.misplaced(fault);
        let mesh = Mesh::of(&source.grid).map_err(|refused| source.refused(refused))?;
        let nodes = placed::node_places(&source.grid, &source.text).map_err(misplaced)?;
        let points = placed::points(&source.grid, &source.text, &mesh).map_err(misplaced)?;
        let shading = match source.grid.shading() {
            Ok(shading) => Some(shading),
            Err(refused) if refused.number == REFUSED_NO_SHADING => None,
            Err(refused) => return Err(source.refused(refused)),
        };
        let mut placed = PlacedMesh::of_words(mesh, points, as_is);
        if let (false, Some(shading)) = (as_is, &shading) {
            let sides = Sides {
                grid: &source.grid,
                nodes: &nodes,
                shading,
            };
            placed.orientation = Orientation::shaded(&placed.mesh, &placed.surfaces, &sides);
        }
        Ok(PlacedMesh {
            nodes,
            shading,
            ..placed
        })
    }

    /// A mesh with its points and without its grid: nothing tells its sides.
    pub fn of_words(mesh: Mesh, points: Vec<Place>, as_is: bool) -> PlacedMesh {
        let surfaces = Surfaces::of(&mesh);
        let orientation = match as_is {
            true => Orientation::as_is(&surfaces),
            false => Orientation::alike(&surfaces),
        };
        PlacedMesh {
            mesh,
            points,
            surfaces,
            orientation,
            nodes: Vec::new(),
            shading: None,
        }
    }

    /// The triangles in the order of the mesh, wound as they are shown.
    pub fn triangles(&self) -> impl Iterator<Item = Triangle> + '_ {
        self.orientation.triangles(&self.mesh)
    }

    /// Where the corners of a triangle are.
    pub fn corners(&self, triangle: &Triangle) -> [Place; 3] {
        let place = |corner| self.points[self.mesh.point(corner)];
        triangle.corners.map(place)
    }

    /// Area, box and volume of each surface.
    pub fn measures(&self) -> Vec<Measure> {
        measures(&self.mesh, &self.points, &self.surfaces, &self.orientation)
    }
}
