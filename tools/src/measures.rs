//! What is measured of the surfaces of a placed mesh.

use crate::mesh::Mesh;
use crate::orientation::{Orientation, Winding};
use crate::space::{cross, dot, length, less, Place};
use crate::surfaces::Surfaces;

/// The area of a surface, the box that it lies in, and the volume inside.
#[derive(Clone, Copy, Debug, PartialEq)]
pub struct Measure {
    pub area: f64,
    pub low: Place,
    pub high: Place,
    /// Of a closed surface that is wound alike throughout. Where a shading has wound
    /// it, positive if its corners run counter-clockwise as seen from outside.
    pub volume: Option<f64>,
}

/// The measures of each surface.
pub fn measures(
    mesh: &Mesh,
    points: &[Place],
    surfaces: &Surfaces,
    orientation: &Orientation,
) -> Vec<Measure> {
    let mut list = vec![
        Measure {
            area: 0.0,
            low: [f64::INFINITY; 3],
            high: [f64::NEG_INFINITY; 3],
            volume: Some(0.0),
        };
        surfaces.list.len()
    ];
    for (at, triangle) in orientation.triangles(mesh).enumerate() {
        let surface = surfaces.of[at];
        let corners = triangle.corners.map(|corner| points[mesh.point(corner)]);
        // volumes are taken from a point of the surface: far from it they would cancel
        let first = mesh.triangle(surfaces.list[surface].first);
        list[surface].add(corners, points[mesh.point(first.corners[0])]);
    }
    let wound = |of: Winding| matches!(of, Winding::Shaded | Winding::Alike);
    for (at, measure) in list.iter_mut().enumerate() {
        if !(surfaces.list[at].is_closed() && wound(orientation.of[at])) {
            measure.volume = None;
        }
        // where no shading tells its sides, which way it is wound tells nothing
        if orientation.of[at] == Winding::Alike {
            measure.volume = measure.volume.map(f64::abs);
        }
    }
    list
}

impl Measure {
    fn add(&mut self, [a, b, c]: [Place; 3], from: Place) {
        let across = cross(less(b, a), less(c, a));
        self.area += length(across) / 2.0;
        let volume = dot(less(a, from), across) / 6.0;
        self.volume = self.volume.map(|sum| sum + volume);
        for corner in [a, b, c] {
            for (axis, &at) in corner.iter().enumerate() {
                self.low[axis] = self.low[axis].min(at);
                self.high[axis] = self.high[axis].max(at);
            }
        }
    }
}
