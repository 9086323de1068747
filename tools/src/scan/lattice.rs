//! Edges against triangles, exactly. Places are put on a lattice of whole numbers, and
//! what is asked of them are signs of volumes, in whole numbers of 128 bits.
//!
//! Ties: the nodes of the grid are thought to be moved, all alike, by an infinitely
//! small step: along x, infinitely less along y, and infinitely less again along z. So
//! a volume that is zero has the sign of the first number of its growth along this
//! step that is not zero. A triangle with an area has every node on one of its sides
//! then. Where an edge has its ends on both sides it is parallel to none of the
//! triangle's sides, so that it passes each of these on one side. All signs are those
//! of one real place of the grid near its own: there a closed mesh is met an even
//! number of times by an edge whose ends are on one side of it, and else an odd one.

use crate::space::Place;

/// A point of the lattice.
pub type Point = [i64; 3];

/// Numbers of a point are at most 2 to this power, so that a volume, six times a
/// product of three differences, has fewer than 128 bits.
const BITS: i32 = 39;

/// The most steps to a unit; a mesh all at the origin has no size.
const FINEST: f64 = 1e60;

/// A lattice whose step is a power of two.
#[derive(Clone, Copy, Debug, PartialEq)]
pub struct Lattice {
    scale: f64,
}

impl Lattice {
    /// The finest lattice for numbers up to this.
    pub fn for_numbers(most: f64) -> Lattice {
        let mut scale = 1.0;
        let reach = 2.0_f64.powi(BITS);
        while most * scale * 2.0 <= reach && scale < FINEST {
            scale *= 2.0;
        }
        while most * scale > reach {
            scale *= 0.5;
        }
        Lattice { scale }
    }

    /// The point nearest to a place.
    pub fn point(self, place: Place) -> Point {
        // within 2 to the 39, so no digit is lost
        place.map(|number| (number * self.scale).round() as i64)
    }
}

type Wide = [i128; 3];

fn less(a: Point, b: Point) -> Wide {
    [0, 1, 2].map(|axis| i128::from(a[axis]) - i128::from(b[axis]))
}

fn cross(a: Wide, b: Wide) -> Wide {
    [
        a[1] * b[2] - a[2] * b[1],
        a[2] * b[0] - a[0] * b[2],
        a[0] * b[1] - a[1] * b[0],
    ]
}

fn dot(a: Wide, b: Wide) -> i128 {
    a[0] * b[0] + a[1] * b[1] + a[2] * b[2]
}

/// The sign of a volume that grows so along the small step; none where both are zero.
fn sign(volume: i128, growth: Wide) -> Option<bool> {
    let numbers = [volume, growth[0], growth[1], growth[2]];
    numbers
        .into_iter()
        .find(|&number| number != 0)
        .map(|number| number > 0)
}

/// Where an edge meets a triangle: the volumes of the triangle with the edge's two
/// ends, which share the edge as they themselves are shared.
#[derive(Clone, Copy, Debug, PartialEq, Eq)]
pub struct Meeting {
    pub volumes: [i128; 2],
}

impl Meeting {
    /// The fraction of the crossing.
    pub fn fraction(self) -> f64 {
        let [low, high] = self.volumes;
        low as f64 / (low - high) as f64
    }
}

/// Where an edge meets a triangle, if it does. A triangle without an area is not met.
pub fn meeting([p, q]: [Point; 2], [a, b, c]: [Point; 3]) -> Option<Meeting> {
    let normal = cross(less(b, a), less(c, a));
    let volumes = [p, q].map(|end| dot(normal, less(a, end)));
    let growth = normal.map(|number| -number);
    if sign(volumes[0], growth)? == sign(volumes[1], growth)? {
        return None;
    }
    let way = less(q, p);
    let passes = |from: Point, to: Point| {
        let side = less(to, from);
        sign(dot(side, cross(less(p, from), way)), cross(way, side))
    };
    let first = passes(a, b)?;
    (passes(b, c)? == first && passes(c, a)? == first).then_some(Meeting { volumes })
}
