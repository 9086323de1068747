//! The nearest call: which of a list of placed points is nearest to a query.

use crate::places::{Place, FURTHEST};
use crate::{refuse, Refusal};

/// What a list has nearest to a query.
#[derive(Clone, Copy, Debug, PartialEq)]
pub enum Nearest {
    NoPoint,
    At { number: usize, squared: f64 },
}

/// The squared distance of a point from a query, x and y first.
fn squared_distance(point: Place, query: Place) -> f64 {
    let (dx, dy, dz) = (point.x - query.x, point.y - query.y, point.z - query.z);
    let flat = dx * dx + dy * dy;
    flat + dz * dz
}

/// The point with the least squared distance, the first of several; row 23 comes
/// before anything is measured.
pub fn nearest(points: &[f64], query: Place) -> Result<Nearest, Refusal> {
    if points.len() % 3 > 0 {
        return refuse(23, 0);
    }
    let asked = [query.x, query.y, query.z];
    let mut judged = points.iter().chain(&asked);
    if let Some(index) = judged.position(|number| !(-FURTHEST..=FURTHEST).contains(number)) {
        return refuse(23, index);
    }
    let mut found = Nearest::NoPoint;
    let mut least = f64::INFINITY;
    for number in 0..points.len() / 3 {
        let squared = squared_distance(Place::read(points, number), query);
        if squared < least {
            least = squared;
            found = Nearest::At { number, squared };
        }
    }
    Ok(found)
}
