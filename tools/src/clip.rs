//! What a plane leaves of a picture: what lies behind it, as seen by the viewer.

use crate::cut_plane::{meeting, CutPlane};
use crate::space::{dot, Place};

/// A plane, and which half is kept.
pub struct Clip<'a> {
    pub plane: &'a CutPlane,
    /// 1 where heights below 0 are kept, -1 where those above are.
    sign: f64,
    size: f64,
}

impl<'a> Clip<'a> {
    /// Keeps the half away from a viewer in this direction. `size` is the largest
    /// number of the places.
    pub fn new(plane: &'a CutPlane, towards: Place, size: f64) -> Clip<'a> {
        let sign = match dot(plane.across(), towards) < 0.0 {
            true => -1.0,
            false => 1.0,
        };
        Clip { plane, sign, size }
    }

    /// A place with its height: above 0 where it is cut off.
    fn over(&self, place: Place) -> (Place, f64) {
        (place, self.sign * self.plane.height(place, self.size))
    }

    pub fn keeps(&self, place: Place) -> bool {
        self.over(place).1 <= 0.0
    }

    /// What is left of a line.
    pub fn line(&self, [from, to]: [Place; 2]) -> Option<[Place; 2]> {
        let (one, other) = (self.over(from), self.over(to));
        match (one.1 <= 0.0, other.1 <= 0.0) {
            (true, true) => Some([from, to]),
            (true, false) => Some([from, meeting(one, other)]),
            (false, true) => Some([meeting(other, one), to]),
            (false, false) => None,
        }
    }

    /// What is left of a ring.
    pub fn ring(&self, ring: &[Place]) -> Vec<Place> {
        let mut left = Vec::new();
        for at in 0..ring.len() {
            let (from, to) = (ring[at], ring[(at + 1) % ring.len()]);
            if let Some([start, end]) = self.line([from, to]) {
                if left.last() != Some(&start) {
                    left.push(start);
                }
                left.push(end);
            }
        }
        if left.len() > 1 && left.first() == left.last() {
            left.pop();
        }
        left
    }
}
