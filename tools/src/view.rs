//! A parallel projection of space to a picture.

use crate::plane::Point;
use crate::space::{dot, Place};

/// The direction from which one looks, in degrees: round the third axis from the
/// first, and up.
#[derive(Clone, Copy, Debug, PartialEq)]
pub struct View {
    pub round: f64,
    pub up: f64,
}

impl Default for View {
    fn default() -> View {
        View {
            round: 30.0,
            up: 20.0,
        }
    }
}

impl View {
    /// Directions of the picture in space: to its right, upwards, and to the viewer.
    pub fn directions(self) -> [Place; 3] {
        let (round, up) = (self.round.to_radians(), self.up.to_radians());
        [
            [-round.sin(), round.cos(), 0.0],
            [-up.sin() * round.cos(), -up.sin() * round.sin(), up.cos()],
            [up.cos() * round.cos(), up.cos() * round.sin(), up.sin()],
        ]
    }
}

/// A place as it is seen: in the picture, and how near.
#[derive(Clone, Copy, Debug)]
pub struct Seen {
    pub at: Point,
    pub near: f64,
}

impl Seen {
    pub fn towards(self, other: Seen, share: f64) -> Seen {
        Seen {
            at: self.at.towards(other.at, share),
            near: self.near + share * (other.near - self.near),
        }
    }
}

/// Where a picture has room: its left, its top, and the largest width and height.
#[derive(Clone, Copy, Debug)]
pub struct Room {
    pub left: f64,
    pub top: f64,
    pub width: f64,
    pub height: f64,
}

/// Puts what is seen into a picture, whole and in proportion.
pub struct Frame {
    directions: [Place; 3],
    /// Pixels for a unit of length across the view.
    pub scale: f64,
    left: f64,
    top: f64,
    /// The height that is taken.
    pub height: f64,
}

impl Frame {
    pub fn around(view: View, places: &[Place], room: Room) -> Frame {
        let directions = view.directions();
        let mut least = [f64::INFINITY; 2];
        let mut most = [f64::NEG_INFINITY; 2];
        for &place in places {
            for axis in 0..2 {
                let along = dot(directions[axis], place);
                least[axis] = least[axis].min(along);
                most[axis] = most[axis].max(along);
            }
        }
        let [wide, high] = [0, 1].map(|axis| (most[axis] - least[axis]).max(1e-9));
        let scale = (room.width / wide).min(room.height / high);
        Frame {
            directions,
            scale,
            left: room.left + (room.width - scale * wide) / 2.0 - scale * least[0],
            top: room.top + scale * most[1],
            height: scale * high,
        }
    }

    pub fn see(&self, place: Place) -> Seen {
        let [right, up, near] = self.directions.map(|axis| dot(axis, place));
        Seen {
            at: Point::new(self.left + self.scale * right, self.top - self.scale * up),
            near,
        }
    }

    /// The direction towards the viewer.
    pub fn towards(&self) -> Place {
        self.directions[2]
    }

    /// The direction from which the light comes: over the viewer's left shoulder.
    pub fn light(&self) -> Place {
        let [right, up, near] = self.directions;
        let part = |axis: usize| -0.45 * right[axis] + 0.65 * up[axis] + 0.61 * near[axis];
        [part(0), part(1), part(2)]
    }
}
