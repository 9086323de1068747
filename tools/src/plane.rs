//! Points of the plane of a picture, y downwards.

use std::ops::{Add, Mul, Sub};

#[derive(Clone, Copy, Debug, PartialEq)]
pub struct Point {
    pub x: f64,
    pub y: f64,
}

impl Point {
    pub const fn new(x: f64, y: f64) -> Point {
        Point { x, y }
    }

    pub fn length(self) -> f64 {
        self.x.hypot(self.y)
    }

    /// The same direction with length 1; nothing has no direction.
    pub fn unit(self) -> Point {
        match self.length() {
            length if length > 0.0 => self * (1.0 / length),
            _ => self,
        }
    }

    /// A quarter turn.
    pub fn across(self) -> Point {
        Point::new(-self.y, self.x)
    }

    /// Positive where a turn from this to the other by less than half a circle
    /// goes as `across` does.
    pub fn turn(self, other: Point) -> f64 {
        self.x * other.y - self.y * other.x
    }

    /// The point with this share of the way to another.
    pub fn towards(self, other: Point, share: f64) -> Point {
        self + (other - self) * share
    }
}

impl Add for Point {
    type Output = Point;

    fn add(self, other: Point) -> Point {
        Point::new(self.x + other.x, self.y + other.y)
    }
}

impl Sub for Point {
    type Output = Point;

    fn sub(self, other: Point) -> Point {
        Point::new(self.x - other.x, self.y - other.y)
    }
}

impl Mul<f64> for Point {
    type Output = Point;

    fn mul(self, by: f64) -> Point {
        Point::new(self.x * by, self.y * by)
    }
}

/// How far from `from` along `direction` the line through two points is met, if it
/// is met there at all.
pub fn until_line(from: Point, direction: Point, [one, other]: [Point; 2]) -> Option<f64> {
    let along = other - one;
    let slope = direction.turn(along);
    if slope.abs() < 1e-9 {
        return None;
    }
    let distance = (one - from).turn(along) / slope;
    (distance > 0.0).then_some(distance)
}
