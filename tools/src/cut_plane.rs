//! Planes in space that a mesh is cut by, as a command line gives them.

use crate::fault::Fault;
use crate::film::Flat;
use crate::space::{cross, dot, less, plus, times, unit, Place};
use crate::surface_list::{digits, short};

const AXES: [&str; 3] = ["x", "y", "z"];

/// A range gives no more planes than this.
const MOST_PLANES: usize = 1_000;

/// What is this much smaller than the places themselves is rounding.
const ROUNDING: f64 = 1e-12;

/// A plane. Every place has a height over it, and a place in its drawing.
#[derive(Clone, Debug, PartialEq)]
pub struct CutPlane {
    /// What it is called: `y = 18.7`.
    pub name: String,
    /// The names of the axes of its drawing, to the right and upwards.
    pub axes: [String; 2],
    how: How,
}

#[derive(Clone, Copy, Debug, PartialEq)]
enum How {
    /// Where a coordinate has a value: its axis, and the two axes of the drawing.
    Level {
        axis: usize,
        value: f64,
        drawn: [usize; 2],
    },
    /// Through a point: the directions towards the viewer, to the right and upwards.
    /// Upwards, places are told by the third coordinate where the plane is upright.
    Free {
        from: Place,
        towards: Place,
        right: Place,
        up: Place,
    },
}

impl CutPlane {
    /// The plane where a coordinate has a value. The drawing has x or y to the right,
    /// and z or y upwards.
    pub fn level(axis: usize, value: f64) -> CutPlane {
        let drawn = [[1, 2], [0, 2], [0, 1]][axis];
        CutPlane {
            name: format!("{} = {}", AXES[axis], short(value)),
            axes: drawn.map(|axis| AXES[axis].to_string()),
            how: How::Level { axis, value, drawn },
        }
    }

    /// The plane through a point across a direction, seen against this direction.
    pub fn free(from: Place, direction: Place) -> Option<CutPlane> {
        let towards = unit(direction)?;
        let upright = unit(less([0.0, 0.0, 1.0], times(towards, towards[2])));
        // a plane that lies flat has y upwards
        let up = match upright {
            Some(up) if towards[2].abs() < 1.0 - 1e-9 => up,
            _ => [0.0, 1.0, 0.0],
        };
        let right = cross(up, towards);
        let [x, y, z] = from.map(short);
        let [dx, dy, dz] = direction.map(short);
        let along = |of: Place| of.map(|number| digits(number, 3)).join(" ");
        let upwards = match towards[2] == 0.0 {
            true => "z".to_string(),
            false => format!("along {} from the point", along(up)),
        };
        Some(CutPlane {
            name: format!("through {x} {y} {z} across {dx} {dy} {dz}"),
            axes: [format!("along {} from the point", along(right)), upwards],
            how: How::Free {
                from,
                towards,
                right,
                up,
            },
        })
    }

    /// How far a place is over the plane; on it but for rounding is 0. `size` is the
    /// largest number of the places.
    pub fn height(&self, place: Place, size: f64) -> f64 {
        let height = match self.how {
            How::Level { axis, value, .. } => place[axis] - value,
            How::Free { from, towards, .. } => dot(towards, less(place, from)),
        };
        match height.abs() <= ROUNDING * size {
            true => 0.0,
            false => height,
        }
    }

    /// Where a place is in the drawing.
    pub fn flat(&self, place: Place) -> Flat {
        match self.how {
            How::Level { drawn, .. } => drawn.map(|axis| place[axis]),
            How::Free {
                from,
                towards,
                right,
                up,
            } => {
                let away = less(place, from);
                let high = match towards[2] == 0.0 {
                    true => place[2],
                    false => dot(up, away),
                };
                [dot(right, away), high]
            }
        }
    }

    /// The place in space of one in the drawing.
    pub fn place(&self, [right, up]: Flat) -> Place {
        match self.how {
            How::Level { axis, value, drawn } => {
                let mut place = [0.0; 3];
                place[axis] = value;
                place[drawn[0]] = right;
                place[drawn[1]] = up;
                place
            }
            How::Free {
                from,
                towards,
                right: to_right,
                up: upwards,
            } => {
                let high = match towards[2] == 0.0 {
                    true => up - from[2],
                    false => up,
                };
                plus(from, plus(times(to_right, right), times(upwards, high)))
            }
        }
    }

    /// The direction across it in which heights grow.
    pub fn across(&self) -> Place {
        match self.how {
            How::Level { axis, .. } => {
                let mut across = [0.0; 3];
                across[axis] = 1.0;
                across
            }
            How::Free { towards, .. } => towards,
        }
    }
}

/// The planes of one option: `y=18.7`, `y=0:60:5`, or a point and a direction as
/// `30,30,0/1,1,0`.
pub fn parse(text: &str) -> Result<Vec<CutPlane>, Fault> {
    let planes = match text.split_once('=') {
        Some((axis, values)) => levels(axis.trim(), values),
        None => text.split_once('/').and_then(|(point, direction)| {
            Some(vec![CutPlane::free(three(point)?, three(direction)?)?])
        }),
    };
    match planes {
        Some(planes) if planes.len() <= MOST_PLANES => Ok(planes),
        Some(_) => Err(Fault::usage(format!("more than {MOST_PLANES} planes"))),
        None => Err(Fault::usage(
            "a plane is y=18.7, several are y=0:60:5, and one through a point across a \
             direction is 30,30,0/1,1,0",
        )),
    }
}

fn number(text: &str) -> Option<f64> {
    text.trim().parse().ok().filter(|of: &f64| of.abs() <= 1e6)
}

/// Three numbers with commas.
pub fn three(text: &str) -> Option<Place> {
    let numbers: Option<Vec<f64>> = text.split(',').map(number).collect();
    numbers?.try_into().ok()
}

fn levels(axis: &str, values: &str) -> Option<Vec<CutPlane>> {
    let axis = AXES.iter().position(|name| *name == axis)?;
    let numbers: Option<Vec<f64>> = values.split(':').map(number).collect();
    match numbers?[..] {
        [value] => Some(vec![CutPlane::level(axis, value)]),
        [from, to, step] if step > 0.0 && from <= to => {
            // the last is there but for rounding
            let steps = ((to - from) / step + 1e-9).floor();
            let planes = (0..=steps.min(MOST_PLANES as f64) as usize)
                .map(|at| CutPlane::level(axis, from + step * at as f64));
            Some(planes.collect())
        }
        _ => None,
    }
}

/// The largest number of places.
pub fn size_of(places: &[Place]) -> f64 {
    let numbers = places.iter().flatten();
    numbers.fold(0.0, |size: f64, number| size.max(number.abs()))
}

/// Where the way from a place below a plane to one above it, or on it, meets it.
pub fn meeting(below: (Place, f64), above: (Place, f64)) -> Place {
    match above.1 == 0.0 {
        true => above.0,
        false => {
            let share = below.1 / (below.1 - above.1);
            plus(below.0, times(less(above.0, below.0), share))
        }
    }
}
