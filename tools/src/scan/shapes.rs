//! Shapes in a text of their own (docs/FORMAT.md, "Scans of shapes"), and the
//! surfaces that bound them: each is where a function of the place is zero.

use std::f64::consts::PI;

use super::pieces::{is_positive, zeros, Profile};
use super::polynomial::Polynomial;
use super::sines::{Sine, Sines};
use super::words::quoted;
use crate::fault::Fault;
use crate::space::{dot, less, plus, times, unit, Place};

/// The first line of a text of shapes.
pub const FIRST_LINE: &str = "citternblaze shapes";

/// A surface, and the line of the text that states its shape.
#[derive(Clone, Debug, PartialEq)]
pub struct Surface {
    pub line: usize,
    pub form: Form,
}

/// What a surface is. A direction has length 1.
#[derive(Clone, Debug, PartialEq)]
pub enum Form {
    /// At this distance from the origin, in this direction.
    Plane {
        to: Place,
        distance: f64,
    },
    Ball {
        centre: Place,
        radius: f64,
    },
    /// Round the line through a place, without ends.
    Cylinder {
        through: Place,
        along: Place,
        radius: f64,
    },
    Torus {
        centre: Place,
        axis: Place,
        ring: f64,
        tube: f64,
    },
    /// A plane, moved along `to` by `height` times the sine of `phase` and the place's
    /// share of a wave in the direction `along`.
    Waves {
        to: Place,
        distance: f64,
        along: Place,
        length: f64,
        height: f64,
        phase: f64,
    },
    /// sin X cos Y + sin Y cos Z + sin Z cos X = level, where a period of place is one
    /// turn of X, Y and Z.
    Gyroid {
        centre: Place,
        period: f64,
        level: f64,
    },
}

/// More half waves on an edge are refused.
const MOST_HALF_WAVES: f64 = 100_000.0;

/// The squared distance from a place that moves along an edge to another place.
fn squared(from: Place, step: Place) -> Polynomial {
    Polynomial(vec![
        dot(from, from),
        2.0 * dot(from, step),
        dot(step, step),
    ])
}

/// What of a vector is across a direction.
fn across(of: Place, direction: Place) -> Place {
    less(of, times(direction, dot(of, direction)))
}

/// The angles of a gyroid's six sines, from its three.
fn gyroid_angles([x, y, z]: Place) -> [f64; 6] {
    [x + y, x - y, y + z, y - z, z + x, z - x]
}

/// The sines of a gyroid along an edge, from the edge's start and step.
fn gyroid_sines(edge: [Place; 2], period: f64) -> Vec<Sine> {
    let turns = |of: Place| times(of, 2.0 * PI / period);
    let [phases, steps] = edge.map(turns).map(gyroid_angles);
    let sine = |(&phase, &turns)| Sine {
        height: 0.5,
        turns,
        phase,
    };
    phases.iter().zip(&steps).map(sine).collect()
}

impl Form {
    /// Positive on one side of the surface, negative on the other.
    fn value(&self, at: Place) -> f64 {
        match *self {
            Form::Plane { to, distance } => dot(to, at) - distance,
            Form::Waves { .. } | Form::Gyroid { .. } => self.sines(at, [0.0; 3]).value(0.0),
            _ => self.polynomial(at, [0.0; 3]).0[0],
        }
    }

    /// The function along an edge, where it is a polynomial.
    fn polynomial(&self, from: Place, step: Place) -> Polynomial {
        match *self {
            Form::Ball { centre, radius } => {
                squared(less(from, centre), step).plus(&Polynomial(vec![1.0]), -radius * radius)
            }
            Form::Cylinder {
                through,
                along,
                radius,
            } => {
                let from = across(less(from, through), along);
                squared(from, across(step, along)).plus(&Polynomial(vec![1.0]), -radius * radius)
            }
            Form::Torus {
                centre,
                axis,
                ring,
                tube,
            } => {
                let from = less(from, centre);
                let far = squared(from, step);
                let up = Polynomial(vec![dot(from, axis), dot(step, axis)]);
                let sum = far.plus(&Polynomial(vec![1.0]), ring * ring - tube * tube);
                let flat = far.plus(&up.product(&up), -1.0);
                sum.product(&sum).plus(&flat, -4.0 * ring * ring)
            }
            _ => Polynomial(vec![
                self.value(from),
                self.value(plus(from, step)) - self.value(from),
            ]),
        }
    }

    /// The function along an edge, where it has sines.
    fn sines(&self, from: Place, step: Place) -> Sines {
        match *self {
            Form::Waves {
                to,
                distance,
                along,
                length,
                height,
                phase,
            } => {
                let sine = Sine {
                    height: -height,
                    turns: 2.0 * PI * (dot(along, step) / length),
                    phase: phase + 2.0 * PI * (dot(along, from) / length),
                };
                let (start, slope) = (dot(to, from) - distance, dot(to, step));
                Sines {
                    start,
                    slope,
                    sines: vec![sine],
                }
            }
            Form::Gyroid {
                centre,
                period,
                level,
            } => Sines {
                start: -level,
                slope: 0.0,
                sines: gyroid_sines([less(from, centre), step], period),
            },
            _ => Sines {
                start: self.value(from),
                slope: 0.0,
                sines: Vec::new(),
            },
        }
    }
}

impl Surface {
    /// Zero on the surface, and of one sign on each side of it.
    pub fn value(&self, at: Place) -> f64 {
        self.form.value(at)
    }

    /// Which side of the surface a place is on.
    pub fn side(&self, at: Place) -> bool {
        is_positive(self.form.value(at))
    }

    /// The fractions of an edge's crossings with the surface. They are even in number
    /// exactly where the edge's ends are on one side.
    pub fn crossings(&self, ends: [Place; 2]) -> Result<Vec<f64>, Fault> {
        let sides = ends.map(|end| self.side(end));
        let step = less(ends[1], ends[0]);
        match self.form {
            Form::Waves { .. } | Form::Gyroid { .. } => {
                let sines = self.form.sines(ends[0], step);
                if sines.half_waves() > MOST_HALF_WAVES {
                    return Err(Fault::at_line(
                        self.line,
                        "an edge of the grid has more than 100,000 half waves",
                    ));
                }
                Ok(zeros(&sines, sides))
            }
            Form::Plane { .. } => {
                let [low, high] = ends.map(|end| self.form.value(end));
                Ok(zeros(&Polynomial(vec![low, high - low]), sides))
            }
            _ => Ok(zeros(&self.form.polynomial(ends[0], step), sides)),
        }
    }
}

/// Reads a text of shapes.
pub fn read(bytes: &[u8]) -> Result<Vec<Surface>, Fault> {
    let bytes = bytes.strip_prefix(b"\xef\xbb\xbf").unwrap_or(bytes);
    let mut surfaces = Vec::new();
    for (at, line) in bytes.split(|&byte| byte == b'\n').enumerate() {
        let line =
            std::str::from_utf8(line).map_err(|_| Fault::at_line(at + 1, "no text in UTF-8"))?;
        let stated = line.split('#').next().unwrap_or_default();
        match at {
            0 if stated.trim() == FIRST_LINE => {}
            0 => {
                let want = format!("the first line of a text of shapes is '{FIRST_LINE}'");
                return Err(Fault::at_line(1, want));
            }
            _ => surfaces.extend(read_line(at + 1, stated)?),
        }
    }
    match surfaces.is_empty() {
        true => Err(Fault::new("the text has no shape")),
        false => Ok(surfaces),
    }
}

/// The kinds of shapes, with the numbers that each has.
pub const SHAPES: [(&str, &str); 7] = [
    ("plane", "DX DY DZ DISTANCE"),
    ("slab", "DX DY DZ NEAR FAR"),
    ("ball", "X Y Z RADIUS"),
    ("cylinder", "X Y Z DX DY DZ RADIUS"),
    ("torus", "X Y Z DX DY DZ RING TUBE"),
    ("waves", "DX DY DZ DISTANCE AX AY AZ LENGTH HEIGHT PHASE"),
    ("gyroid", "X Y Z PERIOD LEVEL"),
];

fn read_line(line: usize, stated: &str) -> Result<Vec<Surface>, Fault> {
    let mut words = stated.split_whitespace();
    let name = match words.next() {
        None => return Ok(Vec::new()),
        Some(name) => name,
    };
    let fault = |what: String| Fault::at_line(line, what);
    let (_, wanted) = SHAPES.iter().find(|shape| shape.0 == name).ok_or_else(|| {
        let known: Vec<&str> = SHAPES.iter().map(|shape| shape.0).collect();
        fault(format!("{} is none of {}", quoted(name), known.join(", ")))
    })?;
    let number = |word: &str| match word.parse::<f64>() {
        Ok(number) if number.is_finite() && number.abs() <= MOST => Ok(number),
        Ok(_) => Err(fault(format!(
            "{} is not from -{MOST:e} to {MOST:e}",
            quoted(word)
        ))),
        Err(_) => Err(fault(format!("{} is no number", quoted(word)))),
    };
    let numbers = words.map(number).collect::<Result<Vec<f64>, Fault>>()?;
    if numbers.len() != wanted.split(' ').count() {
        let given = numbers.len();
        return Err(fault(format!(
            "{name} has the numbers {wanted}, and here are {given}"
        )));
    }
    let forms = forms(name, &numbers).map_err(|what| fault(what.to_string()))?;
    Ok(forms
        .into_iter()
        .map(|form| Surface { line, form })
        .collect())
}

/// What a number of a shape is at most, so that no square or fourth power is lost.
const MOST: f64 = 1e9;

/// A length or a period of waves is above this, so that a place has a share of it.
const LEAST: f64 = 1e-9;

fn direction(x: f64, y: f64, z: f64) -> Result<Place, &'static str> {
    unit([x, y, z]).ok_or("a direction is not 0 0 0")
}

fn above_0(number: f64, what: &'static str) -> Result<f64, &'static str> {
    match number > 0.0 {
        true => Ok(number),
        false => Err(what),
    }
}

/// The surfaces of a shape, from its numbers.
fn forms(name: &str, numbers: &[f64]) -> Result<Vec<Form>, &'static str> {
    match (name, numbers) {
        ("plane", &[x, y, z, distance]) => Ok(vec![Form::Plane {
            to: direction(x, y, z)?,
            distance,
        }]),
        ("slab", &[x, y, z, near, far]) => {
            let to = direction(x, y, z)?;
            above_0(far - near, "a slab's FAR is above its NEAR")?;
            Ok([near, far]
                .map(|distance| Form::Plane { to, distance })
                .into())
        }
        ("ball", &[x, y, z, radius]) => {
            let radius = above_0(radius, "a ball's RADIUS is above 0")?;
            Ok(vec![Form::Ball {
                centre: [x, y, z],
                radius,
            }])
        }
        ("cylinder", &[x, y, z, dx, dy, dz, radius]) => {
            let radius = above_0(radius, "a cylinder's RADIUS is above 0")?;
            let along = direction(dx, dy, dz)?;
            Ok(vec![Form::Cylinder {
                through: [x, y, z],
                along,
                radius,
            }])
        }
        ("torus", &[x, y, z, dx, dy, dz, ring, tube]) => {
            above_0(tube, "a torus has a TUBE above 0")?;
            above_0(ring - tube, "a torus has a RING above its TUBE")?;
            let axis = direction(dx, dy, dz)?;
            Ok(vec![Form::Torus {
                centre: [x, y, z],
                axis,
                ring,
                tube,
            }])
        }
        ("gyroid", &[x, y, z, period, level]) => {
            let period =
                above_0(period - LEAST, "a gyroid's PERIOD is above 1e-9").map(|_| period)?;
            Ok(vec![Form::Gyroid {
                centre: [x, y, z],
                period,
                level,
            }])
        }
        (_, &[x, y, z, distance, ax, ay, az, length, height, phase]) => {
            let length =
                above_0(length - LEAST, "the LENGTH of waves is above 1e-9").map(|_| length)?;
            let (to, along) = (direction(x, y, z)?, direction(ax, ay, az)?);
            Ok(vec![Form::Waves {
                to,
                distance,
                along,
                length,
                height,
                phase,
            }])
        }
        _ => Err("not as many numbers as the shape has"),
    }
}
