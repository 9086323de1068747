//! Axes along the box that holds a picture's places, with numbers, and a bar that
//! tells lengths across the view.

use crate::plane::Point;
use crate::space::Place;
use crate::surface_list::{digits, short};
use crate::svg::{Label, Stroke, Svg, BLACK};
use crate::view::{Frame, Seen};

const LINE: Stroke = Stroke::solid("#444444", 0.8);
const SIZE: f64 = 11.0;
const NAMES: [&str; 3] = ["x", "y", "z"];

/// An axis that is shorter than this in the picture has no numbers.
const SHORTEST: f64 = 24.0;

/// Numbers of two axes that are nearer than this would stand on each other.
const APART: Point = Point::new(20.0, 12.0);

/// The box that holds places.
pub fn box_of(places: &[Place]) -> [Place; 2] {
    let mut bounds = [[f64::INFINITY; 3], [f64::NEG_INFINITY; 3]];
    for place in places {
        for axis in 0..3 {
            bounds[0][axis] = bounds[0][axis].min(place[axis]);
            bounds[1][axis] = bounds[1][axis].max(place[axis]);
        }
    }
    bounds
}

/// The eight corners of a box.
pub fn corners(bounds: [Place; 2]) -> Vec<Place> {
    let corner = |at: usize| [0, 1, 2].map(|axis| bounds[at >> axis & 1][axis]);
    (0..8).map(corner).collect()
}

/// A step of 1, 2 or 5 and zeros, not below this length.
fn step_above(length: f64) -> f64 {
    let ten = f64::powf(10.0, length.max(1e-12).log10().floor());
    let steps = [1.0, 2.0, 5.0, 10.0].map(|step| step * ten);
    steps
        .into_iter()
        .find(|&step| step >= length)
        .unwrap_or(10.0 * ten)
}

/// Draws the three axes along edges of the box on its outline: x and y below, z on the
/// left.
pub fn draw(svg: &mut Svg, frame: &Frame, bounds: [Place; 2], unit: &str) {
    let middle = [0, 1, 2].map(|axis| (bounds[0][axis] + bounds[1][axis]) / 2.0);
    let middle = frame.see(middle).at;
    let mut written = Vec::new();
    for axis in 0..3 {
        if let Some(ends) = outer_edge(frame, bounds, axis) {
            let axis = Axis::new(
                ends.map(|end| end.at),
                [bounds[0][axis], bounds[1][axis]],
                middle,
            )
            .with_name(format!("{}, {unit}", NAMES[axis]));
            axis.draw(svg, &mut written);
        }
    }
}

/// The edge of the box along an axis that is on its outline, the lower one for x and y
/// and the left one for z.
fn outer_edge(frame: &Frame, bounds: [Place; 2], axis: usize) -> Option<[Seen; 2]> {
    let others = [[1, 2], [0, 2], [0, 1]][axis];
    let towards = frame.towards();
    let mut found: Option<(f64, [Seen; 2])> = None;
    for ends in [[0, 0], [0, 1], [1, 0], [1, 1]] {
        // the two faces of the box at this edge: is each of them seen?
        let seen = [0, 1].map(|at| (towards[others[at]] > 0.0) == (ends[at] == 1));
        if seen[0] == seen[1] {
            continue;
        }
        let mut from = bounds[0];
        from[others[0]] = bounds[ends[0]][others[0]];
        from[others[1]] = bounds[ends[1]][others[1]];
        let mut to = from;
        to[axis] = bounds[1][axis];
        let edge = [from, to].map(|place| frame.see(place));
        let middle = edge[0].at.towards(edge[1].at, 0.5);
        let rank = if axis == 2 { -middle.x } else { middle.y };
        if found.map_or(true, |(best, _)| rank > best) {
            found = Some((rank, edge));
        }
    }
    found.map(|(_, edge)| edge)
}

/// An axis in the picture: its ends, the values there, and the way out from the box.
struct Axis {
    ends: [Point; 2],
    range: [f64; 2],
    away: Point,
    name: String,
}

impl Axis {
    fn new(ends: [Point; 2], range: [f64; 2], centre: Point) -> Axis {
        let across = (ends[1] - ends[0]).across().unit();
        let outward = ends[0].towards(ends[1], 0.5) - centre;
        let inward = across.x * outward.x + across.y * outward.y < 0.0;
        Axis {
            ends,
            range,
            away: if inward { across * -1.0 } else { across },
            name: String::new(),
        }
    }

    fn with_name(self, name: String) -> Axis {
        Axis { name, ..self }
    }

    /// Draws line, numbers and name; `written` has the places of numbers so far.
    fn draw(&self, svg: &mut Svg, written: &mut Vec<Point>) {
        let [from, to] = self.ends;
        if (to - from).length() < SHORTEST {
            return;
        }
        svg.line([from, to], LINE);
        let mut widest: f64 = 0.0;
        for (at, number) in self.ticks() {
            svg.line([at, at + self.away * 5.0], LINE);
            let label = Label::middle(&number, SIZE);
            widest = widest.max(label.width());
            let foot = at + self.away * 7.0;
            let near = |other: &Point| {
                let apart = *other - foot;
                apart.x.abs() < APART.x && apart.y.abs() < APART.y
            };
            if !written.iter().any(near) {
                written.push(foot);
                svg.text_away(foot, self.away, label);
            }
        }
        let far = 11.0 + SIZE * self.away.y.abs() + widest * self.away.x.abs();
        let label = Label::middle(&self.name, SIZE + 1.0).bold();
        svg.text_away(from.towards(to, 0.5) + self.away * far, self.away, label);
    }

    /// The places with a number: as many as do not stand on each other.
    fn ticks(&self) -> Vec<(Point, String)> {
        let ([from, to], [low, high]) = (self.ends, self.range);
        let by = (to - from).length() / (high - low);
        let widest = 7.0 * digits(low, 3).len().max(digits(high, 3).len()) as f64;
        let needed = SIZE + 5.0 + widest * self.away.y.abs();
        let step = step_above(needed / by);
        let first = (low / step - 1e-9).ceil();
        let last = (high / step + 1e-9).floor();
        let ticks = 0..=(last - first).clamp(0.0, 100.0) as usize;
        let tick = |at: usize| {
            let value = (first + at as f64) * step;
            (from.towards(to, (value - low) / (high - low)), short(value))
        };
        ticks.map(tick).collect()
    }
}

/// Draws a bar of a round length across the view.
pub fn draw_bar(svg: &mut Svg, frame: &Frame, at: Point, unit: &str) {
    let length = step_above(60.0 / frame.scale);
    let far = at + Point::new(length * frame.scale, 0.0);
    let bar = Stroke::solid(BLACK, 1.6);
    svg.line([at, far], bar);
    for end in [at, far] {
        svg.line(
            [end + Point::new(0.0, -4.0), end + Point::new(0.0, 4.0)],
            bar,
        );
    }
    let text = format!("{} {unit} across the view", short(length));
    svg.text(far + Point::new(12.0, 4.0), Label::start(&text, 13.0));
}
