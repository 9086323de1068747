//! Numbers and names beside the points of a picture: each stands where it covers
//! neither another nor a point, and where that is not close by, a leader line leads to
//! it. None is left out.

use crate::plane::Point;
use crate::svg::{Label, Stroke, Svg, GREY};

/// A name and the point that it is beside.
#[derive(Clone, Debug)]
pub struct Aside {
    at: Point,
    name: String,
    bold: bool,
    /// The direction that is tried first.
    first: Point,
}

impl Aside {
    pub fn new(at: Point, name: &str) -> Aside {
        Aside {
            at,
            name: name.to_string(),
            bold: false,
            first: Point::new(1.0, -1.0),
        }
    }

    /// A name in bold letters.
    pub fn bold(at: Point, name: &str) -> Aside {
        Aside {
            bold: true,
            ..Aside::new(at, name)
        }
    }

    /// The same, to be set in this direction where there is room.
    pub fn towards(self, first: Point) -> Aside {
        Aside { first, ..self }
    }

    fn label(&self, size: f64) -> Label<'_> {
        let label = Label::middle(&self.name, size);
        match self.bold {
            true => label.bold(),
            false => label,
        }
    }
}

/// The names of a picture, with the rectangle that they stand in and their size.
pub struct Labels {
    low: Point,
    high: Point,
    size: f64,
    all: Vec<Aside>,
    /// What no name may cover.
    clear: Vec<Patch>,
}

/// A rectangle by its middle and half its size.
#[derive(Clone, Copy, Debug)]
struct Patch {
    middle: Point,
    half: Point,
}

impl Patch {
    fn meets(&self, other: &Patch) -> bool {
        let apart = self.middle - other.middle;
        apart.x.abs() < self.half.x + other.half.x && apart.y.abs() < self.half.y + other.half.y
    }
}

impl Labels {
    pub fn within(low: Point, high: Point, size: f64) -> Labels {
        Labels {
            low,
            high,
            size,
            all: Vec::new(),
            clear: Vec::new(),
        }
    }

    /// Lets no name stand on a line through these points.
    pub fn keep_clear(&mut self, line: &[Point]) {
        let half = Point::new(0.15 * self.size, 0.15 * self.size);
        for two in line.windows(2) {
            let steps = ((two[1] - two[0]).length() / (0.4 * self.size))
                .ceil()
                .min(2_000.0);
            for step in 0..=steps as usize {
                let middle = two[0].towards(two[1], step as f64 / steps.max(1.0));
                self.clear.push(Patch { middle, half });
            }
        }
    }

    /// Lets no name stand on a disc.
    pub fn keep_clear_disc(&mut self, middle: Point, radius: f64) {
        let half = Point::new(radius, radius);
        self.clear.push(Patch { middle, half });
    }

    pub fn add(&mut self, aside: Aside) {
        self.all.push(aside);
    }

    /// Where each name stands.
    fn stand(&self) -> Vec<Patch> {
        let dot = Point::new(0.35 * self.size, 0.35 * self.size);
        let mut taken = Taken::new(1.5 * self.size);
        self.clear.iter().for_each(|&patch| taken.add(patch));
        for aside in &self.all {
            taken.add(Patch {
                middle: aside.at,
                half: dot,
            });
        }
        let mut standing = Vec::new();
        for aside in &self.all {
            let half = Point::new(
                0.5 * aside.label(self.size).width() + 0.15 * self.size,
                0.6 * self.size,
            );
            let patch = self.free(aside, half, &taken);
            taken.add(patch);
            standing.push(patch);
        }
        standing
    }

    /// The nearest place in circles round a point where such a patch meets nothing.
    fn free(&self, aside: &Aside, half: Point, taken: &Taken) -> Patch {
        let step = 0.7 * self.size;
        let first = aside.first.y.atan2(aside.first.x);
        let mut last = Patch {
            middle: aside.at,
            half,
        };
        for circle in 1..400 {
            let places = 8 + 4 * circle;
            for turn in 0..places {
                // to both sides of the first direction in turn
                let by = f64::from((turn + 1) / 2) / f64::from(places);
                let angle = first + if turn % 2 == 0 { by } else { -by } * std::f64::consts::TAU;
                let away = Point::new(angle.cos(), angle.sin()) * (step * f64::from(circle));
                let aside_of = away.x.signum() * half.x.min(away.x.abs());
                last.middle = aside.at + Point::new(away.x + aside_of, away.y);
                if self.holds(&last) && !taken.meets(&last) {
                    return last;
                }
            }
        }
        last
    }

    fn holds(&self, patch: &Patch) -> bool {
        let (low, high) = (patch.middle - patch.half, patch.middle + patch.half);
        low.x >= self.low.x && low.y >= self.low.y && high.x <= self.high.x && high.y <= self.high.y
    }

    /// Draws the names, with lines of this width to those that stand further off.
    pub fn draw(&self, svg: &mut Svg, width: f64) {
        let standing = self.stand();
        for (aside, patch) in self.all.iter().zip(&standing) {
            let nearest = Point::new(
                aside
                    .at
                    .x
                    .clamp(patch.middle.x - patch.half.x, patch.middle.x + patch.half.x),
                aside
                    .at
                    .y
                    .clamp(patch.middle.y - patch.half.y, patch.middle.y + patch.half.y),
            );
            if (nearest - aside.at).length() > 0.5 * self.size {
                svg.line([aside.at, nearest], Stroke::solid(GREY, width));
            }
        }
        for (aside, patch) in self.all.iter().zip(&standing) {
            svg.text_on_white(patch.middle, aside.label(self.size));
        }
    }
}

/// What is taken, in squares, so that only neighbours are compared.
struct Taken {
    square: f64,
    patches: std::collections::HashMap<(i64, i64), Vec<Patch>>,
}

impl Taken {
    fn new(square: f64) -> Taken {
        Taken {
            square,
            patches: std::collections::HashMap::new(),
        }
    }

    /// The squares that a patch lies in.
    fn squares(&self, patch: &Patch) -> impl Iterator<Item = (i64, i64)> {
        let (low, high) = (patch.middle - patch.half, patch.middle + patch.half);
        let [left, right, top, bottom] =
            [low.x, high.x, low.y, high.y].map(|at| (at / self.square).floor() as i64);
        (left..=right).flat_map(move |x| (top..=bottom).map(move |y| (x, y)))
    }

    fn add(&mut self, patch: Patch) {
        for square in self.squares(&patch) {
            self.patches.entry(square).or_default().push(patch);
        }
    }

    fn meets(&self, patch: &Patch) -> bool {
        let near = self
            .squares(patch)
            .filter_map(|square| self.patches.get(&square));
        near.flatten().any(|other| other.meets(patch))
    }
}
