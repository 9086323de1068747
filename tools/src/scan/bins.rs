//! Which things lie near a place of the lattice, by a grid of boxes.

use super::lattice::Point;

/// The least box that holds some points.
#[derive(Clone, Copy, Debug, PartialEq, Eq)]
pub struct Extent {
    low: Point,
    high: Point,
}

impl Extent {
    pub fn of(points: &[Point]) -> Extent {
        let mut extent = Extent {
            low: points[0],
            high: points[0],
        };
        for point in points {
            let ends = extent.low.iter_mut().zip(&mut extent.high);
            for ((low, high), &number) in ends.zip(point) {
                *low = number.min(*low);
                *high = number.max(*high);
            }
        }
        extent
    }

    /// Whether two boxes have a point together.
    fn meets(&self, other: &Extent) -> bool {
        (0..3).all(|axis| self.low[axis] <= other.high[axis] && other.low[axis] <= self.high[axis])
    }
}

/// A thing in more boxes than this is kept apart, and looked at each time.
const MOST_BOXES: usize = 64;

/// The boxes along each axis are at most so many.
const MOST_ALONG: usize = 64;

/// Things by the boxes that they may reach.
pub struct Bins {
    extents: Vec<Extent>,
    all: Extent,
    along: usize,
    boxes: Vec<Vec<u32>>,
    large: Vec<u32>,
    /// For each thing the last question that it was an answer to.
    asked: Vec<u32>,
    questions: u32,
}

impl Bins {
    pub fn of(extents: Vec<Extent>) -> Bins {
        let ends: Vec<Point> = extents
            .iter()
            .flat_map(|extent| [extent.low, extent.high])
            .collect();
        let all = match ends.is_empty() {
            true => Extent {
                low: [0; 3],
                high: [0; 3],
            },
            false => Extent::of(&ends),
        };
        let along = (1..MOST_ALONG)
            .find(|along| along.pow(3) >= extents.len())
            .unwrap_or(MOST_ALONG);
        let mut bins = Bins {
            asked: vec![0; extents.len()],
            boxes: vec![Vec::new(); along.pow(3)],
            large: Vec::new(),
            questions: 0,
            extents,
            all,
            along,
        };
        for at in 0..bins.extents.len() {
            let boxes = bins.boxes_of(&bins.extents[at]);
            match boxes.len() > MOST_BOXES {
                true => bins.large.push(at as u32),
                false => boxes
                    .into_iter()
                    .for_each(|of| bins.boxes[of].push(at as u32)),
            }
        }
        bins
    }

    /// The box along an axis in which a number lies, or the outermost.
    fn along(&self, number: i64, axis: usize) -> usize {
        let (low, high) = (self.all.low[axis], self.all.high[axis]);
        let width = i128::from(high) - i128::from(low) + 1;
        let within = i128::from(number.clamp(low, high)) - i128::from(low);
        (within * self.along as i128 / width) as usize
    }

    fn boxes_of(&self, extent: &Extent) -> Vec<usize> {
        let range = |axis| self.along(extent.low[axis], axis)..=self.along(extent.high[axis], axis);
        let mut boxes = Vec::new();
        for x in range(0) {
            for y in range(1) {
                boxes.extend(range(2).map(|z| (x * self.along + y) * self.along + z));
            }
        }
        boxes
    }

    /// The things whose own box meets this one, each once.
    pub fn near(&mut self, extent: Extent) -> impl Iterator<Item = u32> {
        self.questions += 1;
        let mut found = Vec::new();
        let boxes = self.boxes_of(&extent);
        let listed = boxes.iter().map(|&of| &self.boxes[of]).chain([&self.large]);
        for &at in listed.flatten() {
            let thing = at as usize;
            if self.asked[thing] != self.questions && self.extents[thing].meets(&extent) {
                self.asked[thing] = self.questions;
                found.push(at);
            }
        }
        found.into_iter()
    }
}
