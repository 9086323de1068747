//! Level sets of smooth heights in a box, as a scan gives them: open at the box's
//! sides, with each crossing where a height is met along its edge.

use reference::gen::{box_of_six, BoxSize, Sample};

use crate::placing::Placing;

/// The box of the surfaces, in cubes: 2,016 cells.
pub const SIZE: BoxSize = [8, 7, 6];

type Point = [f64; 3];

/// Surfaces with their names: the heights over a box, and at which of them.
pub struct Surface {
    pub name: &'static str,
    height: fn(Point) -> f64,
    levels: Vec<f64>,
}

fn distance([x, y, z]: Point, from: Point) -> f64 {
    let [dx, dy, dz] = [x - from[0], y - from[1], z - from[2]];
    (dx * dx + dy * dy + dz * dz).sqrt()
}

fn from_centre(at: Point) -> f64 {
    distance(at, [4.03, 3.52, 3.01])
}

fn gyroid([x, y, z]: Point) -> f64 {
    let [x, y, z] = [x, y, z].map(|number| 0.9 * number + 0.1);
    x.sin() * y.cos() + y.sin() * z.cos() + z.sin() * x.cos()
}

fn slope([x, y, z]: Point) -> f64 {
    0.93 * z + 0.21 * x + 0.13 * y
}

/// Layers that are bent and swell, as those of ice do.
fn layers([x, y, z]: Point) -> f64 {
    z + 0.35 * (0.8 * x).sin() + 0.3 * (0.7 * y + 0.3).cos() + 0.05 * x
}

/// So many levels, evenly, between two heights.
fn evenly(many: usize, [low, high]: [f64; 2]) -> Vec<f64> {
    let step = (high - low) / many as f64;
    (0..many)
        .map(|k| low + (k as f64 + 0.4937) * step)
        .collect()
}

/// One surface, a gyroid, slabs, and stacks of 9, 36 and 102 levels.
pub fn surfaces() -> Vec<Surface> {
    let surface = |name, height, levels| Surface {
        name,
        height,
        levels,
    };
    vec![
        surface("one surface", from_centre as fn(Point) -> f64, vec![2.617]),
        surface("gyroid", gyroid, vec![0.0137]),
        surface("slabs", slope, evenly(4, [0.5, 7.5])),
        surface("9 levels", layers, evenly(9, [-0.4, 6.9])),
        surface("36 levels", layers, evenly(36, [-0.4, 6.9])),
        surface("102 levels", layers, evenly(102, [-0.4, 6.9])),
    ]
}

/// A stack of so many levels of the bent layers.
pub fn stack(many: usize) -> Surface {
    Surface {
        name: "levels",
        height: layers,
        levels: evenly(many, [-0.4, 6.9]),
    }
}

/// Where a node of the box is.
fn place(node: usize) -> Point {
    let [nx, ny] = [SIZE[0] + 1, SIZE[1] + 1];
    [node % nx, node / nx % ny, node / nx / ny].map(|number| number as f64)
}

impl Surface {
    /// The fractions, from one end of an edge to the other, at which the levels are met.
    fn met(&self, ends: [f64; 2]) -> Vec<f64> {
        let [from, to] = ends;
        let fraction = |level: &f64| (level - from) / (to - from);
        let within = |at: &f64| *at > 0.0 && *at < 1.0;
        let mut at: Vec<f64> = self.levels.iter().map(fraction).filter(within).collect();
        at.sort_by(f64::total_cmp);
        at
    }

    /// At which heights the surfaces are.
    pub fn levels(&self) -> &[f64] {
        &self.levels
    }

    /// The heights of the nodes.
    pub fn heights(&self) -> Vec<f64> {
        let many = SIZE.iter().map(|cubes| cubes + 1).product();
        (0..many).map(|node| (self.height)(place(node))).collect()
    }

    /// The grid, with the places of its nodes and the fractions of its crossings.
    pub fn placing(&self) -> Placing {
        let mut grid = box_of_six(SIZE);
        let heights = self.heights();
        let mut fractions = Vec::new();
        for (ends, count) in grid.edge_list().into_iter().zip(&mut grid.counts) {
            let met = self.met(ends.map(|node| heights[usize::from(node)]));
            *count = met.len() as u16;
            fractions.extend(met);
        }
        let nodes = (0..heights.len()).flat_map(place).collect();
        Placing {
            grid,
            nodes,
            fractions,
        }
    }

    /// The grid alone.
    pub fn grid(&self) -> Sample {
        self.placing().grid
    }
}
