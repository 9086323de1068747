//! The grid that is scanned: the cells and nodes of a box of cubes, or of a text.

use std::collections::{BTreeMap, BTreeSet};

use super::words::thousands;
use crate::calls::MOST_CELLS;
use crate::fault::Fault;
use crate::space::Place;
use crate::text::Text;

/// The numbers of a node's place lie from minus this to this.
pub const FARTHEST: f64 = 1_000_000.0;

/// Cells in their order, and where each of their nodes is.
#[derive(Clone, Debug, PartialEq)]
pub struct Background {
    pub cells: Vec<[u16; 4]>,
    pub places: BTreeMap<u16, Place>,
}

impl Background {
    /// The edges of all cells, sorted, each once.
    pub fn edges(&self) -> Vec<[u16; 2]> {
        let pairs = |cell: &[u16; 4]| {
            let [a, b, c, d] = *cell;
            [[a, b], [a, c], [a, d], [b, c], [b, d], [c, d]]
        };
        let edges: BTreeSet<[u16; 2]> = self.cells.iter().flat_map(pairs).collect();
        edges.into_iter().collect()
    }

    /// The cells and nodes that a text states.
    pub fn of_text(text: &Text) -> Result<Background, Fault> {
        let cells: Vec<[u16; 4]> = text.cells.iter().map(|cell| cell.it).collect();
        not_too_many(cells.len() as u128, "the grid")?;
        let stated = text.nodes.iter().map(|node| (node.it.node, node.it.place));
        let places: BTreeMap<u16, Place> = stated.collect();
        for node in cells.iter().flatten() {
            match places.get(node) {
                None => return Err(Fault::new(format!("node {node} has no place"))),
                Some(place) => within(*place, &format!("node {node}"))?,
            }
        }
        Ok(Background { cells, places })
    }
}

/// How a cube is parted: into six cells round its diagonal from the lowest corner to
/// the highest, or into five, one in the middle with four at its faces. Cubes side by
/// side that are parted into five mirror each other.
#[derive(Clone, Copy, Debug, PartialEq, Eq)]
pub enum Parting {
    Six,
    Five,
}

/// A box of cubes.
#[derive(Clone, Debug, PartialEq)]
pub struct Cubes {
    pub numbers: [u32; 3],
    pub size: f64,
    pub origin: Place,
    pub parting: Parting,
}

/// The steps along the axes, in the six orders.
const ORDERS: [[usize; 3]; 6] = [
    [0, 1, 2],
    [0, 2, 1],
    [1, 0, 2],
    [1, 2, 0],
    [2, 0, 1],
    [2, 1, 0],
];

type Corner = [u32; 3];

impl Cubes {
    /// The cells and nodes of the box, if a grid may have so many.
    pub fn background(&self) -> Result<Background, Fault> {
        if self.numbers.contains(&0) {
            return Err(Fault::new("a box has at least one cube each way"));
        }
        let cubes: u128 = self
            .numbers
            .iter()
            .map(|&number| u128::from(number))
            .product();
        let each = match self.parting {
            Parting::Six => 6,
            Parting::Five => 5,
        };
        not_too_many(each * cubes, "the box")?;
        self.is_placed()?;
        let mut cells = Vec::new();
        for cube in corners(self.numbers) {
            cells.extend(match self.parting {
                Parting::Six => self.six(cube),
                Parting::Five => self.five(cube),
            });
        }
        let nodes = corners(self.numbers.map(|number| number + 1));
        let places = nodes.map(|at| (self.node(at), self.place(at))).collect();
        Ok(Background { cells, places })
    }

    /// The cubes have a size, and their corners can be told apart and placed.
    fn is_placed(&self) -> Result<(), Fault> {
        if !(self.size > 0.0 && self.size.is_finite()) {
            return Err(Fault::new("the size of a cube is a number above 0"));
        }
        for corner in [[0; 3], self.numbers] {
            within(self.place(corner), "a corner of the box")?;
        }
        let [x, y, z] = self.numbers;
        for number in 0..x.max(y).max(z) {
            let [low, high] = [number, number + 1].map(|at| self.place([at; 3]));
            if (0..3).any(|axis| low[axis] >= high[axis]) {
                return Err(Fault::new(
                    "the cubes are too small to be told apart so far away",
                ));
            }
        }
        Ok(())
    }

    /// The number of the node at a corner. It grows along every axis.
    fn node(&self, [x, y, z]: Corner) -> u16 {
        let [_, b, c] = self.numbers.map(|number| number + 1);
        // the cells are few enough: so are the nodes
        ((x * b + y) * c + z) as u16
    }

    fn place(&self, at: Corner) -> Place {
        let place = |axis: usize| self.origin[axis] + f64::from(at[axis]) * self.size;
        [place(0), place(1), place(2)]
    }

    /// The six cells of a cube: from its lowest corner a step along each axis, in
    /// every order.
    fn six(&self, cube: Corner) -> Vec<[u16; 4]> {
        let cell = |order: [usize; 3]| {
            let mut at = cube;
            let mut nodes = [self.node(at); 4];
            for (step, axis) in order.into_iter().enumerate() {
                at[axis] += 1;
                nodes[step + 1] = self.node(at);
            }
            nodes
        };
        ORDERS.map(cell).to_vec()
    }

    /// The five cells of a cube: its corners with an even sum, and each other corner
    /// with the three next to it.
    fn five(&self, cube: Corner) -> Vec<[u16; 4]> {
        let all = corners([2; 3]).map(|[x, y, z]| [cube[0] + x, cube[1] + y, cube[2] + z]);
        let (even, odd): (Vec<Corner>, Vec<Corner>) =
            all.partition(|corner| corner.iter().sum::<u32>() % 2 == 0);
        let apart = |a: &Corner, b: &Corner| (0..3).filter(|&axis| a[axis] != b[axis]).count();
        let sorted = |corners: Vec<Corner>| {
            let mut nodes = [0, 1, 2, 3].map(|at: usize| self.node(corners[at]));
            nodes.sort_unstable();
            nodes
        };
        let beside = |corner: &Corner| {
            let next = even.iter().filter(|other| apart(corner, other) == 1);
            sorted(next.copied().chain([*corner]).collect())
        };
        let mut cells = vec![sorted(even.clone())];
        cells.extend(odd.iter().map(beside));
        cells
    }
}

/// The corners with numbers below these, the last number first.
fn corners([a, b, c]: Corner) -> impl Iterator<Item = Corner> {
    (0..a).flat_map(move |x| (0..b).flat_map(move |y| (0..c).map(move |z| [x, y, z])))
}

/// Fails with more cells than a grid may have, and says by how much.
fn not_too_many(cells: u128, what: &str) -> Result<(), Fault> {
    match cells.checked_sub(u128::from(MOST_CELLS)) {
        None | Some(0) => Ok(()),
        Some(over) => Err(Fault::new(format!(
            "{what} has {} cells: {} over the 2,048 that a grid may have",
            thousands(cells),
            thousands(over)
        ))),
    }
}

/// Fails with a place that the places call refuses.
pub fn within(place: Place, what: &str) -> Result<(), Fault> {
    for (number, axis) in place.into_iter().zip(["x", "y", "z"]) {
        if !(-FARTHEST..=FARTHEST).contains(&number) {
            return Err(Fault::new(format!(
                "{what} has {axis} {number:?}: places are from -1,000,000 to 1,000,000"
            )));
        }
    }
    Ok(())
}
