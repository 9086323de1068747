//! The places call: where the crossings and the middles of fans are.

use crate::cell::{is_fan, Stop};
use crate::grid::{Lists, NODE_LIMIT};
use crate::mesh::{Mesher, Piece};
use crate::nest::Nest;
use crate::split::{PartWalker, Split, Step};
use crate::{refuse, Refusal};

/// Furthest that a node may be from zero in any component.
pub const FURTHEST: f64 = 1_000_000.0;

/// A point in space.
#[derive(Clone, Copy, Debug, PartialEq)]
pub struct Place {
    pub x: f64,
    pub y: f64,
    pub z: f64,
}

impl Place {
    /// The point in a list of numbers, three to a point.
    pub fn read(numbers: &[f64], point: usize) -> Place {
        let [x, y, z] = [0, 1, 2].map(|part| numbers[3 * point + part]);
        Place { x, y, z }
    }

    fn write(self, numbers: &mut [f64], point: usize) {
        numbers[3 * point..3 * point + 3].copy_from_slice(&[self.x, self.y, self.z]);
    }

    /// The point at this fraction of the way to another.
    pub fn toward(self, end: Place, fraction: f64) -> Place {
        Place {
            x: self.x + fraction * (end.x - self.x),
            y: self.y + fraction * (end.y - self.y),
            z: self.z + fraction * (end.z - self.z),
        }
    }

    pub fn plus(self, other: Place) -> Place {
        Place {
            x: self.x + other.x,
            y: self.y + other.y,
            z: self.z + other.z,
        }
    }

    pub fn over(self, divisor: f64) -> Place {
        Place {
            x: self.x / divisor,
            y: self.y / divisor,
            z: self.z / divisor,
        }
    }
}

/// Writes the places of crossings, inner crossings and middles, three numbers
/// to a point; the answer is the points written.
pub fn places(
    lists: Lists,
    node_places: &[f64],
    fractions: &[f64],
    area: &mut [f64],
) -> Result<u64, Refusal> {
    let Lists { cells, counts, .. } = lists;
    let mut mesher = Mesher::default();
    let crossings = u64::from(mesher.prepare(&lists)?);
    let totals = mesher.split_totals();
    let points = crossings + totals.inner_crossings + totals.fans + mesher.fan_count();
    let highest = cells.iter().max().map_or(0, |&node| usize::from(node));
    let enough = node_places.len() / 3 > highest
        && fractions.len() as u64 == crossings
        && (area.len() / 3) as u64 >= points;
    if !enough {
        return refuse(15, 0);
    }
    check_node_places(cells, node_places)?;
    check_fractions(counts, fractions)?;
    write_crossings(&lists, node_places, fractions, area);
    let mut placing = Placing {
        mesher: &mesher,
        lists: &lists,
        node_places,
        area,
        next: crossings as usize,
    };
    placing.write_inner_crossings();
    placing.write_middles();
    Ok(points)
}

/// The places of the points after the outer crossings.
struct Placing<'a> {
    mesher: &'a Mesher,
    lists: &'a Lists<'a>,
    node_places: &'a [f64],
    area: &'a mut [f64],
    /// The point to be written next.
    next: usize,
}

impl Placing<'_> {
    fn write(&mut self, place: Place) {
        place.write(self.area, self.next);
        self.next += 1;
    }

    /// Places of a cell's nodes.
    fn nodes_of(&self, cell: usize) -> [Place; 4] {
        let nodes = self.lists.cell(cell).map(usize::from);
        nodes.map(|node| Place::read(self.node_places, node))
    }

    /// By cell and number, which is the order in which splits are made.
    fn write_inner_crossings(&mut self) {
        let mesher = self.mesher;
        for piece in mesher.pieces() {
            if let Piece::SplitCell(cell) = piece {
                let mut nodes = self.nodes_of(cell).to_vec();
                let steps = mesher.working(self.lists, cell);
                for split in steps.filter_map(|step| step.split) {
                    nodes.push(new_node(&split, &nodes));
                    self.write_around(&split, &nodes);
                }
            }
        }
    }

    /// The crossings of a split's inner edges, outward from its new node.
    fn write_around(&mut self, split: &Split, nodes: &[Place]) {
        let from = nodes[split.new_node];
        for (node, count) in split.labelled.into_iter().zip(split.counts) {
            for h in 0..count {
                let fraction = (f64::from(h) + 1.0) / (f64::from(count) + 1.0);
                self.write(from.toward(nodes[node], fraction));
            }
        }
    }

    fn write_middles(&mut self) {
        let mesher = self.mesher;
        let nests = mesher.nests(self.lists);
        for piece in mesher.pieces() {
            match piece {
                Piece::SplitCell(cell) => self.write_split_middles(cell),
                Piece::Loop {
                    cell,
                    stops,
                    normal,
                } if is_fan(stops.len() as u32, normal) => {
                    let place = match &nests[cell] {
                        Some(nest) => nest.middle(stops, self.nodes_of(cell)),
                        None => mean(stops, self.area),
                    };
                    self.write(place);
                }
                Piece::Loop { .. } => {}
            }
        }
    }

    /// Middles of the octagons in the sub-cells of a cell.
    fn write_split_middles(&mut self, cell: usize) {
        let mut nodes = self.nodes_of(cell).to_vec();
        let mut walker = PartWalker::default();
        for Step { part, split, .. } in self.mesher.working(self.lists, cell) {
            if let Some(split) = split {
                nodes.push(new_node(&split, &nodes));
                continue;
            }
            let lengths = walker.lengths(&part);
            let nest = Nest::of(part.counts, walker.starts, &lengths);
            while let Some(normal) = walker.next_loop() {
                if is_fan(walker.stops.len() as u32, normal) {
                    let nest = nest.as_ref().expect("fans of a sub-cell are nested");
                    let corners = part.nodes.map(|node| nodes[node]);
                    self.write(nest.middle(&walker.stops, corners));
                }
            }
        }
    }
}

/// The mean of the nodes i, j, k, l.
fn new_node(split: &Split, nodes: &[Place]) -> Place {
    let [i, j, k, l] = split.labelled.map(|node| nodes[node]);
    i.plus(j).plus(k).plus(l).over(4.0)
}

/// Row 16.
fn check_node_places(cells: &[u16], node_places: &[f64]) -> Result<(), Refusal> {
    let mut used = [false; NODE_LIMIT as usize];
    for &node in cells {
        used[usize::from(node)] = true;
    }
    let bad = |&index: &usize| {
        let within = (-FURTHEST..=FURTHEST).contains(&node_places[index]);
        used[index / 3] && !within
    };
    match (0..node_places.len().min(3 * used.len())).find(bad) {
        Some(index) => refuse(16, index),
        None => Ok(()),
    }
}

/// Row 17.
fn check_fractions(counts: &[u16], fractions: &[f64]) -> Result<(), Refusal> {
    let mut crossing = 0;
    for &count in counts {
        let mut before = 0.0;
        for _ in 0..count {
            let fraction = fractions[crossing];
            if !(fraction > before && fraction < 1.0) {
                return refuse(17, crossing);
            }
            before = fraction;
            crossing += 1;
        }
    }
    Ok(())
}

fn write_crossings(lists: &Lists, node_places: &[f64], fractions: &[f64], area: &mut [f64]) {
    let mut crossing = 0;
    for (ends, &count) in lists.edges.chunks_exact(2).zip(lists.counts) {
        let from = Place::read(node_places, usize::from(ends[0]));
        let to = Place::read(node_places, usize::from(ends[1]));
        for _ in 0..count {
            from.toward(to, fractions[crossing]).write(area, crossing);
            crossing += 1;
        }
    }
}

/// The mean of a fan's points, added up in loop order.
fn mean(stops: &[Stop], placed: &[f64]) -> Place {
    let mut points = stops
        .iter()
        .map(|stop| Place::read(placed, usize::from(stop.crossing)));
    let first = points.next().expect("a loop has a first point");
    points.fold(first, Place::plus).over(stops.len() as f64)
}
