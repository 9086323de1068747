//! Random places of nodes and fractions of crossings, whole and spoiled.

use std::collections::BTreeSet;

use reference::gen::{Rng, Sample};
use reference::places::FURTHEST;

/// A grid with the places of its nodes, and its crossings' fractions.
#[derive(Clone, Debug)]
pub struct Placing {
    pub grid: Sample,
    pub nodes: Vec<f64>,
    pub fractions: Vec<f64>,
}

/// How the numbers of a placing are drawn.
#[derive(Clone, Copy, Debug, PartialEq, Eq)]
pub enum Kind {
    /// Whole numbers, and fractions in 1,024ths.
    Whole,
    /// Numbers of any size within the limits, and fractions anywhere.
    Any,
    /// Numbers at the limits and next to 0, and fractions next to each other.
    Edge,
}

pub const KINDS: [Kind; 3] = [Kind::Whole, Kind::Any, Kind::Edge];

/// The next number away from 0.
fn further(number: f64) -> f64 {
    f64::from_bits(number.to_bits() + 1)
}

/// The next number towards 0.
fn nearer(number: f64) -> f64 {
    f64::from_bits(number.to_bits() - 1)
}

/// A number from 0 up to 1, 1 left out.
fn unit(rng: &mut Rng) -> f64 {
    (rng.word() >> 11) as f64 / (1u64 << 53) as f64
}

/// Numbers within the limits, at their ends and at 0.
const ALLOWED: [f64; 8] = [
    FURTHEST,
    -FURTHEST,
    0.0,
    -0.0,
    5e-324,
    -5e-324,
    f64::MIN_POSITIVE,
    1e-300,
];

/// One number of a node's place.
fn coordinate(rng: &mut Rng, kind: Kind) -> f64 {
    match kind {
        Kind::Whole => rng.between(0, 2_000_000) as f64 - FURTHEST,
        Kind::Any => {
            let size = FURTHEST * unit(rng) / (1u64 << rng.below(60)) as f64;
            if rng.coin() {
                size
            } else {
                -size
            }
        }
        Kind::Edge => match rng.below(10) {
            8 => nearer(FURTHEST),
            9 => nearer(-FURTHEST),
            at => ALLOWED[at],
        },
    }
}

/// How many fractions in 1,024ths an edge can have.
const PARTS: u16 = 1_023;

impl Kind {
    /// Whether a grid with these counts has a placing of this kind.
    pub fn fits(self, counts: &[u16]) -> bool {
        self != Kind::Whole || counts.iter().all(|&count| count <= PARTS)
    }
}

/// The fractions of one edge, increasing.
fn fractions_of_edge(rng: &mut Rng, kind: Kind, count: u16) -> Vec<f64> {
    let many = usize::from(count);
    match kind {
        Kind::Whole => {
            let mut parts: Vec<u16> = (1..=PARTS).collect();
            rng.shuffle(&mut parts);
            parts.truncate(many);
            parts.sort_unstable();
            parts
                .into_iter()
                .map(|part| f64::from(part) / 1_024.0)
                .collect()
        }
        Kind::Any => {
            // the order of positive numbers is that of their bits
            let mut found: BTreeSet<u64> = BTreeSet::new();
            while found.len() < many {
                let fraction = unit(rng);
                if fraction > 0.0 {
                    found.insert(fraction.to_bits());
                }
            }
            found.into_iter().map(f64::from_bits).collect()
        }
        Kind::Edge => {
            let first = match rng.below(3) {
                0 => 1,
                1 => 0.5f64.to_bits(),
                _ => 1f64.to_bits() - many as u64,
            };
            (0..many as u64)
                .map(|at| f64::from_bits(first + at))
                .collect()
        }
    }
}

/// Numbers for the nodes and crossings of an accepted grid that the kind fits.
/// Nodes that no cell has get any bits.
pub fn placing(rng: &mut Rng, grid: Sample, kind: Kind) -> Placing {
    let highest = grid.cells.iter().max().map_or(0, |&node| usize::from(node));
    let mut used = vec![false; highest + 1];
    for &node in &grid.cells {
        used[usize::from(node)] = true;
    }
    let more = rng.below(5);
    let nodes = (0..3 * (highest + 1) + more)
        .map(|at| match used.get(at / 3) {
            Some(true) => coordinate(rng, kind),
            _ => f64::from_bits(rng.word()),
        })
        .collect();
    let mut fractions = Vec::new();
    for &count in &grid.counts {
        fractions.extend(fractions_of_edge(rng, kind, count));
    }
    Placing {
        grid,
        nodes,
        fractions,
    }
}

/// Numbers that row 16 refuses, and after them the last that it allows.
fn odd_coordinate(rng: &mut Rng) -> f64 {
    match rng.below(10) {
        0 => f64::NAN,
        1 => -f64::NAN,
        2 => f64::INFINITY,
        3 => f64::NEG_INFINITY,
        4 => further(FURTHEST),
        5 => further(-FURTHEST),
        6 => f64::MAX,
        7 => f64::from_bits(rng.word()),
        8 => FURTHEST,
        _ => -0.0,
    }
}

/// Numbers that row 17 refuses, and some that it may allow.
fn odd_fraction(rng: &mut Rng, before: f64) -> f64 {
    match rng.below(13) {
        0 => f64::NAN,
        1 => -f64::NAN,
        2 => 0.0,
        3 => -0.0,
        4 => 1.0,
        5 => further(1.0),
        6 => nearer(1.0),
        7 => f64::INFINITY,
        8 => f64::NEG_INFINITY,
        9 => 5e-324,
        10 => -0.5,
        _ => before,
    }
}

/// A node of some cell.
fn any_node(rng: &mut Rng, grid: &Sample) -> u16 {
    match grid.cells.len() {
        0 => 0,
        cells => grid.cells[rng.below(cells)],
    }
}

/// The placing with a list of another length, or a number or a fraction that
/// the rows 15 to 17 may refuse; one to three of these.
pub fn spoiled(rng: &mut Rng, mut placing: Placing) -> Placing {
    for _ in 0..[1, 1, 2, 3][rng.below(4)] {
        let nodes = placing.nodes.len();
        let fractions = placing.fractions.len();
        match rng.below(9) {
            0 => placing.nodes.truncate(nodes - rng.between(1, nodes.min(7))),
            1 => placing.fractions.push(0.5),
            2 => placing.fractions.truncate(fractions.saturating_sub(1)),
            3 => placing.nodes[rng.below(nodes)] = odd_coordinate(rng),
            4..=5 => {
                let at = 3 * usize::from(any_node(rng, &placing.grid)) + rng.below(3);
                placing.nodes[at.min(nodes - 1)] = odd_coordinate(rng);
            }
            _ if fractions > 0 => {
                let at = rng.below(fractions);
                let before = placing.fractions[at.saturating_sub(1)];
                placing.fractions[at] = odd_fraction(rng, before);
            }
            _ => placing.fractions.push(f64::NAN),
        }
        if placing.nodes.is_empty() {
            break;
        }
    }
    placing
}
