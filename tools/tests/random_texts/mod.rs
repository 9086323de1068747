//! Random texts of grids that are accepted, with places and fractions.

#![allow(dead_code)]

use std::collections::BTreeSet;
use std::fmt::Write;

use citternblaze::text;

use crate::random::Random;

/// The numbers below a limit in random order.
pub fn shuffled(random: &mut Random, limit: u16) -> Vec<u16> {
    let mut numbers: Vec<u16> = (0..limit).collect();
    for at in 1..numbers.len() {
        numbers.swap(at, random.below(at + 1));
    }
    numbers
}

/// The text of these cells, with a count for each edge, and random places and
/// fractions.
pub fn text_of(
    random: &mut Random,
    cells: &[[u16; 4]],
    mut count: impl FnMut(&mut Random, [u16; 2]) -> usize,
) -> String {
    let mut out = format!("{}\n", text::FIRST_LINE);
    let mut edges = BTreeSet::new();
    for &[a, b, c, d] in cells {
        writeln!(out, "cell {a} {b} {c} {d}").expect("text");
        edges.extend([[a, b], [a, c], [a, d], [b, c], [b, d], [c, d]]);
    }
    for [u, v] in edges {
        let count = count(random, [u, v]);
        writeln!(out, "edge {u} {v} {count}").expect("text");
        let fractions: String = random
            .rising(count)
            .iter()
            .map(|fraction| format!(" {fraction:?}"))
            .collect();
        writeln!(out, "fractions {u} {v}{fractions}").expect("text");
    }
    let nodes: BTreeSet<u16> = cells.iter().flatten().copied().collect();
    for node in nodes {
        let [x, y, z] = [0; 3].map(|_| 100.0 * random.fraction() + f64::from(node));
        writeln!(out, "node {node} {x:?} {y:?} {z:?}").expect("text");
    }
    out
}

/// Cells in a row, each with a face of the one before it, with nodes in random
/// order and random counts.
pub fn row_of_cells(random: &mut Random, cells: u16, most: usize) -> String {
    let nodes = shuffled(random, cells + 3);
    let cells = nodes.windows(4).map(|nodes| {
        let mut nodes = [nodes[0], nodes[1], nodes[2], nodes[3]];
        nodes.sort_unstable();
        nodes
    });
    let cells: Vec<[u16; 4]> = cells.collect();
    text_of(random, &cells, |random, _| random.below(most + 1))
}

/// Two cells on one face that are split alike: opposite edges have d1, d2 or their
/// sum, and each node has corner triangles.
pub fn split_cells(random: &mut Random) -> String {
    let common = 2 + random.below(3);
    let d2 = common * (1 + random.below(3));
    let d1 = d2 + common * (1 + random.below(3));
    let order = shuffled(random, 3);
    let ways = order.iter().map(|&at| [d1, d2, d1 + d2][usize::from(at)]);
    let ways: Vec<usize> = ways.collect();
    let corners = [0; 4].map(|_| random.below(3));
    text_of(random, &[[0, 1, 2, 3], [0, 1, 2, 4]], |_, [u, v]| {
        // node 4 is as node 3
        let [u, v] = [u, v].map(|node| usize::from(node.min(3)));
        // 01 and 23, 02 and 13, 03 and 12
        let pair = if u == 0 { v - 1 } else { 5 - u - v };
        ways[pair] + corners[u] + corners[v]
    })
}
