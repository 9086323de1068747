//! Seeded random sheets for comparisons: accepted ones of many shapes, and
//! sheets broken in a chosen way.

use std::collections::BTreeSet;

use crate::face::INCIDENT;
use crate::flat::{Sheet, MAX_TRIANGLES};
use crate::gen::Rng;
use crate::grid::{MAX_COUNT, MAX_CROSSINGS, NODE_LIMIT};

type Nodes = [u16; 3];

/// The three lists of a sheet.
#[derive(Clone, Debug, PartialEq, Eq)]
pub struct FlatSample {
    pub triangles: Vec<u16>,
    pub edges: Vec<u16>,
    pub counts: Vec<u16>,
}

impl FlatSample {
    /// Sorts the nodes of the given triangles and lists their edges, each with
    /// count 0. The triangles stay in the order given.
    pub fn from_triangles(triangles: impl IntoIterator<Item = Nodes>) -> FlatSample {
        let mut sorted: Vec<Nodes> = triangles.into_iter().collect();
        for nodes in &mut sorted {
            nodes.sort_unstable();
        }
        let edges: BTreeSet<[u16; 2]> = sorted.iter().flat_map(edges_of).collect();
        FlatSample {
            counts: vec![0; edges.len()],
            triangles: sorted.into_iter().flatten().collect(),
            edges: edges.into_iter().flatten().collect(),
        }
    }

    pub fn sheet(&self) -> Sheet<'_> {
        Sheet {
            triangles: &self.triangles,
            edges: &self.edges,
            counts: &self.counts,
        }
    }

    pub fn triangle_list(&self) -> Vec<Nodes> {
        let whole = self.triangles.chunks_exact(3);
        whole.map(|t| [t[0], t[1], t[2]]).collect()
    }

    pub fn edge_list(&self) -> Vec<[u16; 2]> {
        self.edges.chunks_exact(2).map(|e| [e[0], e[1]]).collect()
    }

    /// Gives every edge a count up to `most`, less where the sum would come
    /// over the limit.
    pub fn with_counts(mut self, rng: &mut Rng, most: u16) -> FlatSample {
        let mut left = MAX_CROSSINGS as usize;
        for count in &mut self.counts {
            *count = rng.below(usize::from(most).min(left) + 1) as u16;
            left -= usize::from(*count);
        }
        self
    }

    /// Counts with an even sum on every triangle: each node takes a side, edges
    /// between the sides are odd, and up to `pairs` pairs come on top.
    pub fn with_even_counts(mut self, rng: &mut Rng, pairs: usize) -> FlatSample {
        let sides: Vec<bool> = (0..NODE_LIMIT).map(|_| rng.coin()).collect();
        for ([u, v], count) in self.edge_list().into_iter().zip(&mut self.counts) {
            let odd = sides[usize::from(u)] != sides[usize::from(v)];
            *count = (usize::from(odd) + 2 * rng.below(pairs + 1)) as u16;
        }
        self
    }

    /// The counts of rings round nodes: on each triangle an even sum and no
    /// count above the other two.
    pub fn with_rings(mut self, rng: &mut Rng, most: usize) -> FlatSample {
        let rings: Vec<u16> = (0..NODE_LIMIT)
            .map(|_| rng.below(most + 1) as u16)
            .collect();
        for ([u, v], count) in self.edge_list().into_iter().zip(&mut self.counts) {
            *count = rings[usize::from(u)] + rings[usize::from(v)];
        }
        self
    }

    /// The same shape with its node numbers dealt anew; counts become 0.
    pub fn renumbered(&self, rng: &mut Rng) -> FlatSample {
        let mut names: Vec<u16> = (0..NODE_LIMIT).collect();
        rng.shuffle(&mut names);
        let rename = |nodes: Nodes| nodes.map(|node| names[usize::from(node)]);
        FlatSample::from_triangles(self.triangle_list().into_iter().map(rename))
    }

    /// The same sheet with its triangles in another order.
    pub fn reordered(&self, rng: &mut Rng) -> FlatSample {
        let mut triangles = self.triangle_list();
        rng.shuffle(&mut triangles);
        FlatSample {
            triangles: triangles.into_iter().flatten().collect(),
            ..self.clone()
        }
    }

    /// Both shapes beside each other; counts become 0. None where there are
    /// too few nodes or triangles.
    pub fn beside(&self, other: &FlatSample) -> Option<FlatSample> {
        let shift = self.triangles.iter().max().map_or(0, |node| node + 1);
        let highest = other.triangles.iter().max().copied().unwrap_or(0);
        let triangles = (self.triangles.len() + other.triangles.len()) / 3;
        if highest + shift >= NODE_LIMIT || triangles > MAX_TRIANGLES {
            return None;
        }
        let moved = other.triangle_list().into_iter();
        let moved = moved.map(|nodes| nodes.map(|node| node + shift));
        let all = self.triangle_list().into_iter().chain(moved);
        Some(FlatSample::from_triangles(all))
    }
}

fn edges_of(nodes: &Nodes) -> Vec<[u16; 2]> {
    let ends = |[low, high]: [usize; 2]| [nodes[low], nodes[high]];
    INCIDENT.into_iter().map(ends).collect()
}

/// Squares, `width` to a row, each cut in two.
pub fn squares(width: u16, height: u16) -> FlatSample {
    let node = move |x: u16, y: u16| x + (width + 1) * y;
    let cut = move |x: u16, y: u16| {
        let [a, b, c, d] = [
            node(x, y),
            node(x + 1, y),
            node(x, y + 1),
            node(x + 1, y + 1),
        ];
        [[a, b, d], [a, c, d]]
    };
    let rows = (0..height).flat_map(move |y| (0..width).map(move |x| (x, y)));
    FlatSample::from_triangles(rows.flat_map(|(x, y)| cut(x, y)))
}

/// Triangles in a long row, each sharing an edge with the next.
pub fn strip(triangles: u16) -> FlatSample {
    FlatSample::from_triangles((0..triangles).map(|k| [k, k + 1, k + 2]))
}

/// Five or more triangles in a ring, each sharing an edge with the next: a
/// Möbius band for an odd number.
pub fn band(triangles: u16) -> FlatSample {
    FlatSample::from_triangles((0..triangles).map(|k| [0, 1, 2].map(|step| (k + step) % triangles)))
}

/// Three or more triangles all round node 0.
pub fn disc(triangles: u16) -> FlatSample {
    FlatSample::from_triangles((0..triangles).map(|k| [0, 1 + k, 1 + (k + 1) % triangles]))
}

/// Three or more triangles round each of two nodes, without a rim.
pub fn sphere(triangles: u16) -> FlatSample {
    let ring = (0..triangles).map(move |k| [2 + k, 2 + (k + 1) % triangles]);
    FlatSample::from_triangles(ring.flat_map(|[u, v]| [[0, u, v], [1, u, v]]))
}

/// Triangles that share nothing.
pub fn apart(triangles: u16) -> FlatSample {
    FlatSample::from_triangles((0..triangles).map(|k| [3 * k, 3 * k + 1, 3 * k + 2]))
}

/// A sheet of one part, of a random shape; counts are 0.
fn random_part(rng: &mut Rng) -> FlatSample {
    match rng.below(6) {
        0 => squares(rng.between(1, 8) as u16, rng.between(1, 8) as u16),
        1 => strip(rng.between(1, 40) as u16),
        2 => band(rng.between(5, 40) as u16),
        3 => disc(rng.between(3, 40) as u16),
        4 => sphere(rng.between(3, 20) as u16),
        _ => {
            let mut some =
                squares(rng.between(2, 8) as u16, rng.between(2, 8) as u16).triangle_list();
            let keep = rng.between(1, some.len());
            rng.shuffle(&mut some);
            some.truncate(keep);
            FlatSample::from_triangles(some)
        }
    }
}

/// An accepted sheet of a random shape, of one part or several; counts are 0.
pub fn random_sheet(rng: &mut Rng) -> FlatSample {
    let mut sheet = random_part(rng);
    while rng.below(3) == 0 {
        let part = random_part(rng);
        sheet = sheet.beside(&part).unwrap_or(sheet);
    }
    if rng.coin() {
        sheet = sheet.renumbered(rng);
    }
    sheet.reordered(rng)
}

/// The sheet with a fault of the given row of the check and none of a row that
/// runs earlier; none if the sheet has no room for it.
pub fn broken(rng: &mut Rng, sample: &FlatSample, row: u8) -> Option<FlatSample> {
    let mut sheet = sample.clone();
    match row {
        1 => match rng.below(3) {
            0 => sheet.triangles.extend(0..rng.between(1, 2) as u16),
            1 => sheet.triangles.clear(),
            _ => sheet.triangles.resize(3 * MAX_TRIANGLES + 3, 0),
        },
        2 => match rng.below(3) {
            0 => sheet.edges.push(9),
            1 => sheet.counts.push(9),
            _ => sheet.counts.truncate(sheet.counts.len() - 1),
        },
        3 => break_nodes(rng, &mut sheet),
        4 => {
            let copied = sheet.triangle_list()[rng.below(sheet.triangles.len() / 3)];
            insert(rng, &mut sheet, copied)?;
        }
        5 => crowd_edge(rng, &mut sheet)?,
        6 => break_order(rng, &mut sheet),
        7 => {
            let edge = rng.below(sheet.counts.len());
            sheet.edges.drain(2 * edge..2 * edge + 2);
            sheet.counts.remove(edge);
        }
        8 => add_edge(rng, &mut sheet),
        10 => flood(rng, &mut sheet)?,
        _ => {
            let edge = rng.below(sheet.counts.len());
            let lowest = usize::from(MAX_COUNT) + 1;
            sheet.counts[edge] = rng.between(lowest, usize::from(u16::MAX)) as u16;
        }
    }
    Some(sheet)
}

fn break_nodes(rng: &mut Rng, sheet: &mut FlatSample) {
    let first = 3 * rng.below(sheet.triangles.len() / 3);
    let place = rng.below(2);
    match rng.below(3) {
        0 => sheet.triangles.swap(first + place, first + place + 1),
        1 => sheet.triangles[first + place] = sheet.triangles[first + place + 1],
        _ => sheet.triangles[first + 2] = rng.between(4096, 65_535) as u16,
    }
}

/// Puts a triangle somewhere in the list and leaves the edges as they are.
fn insert(rng: &mut Rng, sheet: &mut FlatSample, mut nodes: Nodes) -> Option<()> {
    if sheet.triangles.len() == 3 * MAX_TRIANGLES {
        return None;
    }
    nodes.sort_unstable();
    let at = 3 * rng.below(sheet.triangles.len() / 3 + 1);
    sheet.triangles.splice(at..at, nodes);
    Some(())
}

/// Nodes that no triangle has.
fn fresh_nodes(sheet: &FlatSample) -> Vec<u16> {
    let used: BTreeSet<u16> = sheet.triangles.iter().copied().collect();
    (0..NODE_LIMIT)
        .filter(|node| !used.contains(node))
        .collect()
}

fn crowd_edge(rng: &mut Rng, sheet: &mut FlatSample) -> Option<()> {
    let edges = sheet.edge_list();
    let [u, v] = edges[rng.below(edges.len())];
    let mut tips = fresh_nodes(sheet);
    rng.shuffle(&mut tips);
    for &tip in tips.get(..2)? {
        insert(rng, sheet, [u, v, tip])?;
    }
    Some(())
}

fn break_order(rng: &mut Rng, sheet: &mut FlatSample) {
    let edge = rng.below(sheet.counts.len() - 1);
    match rng.below(4) {
        0 => sheet.edges.swap(2 * edge, 2 * edge + 1),
        1 => sheet.edges[2 * edge + 1] = sheet.edges[2 * edge],
        2 => sheet.edges[2 * edge..2 * edge + 4].rotate_left(2),
        _ => {
            let ends = [sheet.edges[2 * edge], sheet.edges[2 * edge + 1]];
            sheet.edges.splice(2 * edge..2 * edge, ends);
            sheet.counts.insert(edge, 1);
        }
    }
}

/// An edge that no triangle has, where its ends belong.
fn add_edge(rng: &mut Rng, sheet: &mut FlatSample) {
    loop {
        let v = rng.between(1, 65_535);
        let ends = [rng.below(v) as u16, v as u16];
        if let Err(at) = sheet.edge_list().binary_search(&ends) {
            sheet.edges.splice(2 * at..2 * at, ends);
            sheet.counts.insert(at, 1);
            return;
        }
    }
}

/// The same large count everywhere, and triangles apart until that is too much.
fn flood(rng: &mut Rng, sheet: &mut FlatSample) -> Option<()> {
    let count = if rng.coin() { 255 } else { MAX_COUNT };
    let enough = MAX_CROSSINGS as usize / usize::from(count) + 1;
    let missing = (enough.saturating_sub(sheet.counts.len()) + 2) / 3;
    let fresh = fresh_nodes(sheet);
    let mut triangles = sheet.triangle_list();
    if triangles.len() + missing > MAX_TRIANGLES || fresh.len() < 3 * missing {
        return None;
    }
    let added = fresh.chunks_exact(3).take(missing);
    triangles.extend(added.map(|t| [t[0], t[1], t[2]]));
    *sheet = FlatSample::from_triangles(triangles);
    sheet.counts.fill(count);
    Some(())
}
