//! Grids and sheets whose packed keys leave one remainder by 7,919: where cells,
//! faces or edges are found by chains of that remainder, these are the longest that
//! there are. Their sizes are those of ordinary ones.

use std::collections::BTreeSet;

use reference::gen::{Rng, Sample};
use reference::grid::NODE_LIMIT;
use reference::sheets::FlatSample;

/// What keys are divided by, and the remainder of 65,536, by which they are packed.
const BUCKETS: u64 = 7_919;
const STEP: u64 = 65_536 % BUCKETS;

type Nodes = [u16; 4];

/// The remainder of the nodes packed into one number, the last left out of it.
fn before(nodes: &[u16]) -> u64 {
    let pack = |key: u64, node: &u16| (key + u64::from(*node)) * STEP % BUCKETS;
    nodes.iter().fold(0, pack)
}

/// The node behind these with which they leave the remainder; none where it is no
/// node of a grid.
fn last(nodes: &[u16], remainder: u64) -> Option<u16> {
    let node = ((BUCKETS + remainder - before(nodes)) % BUCKETS) as u16;
    Some(node).filter(|&node| node < NODE_LIMIT)
}

/// So many cells of those that are tried, no two of which share an edge.
fn apart(many: usize, mut tried: impl FnMut() -> Option<Nodes>) -> Sample {
    let mut edges = BTreeSet::new();
    let mut cells: Vec<Nodes> = Vec::new();
    while cells.len() < many {
        // four equal nodes are no cell
        let [a, b, c, d] = tried().unwrap_or([0; 4]);
        let ends = [[a, b], [a, c], [a, d], [b, c], [b, d], [c, d]];
        let rising = a < b && b < c && c < d;
        if rising && ends.iter().all(|ends| !edges.contains(ends)) {
            edges.extend(ends);
            cells.push([a, b, c, d]);
        }
    }
    Sample::from_cells(cells)
}

fn node(rng: &mut Rng) -> u16 {
    rng.below(usize::from(NODE_LIMIT)) as u16
}

/// Cells that share nodes and no edge, in no order.
pub fn any_cells(rng: &mut Rng, many: usize) -> Sample {
    apart(many, || Some([(); 4].map(|()| node(rng))))
}

/// Cells of one remainder.
pub fn cells(rng: &mut Rng, many: usize) -> Sample {
    apart(many, || {
        let [a, b, c] = [(); 3].map(|()| node(rng));
        Some([a, b, c, last(&[a, b, c], 5)?])
    })
}

/// Cells with two faces of one remainder, abc and acd.
pub fn faces(rng: &mut Rng, many: usize) -> Sample {
    apart(many, || {
        let [a, b] = [(); 2].map(|()| node(rng));
        let c = last(&[a, b], 5)?;
        Some([a, b, c, last(&[a, c], 5)?])
    })
}

/// Cells whose edges at their lowest nodes leave few remainders, three to a cell.
pub fn edges(rng: &mut Rng, many: usize) -> Sample {
    apart(many, || {
        let a = node(rng);
        let turn = 5 + 40 * rng.below(many / 512 + 1) as u64;
        let [b, c, d] = [turn, turn + 7, turn + 19].map(|remainder| last(&[a], remainder));
        Some([a, b?, c?, d?])
    })
}

/// All pairs of one remainder, the lower node first, of nodes below the limit.
fn pairs_below(limit: u32) -> Vec<[u16; 2]> {
    let of_lower = |u: u32| {
        let first = (BUCKETS + 5 - before(&[u as u16])) % BUCKETS;
        let higher = (first as u32..limit).step_by(BUCKETS as usize);
        higher
            .filter(move |&v| u < v)
            .map(move |v| [u as u16, v as u16])
    };
    (0..limit).flat_map(of_lower).collect()
}

/// The pairs, each once, in order, with counts of 0.
fn listed(pairs: BTreeSet<[u16; 2]>) -> (Vec<u16>, Vec<u16>) {
    let counts = vec![0; pairs.len()];
    (pairs.into_iter().flatten().collect(), counts)
}

/// Cells with two opposite edges of one remainder, and a list of all edges of that
/// remainder beside those of the cells: row 8 refuses it.
pub fn long_list(rng: &mut Rng, many: usize) -> Sample {
    let pool = pairs_below(u32::from(NODE_LIMIT));
    let mut cells = BTreeSet::new();
    while cells.len() < many {
        let [[a, b], [c, d]] = [(); 2].map(|()| pool[rng.below(pool.len())]);
        if b < c {
            cells.insert([a, b, c, d]);
        }
    }
    let grid = Sample::from_cells(cells);
    let all = grid.edge_list().into_iter().chain(pairs_below(65_536));
    let (edges, counts) = listed(all.collect());
    Sample {
        edges,
        counts,
        ..grid
    }
}

/// The grid with other edges in its list, until there are so many: row 8 refuses it.
pub fn lengthened(rng: &mut Rng, grid: &Sample, many: usize) -> Sample {
    let mut all: BTreeSet<[u16; 2]> = grid.edge_list().into_iter().collect();
    while all.len() < many {
        let [u, v] = [(); 2].map(|()| rng.below(65_536) as u16);
        if u < v {
            all.insert([u, v]);
        }
    }
    let (edges, counts) = listed(all);
    Sample {
        edges,
        counts,
        ..grid.clone()
    }
}

/// Triangles of one remainder.
pub fn triangles(rng: &mut Rng, many: usize) -> FlatSample {
    let mut all = BTreeSet::new();
    let mut edges = BTreeSet::new();
    while all.len() < many {
        let [a, b] = [(); 2].map(|()| node(rng));
        let c = last(&[a, b], 5).unwrap_or(0);
        let ends = [[a, b], [a, c], [b, c]];
        if a < b && b < c && ends.iter().all(|ends| !edges.contains(ends)) {
            edges.extend(ends);
            all.insert([a, b, c]);
        }
    }
    FlatSample::from_triangles(all)
}

/// Triangles on edges of one remainder, two to an edge.
pub fn sides(many: usize) -> FlatSample {
    let pool = pairs_below(u32::from(NODE_LIMIT));
    let of_edge = |[a, b]: [u16; 2]| {
        let others = (0..NODE_LIMIT).rev().filter(move |&c| c != a && c != b);
        let turn = usize::from(a / 2);
        others.skip(turn).take(2).map(move |c| [a, b, c])
    };
    FlatSample::from_triangles(pool.into_iter().flat_map(of_edge).take(many))
}

/// The sheet with all edges of that remainder in its list: row 8 refuses it.
pub fn long_sides(sheet: FlatSample) -> FlatSample {
    let all = sheet.edge_list().into_iter().chain(pairs_below(65_536));
    let (edges, counts) = listed(all.collect());
    FlatSample {
        edges,
        counts,
        ..sheet
    }
}

/// The sheet with other edges in its list, until there are so many.
pub fn lengthened_sides(rng: &mut Rng, sheet: &FlatSample, many: usize) -> FlatSample {
    let mut all: BTreeSet<[u16; 2]> = sheet.edge_list().into_iter().collect();
    while all.len() < many {
        let [u, v] = [(); 2].map(|()| rng.below(65_536) as u16);
        if u < v {
            all.insert([u, v]);
        }
    }
    let (edges, counts) = listed(all);
    FlatSample {
        edges,
        counts,
        ..sheet.clone()
    }
}

#[cfg(test)]
mod tests {
    use reference::flat;
    use reference::grid;

    use super::*;

    /// How many of these have the key's remainder 5.
    fn met(keys: impl Iterator<Item = Vec<u16>>) -> usize {
        let remainder = |nodes: Vec<u16>| {
            let key = nodes
                .iter()
                .fold(0u64, |key, node| key << 16 | u64::from(*node));
            key % BUCKETS
        };
        keys.filter(|nodes| remainder(nodes.clone()) == 5).count()
    }

    fn accepted(grid: &Sample) -> bool {
        grid::check(grid.lists(&grid.starts())).is_ok()
    }

    #[test]
    fn grids_of_one_remainder() {
        let mut rng = Rng::new(1);
        let grid = cells(&mut rng, 200);
        assert_eq!(met(grid.cell_list().into_iter().map(|c| c.to_vec())), 200);
        assert!(accepted(&grid));
        let grid = faces(&mut rng, 200);
        let both = |c: Nodes| [vec![c[0], c[1], c[2]], vec![c[0], c[2], c[3]]];
        assert_eq!(met(grid.cell_list().into_iter().flat_map(both)), 400);
        assert!(accepted(&grid));
        assert!(accepted(&edges(&mut rng, 500)));
        assert!(accepted(&any_cells(&mut rng, 100)));
    }

    #[test]
    fn refused_by_row_8() {
        let mut rng = Rng::new(2);
        let long = long_list(&mut rng, 100);
        let apart = any_cells(&mut rng, 100);
        let plain = lengthened(&mut rng, &apart, long.counts.len());
        for grid in [long, plain] {
            let answer = grid::check(grid.lists(&grid.starts()));
            assert_eq!(answer.map_err(|refusal| refusal.number), Err(8));
        }
    }

    #[test]
    fn sheets_of_one_remainder() {
        let mut rng = Rng::new(3);
        assert!(flat::check(&triangles(&mut rng, 200).sheet()).is_ok());
        let sheet = sides(200);
        assert!(flat::check(&sheet.sheet()).is_ok());
        assert!(met(sheet.edge_list().into_iter().map(|e| e.to_vec())) >= 100);
        let long = long_sides(sheet);
        let answer = flat::check(&long.sheet());
        assert_eq!(answer.map_err(|refusal| refusal.number), Err(8));
    }
}
