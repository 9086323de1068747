//! The cells of a grid one by one: their edges, their loops, and the segments of
//! these.

use std::collections::HashMap;

use crate::calls::{Grid, Lists, Loop, Refusal};
use crate::faces::{Face, Joining};

/// A cell as a grid of its own. Its loops depend on its six counts alone, and its
/// edges stand in the same order as in the whole grid, so they are the loops of the
/// cell there in the same order; only crossings have other numbers. The loops call
/// then has no other cells to check.
struct Alone {
    grid: Grid,
    /// The numbers of the cell's edges in the whole grid.
    edges: Vec<usize>,
}

impl Alone {
    /// None where there is no such cell.
    fn of(whole: &Grid, cell: usize) -> Option<Alone> {
        let lists = whole.lists();
        let nodes = lists.cells.chunks_exact(4).nth(cell)?;
        let pairs = (0..4).flat_map(|low| (low + 1..4).map(move |high| [low, high]));
        let ends: Vec<[u16; 2]> = pairs.map(|pair| pair.map(|at| nodes[at])).collect();
        let numbers = ends.iter().map(|&ends| edge_number(lists, ends));
        let edges = numbers.collect::<Option<Vec<usize>>>()?;
        let alone = Lists {
            cells: nodes.to_vec(),
            edges: ends.into_iter().flatten().collect(),
            counts: edges.iter().map(|&edge| lists.counts[edge]).collect(),
        };
        Some(Alone {
            grid: Grid::open(alone).ok()?,
            edges,
        })
    }

    /// The number in the whole grid of a crossing of the cell.
    fn number(&self, whole: &Grid, crossing: u64) -> u64 {
        let starts = (0..self.edges.len()).map(|at| self.grid.start(at) as u64);
        let passed = starts.take_while(|&start| start <= crossing).count();
        let counts = &self.grid.lists().counts[..passed];
        // edges without a crossing have the start of the next
        let at = counts.iter().rposition(|&count| count > 0).unwrap_or(0);
        whole.start(self.edges[at]) as u64 + crossing - self.grid.start(at) as u64
    }
}

/// The number of the edge with these ends, in an accepted grid.
pub fn edge_number(lists: &Lists, ends: [u16; 2]) -> Option<usize> {
    let mut found = 0..lists.counts.len();
    while !found.is_empty() {
        let middle = found.start + found.len() / 2;
        match lists.edges[2 * middle..2 * middle + 2].cmp(&ends) {
            std::cmp::Ordering::Equal => return Some(middle),
            std::cmp::Ordering::Less => found.start = middle + 1,
            std::cmp::Ordering::Greater => found.end = middle,
        }
    }
    None
}

/// All loops of a cell.
pub fn loops_of(grid: &Grid, cell: usize) -> Result<Vec<Loop>, Refusal> {
    let mut loops = Vec::new();
    let alone = match Alone::of(grid, cell) {
        Some(alone) => alone,
        // the loops call refuses a cell that there is not
        None => return grid.loops(cell, 0).map(|_| loops),
    };
    while let Some(found) = alone.grid.loops(0, loops.len())? {
        let p0 = alone.number(grid, found.p0);
        loops.push(Loop { p0, ..found });
    }
    Ok(loops)
}

/// The counts of a cell's edges 01, 02, 03, 12, 13, 23, where there is such a cell.
pub fn counts_of(grid: &Grid, cell: usize) -> [u16; 6] {
    let mut counts = [0; 6];
    if let Some(alone) = Alone::of(grid, cell) {
        counts.copy_from_slice(&alone.grid.lists().counts);
    }
    counts
}

/// How many triangles a cell has, by the mesh call.
pub fn triangles_of(grid: &Grid, cell: usize) -> Result<u64, Refusal> {
    match Alone::of(grid, cell) {
        Some(alone) => alone.grid.triangles(),
        // the loops call refuses a cell that there is not
        None => grid.loops(cell, 0).map(|_| 0),
    }
}

/// A segment as it is met at one of its ends: its face, and the crossing there.
#[derive(Clone, Copy)]
struct Way {
    face: usize,
    to: usize,
}

/// The ways from each crossing of a cell, one on each of its faces where it is
/// joined.
pub struct Ways(HashMap<usize, Vec<Way>>);

impl Ways {
    /// From the faces of a cell and how their crossings are joined.
    pub fn of(faces: &[&Face], joinings: &[Joining]) -> Ways {
        let mut ways: HashMap<usize, Vec<Way>> = HashMap::new();
        for (face, joining) in faces.iter().zip(joinings) {
            for segment in &joining.segments {
                let [low, high] = segment.ends.map(|end| end.number);
                for (from, to) in [(low, high), (high, low)] {
                    let face = face.name;
                    ways.entry(from).or_default().push(Way { face, to });
                }
            }
        }
        Ways(ways)
    }

    /// The segments of a loop of the cell, by their names: the face and the lower
    /// crossing. From p0 it goes from face to face, and is back after its length.
    pub fn segments(&self, of: &Loop) -> Vec<(usize, usize)> {
        let mut names = Vec::new();
        let (mut at, mut came) = (of.p0 as usize, None);
        for _ in 0..of.length {
            let way = self.0[&at].iter().find(|way| Some(way.face) != came);
            let Way { face, to } = *way.expect("a crossing of a loop is joined on both faces");
            names.push((face, at.min(to)));
            (at, came) = (to, Some(face));
        }
        names
    }
}
