//! The grid check, and the tables that an accepted grid leaves behind.

use crate::cell::{EDGE_SLOTS, FACE_EDGES};
use crate::{refuse, Refusal};

/// Most cells that a grid may have.
pub const MAX_CELLS: usize = 2048;
/// Nodes are numbered below this.
pub const NODE_LIMIT: u16 = 4096;
/// Most crossings that an edge may have.
pub const MAX_COUNT: u16 = 4095;
/// Most crossings that a grid may have.
pub const MAX_CROSSINGS: u64 = 65_535;
/// The rows of refusals of the grid check, in the order in which they run.
pub const ROWS: [u8; 11] = [1, 2, 3, 4, 5, 6, 18, 7, 8, 9, 10];
/// Stands in `GridTables::twins` for a face that only one cell has.
pub const NO_TWIN: u16 = u16::MAX;

/// Node positions of each cell edge.
const EDGE_ENDS: [[usize; 2]; 6] = [[0, 1], [0, 2], [0, 3], [1, 2], [1, 3], [2, 3]];
/// Node positions of the face in each slot.
const FACE_NODES: [[usize; 3]; 4] = [[1, 2, 3], [0, 2, 3], [0, 1, 3], [0, 1, 2]];

const NODE_BITS: u32 = 12;
const CELL_BITS: u32 = 11;
const FACE_BITS: u32 = CELL_BITS + 2;

/// The caller's lists.
#[derive(Clone, Copy)]
pub struct Lists<'a> {
    pub cells: &'a [u16],
    pub edges: &'a [u16],
    pub counts: &'a [u16],
    pub starts: &'a [u32],
}

impl Lists<'_> {
    pub fn cell(&self, cell: usize) -> [u16; 4] {
        let nodes = &self.cells[4 * cell..4 * cell + 4];
        [nodes[0], nodes[1], nodes[2], nodes[3]]
    }

    pub fn cell_count(&self) -> usize {
        self.cells.len() / 4
    }

    pub fn edge(&self, edge: usize) -> [u16; 2] {
        [self.edges[2 * edge], self.edges[2 * edge + 1]]
    }
}

/// What follows from an accepted grid. One value serves many grids in turn
/// and keeps its memory.
#[derive(Default)]
pub struct GridTables {
    /// Numbers of each cell's six edges.
    pub cell_edges: Vec<[u32; 6]>,
    /// By cell and slot: 4 times the other cell plus the slot there.
    pub twins: Vec<u16>,
    /// By cell and slot: the name of the face.
    pub face_names: Vec<u16>,
    keys: Vec<u64>,
    edge_keys: Vec<u32>,
    first_edges: Vec<u32>,
    /// By edge: how many cells have it, and 6 times one of them plus its
    /// position there.
    stars: Vec<(u32, u32)>,
}

/// The grid check: the number of crossings of an accepted grid.
pub fn check(lists: Lists) -> Result<u32, Refusal> {
    GridTables::default().check(lists)
}

/// Fills the starts of a grid, if it has no other fault than wrong ones; tells
/// its crossings.
pub fn open(
    cells: &[u16],
    edges: &[u16],
    counts: &[u16],
    starts: &mut [u32],
) -> Result<u32, Refusal> {
    let lists = Lists {
        cells,
        edges,
        counts,
        starts,
    };
    check_lengths(lists)?;
    let crossings = GridTables::default().check_rest(lists)?;
    fill_starts(counts, starts);
    Ok(crossings)
}

/// Sets the count of one edge of a grid and puts its starts right; tells its
/// crossings.
pub fn set_count(
    cells: &[u16],
    edges: &[u16],
    counts: &mut [u16],
    starts: &mut [u32],
    edge: usize,
    count: u16,
) -> Result<u32, Refusal> {
    let lists = Lists {
        cells,
        edges,
        counts,
        starts,
    };
    check(lists)?;
    if edge >= counts.len() {
        return refuse(21, edge);
    }
    if count > MAX_COUNT {
        return refuse(18, edge);
    }
    let others = counts.iter().enumerate().filter(|&(at, _)| at != edge);
    let total = u64::from(count) + others.map(|(_, &other)| u64::from(other)).sum::<u64>();
    if total > MAX_CROSSINGS {
        return refuse(10, 0);
    }
    counts[edge] = count;
    fill_starts(counts, starts);
    Ok(total as u32)
}

/// The sum of the earlier counts, for each edge.
fn sums(counts: &[u16]) -> impl Iterator<Item = u64> + '_ {
    counts.iter().scan(0, |total, &count| {
        let sum = *total;
        *total += u64::from(count);
        Some(sum)
    })
}

/// Gives each edge its sum, which has 32 bits in a grid without another fault.
pub fn fill_starts(counts: &[u16], starts: &mut [u32]) {
    for (start, sum) in starts.iter_mut().zip(sums(counts)) {
        *start = sum as u32;
    }
}

impl GridTables {
    /// Checks a grid and fills the tables; they mean nothing after a refusal.
    pub fn check(&mut self, lists: Lists) -> Result<u32, Refusal> {
        check_lengths(lists)?;
        check_starts(lists)?;
        self.check_rest(lists)
    }

    /// As `check`, without row 9: the cells of an edge may have come apart.
    pub fn check_run(&mut self, lists: Lists) -> Result<u32, Refusal> {
        check_lengths(lists)?;
        check_starts(lists)?;
        self.check_before_stars(&lists)?;
        count_crossings(&lists)
    }

    /// The rows after 2.
    fn check_rest(&mut self, lists: Lists) -> Result<u32, Refusal> {
        self.check_before_stars(&lists)?;
        self.check_stars()?;
        count_crossings(&lists)
    }

    /// The rows after 2 and before 9.
    fn check_before_stars(&mut self, lists: &Lists) -> Result<(), Refusal> {
        check_nodes(lists)?;
        self.check_repeated_cells(lists)?;
        self.pair_faces(lists)?;
        self.index_edges(lists)?;
        check_counts(lists)?;
        self.find_cell_edges(lists)
    }

    /// Row 4.
    fn check_repeated_cells(&mut self, lists: &Lists) -> Result<(), Refusal> {
        self.keys.clear();
        self.keys.extend((0..lists.cell_count()).map(|cell| {
            let nodes = pack(&lists.cell(cell));
            nodes << CELL_BITS | cell as u64
        }));
        self.keys.sort_unstable();
        let repeated = self.keys.windows(2).filter_map(|pair| {
            let same = pair[0] >> CELL_BITS == pair[1] >> CELL_BITS;
            same.then_some(low_bits(pair[1], CELL_BITS))
        });
        match repeated.min() {
            Some(cell) => refuse(4, cell),
            None => Ok(()),
        }
    }

    /// Row 5; names the faces and finds who shares them.
    fn pair_faces(&mut self, lists: &Lists) -> Result<(), Refusal> {
        self.sort_faces(lists);
        let face_count = 4 * lists.cell_count();
        self.twins.clear();
        self.twins.resize(face_count, NO_TWIN);
        self.face_names.clear();
        self.face_names.extend(0..face_count as u16);
        let third = self.keys.windows(3).filter_map(|three| {
            let same = three[0] >> FACE_BITS == three[2] >> FACE_BITS;
            same.then_some(low_bits(three[2], FACE_BITS) / 4)
        });
        if let Some(cell) = third.min() {
            return refuse(5, cell);
        }
        for pair in self.keys.windows(2) {
            if pair[0] >> FACE_BITS == pair[1] >> FACE_BITS {
                let [first, second] = [pair[0], pair[1]].map(|key| low_bits(key, FACE_BITS));
                self.twins[first] = second as u16;
                self.twins[second] = first as u16;
                self.face_names[second] = first as u16;
            }
        }
        Ok(())
    }

    /// Sorts all faces by nodes, and those with equal nodes by cell.
    fn sort_faces(&mut self, lists: &Lists) {
        self.keys.clear();
        for cell in 0..lists.cell_count() {
            let nodes = lists.cell(cell);
            for (slot, places) in FACE_NODES.iter().enumerate() {
                let face = pack(&places.map(|place| nodes[place]));
                self.keys.push(face << FACE_BITS | (4 * cell + slot) as u64);
            }
        }
        self.keys.sort_unstable();
    }

    /// Row 6; prepares the search for an edge by its nodes.
    fn index_edges(&mut self, lists: &Lists) -> Result<(), Refusal> {
        self.edge_keys.clear();
        self.first_edges.clear();
        let mut before = None;
        for edge in 0..lists.counts.len() {
            let [u, v] = lists.edge(edge);
            let key = edge_key(u, v);
            if u >= v || before >= Some(key) {
                return refuse(6, edge);
            }
            before = Some(key);
            self.edge_keys.push(key);
            while self.first_edges.len() <= usize::from(u) {
                self.first_edges.push(edge as u32);
            }
        }
        let enough = self.first_edges.len().max(usize::from(NODE_LIMIT)) + 1;
        self.first_edges.resize(enough, lists.counts.len() as u32);
        Ok(())
    }

    /// Rows 7 and 8; finds the edge numbers of each cell.
    fn find_cell_edges(&mut self, lists: &Lists) -> Result<(), Refusal> {
        self.cell_edges.clear();
        self.stars.clear();
        self.stars.resize(lists.counts.len(), (0, 0));
        for cell in 0..lists.cell_count() {
            let nodes = lists.cell(cell);
            let mut numbers = [0; 6];
            for (position, [low, high]) in EDGE_ENDS.into_iter().enumerate() {
                let edge = match self.find_edge(nodes[low], nodes[high]) {
                    Some(edge) => edge,
                    None => return refuse(7, cell),
                };
                numbers[position] = edge;
                let star = &mut self.stars[edge as usize];
                *star = (star.0 + 1, (6 * cell + position) as u32);
            }
            self.cell_edges.push(numbers);
        }
        match self.stars.iter().position(|star| star.0 == 0) {
            Some(edge) => refuse(8, edge),
            None => Ok(()),
        }
    }

    fn find_edge(&self, u: u16, v: u16) -> Option<u32> {
        let first = self.first_edges[usize::from(u)];
        let last = self.first_edges[usize::from(u) + 1];
        let candidates = &self.edge_keys[first as usize..last as usize];
        let found = candidates.binary_search(&edge_key(u, v)).ok()?;
        Some(first + found as u32)
    }

    /// Row 9: a walk both ways round an edge must meet all its cells.
    fn check_stars(&self) -> Result<(), Refusal> {
        let split = self.stars.iter().position(|&(cells, home)| {
            let (cell, position) = (home as usize / 6, home as usize % 6);
            let (mut met, closed) = self.walk_round(cell, position, 0);
            if !closed {
                met += self.walk_round(cell, position, 1).0;
            }
            met + 1 != cells
        });
        match split {
            Some(edge) => refuse(9, edge),
            None => Ok(()),
        }
    }

    /// Goes round an edge from a cell, through one of its two faces there, to
    /// the last cell or back. Tells how many other cells it met and whether it
    /// came back.
    fn walk_round(&self, cell: usize, position: usize, side: usize) -> (u32, bool) {
        let mut met = 0;
        let mut face = 4 * cell + EDGE_SLOTS[position][side];
        let mut rank = rank_in_face(face % 4, position);
        loop {
            let twin = self.twins[face];
            if twin == NO_TWIN {
                return (met, false);
            }
            let (next, entered) = (usize::from(twin) / 4, usize::from(twin) % 4);
            if next == cell {
                return (met, true);
            }
            met += 1;
            let position = FACE_EDGES[entered][rank];
            let left = EDGE_SLOTS[position][0] + EDGE_SLOTS[position][1] - entered;
            face = 4 * next + left;
            rank = rank_in_face(left, position);
        }
    }
}

/// Row 1, and the numbers of row 2.
fn check_lengths(lists: Lists) -> Result<(), Refusal> {
    let whole = lists.cells.len() % 4 == 0;
    if !whole || lists.cells.is_empty() || lists.cell_count() > MAX_CELLS {
        return refuse(1, 0);
    }
    let edges = lists.counts.len();
    if lists.edges.len() != 2 * edges || lists.starts.len() != edges {
        return refuse(2, 0);
    }
    Ok(())
}

/// The sums of row 2.
fn check_starts(lists: Lists) -> Result<(), Refusal> {
    let starts = lists.starts.iter().map(|&start| u64::from(start));
    if starts.eq(sums(lists.counts)) {
        Ok(())
    } else {
        refuse(2, 0)
    }
}

/// Row 3.
fn check_nodes(lists: &Lists) -> Result<(), Refusal> {
    let bad = (0..lists.cell_count()).find(|&cell| {
        let [a, b, c, d] = lists.cell(cell);
        !(a < b && b < c && c < d && d < NODE_LIMIT)
    });
    match bad {
        Some(cell) => refuse(3, cell),
        None => Ok(()),
    }
}

/// Row 10.
fn count_crossings(lists: &Lists) -> Result<u32, Refusal> {
    let total: u64 = lists.counts.iter().map(|&count| u64::from(count)).sum();
    if total > MAX_CROSSINGS {
        return refuse(10, 0);
    }
    Ok(total as u32)
}

/// Row 18.
fn check_counts(lists: &Lists) -> Result<(), Refusal> {
    match lists.counts.iter().position(|&count| count > MAX_COUNT) {
        Some(edge) => refuse(18, edge),
        None => Ok(()),
    }
}

fn pack(nodes: &[u16]) -> u64 {
    let join = |key, &node| key << NODE_BITS | u64::from(node);
    nodes.iter().fold(0, join)
}

fn low_bits(key: u64, bits: u32) -> usize {
    (key & ((1 << bits) - 1)) as usize
}

fn edge_key(u: u16, v: u16) -> u32 {
    u32::from(u) << 16 | u32::from(v)
}

/// Which of the face's edges ab, ac, bc the cell edge is.
fn rank_in_face(slot: usize, position: usize) -> usize {
    let edges = FACE_EDGES[slot];
    usize::from(edges[1] == position) + 2 * usize::from(edges[2] == position)
}
