//! Seeded random grids for comparisons: accepted ones of many shapes, counts
//! of several kinds, and grids broken in a chosen way.

use std::collections::{BTreeMap, BTreeSet};

use crate::grid::{fill_starts, Lists, MAX_CELLS, MAX_COUNT, MAX_CROSSINGS, NODE_LIMIT};
use crate::split;

/// A small random generator (splitmix64).
#[derive(Clone)]
pub struct Rng(u64);

impl Rng {
    pub fn new(seed: u64) -> Rng {
        Rng(seed)
    }

    pub fn word(&mut self) -> u64 {
        self.0 = self.0.wrapping_add(0x9e37_79b9_7f4a_7c15);
        let mut mixed = self.0;
        mixed = (mixed ^ (mixed >> 30)).wrapping_mul(0xbf58_476d_1ce4_e5b9);
        mixed = (mixed ^ (mixed >> 27)).wrapping_mul(0x94d0_49bb_1331_11eb);
        mixed ^ (mixed >> 31)
    }

    /// A number from 0 to `limit` - 1.
    pub fn below(&mut self, limit: usize) -> usize {
        ((u128::from(self.word()) * limit as u128) >> 64) as usize
    }

    /// A number from `low` to `high`, both included.
    pub fn between(&mut self, low: usize, high: usize) -> usize {
        low + self.below(high - low + 1)
    }

    pub fn coin(&mut self) -> bool {
        self.word() >> 63 == 1
    }

    pub fn shuffle<T>(&mut self, items: &mut [T]) {
        for last in (1..items.len()).rev() {
            items.swap(last, self.below(last + 1));
        }
    }
}

/// The lists of a grid without its starts.
#[derive(Clone, Debug, PartialEq, Eq)]
pub struct Sample {
    pub cells: Vec<u16>,
    pub edges: Vec<u16>,
    pub counts: Vec<u16>,
}

type Nodes = [u16; 4];

impl Sample {
    /// Sorts the given cells and lists their edges, each with count 0.
    pub fn from_cells(cells: impl IntoIterator<Item = Nodes>) -> Sample {
        let sorted: BTreeSet<Nodes> = cells
            .into_iter()
            .map(|mut nodes| {
                nodes.sort_unstable();
                nodes
            })
            .collect();
        let edges: BTreeSet<[u16; 2]> = sorted.iter().flat_map(cell_edges).collect();
        Sample {
            counts: vec![0; edges.len()],
            cells: sorted.into_iter().flatten().collect(),
            edges: edges.into_iter().flatten().collect(),
        }
    }

    /// The starts that the edges should have.
    pub fn starts(&self) -> Vec<u32> {
        let mut starts = vec![0; self.counts.len()];
        fill_starts(&self.counts, &mut starts);
        starts
    }

    /// The grid with these starts.
    pub fn lists<'a>(&'a self, starts: &'a [u32]) -> Lists<'a> {
        Lists {
            cells: &self.cells,
            edges: &self.edges,
            counts: &self.counts,
            starts,
        }
    }

    pub fn cell_list(&self) -> Vec<Nodes> {
        let whole = self.cells.chunks_exact(4);
        whole.map(|c| [c[0], c[1], c[2], c[3]]).collect()
    }

    pub fn edge_list(&self) -> Vec<[u16; 2]> {
        self.edges.chunks_exact(2).map(|e| [e[0], e[1]]).collect()
    }

    /// A number of triangles that no mesh of the grid is above: of a cell that
    /// is split those of its parts, of others one to a crossing. Beside the
    /// grid's crossings no more points than these are placed.
    pub fn most_triangles(&self) -> usize {
        let most = |counts: [u16; 6]| match split::totals(counts) {
            Some(totals) => totals.triangles as usize,
            None => counts.into_iter().map(usize::from).sum(),
        };
        self.counts_in_cells().into_iter().map(most).sum()
    }

    /// The counts of each cell's edges 01, 02, 03, 12, 13, 23.
    pub fn counts_in_cells(&self) -> Vec<[u16; 6]> {
        let pairs = self.edges.chunks_exact(2).map(|ends| (ends[0], ends[1]));
        let counts: BTreeMap<_, _> = pairs.zip(&self.counts).collect();
        let ends = [[0, 1], [0, 2], [0, 3], [1, 2], [1, 3], [2, 3]];
        let of = |cell: &[u16]| ends.map(|[low, high]| *counts[&(cell[low], cell[high])]);
        self.cells.chunks_exact(4).map(of).collect()
    }

    /// Gives every edge a count from `low` to `high`.
    pub fn with_counts(mut self, rng: &mut Rng, low: u16, high: u16) -> Sample {
        for count in &mut self.counts {
            *count = rng.between(usize::from(low), usize::from(high)) as u16;
        }
        self
    }

    /// Counts with an even sum on every face: each node takes a side, edges
    /// between the sides are odd, and up to `pairs` pairs (at most 2,047) come
    /// on top.
    pub fn with_even_counts(mut self, rng: &mut Rng, pairs: usize) -> Sample {
        let sides: Vec<bool> = (0..NODE_LIMIT).map(|_| rng.coin()).collect();
        self.count_by_sides(rng, &sides, pairs);
        self
    }

    /// Even counts that are 0 on every outer edge, so that the mesh closes.
    pub fn with_closed_counts(mut self, rng: &mut Rng, pairs: usize) -> Sample {
        let outer = outer_edges(&self.cell_list());
        let mut sides: Vec<bool> = (0..NODE_LIMIT).map(|_| rng.coin()).collect();
        for &node in outer.iter().flatten() {
            sides[usize::from(node)] = false;
        }
        self.count_by_sides(rng, &sides, pairs);
        for (edge, count) in self.edge_list().iter().zip(&mut self.counts) {
            if outer.contains(edge) {
                *count = 0;
            }
        }
        self
    }

    /// Counts of the level sets of a height at each node, and of spheres round
    /// nodes: 0 on every outer edge, and on each face an even sum and no count
    /// above the other two.
    pub fn with_level_sets(mut self, rng: &mut Rng, heights: usize, spheres: usize) -> Sample {
        let mut draw = |most: usize| -> Vec<u16> {
            let numbers = (0..NODE_LIMIT).map(|_| rng.below(most + 1) as u16);
            numbers.collect()
        };
        let [mut height, mut round] = [draw(heights), draw(spheres)];
        for &node in outer_edges(&self.cell_list()).iter().flatten() {
            height[usize::from(node)] = 0;
            round[usize::from(node)] = 0;
        }
        for (ends, count) in self.edge_list().into_iter().zip(&mut self.counts) {
            let [u, v] = ends.map(usize::from);
            *count = height[u].abs_diff(height[v]) + round[u] + round[v];
        }
        self
    }

    /// Even counts that are 0 on every outer edge, with cells that are split:
    /// some of those that have no node in common with one another or with an
    /// outer edge get the counts of spirals, up to `most` beside the corners.
    pub fn with_closed_spirals(mut self, rng: &mut Rng, most: usize, pairs: usize) -> Sample {
        let outer = outer_edges(&self.cell_list());
        let mut taken: BTreeSet<u16> = outer.iter().flatten().copied().collect();
        let mut sides: Vec<bool> = (0..NODE_LIMIT)
            .map(|node| !taken.contains(&node) && rng.coin())
            .collect();
        let mut fixed: BTreeMap<[u16; 2], u16> = outer.into_iter().map(|edge| (edge, 0)).collect();
        let mut cells = self.cell_list();
        rng.shuffle(&mut cells);
        for cell in cells {
            if cell.iter().any(|node| taken.contains(node)) {
                continue;
            }
            let counts = spiral_cell(rng, 2, most);
            fixed.extend(cell_edges(&cell).into_iter().zip(counts));
            for (&node, count) in cell[1..].iter().zip(counts) {
                sides[usize::from(node)] = sides[usize::from(cell[0])] ^ (count % 2 == 1);
            }
            taken.extend(cell);
        }
        self.count_by_sides(rng, &sides, pairs);
        for (edge, count) in self.edge_list().iter().zip(&mut self.counts) {
            *count = *fixed.get(edge).unwrap_or(count);
        }
        self
    }

    fn count_by_sides(&mut self, rng: &mut Rng, sides: &[bool], pairs: usize) {
        for ([u, v], count) in self.edge_list().into_iter().zip(&mut self.counts) {
            let odd = sides[usize::from(u)] != sides[usize::from(v)];
            *count = (usize::from(odd) + 2 * rng.below(pairs + 1)) as u16;
        }
    }

    /// The same shape with its node numbers dealt anew; counts become 0.
    pub fn renumbered(&self, rng: &mut Rng) -> Sample {
        let mut names: Vec<u16> = (0..NODE_LIMIT).collect();
        rng.shuffle(&mut names);
        let rename = |nodes: Nodes| nodes.map(|node| names[usize::from(node)]);
        Sample::from_cells(self.cell_list().into_iter().map(rename))
    }

    /// The same grid with its cells in another order.
    pub fn reordered(&self, rng: &mut Rng) -> Sample {
        let mut cells = self.cell_list();
        rng.shuffle(&mut cells);
        Sample {
            cells: cells.into_iter().flatten().collect(),
            ..self.clone()
        }
    }
}

fn cell_edges(cell: &Nodes) -> Vec<[u16; 2]> {
    let pairs = (0..4).flat_map(|low| (low + 1..4).map(move |high| (low, high)));
    pairs.map(|(low, high)| [cell[low], cell[high]]).collect()
}

fn cell_faces(cell: &Nodes) -> Vec<[u16; 3]> {
    let [a, b, c, d] = *cell;
    vec![[b, c, d], [a, c, d], [a, b, d], [a, b, c]]
}

/// Faces that only one of the cells has.
fn outer_faces(cells: &[Nodes]) -> Vec<[u16; 3]> {
    let mut uses: BTreeMap<[u16; 3], usize> = BTreeMap::new();
    for face in cells.iter().flat_map(cell_faces) {
        *uses.entry(face).or_default() += 1;
    }
    let single = uses.into_iter().filter(|&(_, cells)| cells == 1);
    single.map(|(face, _)| face).collect()
}

/// Edges of the faces that only one of the cells has.
pub fn outer_edges(cells: &[Nodes]) -> BTreeSet<[u16; 2]> {
    let faces = outer_faces(cells).into_iter();
    faces
        .flat_map(|[a, b, c]| [[a, b], [a, c], [b, c]])
        .collect()
}

/// Numbers of cubes along the three axes of a box.
pub type BoxSize = [usize; 3];

/// Cells of the chosen cubes of a box, cut up by `cut`, which is given the
/// cube's eight nodes (bit 0 for x, 1 for y, 2 for z) and its parity.
fn cut_cubes(
    [nx, ny, nz]: BoxSize,
    chosen: impl Fn([usize; 3]) -> bool,
    cut: impl Fn([u16; 8], usize) -> Vec<Nodes>,
) -> Sample {
    let mut cells = Vec::new();
    for cube in 0..nx * ny * nz {
        let [x, y, z] = [cube % nx, cube / nx % ny, cube / nx / ny];
        if chosen([x, y, z]) {
            let node = |corner: usize| {
                let [i, j, k] = [x + corner % 2, y + corner / 2 % 2, z + corner / 4];
                (i + (nx + 1) * (j + (ny + 1) * k)) as u16
            };
            let nodes = [0, 1, 2, 3, 4, 5, 6, 7].map(node);
            cells.extend(cut(nodes, (x + y + z) % 2));
        }
    }
    Sample::from_cells(cells)
}

/// Five cells: one in the middle and one at each corner it leaves over. The
/// middle cell alternates, so that neighbouring cubes cut their face alike.
fn five_cells(nodes: [u16; 8], parity: usize) -> Vec<Nodes> {
    let (middle, tips) = match parity {
        0 => ([0, 3, 5, 6], [7, 4, 2, 1]),
        _ => ([1, 2, 4, 7], [6, 5, 3, 0]),
    };
    let mut cells = vec![middle.map(|corner| nodes[corner])];
    for (opposite, tip) in tips.into_iter().enumerate() {
        let mut cell = middle;
        cell[opposite] = tip;
        cells.push(cell.map(|corner| nodes[corner]));
    }
    cells
}

/// Six cells round the diagonal from corner 0 to corner 7.
fn six_cells(nodes: [u16; 8], _: usize) -> Vec<Nodes> {
    let paths = [[1, 3], [1, 5], [2, 3], [2, 6], [4, 5], [4, 6]];
    let cell = |[first, second]: [usize; 2]| [nodes[0], nodes[first], nodes[second], nodes[7]];
    paths.into_iter().map(cell).collect()
}

/// A box with five cells to a cube.
pub fn box_of_five(size: BoxSize) -> Sample {
    cut_cubes(size, |_| true, five_cells)
}

/// A box with six cells to a cube.
pub fn box_of_six(size: BoxSize) -> Sample {
    cut_cubes(size, |_| true, six_cells)
}

/// A thick ring: a box of six without the middle of each layer, `wall` cubes
/// thick all round.
pub fn box_ring([nx, ny, nz]: BoxSize, wall: usize) -> Sample {
    let rim = move |at: usize, size: usize| at < wall || at + wall >= size;
    cut_cubes(
        [nx, ny, nz],
        move |[x, y, _]| rim(x, nx) || rim(y, ny),
        six_cells,
    )
}

/// Cells side by side round edge 0 1, not closing.
pub fn open_fan(cells: u16) -> Sample {
    Sample::from_cells((0..cells).map(|k| [0, 1, 2 + k, 3 + k]))
}

/// Three or more cells all the way round edge 0 1.
pub fn closed_fan(cells: u16) -> Sample {
    Sample::from_cells((0..cells).map(|k| [0, 1, 2 + k, 2 + (k + 1) % cells]))
}

/// Cells in a long row, each sharing a face with the next.
pub fn row_of(cells: u16) -> Sample {
    Sample::from_cells((0..cells).map(|k| [0, 1, 2, 3].map(|step| k + step)))
}

/// Seven or more cells in a ring, each sharing a face with the next.
pub fn ring(cells: u16) -> Sample {
    Sample::from_cells((0..cells).map(|k| [0, 1, 2, 3].map(|step| (k + step) % cells)))
}

/// Cells all round one node: from it to each face of a box of six that only one
/// cell has.
pub fn cone(size: BoxSize) -> Sample {
    let cells = box_of_six(size).cell_list();
    let hub = cells.iter().flatten().max().map_or(0, |node| node + 1);
    let faces = outer_faces(&cells).into_iter();
    Sample::from_cells(faces.map(|[a, b, c]| [a, b, c, hub]))
}

/// A box of six with cells all round it, from one further node to each of its
/// faces that only one cell has: every face is in two cells.
pub fn sphere(size: BoxSize) -> Sample {
    let mut cells = box_of_six(size).cell_list();
    cells.extend(cone(size).cell_list());
    Sample::from_cells(cells)
}

/// Six counts of a cell that is split: up to `corners` corner triangles at each
/// node, and up to `most` (at least 6) on an edge beside them.
pub fn spiral_cell(rng: &mut Rng, corners: usize, most: usize) -> [u16; 6] {
    let mut kept = spiral_counts(rng, most);
    rng.shuffle(&mut kept);
    let at = [(); 4].map(|()| rng.between(0, corners) as u16);
    let ends = [[0, 1], [0, 2], [0, 3], [1, 2], [1, 3], [2, 3]];
    let mut counts = [0; 6];
    for (edge, [u, v]) in ends.into_iter().enumerate() {
        counts[edge] = kept[edge.min(5 - edge)] + at[u] + at[v];
    }
    counts
}

/// Three counts: two different ones with a common divisor above 1, and their
/// sum, which is up to `most`.
fn spiral_counts(rng: &mut Rng, most: usize) -> [u16; 3] {
    let unit = rng.between(2, most / 3);
    let sum = rng.between(3, most / unit);
    let smaller = rng.between(1, (sum - 1) / 2);
    [unit * (sum - smaller), unit * smaller, unit * sum].map(|count| count as u16)
}

/// A row of nodes, each linked to the next; in a circle, an even number of 4 or
/// more, the last to the first too.
#[derive(Clone, Copy, Debug)]
pub enum Chain {
    Row(usize),
    Circle(usize),
}

impl Chain {
    /// How many nodes it has.
    fn nodes(self) -> usize {
        match self {
            Chain::Row(nodes) | Chain::Circle(nodes) => nodes,
        }
    }

    /// The nodes of each link.
    fn links(self) -> Vec<[usize; 2]> {
        let last = match self {
            Chain::Row(nodes) => nodes - 1,
            Chain::Circle(nodes) => nodes,
        };
        let link = |at: usize| [at, (at + 1) % self.nodes()];
        (0..last).map(link).collect()
    }
}

/// Two chains of nodes, and a cell for each link of one with each link of the
/// other; every cell is split, with counts as for `spiral_cell`. Of two circles
/// every face is in two cells; where a row has two nodes, all cells are round
/// its link.
pub fn spiral_join(rng: &mut Rng, chains: [Chain; 2], corners: usize, most: usize) -> Sample {
    let mut kept = spiral_counts(rng, most);
    rng.shuffle(&mut kept);
    joined(rng, chains, corners, kept)
}

/// The two chains' cells, which keep so much: on each link, and on the edges from
/// one chain to the other, in turn. Nodes have random names.
pub fn joined(rng: &mut Rng, chains: [Chain; 2], corners: usize, kept: [u16; 3]) -> Sample {
    let mut names: Vec<u16> = (0..NODE_LIMIT).collect();
    rng.shuffle(&mut names);
    let mut sites = vec![0; names.len()];
    for (site, &name) in names.iter().enumerate() {
        sites[usize::from(name)] = site;
    }
    let size = chains[0].nodes();
    let links = |chain: usize| chains[chain].links().into_iter();
    let cell =
        |[i, k]: [usize; 2], [j, l]: [usize; 2]| [i, k, size + j, size + l].map(|s| names[s]);
    let cells = links(0).flat_map(|a| links(1).map(move |b| cell(a, b)));
    let mut grid = Sample::from_cells(cells);
    let at: Vec<u16> = names
        .iter()
        .map(|_| rng.between(0, corners) as u16)
        .collect();
    for ([u, v], count) in grid.edge_list().into_iter().zip(&mut grid.counts) {
        let ends = [u, v].map(usize::from);
        *count = kept_between(ends.map(|node| sites[node]), size, kept) + at[ends[0]] + at[ends[1]];
    }
    grid
}

/// What an edge between two sites keeps; the second chain's start at `size`.
fn kept_between([u, v]: [usize; 2], size: usize, [along, even, odd]: [u16; 3]) -> u16 {
    match (u < size) == (v < size) {
        true => along,
        false if (u + v - size) % 2 == 0 => even,
        false => odd,
    }
}

/// A row of two to five nodes, or a circle of four or six.
pub fn any_chain(rng: &mut Rng) -> Chain {
    match rng.below(3) {
        0 => Chain::Circle(2 * rng.between(2, 3)),
        _ => Chain::Row(rng.between(2, 5)),
    }
}

/// The five cells of five nodes: every face is in two of them.
pub fn five_nodes() -> Sample {
    let all = [0, 1, 2, 3, 4];
    Sample::from_cells(all.map(|omitted| {
        let kept: Vec<u16> = all.into_iter().filter(|&node| node != omitted).collect();
        [kept[0], kept[1], kept[2], kept[3]]
    }))
}

/// Cells that share nothing.
pub fn separate(cells: u16) -> Sample {
    Sample::from_cells((0..cells).map(|k| [0, 1, 2, 3].map(|place| 4 * k + place)))
}

/// About `keep` of every 100 cells, at least one; cells of an edge may have
/// come apart.
pub fn gathered(rng: &mut Rng, from: &Sample, keep: usize) -> Sample {
    let all = from.cell_list();
    let sure = rng.below(all.len());
    let mut kept = vec![all[sure]];
    kept.extend(all.into_iter().filter(|_| rng.below(100) < keep));
    Sample::from_cells(kept)
}

/// Drops cells until the cells of each edge hang together.
pub fn linked(sample: &Sample) -> Sample {
    let mut cells = sample.cell_list();
    loop {
        let stray = stray_cells(&cells);
        if stray.is_empty() {
            return Sample::from_cells(cells);
        }
        cells.retain(|cell| !stray.contains(cell));
    }
}

/// The cells that the first faulty edge does not link to its first cell.
fn stray_cells(cells: &[Nodes]) -> Vec<Nodes> {
    let mut by_edge: BTreeMap<[u16; 2], Vec<Nodes>> = BTreeMap::new();
    for cell in cells {
        for edge in cell_edges(cell) {
            by_edge.entry(edge).or_default().push(*cell);
        }
    }
    let mut strays = by_edge.into_values().map(unlinked);
    strays.find(|stray| !stray.is_empty()).unwrap_or_default()
}

/// Those of an edge's cells that cannot be reached from the first of them.
fn unlinked(mut rest: Vec<Nodes>) -> Vec<Nodes> {
    let mut reached = vec![rest.remove(0)];
    while let Some(cell) = reached.pop() {
        let touches = |other: &Nodes| shared(&cell, other) == 3;
        let (near, far): (Vec<_>, Vec<_>) = rest.into_iter().partition(touches);
        reached.extend(near);
        rest = far;
    }
    rest
}

/// How many nodes two cells have in common.
fn shared(one: &Nodes, other: &Nodes) -> usize {
    one.iter().filter(|node| other.contains(node)).count()
}

/// An accepted grid of a random shape, with at most about 400 cells; counts
/// are 0.
pub fn random_shape(rng: &mut Rng) -> Sample {
    let size = [(); 3].map(|()| rng.between(1, 4));
    let shape = match rng.below(8) {
        0 => box_of_five(size),
        1 => box_of_six(size),
        2 => open_fan(rng.between(1, 40) as u16),
        3 => closed_fan(rng.between(3, 40) as u16),
        4 => ring(rng.between(7, 40) as u16),
        5 => separate(rng.between(1, 20) as u16),
        6 => box_ring([3, rng.between(3, 4), rng.between(1, 3)], 1),
        _ => {
            let keep = rng.between(5, 95);
            linked(&gathered(rng, &box_of_six(size), keep))
        }
    };
    if rng.coin() {
        shape.renumbered(rng)
    } else {
        shape
    }
}

/// A whole grid and the cells at which it is cut into runs.
#[derive(Clone, Debug, PartialEq, Eq)]
pub struct Layered {
    pub whole: Sample,
    pub cuts: Vec<u16>,
}

impl Sample {
    /// The grid with random cuts.
    pub fn cut(self, rng: &mut Rng) -> Layered {
        let cuts = random_cuts(rng, self.cells.len() / 4);
        Layered { whole: self, cuts }
    }
}

impl Layered {
    /// The first cell of each run and, at the end, the number of cells.
    pub fn bounds(&self) -> Vec<usize> {
        let inner = self.cuts.iter().map(|&cut| usize::from(cut));
        let bounds = std::iter::once(0).chain(inner);
        bounds.chain([self.whole.cells.len() / 4]).collect()
    }

    /// A run by itself: its cells, and those edges of the whole that lie in one of
    /// them.
    pub fn run_alone(&self, run: usize) -> Sample {
        let bounds = self.bounds();
        let mut alone = Sample {
            cells: self.whole.cells[4 * bounds[run]..4 * bounds[run + 1]].to_vec(),
            edges: Vec::new(),
            counts: Vec::new(),
        };
        for (ends, &count) in self.whole.edges.chunks(2).zip(&self.whole.counts) {
            let has_it = |cell: &[u16]| ends.iter().all(|node| cell.contains(node));
            if alone.cells.chunks(4).any(has_it) {
                alone.edges.extend(ends);
                alone.counts.push(count);
            }
        }
        alone
    }
}

/// The cuts between all cells of a grid with so many.
pub fn all_cuts(cells: usize) -> Vec<u16> {
    (1..cells as u16).collect()
}

/// Some of the cuts between cells: none, one, all, or about so many of every
/// 100.
pub fn random_cuts(rng: &mut Rng, cells: usize) -> Vec<u16> {
    let all = all_cuts(cells);
    let share = rng.between(1, 99);
    match rng.below(8) {
        _ if all.is_empty() => all,
        0 => all,
        1 => Vec::new(),
        2 => vec![all[rng.below(all.len())]],
        _ => all.into_iter().filter(|_| rng.below(100) < share).collect(),
    }
}

/// Cuts with one fault or several.
pub fn broken_cuts(rng: &mut Rng, cells: usize) -> Vec<u16> {
    let mut cuts = random_cuts(rng, cells);
    loop {
        let at = rng.below(cuts.len() + 1);
        let beyond = cells as u16 + [0, 1, rng.below(60_000) as u16][rng.below(3)];
        match rng.below(5) {
            0 => cuts.insert(at, 0),
            1 => cuts.insert(at, beyond),
            2 => cuts.insert(at, u16::MAX - rng.below(2) as u16),
            3 if at < cuts.len() => cuts.insert(at, cuts[at]),
            4 if at + 1 < cuts.len() => cuts.swap(at, at + 1),
            _ => continue,
        }
        let within = cuts.iter().all(|&cut| cut > 0 && usize::from(cut) < cells);
        let fine = within && cuts.windows(2).all(|pair| pair[0] < pair[1]);
        if !fine && rng.coin() {
            return cuts;
        }
    }
}

/// Cells all the way round edge 0 1, first every second one and then, from the
/// only cut on, the others. With two pairs or more no run passes row 9 alone.
pub fn parted_fan(pairs: u16) -> Layered {
    let cells = 2 * pairs;
    let wedge = |k: u16| {
        let [here, next] = [2 + k, 2 + (k + 1) % cells];
        [0, 1, here.min(next), here.max(next)]
    };
    let order = (0..cells).step_by(2).chain((1..cells).step_by(2));
    Layered {
        whole: Sample {
            cells: order.flat_map(wedge).collect(),
            ..closed_fan(cells)
        },
        cuts: vec![pairs],
    }
}

/// A random accepted grid with random cuts. Often the cells of an edge are far
/// apart in the list, so that runs come that do not pass row 9 alone; some
/// grids have cells that are split.
pub fn layered(rng: &mut Rng) -> Layered {
    let size = [(); 3].map(|()| rng.between(2, 3));
    let circles = [(); 2].map(|()| Chain::Circle(2 * rng.between(2, 4)));
    let whole = match rng.below(7) {
        0 => {
            let pairs = rng.between(2, 12) as u16;
            let fan = parted_fan(pairs).whole.with_counts(rng, 0, 3);
            let cuts = vec![pairs];
            return Layered { whole: fan, cuts };
        }
        1 => spiral_join(rng, circles, 2, 12),
        2 => box_of_six(size).with_closed_spirals(rng, 12, 2),
        3 => sphere(size).with_closed_spirals(rng, 12, 1),
        4 => random_shape(rng).with_even_counts(rng, 3),
        5 => random_shape(rng).with_closed_counts(rng, 3),
        _ => random_shape(rng).with_counts(rng, 0, 5),
    };
    match rng.coin() {
        true => whole.reordered(rng).cut(rng),
        false => whole.cut(rng),
    }
}

/// A grid of 2,048 cells with random cuts.
pub fn deep(rng: &mut Rng) -> Layered {
    let most = MAX_CELLS as u16;
    let whole = match rng.below(4) {
        0 => row_of(most).with_counts(rng, 0, 9),
        1 => ring(most).with_even_counts(rng, 4),
        2 => closed_fan(most).with_closed_counts(rng, 4),
        _ => spiral_join(rng, [32, 64].map(Chain::Circle), 1, 9),
    };
    match rng.coin() {
        true => whole.reordered(rng).cut(rng),
        false => whole.cut(rng),
    }
}

/// The grid with a fault of the given row of the grid check and none of a row
/// that runs earlier; none if the grid has no room for it.
pub fn broken(rng: &mut Rng, sample: &Sample, row: u8) -> Option<Sample> {
    let mut grid = sample.clone();
    match row {
        1 => break_cell_length(rng, &mut grid),
        2 => break_edge_length(rng, &mut grid),
        3 => break_nodes(rng, &mut grid),
        4 => repeat_cell(rng, &mut grid),
        5 => crowd_face(rng, &mut grid)?,
        6 => break_edge_order(rng, &mut grid),
        7 => drop_edge(rng, &mut grid),
        8 => add_stray_edge(rng, &mut grid),
        9 => part_star(rng, &mut grid)?,
        10 => flood(rng, &mut grid)?,
        _ => raise_count(rng, &mut grid)?,
    }
    Some(grid)
}

fn break_cell_length(rng: &mut Rng, grid: &mut Sample) {
    match rng.below(3) {
        0 => grid.cells.extend(0..rng.between(1, 3) as u16),
        1 => grid.cells.clear(),
        _ => grid.cells.resize(4 * MAX_CELLS + 4, 0),
    }
}

fn break_edge_length(rng: &mut Rng, grid: &mut Sample) {
    match rng.below(3) {
        0 => grid.edges.push(9),
        1 => grid.counts.push(9),
        _ => grid.counts.truncate(grid.counts.len() - 1),
    }
}

fn break_nodes(rng: &mut Rng, grid: &mut Sample) {
    let first = 4 * rng.below(grid.cells.len() / 4);
    let place = rng.below(3);
    match rng.below(3) {
        0 => grid.cells.swap(first + place, first + place + 1),
        1 => grid.cells[first + place] = grid.cells[first + place + 1],
        _ => grid.cells[first + 3] = rng.between(4096, 65_535) as u16,
    }
}

fn repeat_cell(rng: &mut Rng, grid: &mut Sample) {
    let cells = grid.cell_list();
    let copied = rng.below(cells.len());
    if cells.len() == MAX_CELLS {
        let target = 4 * ((copied + 1) % MAX_CELLS);
        grid.cells[target..target + 4].copy_from_slice(&cells[copied]);
    } else {
        insert_cell(rng, grid, cells[copied]);
    }
}

/// Puts a cell somewhere in the list and leaves the edges as they are.
fn insert_cell(rng: &mut Rng, grid: &mut Sample, mut cell: Nodes) {
    cell.sort_unstable();
    let at = 4 * rng.below(grid.cells.len() / 4 + 1);
    grid.cells.splice(at..at, cell);
}

/// Nodes that no cell has, in random order.
fn fresh_nodes(rng: &mut Rng, grid: &Sample) -> Vec<u16> {
    let used: BTreeSet<u16> = grid.cells.iter().copied().collect();
    let mut fresh: Vec<u16> = (0..NODE_LIMIT).filter(|n| !used.contains(n)).collect();
    rng.shuffle(&mut fresh);
    fresh
}

fn crowd_face(rng: &mut Rng, grid: &mut Sample) -> Option<()> {
    let cells = grid.cell_list();
    let tips = fresh_nodes(rng, grid);
    if tips.len() < 2 || cells.len() + 2 > MAX_CELLS {
        return None;
    }
    let [a, b, c] = cell_faces(&cells[rng.below(cells.len())])[rng.below(4)];
    for tip in [tips[0], tips[1]] {
        insert_cell(rng, grid, [a, b, c, tip]);
    }
    Some(())
}

fn break_edge_order(rng: &mut Rng, grid: &mut Sample) {
    let edge = rng.below(grid.counts.len() - 1);
    match rng.below(4) {
        0 => grid.edges.swap(2 * edge, 2 * edge + 1),
        1 => grid.edges[2 * edge + 1] = grid.edges[2 * edge],
        2 => grid.edges[2 * edge..2 * edge + 4].rotate_left(2),
        _ => {
            let ends = [grid.edges[2 * edge], grid.edges[2 * edge + 1]];
            grid.edges.splice(2 * edge..2 * edge, ends);
            grid.counts.insert(edge, 1);
        }
    }
}

fn drop_edge(rng: &mut Rng, grid: &mut Sample) {
    let edge = rng.below(grid.counts.len());
    grid.edges.drain(2 * edge..2 * edge + 2);
    grid.counts.remove(edge);
}

/// Puts an edge where its nodes belong, unless it is listed already.
fn insert_edge(grid: &mut Sample, ends: [u16; 2], count: u16) -> bool {
    match grid.edge_list().binary_search(&ends) {
        Ok(_) => false,
        Err(at) => {
            grid.edges.splice(2 * at..2 * at, ends);
            grid.counts.insert(at, count);
            true
        }
    }
}

fn add_stray_edge(rng: &mut Rng, grid: &mut Sample) {
    let top = if rng.coin() { 65_535 } else { 4_095 };
    loop {
        let v = rng.between(1, top);
        let u = rng.below(v);
        if insert_edge(grid, [u as u16, v as u16], 1) {
            return;
        }
    }
}

/// Adds a cell that has only an edge in common with the grid.
fn part_star(rng: &mut Rng, grid: &mut Sample) -> Option<()> {
    let fresh = fresh_nodes(rng, grid);
    if fresh.len() < 2 || grid.cells.len() == 4 * MAX_CELLS {
        return None;
    }
    let edges = grid.edge_list();
    let [u, v] = edges[rng.below(edges.len())];
    let mut cell = [u, v, fresh[0], fresh[1]];
    cell.sort_unstable();
    insert_cell(rng, grid, cell);
    for ends in cell_edges(&cell) {
        insert_edge(grid, ends, 1);
    }
    Some(())
}

/// A count over 4,095, at the limit or beyond.
fn raise_count(rng: &mut Rng, grid: &mut Sample) -> Option<()> {
    let lowest = usize::from(MAX_COUNT) + 1;
    let highest = [lowest, 2 * lowest, usize::from(u16::MAX)][rng.below(3)];
    let edge = rng.below(grid.counts.len());
    *grid.counts.get_mut(edge)? = rng.between(lowest, highest) as u16;
    Some(())
}

/// The same large count everywhere, and separate cells until that is too much.
fn flood(rng: &mut Rng, grid: &mut Sample) -> Option<()> {
    let mut fresh = fresh_nodes(rng, grid);
    fresh.sort_unstable();
    let mut cells = grid.cell_list();
    let count = if rng.coin() { 255 } else { MAX_COUNT };
    let enough = MAX_CROSSINGS as usize / usize::from(count) + 1;
    let missing = (enough.saturating_sub(grid.counts.len()) + 5) / 6;
    if cells.len() + missing > MAX_CELLS || fresh.len() < 4 * missing {
        return None;
    }
    let added = fresh.chunks_exact(4).take(missing);
    cells.extend(added.map(|c| [c[0], c[1], c[2], c[3]]));
    *grid = Sample::from_cells(cells);
    grid.counts.fill(count);
    Some(())
}
