//! Random grids for the comparison of every call that takes one.

use std::collections::{BTreeMap, BTreeSet};

use reference::gen::{
    any_chain, box_of_five, box_of_six, box_ring, broken, closed_fan, cone, five_nodes, gathered,
    linked, open_fan, random_shape, ring, separate, sphere, spiral_cell, spiral_join, Chain, Rng,
    Sample,
};
use reference::grid::{MAX_CELLS, MAX_COUNT, NODE_LIMIT, ROWS};

/// How many calls were answered with each number: 0, or that of a refusal.
pub type Numbers = [u64; 23];

/// How many were refused by each row of the grid check, in the order in which the
/// rows run: 1 to 6, 18, 7 to 10.
pub fn by_rows(numbers: &Numbers) -> [u64; ROWS.len()] {
    ROWS.map(|row| numbers[usize::from(row)])
}

/// Whether some were accepted, and some refused by each row of the grid check.
pub fn every_row(numbers: &Numbers) -> bool {
    numbers[0] > 0 && by_rows(numbers).iter().all(|&refused| refused > 0)
}

/// The lowest number of crossings of a full grid, and the first one that a
/// refusal could name.
const FULL: [usize; 2] = [60_001, 66_000];

/// One of each kind of shape, from the smallest on; counts are 0.
pub fn shapes(rng: &mut Rng) -> Vec<Sample> {
    let mut shapes = vec![
        box_of_five([1, 1, 1]),
        box_of_five([3, 4, 2]),
        box_of_six([1, 1, 1]),
        box_of_six([2, 3, 4]),
        box_ring([3, 3, 1], 1),
        box_ring([5, 4, 2], 1),
        open_fan(1),
        open_fan(30),
        closed_fan(3),
        closed_fan(30),
        ring(7),
        ring(30),
        cone([1, 1, 1]),
        cone([3, 2, 2]),
        sphere([1, 1, 1]),
        sphere([2, 3, 2]),
        separate(1),
        separate(20),
    ];
    shapes.push(linked(&gathered(rng, &box_of_six([3, 3, 3]), 40)));
    let again: Vec<Sample> = shapes.iter().map(|shape| shape.renumbered(rng)).collect();
    shapes.extend(again);
    shapes
}

/// A shape of more than 1,500 cells.
fn large_shape(rng: &mut Rng) -> Sample {
    let many = rng.between(1_501, MAX_CELLS) as u16;
    let shape = match rng.below(7) {
        0 => open_fan(many),
        1 => closed_fan(many),
        2 => ring(many),
        3 => box_of_five([7, 7, rng.between(7, 8)]),
        4 => box_of_six([5, 6, rng.between(9, 11)]),
        5 => cone([13, 13, rng.between(9, 13)]),
        _ => box_of_six([5, 6, 11]).reordered(rng),
    };
    if rng.coin() {
        shape.renumbered(rng)
    } else {
        shape
    }
}

/// Counts of a random kind: few, some, any of a byte, even on each face, 0 on the
/// outer edges, those of level sets, or, less often, large ones.
pub fn with_random_counts(rng: &mut Rng, shape: Sample) -> Sample {
    match rng.below(28) {
        0..=3 => shape.with_counts(rng, 0, 3),
        4..=7 => shape.with_counts(rng, 0, 12),
        8..=11 => shape.with_counts(rng, 0, 255),
        12..=15 => shape.with_even_counts(rng, 3),
        16..=19 => shape.with_closed_counts(rng, 3),
        20..=23 => {
            let pairs = if shape.counts.len() < 100 { 100 } else { 10 };
            shape.with_closed_counts(rng, pairs)
        }
        24..=26 => shape.with_level_sets(rng, 6, 2),
        _ => with_large_counts(rng, shape),
    }
}

/// A count above 255, or about that, which an edge may have.
fn large_count(rng: &mut Rng) -> u16 {
    let most = usize::from(MAX_COUNT);
    let count = match rng.below(8) {
        0 => most,
        1 => rng.between(250, 260),
        _ => rng.between(256, most),
    };
    count as u16
}

/// Few crossings on most edges, and large counts on some.
fn with_large_counts(rng: &mut Rng, shape: Sample) -> Sample {
    let mut grid = shape.with_counts(rng, 0, 3);
    for _ in 0..rng.between(1, 12) {
        let edge = rng.below(grid.counts.len());
        grid.counts[edge] = large_count(rng);
    }
    grid
}

/// Counts with this sum, or as near to it as they come, some of them moved
/// from one edge to another.
pub fn with_crossings(rng: &mut Rng, mut grid: Sample, sum: usize) -> Sample {
    let edges = grid.counts.len();
    for (edge, count) in grid.counts.iter_mut().enumerate() {
        let share = sum / edges + usize::from(edge < sum % edges);
        *count = share.min(usize::from(MAX_COUNT)) as u16;
    }
    for _ in 0..edges {
        let [from, to] = [rng.below(edges), rng.below(edges)];
        let most = grid.counts[from].min(MAX_COUNT - grid.counts[to]);
        let moved = rng.between(0, usize::from(most)) as u16;
        grid.counts[from] -= moved;
        grid.counts[to] += moved;
    }
    grid
}

/// A grid with about as many crossings as one may have, or a few too many.
fn full_grid(rng: &mut Rng) -> Sample {
    let shape = match rng.below(5) {
        0 => box_of_six([3, 4, 4]),
        1 => closed_fan(rng.between(200, 900) as u16),
        2 => separate(rng.between(3, 43) as u16),
        3 => separate(rng.between(44, 400) as u16),
        _ => large_shape(rng),
    };
    let sum = match rng.below(4) {
        0 => rng.between(65_534, 65_537),
        _ => rng.between(FULL[0], FULL[1]),
    };
    with_crossings(rng, shape, sum)
}

/// A grid of a random shape with random counts, most of them accepted.
pub fn random_grid(rng: &mut Rng) -> Sample {
    match rng.below(400) {
        0 => full_grid(rng),
        1 | 2 => {
            let shape = large_shape(rng);
            with_random_counts(rng, shape)
        }
        3 => {
            let shape = random_shape(rng);
            let grid = with_large_counts(rng, shape);
            broken(rng, &grid, 18).unwrap_or(grid)
        }
        _ => {
            let shape = random_shape(rng);
            with_random_counts(rng, shape)
        }
    }
}

/// A shape of at most about 400 cells, most of which have an edge that is not
/// outer.
fn shape_with_inside(rng: &mut Rng) -> Sample {
    let size = [(); 3].map(|()| rng.between(1, 3));
    let shape = match rng.below(8) {
        0 => box_of_six(size),
        1 => box_of_five(size.map(|cubes| cubes + 1)),
        2 => closed_fan(rng.between(3, 40) as u16),
        3 => cone(size),
        4 => sphere(size),
        5 => box_ring([3, rng.between(3, 4), rng.between(2, 3)], 1),
        6 => linked(&gathered(rng, &sphere(size), 90)),
        _ => sphere([1, 1, 1]),
    };
    if rng.coin() {
        shape.renumbered(rng)
    } else {
        shape
    }
}

/// A grid that meets the premises of the rings: even sums on all faces, and 0
/// on every outer edge.
pub fn closed_grid(rng: &mut Rng) -> Sample {
    let shape = match rng.below(500) {
        0 => large_shape(rng),
        _ => shape_with_inside(rng),
    };
    let pairs = match (shape.counts.len(), rng.below(160)) {
        (edges @ 1..=60, 0) => (60_000 / edges).min(2_047),
        (1..=60, 1..=9) => 127,
        (_, 10..=19) => 12,
        _ => rng.between(0, 2),
    };
    let grid = shape.with_closed_counts(rng, pairs);
    if rng.coin() {
        grid.reordered(rng)
    } else {
        grid
    }
}

/// One cell with random nodes and counts up to `most`.
pub fn single_cell(rng: &mut Rng, most: u16) -> Sample {
    let top = rng.between(3, 4_095);
    let mut nodes: Vec<u16> = Vec::new();
    while nodes.len() < 4 {
        let node = rng.between(0, top) as u16;
        if !nodes.contains(&node) {
            nodes.push(node);
        }
    }
    Sample::from_cells([[nodes[0], nodes[1], nodes[2], nodes[3]]]).with_counts(rng, 0, most)
}

/// One cell with even sums and no long edge on its faces: some triangles at each
/// node, and between them films that go round the cell, the longest of them
/// through some thousand crossings.
pub fn winding_cell(rng: &mut Rng) -> Sample {
    let corners = [(); 4].map(|()| rng.between(0, 500));
    let [x, y] = [(); 2].map(|()| rng.between(0, 1_500));
    let mut left = [x + y, x, y];
    rng.shuffle(&mut left);
    cell_keeping(corners, left)
}

/// One cell with one to `most` loops of length 8, one inside the other, and some
/// triangles at each node.
pub fn nested_cell(rng: &mut Rng, most: usize) -> Sample {
    let corners = [(); 4].map(|()| rng.between(0, most));
    let many = rng.between(1, most);
    let mut left = [2 * many, many, many];
    rng.shuffle(&mut left);
    cell_keeping(corners, left)
}

/// One cell that is split, with any nodes; up to `most` beside the corners.
pub fn spiral(rng: &mut Rng, most: usize) -> Sample {
    let mut grid = single_cell(rng, 0);
    grid.counts = spiral_cell(rng, most / 4, most).to_vec();
    grid
}

/// A grid with cells that are split: one cell, alone or with a neighbour, cells
/// that share nothing, few among others, rows and circles of them, or a closed grid.
pub fn spirals(rng: &mut Rng) -> Sample {
    let most = [6, 8, 12, 20, 40][rng.below(5)];
    match rng.below(7) {
        0 => spiral(rng, 4 * most),
        1 => {
            let cell = spiral(rng, most);
            match cell.cells[3] {
                node if node < NODE_LIMIT - 1 => with_neighbour(rng, &cell, most),
                _ => cell,
            }
        }
        2 => {
            let cells: Vec<Sample> = (0..rng.between(2, 6)).map(|_| spiral(rng, most)).collect();
            beside(&cells).reordered(rng)
        }
        3 => {
            let chains = [(); 2].map(|()| any_chain(rng));
            spiral_join(rng, chains, 3, most).reordered(rng)
        }
        4 => among_others(rng, most),
        _ => closed_spirals(rng, most),
    }
}

/// Cells that share nothing: before each that is split up to 20 with any counts,
/// and in one grid of four a count above 255.
fn among_others(rng: &mut Rng, most: usize) -> Sample {
    let cells = rng.between(2, 60);
    let mut grid = separate(cells as u16);
    let mut before = rng.below(cells.min(21));
    for counts in grid.counts.chunks_mut(6) {
        if before == 0 {
            counts.copy_from_slice(&spiral_cell(rng, 3, most));
            before = rng.below(21);
            continue;
        }
        before -= 1;
        for count in counts {
            *count = rng.between(0, most) as u16;
        }
    }
    if rng.below(4) == 0 {
        grid.counts[rng.below(6)] = rng.between(256, 600) as u16;
    }
    grid
}

/// A grid that meets the premises of the rings and has cells that are split: two
/// circles, all of whose cells are, or some cells of another grid.
fn closed_spirals(rng: &mut Rng, most: usize) -> Sample {
    let pairs = rng.between(0, 4);
    let shape = match rng.below(6) {
        0 => five_nodes(),
        1 => sphere([1, 1, rng.between(1, 2)]),
        2 => box_of_six([3; 3]),
        3 => box_of_five([4, 3, 3]),
        _ => {
            let circles = [(); 2].map(|()| Chain::Circle(2 * rng.between(2, 3)));
            return spiral_join(rng, circles, 3, most).reordered(rng);
        }
    };
    let shape = shape.renumbered(rng);
    shape.with_closed_spirals(rng, most, pairs).reordered(rng)
}

/// The grid with a cell more, on one of the faces of its first cell; the counts of
/// the new edges are up to `most`.
pub fn with_neighbour(rng: &mut Rng, grid: &Sample, most: usize) -> Sample {
    let mut cells = grid.cell_list();
    let highest = grid.cells.iter().max().map_or(0, |&node| node);
    let mut cell = cells[0];
    cell[rng.below(4)] = highest + 1;
    cells.push(cell);
    let counts: BTreeMap<[u16; 2], u16> = grid
        .edge_list()
        .into_iter()
        .zip(grid.counts.clone())
        .collect();
    let mut larger = Sample::from_cells(cells);
    let edges = larger.edge_list();
    larger.counts = edges
        .iter()
        .map(|ends| match counts.get(ends) {
            Some(&count) => count,
            None => rng.between(0, most) as u16,
        })
        .collect();
    larger
}

/// One cell with so many triangles at each node, and so many crossings left on
/// each of a pair of opposite edges: 01 and 23, 02 and 13, 03 and 12.
fn cell_keeping(corners: [usize; 4], left: [usize; 3]) -> Sample {
    let ends = [[0, 1], [0, 2], [0, 3], [1, 2], [1, 3], [2, 3]];
    let mut grid = Sample::from_cells([[0, 1, 2, 3]]);
    for (edge, [u, v]) in ends.into_iter().enumerate() {
        let pair = edge.min(5 - edge);
        grid.counts[edge] = (left[pair] + corners[u] + corners[v]) as u16;
    }
    grid
}

/// The grid with its nodes named anew, and their counts with its edges.
fn renamed(grid: &Sample, name: impl Fn(u16) -> u16) -> Sample {
    let sorted = |[u, v]: [u16; 2]| [u.min(v), u.max(v)];
    let ends = grid.edge_list().into_iter().map(|ends| ends.map(&name));
    let counts: BTreeMap<[u16; 2], u16> = ends.map(sorted).zip(grid.counts.clone()).collect();
    let cells = grid.cell_list().into_iter().map(|nodes| nodes.map(&name));
    let mut named = Sample::from_cells(cells);
    named.counts = named.edge_list().iter().map(|ends| counts[ends]).collect();
    named
}

/// The grid with its nodes anywhere, some of them at 0 and at 4,095, and its
/// cells in any order.
pub fn dealt(rng: &mut Rng, grid: &Sample) -> Sample {
    let mut names: Vec<u16> = (0..NODE_LIMIT).collect();
    rng.shuffle(&mut names);
    let nodes = grid
        .cells
        .iter()
        .max()
        .map_or(1, |&node| usize::from(node) + 1);
    for end in [0, NODE_LIMIT - 1] {
        let from = names.iter().position(|&name| name == end);
        names.swap(rng.below(nodes), from.expect("every node has a name"));
    }
    renamed(grid, |node| names[usize::from(node)]).reordered(rng)
}

/// All of these grids, which share no node: the nodes of each in its order,
/// after those of the one before.
pub fn beside(grids: &[Sample]) -> Sample {
    let mut all = Sample::from_cells([]);
    let mut first = 0;
    for grid in grids {
        let nodes: BTreeSet<u16> = grid.cells.iter().copied().collect();
        let names: BTreeMap<u16, u16> = nodes.into_iter().zip(first..).collect();
        let moved = renamed(grid, |node| names[&node]);
        first += names.len() as u16;
        all.cells.extend(moved.cells);
        all.edges.extend(moved.edges);
        all.counts.extend(moved.counts);
    }
    all
}

/// A ring of seven or more cells with an even sum on every face, whose nodes
/// nevertheless cannot take sides: edges across one place are odd where the
/// sides of their ends agree, and even where they differ.
pub fn twisted(rng: &mut Rng, cells: u16, pairs: usize) -> Sample {
    let mut grid = ring(cells).with_even_counts(rng, pairs);
    for ([u, v], count) in grid.edge_list().into_iter().zip(&mut grid.counts) {
        *count += u16::from(v - u > 3);
    }
    grid
}

/// The grid with faults of one to three random rows.
pub fn with_faults(rng: &mut Rng, mut grid: Sample) -> Sample {
    let faults = [1, 1, 2, 3][rng.below(4)];
    // later rows first: a fault of an early row can leave no room for them
    let mut rows: Vec<usize> = (0..faults).map(|_| rng.below(ROWS.len())).collect();
    rows.sort_unstable();
    for row in rows.into_iter().rev() {
        if let Some(faulty) = broken(rng, &grid, ROWS[row]) {
            grid = faulty;
        }
    }
    grid
}
