//! The linked calls of bindings/, on the second implementation's lists.

use citternblaze_calls::host;
use citternblaze_calls::library::{of_bits, GridLists, LINKED};
use reference::grid::Lists;

/// The lists of a grid as the library takes them.
pub fn lists(grid: Lists) -> GridLists {
    GridLists {
        cells: grid.cells,
        edges: grid.edges,
        counts: grid.counts,
        starts: grid.starts,
    }
}

pub fn face(counts: [u16; 3], edge: u32, index: u32, answer: &mut [u64]) -> usize {
    LINKED.face(counts, edge, index, answer)
}

pub fn case(counts: [u16; 6], answer: &mut [u64]) -> usize {
    LINKED.case(counts, answer)
}

pub fn book(counts: [u16; 6], answer: &mut [u64]) -> usize {
    LINKED.book(counts, answer)
}

pub fn check(grid: Lists, answer: &mut [u64]) -> usize {
    LINKED.check(lists(grid), answer)
}

pub fn open(
    cells: &[u16],
    edges: &[u16],
    counts: &[u16],
    starts: &mut [u32],
    answer: &mut [u64],
) -> usize {
    LINKED.open(cells, edges, counts, starts, answer)
}

pub fn set_count(
    grid: (&[u16], &[u16]),
    counts: &mut [u16],
    starts: &mut [u32],
    set: (usize, u16),
    answer: &mut [u64],
) -> usize {
    LINKED.set_count(grid, counts, starts, set, answer)
}

pub fn mesh(grid: Lists, area: &mut [u32], answer: &mut [u64]) -> usize {
    LINKED.mesh(lists(grid), area, answer)
}

pub fn mesh_run(
    grid: Lists,
    cuts: &[u16],
    run: usize,
    area: &mut [u32],
    answer: &mut [u64],
) -> usize {
    LINKED.mesh_run(lists(grid), cuts, run, area, answer)
}

pub fn mesh_joined(grid: Lists, cuts: &[u16], area: &mut [u32], answer: &mut [u64]) -> usize {
    LINKED.mesh_joined(lists(grid), cuts, area, answer)
}

pub fn loops(grid: Lists, ask: [usize; 2], answer: &mut [u64]) -> usize {
    LINKED.loops(lists(grid), ask, answer)
}

/// The area has the bits of its numbers, so that each of them is told apart.
pub fn places(
    grid: Lists,
    nodes: &[f64],
    fractions: &[f64],
    area: &mut [u64],
    answer: &mut [u64],
) -> usize {
    LINKED.places(lists(grid), nodes, fractions, of_bits(area), answer)
}

pub fn shading(grid: Lists, area: &mut [u8], answer: &mut [u64]) -> usize {
    LINKED.shading(lists(grid), area, answer)
}

pub fn flat_face(counts: [u16; 3], edge: u32, index: u32, answer: &mut [u64]) -> usize {
    LINKED.flat_face(counts, edge, index, answer)
}

pub fn flat_check(triangles: &[u16], edges: &[u16], counts: &[u16], answer: &mut [u64]) -> usize {
    LINKED.flat_check(triangles, edges, counts, answer)
}

pub fn flat_chains(
    triangles: &[u16],
    edges: &[u16],
    counts: &[u16],
    area: &mut [u32],
    answer: &mut [u64],
) -> usize {
    LINKED.flat_chains(triangles, edges, counts, area, answer)
}

pub fn record(bytes: &[u8], start: usize, answer: &mut [u64]) -> usize {
    LINKED.record(bytes, start, answer)
}

pub fn record_body(bytes: &[u8], start: usize, answer: &mut [u64]) -> usize {
    LINKED.record_body(bytes, start, answer)
}

pub fn bundle_read(
    bytes: &[u8],
    nodes: &mut [u16],
    ends: &mut [u16],
    counts: &mut [u16],
    answer: &mut [u64],
) -> usize {
    LINKED.bundle_read(bytes, nodes, ends, counts, answer)
}

pub fn bundle_write(
    nodes: &[u16],
    ends: &[u16],
    counts: &[u16],
    area: &mut [u8],
    answer: &mut [u64],
) -> usize {
    LINKED.bundle_write(nodes, ends, counts, area, answer)
}

pub fn nearest(points: &[f64], query: [f64; 3], answer: &mut [u64]) -> usize {
    LINKED.nearest(points, query, answer)
}

/// The host's three numbers: the refusal or 0, the cells, the edges.
pub fn host(bytes: &[u8]) -> [u64; 3] {
    [
        u64::from(host::bundle_refusal(bytes)),
        host::bundle_cells(bytes),
        host::bundle_edges(bytes),
    ]
}
