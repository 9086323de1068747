//! The numbers that a call has to answer, by the second implementation.

use reference::booking;
use reference::bundle::{self, Sizes};
use reference::cases;
use reference::cell::{CellWalker, LoopType};
use reference::face::{self, How, Join, Why};
use reference::flat::{self, Tracer};
use reference::gen::Sample;
use reference::grid::{self, Lists};
use reference::layers;
use reference::mesh::{MeshAnswer, Mesher};
use reference::nearest::{self, Nearest};
use reference::places::{self, Place};
use reference::shading;
use reference::sheets::FlatSample;
use reference::Refusal;

use crate::placing::Placing;

/// 0 and the values of a result, or a refusal's number and place.
fn numbers<T>(answer: Result<T, Refusal>, values: impl FnOnce(T) -> Vec<u64>) -> Vec<u64> {
    match answer {
        Ok(result) => [vec![0], values(result)].concat(),
        Err(refusal) => vec![u64::from(refusal.number), refusal.place],
    }
}

/// 0, the partner's edge and index, and 0 and the corner or 1 along the edge; 1
/// unjoined, and 0 left or 1 skipped; 2 no such crossing.
pub fn face(counts: [u16; 3], edge: u32, index: u32) -> Vec<u64> {
    joined(face::join(counts.map(u32::from), edge, index))
}

fn joined(answer: Join) -> Vec<u64> {
    match answer {
        Join::Joined { edge, index, how } => {
            let how = match how {
                How::Round(corner) => vec![0, u64::from(corner)],
                How::Along => vec![1],
            };
            [vec![0, u64::from(edge), u64::from(index)], how].concat()
        }
        Join::Unjoined(Why::Left) => vec![1, 0],
        Join::Unjoined(Why::Skipped) => vec![1, 1],
        Join::NoCrossing => vec![2],
    }
}

/// 0, the loops and the triangles; 0 alone for a cell outside the table.
pub fn case(walker: &mut CellWalker, counts: [u16; 6]) -> Vec<u64> {
    match cases::case(walker, counts) {
        Some(case) => vec![0, u64::from(case.loops), u64::from(case.triangles)],
        None => vec![0],
    }
}

/// The same for a triangle of a flat grid.
pub fn flat_face(counts: [u16; 3], edge: u32, index: u32) -> Vec<u64> {
    joined(flat::join(counts.map(u32::from), edge, index))
}

/// 0 and the number of crossings, or a refusal.
pub fn flat_check(sample: &FlatSample) -> Vec<u64> {
    numbers(flat::check(&sample.sheet()), |crossings| {
        vec![u64::from(crossings)]
    })
}

/// 0 and the number of words, or a refusal; fills the area.
pub fn flat_chains(tracer: &mut Tracer, sample: &FlatSample, area: &mut [u32]) -> Vec<u64> {
    numbers(tracer.chains(&sample.sheet(), area), |words| {
        vec![u64::from(words)]
    })
}

/// 0, the corner triangles, the two numbers left and the triangles; 0 alone for
/// a cell that is to be walked.
pub fn book(walker: &mut CellWalker, counts: [u16; 6]) -> Vec<u64> {
    let values = match booking::book(walker, counts) {
        Some(booked) => {
            let [larger, smaller] = booked.left;
            let [corners, larger, smaller] =
                [booked.corner_triangles, larger, smaller].map(u64::from);
            vec![corners, larger, smaller, booked.triangles]
        }
        None => vec![],
    };
    [vec![0], values].concat()
}

/// 0 and the number of crossings, or a refusal.
pub fn check(grid: Lists) -> Vec<u64> {
    numbers(grid::check(grid), |crossings| vec![u64::from(crossings)])
}

/// 0 and the number of crossings, or a refusal; fills the starts.
pub fn open(grid: &Sample, starts: &mut [u32]) -> Vec<u64> {
    let answer = grid::open(&grid.cells, &grid.edges, &grid.counts, starts);
    numbers(answer, |crossings| vec![u64::from(crossings)])
}

/// 0 and the number of crossings, or a refusal; sets the count and the starts.
pub fn set_count(grid: &mut Sample, starts: &mut [u32], edge: usize, count: u16) -> Vec<u64> {
    let (cells, edges, counts) = (&grid.cells, &grid.edges, &mut grid.counts);
    let answer = grid::set_count(cells, edges, counts, starts, edge, count);
    numbers(answer, |crossings| vec![u64::from(crossings)])
}

/// 0, the number of triangles and the number of splits, or a refusal; fills the
/// area.
pub fn mesh(mesher: &mut Mesher, grid: Lists, area: &mut [u32]) -> Vec<u64> {
    numbers(mesher.mesh(grid, area), meshed)
}

/// The numbers of triangles and of splits.
fn meshed(told: MeshAnswer) -> Vec<u64> {
    vec![told.triangles, told.splits]
}

/// As `mesh`, for one run of the grid.
pub fn mesh_run(grid: Lists, cuts: &[u16], run: u64, area: &mut [u32]) -> Vec<u64> {
    numbers(layers::mesh_run(grid, cuts, run, area), meshed)
}

/// As `mesh`, for all runs of the grid, joined.
pub fn mesh_joined(grid: Lists, cuts: &[u16], area: &mut [u32]) -> Vec<u64> {
    numbers(layers::mesh_joined(grid, cuts, area), meshed)
}

/// 0, p0, the length, 1 for normal or 0, the type and its node; 0 alone for no
/// such loop; or a refusal.
pub fn loops(mesher: &mut Mesher, grid: Lists, [cell, index]: [usize; 2]) -> Vec<u64> {
    let answer = mesher.loop_of_cell(grid, cell as u64, index as u64);
    numbers(answer, |found| match found {
        None => vec![],
        Some(told) => {
            let normal = u32::from(told.normal);
            let mut values = vec![told.p0, told.length, normal, told.parity_sum];
            match told.kind {
                LoopType::Contractible => {}
                LoopType::Corner(node) | LoopType::Diagonal(node) => values.push(node),
            }
            values.into_iter().map(u64::from).collect()
        }
    })
}

/// 0 and the number of points, or a refusal; fills the area, which has the bits
/// of its numbers.
pub fn places(placing: &Placing, starts: &[u32], area: &mut [u64]) -> Vec<u64> {
    let Placing {
        grid,
        nodes,
        fractions,
    } = placing;
    let mut numbers_in: Vec<f64> = area.iter().copied().map(f64::from_bits).collect();
    let answer = places::places(grid.lists(starts), nodes, fractions, &mut numbers_in);
    for (bits, number) in area.iter_mut().zip(numbers_in) {
        *bits = number.to_bits();
    }
    numbers(answer, |points| vec![points])
}

/// 0, or a refusal; fills the area.
pub fn shading(grid: Lists, area: &mut [u8]) -> Vec<u64> {
    numbers(shading::shade(grid, area), |()| vec![])
}

/// 0, the kind and the next start, or a refusal.
pub fn record(bytes: &[u8], start: usize) -> Vec<u64> {
    let answer = bundle::record(bytes, start);
    numbers(answer, |(kind, next)| vec![u64::from(kind), next as u64])
}

/// Where the body starts in the bytes, and its length.
pub fn record_body(bytes: &[u8], start: usize) -> Vec<u64> {
    let body = bundle::record_body(bytes, start);
    let at = body.as_ptr() as usize - bytes.as_ptr() as usize;
    vec![at as u64, body.len() as u64]
}

/// 0 and the numbers of cells and edges, or a refusal; fills the lists.
pub fn bundle_read(
    bytes: &[u8],
    nodes: &mut [u16],
    ends: &mut [u16],
    counts: &mut [u16],
) -> Vec<u64> {
    let answer = bundle::read(bytes, nodes, ends, counts);
    numbers(answer, |Sizes { cells, edges }| {
        vec![cells as u64, edges as u64]
    })
}

/// 0 and the number of bytes written, or a refusal; fills the area.
pub fn bundle_write(nodes: &[u16], ends: &[u16], counts: &[u16], area: &mut [u8]) -> Vec<u64> {
    let answer = bundle::write(nodes, ends, counts, area);
    numbers(answer, |bytes| vec![bytes as u64])
}

/// 0, the point's number and the bits of its squared distance; 0 alone for no
/// point; or a refusal.
pub fn nearest(points: &[f64], [x, y, z]: [f64; 3]) -> Vec<u64> {
    let answer = nearest::nearest(points, Place { x, y, z });
    numbers(answer, |found| match found {
        Nearest::NoPoint => vec![],
        Nearest::At { number, squared } => vec![number as u64, squared.to_bits()],
    })
}

/// The host's three numbers: the refusal or 0, the cells, the edges.
pub fn host(bytes: &[u8]) -> [u64; 3] {
    [
        bundle::host_refusal(bytes),
        bundle::host_cells(bytes),
        bundle::host_edges(bytes),
    ]
    .map(u64::from)
}
