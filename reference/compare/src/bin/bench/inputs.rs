//! What is measured, with names: grids as a scan gives them, others, sheets, points.

use std::iter;

use compare::colliding::any_cells;
use compare::grids::dealt;
use compare::placing::{placing, Kind, Placing};
use compare::surfaces::{stack, surfaces};
use reference::gen::{
    box_of_six, closed_fan, cone, joined, row_of, separate, spiral_cell, Chain, Layered, Rng,
    Sample,
};
use reference::grid::MAX_CELLS;
use reference::places::FURTHEST;
use reference::sheets::{disc, squares, strip, FlatSample};

use crate::on_grids::triangles;
use crate::on_lists::Asked;

pub type Named<T> = (String, T);

/// The grid that the summary is of.
pub const TYPICAL: &str = "36 levels";

/// A box of this many cells.
pub fn part_of_box(cells: usize) -> Sample {
    let mut part = box_of_six([6, 3, 19]).cell_list();
    part.truncate(cells);
    Sample::from_cells(part)
}

/// Grids with each crossing's place, as a scan gives them.
pub fn scans() -> Vec<Named<Placing>> {
    let named = surfaces();
    named
        .iter()
        .map(|one| (one.name.to_string(), one.placing()))
        .collect()
}

/// The levels that a scan gives, of one name.
pub fn typical() -> Placing {
    let found = scans().into_iter().find(|(name, _)| name == TYPICAL);
    found.expect("the surfaces have it").1
}

/// Cells apart that are split, d1 up to `most`.
pub fn split_apart(rng: &mut Rng, cells: u16, most: usize) -> Sample {
    let mut apart = separate(cells);
    for counts in apart.counts.chunks_mut(6) {
        counts.copy_from_slice(&spiral_cell(rng, 3, most));
    }
    apart
}

/// One split cell with these numbers.
pub fn one_split(rng: &mut Rng, [d1, d2]: [u16; 2]) -> Sample {
    joined(rng, [Chain::Row(2); 2], 0, [d1, d2, d1 + d2])
}

/// Split cells in a sphere, d1 4 and d2 2.
pub fn split_sphere(rng: &mut Rng) -> Sample {
    joined(rng, [Chain::Circle(40); 2], 0, [4, 6, 2])
}

/// Grids that are harder to draw than those of a scan.
pub fn harder(rng: &mut Rng) -> Vec<Named<Placing>> {
    let shape = box_of_six([6, 5, 10]);
    let shuffled = dealt(rng, &typical().grid);
    let grids = [
        ("36 levels, shuffled", shuffled),
        ("random 0..3", shape.clone().with_counts(rng, 0, 3)),
        ("random 16..24", shape.clone().with_counts(rng, 16, 24)),
        ("even sums, 0..21", shape.clone().with_even_counts(rng, 10)),
        ("closed level sets", shape.with_level_sets(rng, 12, 4)),
        (
            "round one edge, 4..14",
            closed_fan(MAX_CELLS as u16).with_counts(rng, 4, 14),
        ),
        ("42 apart, all 255", separate(42).with_counts(rng, 255, 255)),
        (
            "2 apart, all 4,095",
            separate(2).with_counts(rng, 4_095, 4_095),
        ),
        ("split sphere (4, 2)", split_sphere(rng)),
        ("split apart, to 30", split_apart(rng, 300, 30)),
        ("one split (400, 2)", one_split(rng, [400, 2])),
    ];
    grids
        .into_iter()
        .map(|(name, grid)| (name.to_string(), placing(rng, grid, Kind::Any)))
        .collect()
}

/// As many cells as a grid may have, in several shapes.
pub fn shapes(rng: &mut Rng) -> Vec<Named<Sample>> {
    let boxed = part_of_box(MAX_CELLS).with_even_counts(rng, 3);
    let row = row_of(MAX_CELLS as u16).with_even_counts(rng, 3);
    let fan = closed_fan(MAX_CELLS as u16).with_even_counts(rng, 3);
    let grids = [
        ("box", boxed.clone()),
        ("box, shuffled", dealt(rng, &boxed)),
        ("row", row.clone()),
        ("row, shuffled", dealt(rng, &row)),
        ("round one edge", fan),
        (
            "round one node",
            cone([13, 13, 13]).with_even_counts(rng, 3),
        ),
        (
            "cells that share nothing",
            separate(1_024).with_even_counts(rng, 3),
        ),
        (
            "cells that share nodes",
            any_cells(rng, MAX_CELLS).with_even_counts(rng, 3),
        ),
    ];
    grids.map(|(name, grid)| (name.to_string(), grid)).to_vec()
}

/// The first cells of a grid, with the places of their crossings.
fn first_cells(from: &Placing, cells: usize) -> Placing {
    let mut kept = from.grid.cell_list();
    kept.truncate(cells);
    let mut grid = Sample::from_cells(kept);
    let edges = grid.edge_list();
    let mut fractions = Vec::new();
    let mut start = 0;
    for (ends, &count) in from.grid.edge_list().into_iter().zip(&from.grid.counts) {
        let end = start + usize::from(count);
        if let Ok(at) = edges.binary_search(&ends) {
            grid.counts[at] = count;
            fractions.extend_from_slice(&from.fractions[start..end]);
        }
        start = end;
    }
    Placing {
        grid,
        nodes: from.nodes.clone(),
        fractions,
    }
}

/// Few cells of the typical grid, and more and more.
pub fn sizes() -> Vec<Named<Placing>> {
    let whole = typical();
    let part = |cells| (cells_named(cells), first_cells(&whole, cells));
    [1, 10, 50, 200, 1_000, 2_000].map(part).to_vec()
}

pub fn cells_named(cells: usize) -> String {
    let many = match cells {
        0..=999 => cells.to_string(),
        _ => format!("{},{:03}", cells / 1_000, cells % 1_000),
    };
    format!("{many} cell{}", if cells == 1 { "" } else { "s" })
}

/// Level sets with about so many triangles, or crossings where `of_crossings`.
pub fn stack_with(wanted: usize, of_crossings: bool) -> Placing {
    let size = |placing: &Placing| match of_crossings {
        true => placing.fractions.len(),
        false => triangles(&placing.grid),
    };
    let per_level = size(&stack(100).placing()) as f64 / 100.0;
    stack((wanted as f64 / per_level).round().max(1.0) as usize).placing()
}

/// So many runs of about as many cells.
pub fn in_runs(grid: &Sample, runs: usize) -> Layered {
    let cells = grid.cells.len() / 4;
    Layered {
        whole: grid.clone(),
        cuts: (1..runs).map(|run| (run * cells / runs) as u16).collect(),
    }
}

/// Sheets of as many triangles as there may be, and of fewer.
pub fn sheets(rng: &mut Rng) -> Vec<Named<FlatSample>> {
    let dealt = squares(32, 32).renumbered(rng).reordered(rng);
    let all = [
        ("2 triangles, 0..16", squares(1, 1).with_counts(rng, 16)),
        (
            "1,024 triangles, 0..16",
            squares(32, 16).with_counts(rng, 16),
        ),
        (
            "2,048 triangles, 0..16",
            squares(32, 32).with_counts(rng, 16),
        ),
        ("2,048, 0..1", squares(32, 32).with_counts(rng, 1)),
        ("2,048, rings", squares(32, 32).with_rings(rng, 10)),
        ("2,048, strip", strip(2_048).with_counts(rng, 16)),
        ("2,048, disc", disc(2_048).with_rings(rng, 8)),
        ("2,048, shuffled, 0..16", dealt.with_counts(rng, 16)),
    ];
    all.map(|(name, sheet)| (name.to_string(), sheet)).to_vec()
}

/// Points anywhere within the limit.
pub fn points(rng: &mut Rng, many: usize) -> Vec<f64> {
    let anywhere = || rng.between(0, 2_000_000) as f64 - FURTHEST;
    iter::repeat_with(anywhere).take(3 * many).collect()
}

/// Points of which each is nearer to the origin than the one before.
pub fn nearer(many: u32) -> Vec<f64> {
    (0..3 * many).rev().map(|at| f64::from(at / 3)).collect()
}

/// All crossings of all faces with counts below this.
pub fn crossings_below(limit: u16) -> Vec<Asked> {
    let mut all = Vec::new();
    for code in 0..limit.pow(3) {
        let counts = [code / limit / limit, code / limit % limit, code % limit];
        for edge in 0..3 {
            let on_edge = 0..u32::from(counts[edge as usize]);
            all.extend(on_edge.map(|index| (counts, edge, index)));
        }
    }
    all
}
