//! The grid check against the second implementation.

use std::thread;

use compare::grids::{
    by_rows, every_row, random_grid, shapes, with_crossings, with_faults, with_random_counts,
    Numbers,
};
use compare::lent::{answers, answers_in_all, ANSWER_WORDS};
use compare::{calls, expected, seed, setting};
use reference::gen::{broken, closed_fan, open_fan, ring, separate, Rng, Sample};
use reference::grid::{MAX_CELLS, ROWS};

/// What the compared grids were.
#[derive(Default)]
struct Tally {
    accepted: u64,
    hundred_cells: u64,
    over_1500_cells: u64,
    over_60000_crossings: u64,
    over_255: u64,
    refused: Numbers,
}

impl Tally {
    fn add(&mut self, grid: &Sample, numbers: &[u64]) {
        self.refused[numbers[0] as usize] += 1;
        if numbers[0] == 0 {
            let cells = grid.cells.len() / 4;
            self.accepted += 1;
            self.hundred_cells += u64::from(cells >= 100);
            self.over_1500_cells += u64::from(cells > 1_500);
            self.over_60000_crossings += u64::from(numbers[1] > 60_000);
            self.over_255 += u64::from(grid.counts.iter().any(|&count| count > 255));
        }
    }

    fn report(&self, what: &str) {
        println!(
            "{what}: {} accepted, of these {} of 100 cells or more, {} of over 1,500, \
             {} of over 60,000 crossings, {} with a count over 255; refused by rows 1 to 6, 18, \
             7 to 10: {:?}",
            self.accepted,
            self.hundred_cells,
            self.over_1500_cells,
            self.over_60000_crossings,
            self.over_255,
            by_rows(&self.refused)
        );
    }
}

fn grid(cells: &[u16], edges: &[u16], counts: &[u16]) -> Sample {
    Sample {
        cells: cells.to_vec(),
        edges: edges.to_vec(),
        counts: counts.to_vec(),
    }
}

/// Compares the check of one grid.
fn compare(grid: &Sample, tally: &mut Tally) {
    let starts = grid.starts();
    let lists = grid.lists(&starts);
    let numbers = expected::check(lists);
    tally.add(grid, &numbers);
    assert!(
        answers(&numbers, |area| calls::check(lists, area)),
        "not answered with {numbers:?} alone: {grid:?}"
    );
}

/// Compares the check of a grid with what it has to answer, in any area.
fn compare_with(numbers: [u64; 2], grid: &Sample) {
    let starts = grid.starts();
    let lists = grid.lists(&starts);
    assert_eq!(expected::check(lists), numbers, "{grid:?}");
    assert!(
        answers_in_all(&numbers, |area| calls::check(lists, area)),
        "not answered with {numbers:?} alone: {grid:?}"
    );
}

const CELL: [u16; 4] = [0, 1, 2, 3];
const CELL_EDGES: [u16; 12] = [0, 1, 0, 2, 0, 3, 1, 2, 1, 3, 2, 3];

/// A grid of these cells with its edges, all of count 0.
fn of_cells(cells: &[[u16; 4]]) -> Sample {
    let mut grid = Sample::from_cells(cells.iter().copied());
    grid.cells = cells.concat();
    grid
}

#[test]
fn examples_of_the_table() {
    let full = |cells| {
        let mut grid = separate(cells);
        grid.counts.fill(255);
        grid
    };
    let mut added = of_cells(&[CELL]);
    added.edges.extend([7, 8]);
    added.counts.push(0);
    let cases = [
        ([0, 6], grid(&CELL, &CELL_EDGES, &[1; 6])),
        ([0, 24_570], grid(&CELL, &CELL_EDGES, &[4_095; 6])),
        ([1, 0], grid(&[0, 1, 2, 3, 4], &CELL_EDGES, &[1; 6])),
        ([1, 0], grid(&[], &[], &[])),
        ([2, 0], grid(&CELL, &[0, 1, 0], &[1])),
        ([3, 0], grid(&[0, 2, 1, 3], &CELL_EDGES, &[1; 6])),
        ([3, 1], of_cells(&[CELL, [0, 1, 2, 4096]])),
        ([4, 1], of_cells(&[CELL, CELL])),
        ([5, 2], of_cells(&[CELL, [0, 1, 2, 4], [0, 1, 2, 5]])),
        ([6, 0], grid(&CELL, &[1, 1], &[1])),
        ([6, 1], grid(&CELL, &[0, 2, 0, 1], &[4_096, 1])),
        (
            [18, 1],
            grid(&CELL, &CELL_EDGES, &[1, 4_096, 1, 1, 1, 65_535]),
        ),
        (
            [18, 4],
            grid(&CELL, &CELL_EDGES[..10], &[1, 1, 1, 1, 4_096]),
        ),
        ([7, 0], grid(&CELL, &CELL_EDGES[..10], &[1; 5])),
        ([8, 6], added),
        ([9, 0], of_cells(&[CELL, [0, 1, 4, 5]])),
        ([0, 64_260], full(42)),
        ([10, 0], full(43)),
    ];
    for (numbers, grid) in &cases {
        compare_with(*numbers, grid);
    }
}

#[test]
fn lists_of_any_length() {
    let mut tally = Tally::default();
    let cells = [CELL, CELL.map(|node| node + 1), [0; 4]].concat();
    let edges = [&CELL_EDGES[..], &CELL_EDGES].concat();
    for cells_len in 0..=cells.len() {
        for edges_len in 0..=edges.len() {
            for counts_len in 0..=edges_len / 2 + 2 {
                let counts = vec![1; counts_len];
                compare(
                    &grid(&cells[..cells_len], &edges[..edges_len], &counts),
                    &mut tally,
                );
            }
        }
    }
    tally.report("check, lists of any length");
}

#[test]
fn limits_of_cells_and_nodes() {
    let top = u16::MAX;
    let mut tally = Tally::default();
    for nodes in [[top; 4], [0, 1, 2, top], [top - 3, top - 2, top - 1, top]] {
        compare_with([3, 0], &of_cells(&[nodes]));
        compare_with([3, 1], &of_cells(&[CELL, nodes]));
    }
    compare_with([0, 0], &of_cells(&[[4_092, 4_093, 4_094, 4_095]]));
    compare_with([3, 0], &of_cells(&[[4_093, 4_094, 4_095, 4_096]]));
    for ends in [[0, top], [top - 1, top], [top, top], [3, top]] {
        let mut stray = of_cells(&[CELL]);
        stray.edges.extend(ends);
        stray.counts.push(255);
        compare(&stray, &mut tally);
    }
    for cells in [MAX_CELLS - 1, MAX_CELLS, MAX_CELLS + 1] {
        let cells = cells as u16;
        for grid in [open_fan(cells), closed_fan(cells), ring(cells)] {
            compare(&grid, &mut tally);
        }
    }
    compare_with([1, 0], &grid(&[0; 4 * 100_000], &CELL_EDGES, &[1; 6]));
    tally.report("check, limits");
}

/// This many edges, sorted, each once, the cell's among them.
fn many_edges(many: usize) -> Vec<u16> {
    let pairs = (0..).flat_map(|u: u16| (u + 1..1_000).map(move |v| [u, v]));
    pairs.take(many).flatten().collect()
}

#[test]
fn edges_by_the_hundred_thousand() {
    const MANY: usize = 400_000;
    let cell = |edges: &[u16], counts: usize| grid(&CELL, edges, &vec![255; counts]);
    let edges = many_edges(MANY);
    let mut tally = Tally::default();
    // edge 0 4 is in no cell
    compare_with([8, 3], &cell(&edges, MANY));
    compare_with([2, 0], &cell(&edges, MANY - 1));
    compare_with([2, 0], &cell(&edges[1..], MANY));
    let mut last = edges.clone();
    last[2 * MANY - 1] = last[2 * MANY - 2];
    compare_with([6, MANY as u64 - 1], &cell(&last, MANY));
    let mut repeated = edges.clone();
    repeated[MANY..].copy_from_slice(&edges[..MANY]);
    compare_with([6, MANY as u64 / 2], &cell(&repeated, MANY));
    let mut large = cell(&edges, MANY);
    for (count, numbers) in [(4_095, [8, 3]), (4_096, [18, MANY as u64 - 1])] {
        large.counts[MANY - 1] = count;
        compare_with(numbers, &large);
    }
    // without 2 3
    compare_with([7, 0], &cell(&many_edges(1_500), 1_500));
    let mut rng = Rng::new(1);
    for _ in 0..20 {
        let mut spoiled = edges.clone();
        for _ in 0..rng.between(1, 3) {
            spoiled[rng.below(2 * MANY)] = rng.word() as u16;
        }
        compare(&cell(&spoiled, MANY), &mut tally);
    }
    tally.report("check, 400,000 edges");
}

#[test]
fn sums_of_counts_at_the_limit() {
    let mut rng = Rng::new(2);
    for sum in [0, 1, 255, 65_534, 65_535, 65_536, 65_537, 66_300] {
        let numbers = match sum {
            0..=65_535 => [0, sum as u64],
            _ => [10, 0],
        };
        for cells in [60, 3] {
            let grid = with_crossings(&mut rng, separate(cells), sum);
            compare_with(numbers, &grid);
        }
    }
}

#[test]
fn each_shape_broken_in_each_way() {
    let mut rng = Rng::new(seed("check"));
    let mut tally = Tally::default();
    for shape in shapes(&mut rng) {
        for _ in 0..4 {
            let whole = with_random_counts(&mut rng, shape.clone()).reordered(&mut rng);
            compare(&whole, &mut tally);
            for row in ROWS {
                if let Some(faulty) = broken(&mut rng, &whole, row) {
                    let numbers = expected::check(faulty.lists(&faulty.starts()));
                    assert_eq!(numbers[0], u64::from(row), "{faulty:?}");
                    compare(&faulty, &mut tally);
                }
                let several = with_faults(&mut rng, whole.clone());
                compare(&several, &mut tally);
            }
        }
    }
    assert!(every_row(&tally.refused));
    tally.report("check, each shape broken in each way");
}

#[test]
fn random_grids() {
    let mut rng = Rng::new(seed("check"));
    let mut tally = Tally::default();
    let grids = setting("CITTERNBLAZE_GRIDS", 20_000);
    for _ in 0..grids {
        let grid = random_grid(&mut rng);
        compare(&grid, &mut tally);
        if rng.below(2) == 0 {
            compare(&with_faults(&mut rng, grid), &mut tally);
        }
    }
    tally.report("check, random grids");
    if grids >= 20_000 {
        assert!(tally.hundred_cells >= 1_000);
        assert!(tally.over_1500_cells >= 20);
        assert!(tally.over_60000_crossings >= 10);
        assert!(tally.over_255 >= 100);
        assert!(every_row(&tally.refused));
    }
}

/// What the header says of the stack.
#[test]
fn stack_of_512_kilobytes() {
    let check = || {
        let grid = closed_fan(MAX_CELLS as u16);
        let starts = grid.starts();
        let mut answer = [0; ANSWER_WORDS];
        calls::check(grid.lists(&starts), &mut answer)
    };
    let thread = thread::Builder::new().stack_size(512 * 1024).spawn(check);
    assert_eq!(thread.expect("a thread").join().expect("an answer"), 2);
}
