//! The shading call against the second implementation.

use std::collections::BTreeMap;
use std::thread;

use compare::grids::{
    beside, by_rows, closed_grid, dealt, every_row, random_grid, shapes, single_cell, twisted,
    with_faults, with_random_counts, Numbers,
};
use compare::lent::{after, answers, answers_in_all, Lent, ANSWER_WORDS};
use compare::{calls, expected, seed, setting};
use reference::gen::{broken, closed_fan, random_shape, row_of, separate, Rng, Sample};
use reference::grid::{MAX_CELLS, ROWS};

/// Stands on both sides of a lent area.
const GUARD: u8 = 0x5a;

/// The bytes of an area that is not refused.
const AREA: usize = 4_096;

/// Lengths that row 19 refuses.
const OTHER: [usize; 6] = [0, 1, AREA - 1, AREA + 1, 2 * AREA, 65_536];

/// An area before a call: bytes that no shading has.
fn untouched(len: usize) -> Vec<u8> {
    (0..len).map(|at| 2 + (at % 250) as u8).collect()
}

/// What the compared grids were.
#[derive(Default)]
struct Tally {
    grids: u64,
    shaded: u64,
    both_sides: u64,
    parts: u64,
    at_0: u64,
    at_4095: u64,
    even_faces: u64,
    other_length: u64,
    refused: Numbers,
}

impl Tally {
    fn report(&self, what: &str) {
        println!(
            "shading, {what}: {} grids, of these {} shaded ({} on both sides, {} with node 0, {} \
             with node 4,095, {} of several parts); {} without a shading, {} of these with an even \
             sum on every face; {} areas of another length; refused by rows 1 to 6, 18, 7 to 10: \
             {:?}",
            self.grids,
            self.shaded,
            self.both_sides,
            self.at_0,
            self.at_4095,
            self.parts,
            self.refused[20],
            self.even_faces,
            self.other_length,
            by_rows(&self.refused)
        );
    }
}

/// The call on an area of this length: numbers answered, and the whole area
/// with its guards. The area afterwards, as it has to be.
fn compare_in(grid: &Sample, len: usize) -> (Vec<u64>, Vec<u8>) {
    let mut area = untouched(len);
    let mut lent = Lent::new(&area, GUARD);
    let starts = grid.starts();
    let lists = grid.lists(&starts);
    let numbers = expected::shading(lists, &mut area);
    let right = answers(&numbers, |answer| {
        calls::shading(lists, lent.area(), answer)
    });
    assert!(
        right,
        "area of {len}: not answered with {numbers:?} alone: {grid:?}"
    );
    assert!(
        lent.is(&area, GUARD),
        "area of {len}: another shading: {grid:?}"
    );
    if numbers[0] != 0 {
        assert_eq!(area, untouched(len));
    }
    (numbers, area)
}

/// Whether the three counts of every face have an even sum.
fn faces_are_even(grid: &Sample) -> bool {
    let counts: BTreeMap<_, _> = grid.edge_list().into_iter().zip(&grid.counts).collect();
    grid.cell_list().into_iter().all(|[a, b, c, d]| {
        let faces = [[b, c, d], [a, c, d], [a, b, d], [a, b, c]];
        faces.into_iter().all(|[a, b, c]| {
            let odd = [[a, b], [a, c], [b, c]].map(|ends| counts[&ends] % 2);
            odd.iter().sum::<u16>() % 2 == 0
        })
    })
}

/// What the bytes of a shading must be, without a second computation: the ends of
/// an edge differ exactly where its count is odd, and the nodes of cells have 0
/// or 1, the others 255.
fn inspect(grid: &Sample, area: &[u8]) {
    let mut used = [false; AREA];
    for &node in &grid.cells {
        used[usize::from(node)] = true;
    }
    for (&byte, used) in area.iter().zip(used) {
        assert!(if used { byte < 2 } else { byte == 255 });
    }
    for ([u, v], count) in grid.edge_list().into_iter().zip(&grid.counts) {
        let differ = area[usize::from(u)] != area[usize::from(v)];
        assert_eq!(differ, count % 2 == 1, "{u} {v}: {grid:?}");
    }
}

/// The lowest nodes of the connected parts, by sweeps over the edges.
fn lowest_nodes(grid: &Sample) -> Vec<u16> {
    let mut lowest: Vec<u16> = (0..AREA as u16).collect();
    let mut changed = true;
    while changed {
        changed = false;
        for [u, v] in grid.edge_list() {
            let [u, v] = [u, v].map(usize::from);
            let low = lowest[u].min(lowest[v]);
            changed |= lowest[u] != low || lowest[v] != low;
            lowest[u] = low;
            lowest[v] = low;
        }
    }
    let mut all: Vec<u16> = grid
        .cells
        .iter()
        .map(|&node| lowest[usize::from(node)])
        .collect();
    all.sort_unstable();
    all.dedup();
    all
}

/// Compares the call on one grid, in the right area and in one of another length.
fn compare(grid: &Sample, other: usize, tally: &mut Tally) {
    let (numbers, area) = compare_in(grid, AREA);
    tally.grids += 1;
    tally.refused[numbers[0] as usize] += 1;
    match numbers[0] {
        0 => {
            inspect(grid, &area);
            let lowest = lowest_nodes(grid);
            assert!(lowest.iter().all(|&node| area[usize::from(node)] == 0));
            tally.shaded += 1;
            tally.parts += u64::from(lowest.len() > 1);
            tally.both_sides += u64::from(area.contains(&1));
            tally.at_0 += u64::from(area[0] != 255);
            tally.at_4095 += u64::from(area[AREA - 1] != 255);
        }
        20 => tally.even_faces += u64::from(faces_are_even(grid)),
        _ => {}
    }
    let (numbers, _) = compare_in(grid, other);
    tally.other_length += u64::from(numbers == [19, 0]);
}

/// Compares the call on one grid with what it has to answer, in answer areas of
/// every length.
fn compare_with(numbers: &[u64], grid: &Sample, len: usize) {
    let starts = grid.starts();
    let lists = grid.lists(&starts);
    let mut made = untouched(len);
    assert_eq!(expected::shading(lists, &mut made), numbers, "{grid:?}");
    let mut call = |answer: &mut [u64]| {
        let before = untouched(len);
        let mut lent = Lent::new(&before, GUARD);
        let returned = calls::shading(lists, lent.area(), answer);
        assert!(lent.is(after(answer, &before, &made), GUARD));
        returned
    };
    assert!(answers_in_all(numbers, &mut call));
}

fn one_cell(nodes: [u16; 4], counts: [u16; 6]) -> Sample {
    let mut grid = Sample::from_cells([nodes]);
    grid.counts = counts.to_vec();
    grid
}

#[test]
fn examples_in_any_area() {
    let mut rng = Rng::new(1);
    let none = one_cell([0, 1, 2, 3], [1; 6]);
    let corner = one_cell([0, 2, 5, 4_095], [1, 1, 1, 0, 0, 0]);
    let apart = beside(&[corner.clone(), none.clone()]);
    assert_eq!(apart.cells.len(), 8);
    let large = one_cell([0, 1, 2, 3], [1, 0, 4_096, 0, 0, 0]);
    let cases = [
        (&[0][..], corner.clone()),
        (&[0], one_cell([4_092, 4_093, 4_094, 4_095], [0; 6])),
        (&[20, 0], none.clone()),
        (&[20, 0], twisted(&mut rng, 7, 0)),
        (&[18, 2], large.clone()),
        (&[1, 0], Sample::from_cells([])),
    ];
    for (numbers, grid) in &cases {
        compare_with(numbers, grid, AREA);
    }
    for len in OTHER {
        compare_with(&[19, 0], &corner, len);
        compare_with(&[19, 0], &none, len);
        compare_with(&[18, 2], &large, len);
    }
}

/// Every parity of the counts of a cell: 8 of 64 have a shading.
#[test]
fn all_parities_of_a_cell() {
    let mut tally = Tally::default();
    let mut rng = Rng::new(1);
    for parities in 0..64 {
        let counts =
            [0, 1, 2, 3, 4, 5].map(|edge| (parities >> edge & 1) as u16 + 2 * rng.below(4) as u16);
        for nodes in [
            [0, 1, 2, 3],
            [7, 30, 500, 4_095],
            [4_092, 4_093, 4_094, 4_095],
        ] {
            compare(&one_cell(nodes, counts), OTHER[rng.below(6)], &mut tally);
        }
    }
    assert_eq!((tally.shaded, tally.refused[20]), (24, 168));
}

#[test]
fn each_shape_broken_in_each_way() {
    let mut rng = Rng::new(seed("shading"));
    let mut tally = Tally::default();
    for shape in shapes(&mut rng) {
        for _ in 0..4 {
            let whole = with_random_counts(&mut rng, shape.clone()).reordered(&mut rng);
            compare(&whole, OTHER[rng.below(6)], &mut tally);
            let even = shape
                .clone()
                .with_even_counts(&mut rng, 2)
                .reordered(&mut rng);
            compare(&even, OTHER[rng.below(6)], &mut tally);
            for row in ROWS {
                if let Some(faulty) = broken(&mut rng, &whole, row) {
                    compare(&faulty, OTHER[rng.below(6)], &mut tally);
                }
            }
        }
    }
    tally.report("each shape broken in each way");
    assert!(every_row(&tally.refused));
}

/// One count more on some edges of a grid.
fn with_odd_edges(rng: &mut Rng, mut grid: Sample) -> Sample {
    for _ in 0..rng.between(1, 2) {
        let edge = rng.below(grid.counts.len());
        grid.counts[edge] ^= 1;
    }
    grid
}

/// A grid of one part or of several, each with a shading or not, with its nodes
/// anywhere.
fn random_parts(rng: &mut Rng) -> Sample {
    let mut parts = Vec::new();
    let mut cells = 0;
    for _ in 0..rng.between(1, 4) {
        let part = match rng.below(8) {
            0 => {
                let cells = rng.between(7, 60) as u16;
                twisted(rng, cells, 2)
            }
            1 => {
                let shape = random_shape(rng).with_even_counts(rng, 2);
                with_odd_edges(rng, shape)
            }
            2 => row_of(rng.between(1, 300) as u16).with_even_counts(rng, 3),
            _ => random_shape(rng).with_even_counts(rng, 3),
        };
        cells += part.cells.len() / 4;
        if cells <= MAX_CELLS {
            parts.push(part);
        }
    }
    dealt(rng, &beside(&parts))
}

#[test]
fn random_grids() {
    let mut rng = Rng::new(seed("shading"));
    let mut tally = Tally::default();
    let grids = setting("CITTERNBLAZE_GRIDS", 20_000);
    for turn in 0..grids / 2 {
        let grid = match turn % 8 {
            0 => random_grid(&mut rng),
            1 => closed_grid(&mut rng),
            2 => single_cell(&mut rng, 3),
            _ => random_parts(&mut rng),
        };
        compare(&grid, OTHER[rng.below(6)], &mut tally);
        if rng.below(8) == 0 {
            compare(
                &with_faults(&mut rng, grid),
                OTHER[rng.below(6)],
                &mut tally,
            );
        }
    }
    tally.report("random grids");
    if grids >= 20_000 {
        assert!(tally.shaded >= 3_000);
        assert!(tally.both_sides >= 3_000);
        assert!(tally.parts >= 1_000);
        assert!(tally.at_0 >= 1_000 && tally.at_4095 >= 1_000);
        assert!(tally.refused[20] >= 1_000);
        assert!(tally.even_faces >= 500);
        assert!(every_row(&tally.refused));
    }
}

/// As many cells as there may be: in a row, in a ring, and apart.
#[test]
fn long_and_large_grids() {
    let mut rng = Rng::new(seed("shading"));
    let mut tally = Tally::default();
    let most = MAX_CELLS as u16;
    for _ in 0..10 {
        let grids = [
            row_of(most).with_even_counts(&mut rng, 3),
            closed_fan(most).with_even_counts(&mut rng, 3),
            separate(1_024).with_even_counts(&mut rng, 3),
            twisted(&mut rng, most, 3),
        ];
        for grid in grids {
            compare(&grid, OTHER[rng.below(6)], &mut tally);
            compare(&dealt(&mut rng, &grid), OTHER[rng.below(6)], &mut tally);
            let odd = with_odd_edges(&mut rng, grid);
            compare(&odd, OTHER[rng.below(6)], &mut tally);
        }
    }
    tally.report("long and large grids");
    assert_eq!(tally.shaded, 60);
    assert!(tally.even_faces >= 20);
}

/// What the header says of the stack.
#[test]
fn stack_of_512_kilobytes() {
    let shade = || {
        let grid = closed_fan(MAX_CELLS as u16);
        let mut area = vec![7; AREA];
        let mut answer = [1; ANSWER_WORDS];
        calls::shading(grid.lists(&grid.starts()), &mut area, &mut answer)
    };
    let thread = thread::Builder::new().stack_size(512 * 1024).spawn(shade);
    assert_eq!(thread.expect("a thread").join().expect("an answer"), 1);
}
