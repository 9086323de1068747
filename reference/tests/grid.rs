//! The grid check, row by row, and against a plain quadratic check.

use reference::gen::{
    self, box_of_five, box_of_six, box_ring, broken, closed_fan, gathered, open_fan, random_shape,
    ring, separate, Rng, Sample,
};
use reference::grid::{check, open, set_count, GridTables, NO_TWIN, ROWS};
use reference::Refusal;

fn verdict(grid: &Sample) -> Result<u32, (u8, u64)> {
    let answer = check(grid.lists(&grid.starts()));
    answer.map_err(|Refusal { number, place }| (number, place))
}

fn one_cell(counts: [u16; 6]) -> Sample {
    Sample {
        cells: vec![0, 1, 2, 3],
        edges: vec![0, 1, 0, 2, 0, 3, 1, 2, 1, 3, 2, 3],
        counts: counts.to_vec(),
    }
}

/// The grid with the given cells in the given order.
fn grid_of(cells: &[[u16; 4]]) -> Sample {
    let listed = Sample::from_cells(cells.iter().copied());
    Sample {
        cells: cells.concat(),
        ..listed
    }
}

fn has(cell: &[u16], nodes: &[u16]) -> bool {
    nodes.iter().all(|node| cell.contains(node))
}

fn common(one: &[u16], other: &[u16]) -> usize {
    one.iter().filter(|node| other.contains(node)).count()
}

/// The check in the plainest way: each row looks at everything.
fn plain_check(grid: &Sample) -> Result<u32, (u8, u64)> {
    let Sample {
        cells,
        edges,
        counts,
    } = grid;
    if cells.len() % 4 != 0 || cells.is_empty() || cells.len() > 8192 {
        return Err((1, 0));
    }
    if edges.len() != 2 * counts.len() {
        return Err((2, 0));
    }
    let cells: Vec<&[u16]> = cells.chunks(4).collect();
    let edges: Vec<&[u16]> = edges.chunks(2).collect();
    plain_cells(&cells)?;
    plain_edges(&cells, &edges, counts)?;
    let total: u32 = counts.iter().map(|&count| u32::from(count)).sum();
    fault(10, (total > 65_535).then_some(0))?;
    Ok(total)
}

fn fault(number: u8, place: Option<usize>) -> Result<(), (u8, u64)> {
    place.map_or(Ok(()), |at| Err((number, at as u64)))
}

/// Rows 3 to 5.
fn plain_cells(cells: &[&[u16]]) -> Result<(), (u8, u64)> {
    let all = 0..cells.len();
    let bad_nodes = |c: &&[u16]| c[3] > 4095 || c.windows(2).any(|pair| pair[0] >= pair[1]);
    fault(3, cells.iter().position(bad_nodes))?;
    fault(4, all.clone().find(|&c| cells[..c].contains(&cells[c])))?;
    fault(5, all.clone().find(|&c| is_third(cells, c)))
}

/// Row 6, row 18, and rows 7 to 9.
fn plain_edges(cells: &[&[u16]], edges: &[&[u16]], counts: &[u16]) -> Result<(), (u8, u64)> {
    let repeats = |e: usize| e > 0 && edges[e - 1] >= edges[e];
    let misplaced = |&e: &usize| edges[e][0] >= edges[e][1] || repeats(e);
    fault(6, (0..edges.len()).find(misplaced))?;
    fault(18, (0..edges.len()).find(|&e| counts[e] >= 4096))?;
    let pairs = [[0, 1], [0, 2], [0, 3], [1, 2], [1, 3], [2, 3]];
    let listed = |ends: [u16; 2]| edges.contains(&&ends[..]);
    let lacking = |c: &&[u16]| !pairs.iter().all(|&[u, v]| listed([c[u], c[v]]));
    fault(7, cells.iter().position(lacking))?;
    let stray = |e: &&[u16]| !cells.iter().any(|c| has(c, e));
    fault(8, edges.iter().position(stray))?;
    fault(9, edges.iter().position(|e| !hangs_together(cells, e)))
}

/// Whether some face of the cell is in two earlier cells.
fn is_third(cells: &[&[u16]], cell: usize) -> bool {
    (0..4).any(|slot| {
        let mut face = cells[cell].to_vec();
        face.remove(slot);
        cells[..cell]
            .iter()
            .filter(|other| has(other, &face))
            .count()
            >= 2
    })
}

fn hangs_together(cells: &[&[u16]], edge: &[u16]) -> bool {
    let around: Vec<&[u16]> = cells.iter().copied().filter(|c| has(c, edge)).collect();
    let mut reached = vec![false; around.len()];
    reached[0] = true;
    for _ in 0..around.len() {
        for one in 0..around.len() {
            for other in 0..around.len() {
                if reached[one] && common(around[one], around[other]) == 3 {
                    reached[other] = true;
                }
            }
        }
    }
    reached.iter().all(|&met| met)
}

#[test]
fn single_cell_is_accepted() {
    assert_eq!(verdict(&one_cell([0; 6])), Ok(0));
    assert_eq!(verdict(&one_cell([1, 0, 0, 0, 0, 0])), Ok(1));
    assert_eq!(verdict(&one_cell([255; 6])), Ok(1530));
    assert_eq!(verdict(&one_cell([4095; 6])), Ok(24_570));
}

#[test]
fn row_1_cell_numbers() {
    let mut grid = one_cell([0; 6]);
    for length in [0, 1, 2, 3, 5, 6, 7] {
        grid.cells = (0..length).collect();
        assert_eq!(verdict(&grid), Err((1, 0)));
    }
    grid.cells = vec![0; 4 * 2049];
    assert_eq!(verdict(&grid), Err((1, 0)));
    grid.cells = vec![0; 4 * 2048];
    assert_eq!(verdict(&grid), Err((3, 0)));
    let nothing = Sample {
        cells: vec![],
        edges: vec![],
        counts: vec![],
    };
    assert_eq!(verdict(&nothing), Err((1, 0)));
}

#[test]
fn row_2_edge_numbers() {
    let mut grid = one_cell([0; 6]);
    grid.edges = vec![0, 1, 0];
    grid.counts = vec![0];
    assert_eq!(verdict(&grid), Err((2, 0)));
    grid.counts = vec![];
    assert_eq!(verdict(&grid), Err((2, 0)));
    grid.edges = vec![];
    assert_eq!(verdict(&grid), Err((7, 0)));
    grid.counts = vec![1];
    assert_eq!(verdict(&grid), Err((2, 0)));
}

#[test]
fn row_3_nodes() {
    let mut grid = one_cell([0; 6]);
    for cell in [
        [0, 2, 1, 3],
        [0, 0, 1, 2],
        [0, 1, 2, 4096],
        [1, 0, 2, 3],
        [0, 1, 3, 3],
    ] {
        grid.cells = [[0, 1, 2, 3], cell, cell].concat();
        assert_eq!(verdict(&grid), Err((3, 1)));
    }
    let highest = grid_of(&[[4092, 4093, 4094, 4095]]);
    assert_eq!(verdict(&highest), Ok(0));
}

#[test]
fn row_4_repeated_cell() {
    let mut grid = one_cell([0; 6]);
    grid.cells = [[0, 1, 2, 3], [0, 1, 2, 3]].concat();
    assert_eq!(verdict(&grid), Err((4, 1)));
    grid.cells = [
        [4, 5, 6, 7],
        [0, 1, 2, 3],
        [0, 1, 2, 4],
        [0, 1, 2, 3],
        [4, 5, 6, 7],
    ]
    .concat();
    assert_eq!(verdict(&grid), Err((4, 3)));
}

#[test]
fn row_5_crowded_face() {
    let grid = grid_of(&[[0, 1, 2, 3], [0, 1, 2, 4], [0, 1, 2, 5]]);
    assert_eq!(verdict(&grid), Err((5, 2)));
    let two = [
        [0, 1, 2, 3],
        [5, 6, 7, 8],
        [5, 6, 7, 9],
        [0, 1, 2, 4],
        [5, 6, 7, 10],
        [0, 1, 2, 11],
    ];
    assert_eq!(verdict(&grid_of(&two)), Err((5, 4)));
}

#[test]
fn row_6_edge_order() {
    let mut grid = one_cell([0; 6]);
    grid.edges[..2].copy_from_slice(&[1, 1]);
    assert_eq!(verdict(&grid), Err((6, 0)));
    for (place, ends) in [(2, [0, 2]), (1, [0, 1]), (3, [3, 2]), (1, [9, 0])] {
        let mut grid = one_cell([0; 6]);
        grid.edges[2 * place..2 * place + 2].copy_from_slice(&ends);
        assert_eq!(verdict(&grid), Err((6, place as u64)));
    }
}

#[test]
fn row_18_counts() {
    for edge in 0..6 {
        let mut grid = one_cell([4095; 6]);
        for count in [4096, 4097, 8192, 65_280, 65_535] {
            grid.counts[edge] = count;
            assert_eq!(verdict(&grid), Err((18, edge as u64)));
        }
        grid.counts[5] = 65_535;
        assert_eq!(verdict(&grid), Err((18, edge as u64)));
    }
}

/// Row 18 runs after row 6 and before row 7, whatever their places are.
#[test]
fn row_18_stands_between_rows_6_and_7() {
    let mut unordered = one_cell([4096, 0, 0, 0, 0, 0]);
    unordered.edges[10..].copy_from_slice(&[3, 2]);
    assert_eq!(verdict(&unordered), Err((6, 5)));
    let mut missing = one_cell([0, 0, 0, 0, 4096, 0]);
    missing.edges.truncate(10);
    missing.counts.truncate(5);
    assert_eq!(verdict(&missing), Err((18, 4)));
    missing.counts[4] = 4095;
    assert_eq!(verdict(&missing), Err((7, 0)));
    let mut stray = one_cell([0; 6]);
    stray.edges.extend([7, 8]);
    stray.counts.push(4096);
    assert_eq!(verdict(&stray), Err((18, 6)));
    stray.counts[6] = 4095;
    assert_eq!(verdict(&stray), Err((8, 6)));
    let mut parted = grid_of(&[[0, 1, 2, 3], [0, 1, 4, 5]]);
    let last = parted.counts.len() - 1;
    parted.counts[last] = 65_535;
    assert_eq!(verdict(&parted), Err((18, last as u64)));
    let mut repeated = one_cell([4096; 6]);
    repeated.cells = [[0, 1, 2, 3], [0, 1, 2, 3]].concat();
    assert_eq!(verdict(&repeated), Err((4, 1)));
}

#[test]
fn row_7_missing_edge() {
    let mut grid = one_cell([0; 6]);
    grid.edges.truncate(10);
    grid.counts.truncate(5);
    assert_eq!(verdict(&grid), Err((7, 0)));
    let mut two = grid_of(&[[0, 1, 2, 3], [0, 1, 2, 4]]);
    let last = two.counts.len() - 1;
    two.edges.truncate(2 * last);
    two.counts.truncate(last);
    assert_eq!(verdict(&two), Err((7, 1)));
}

#[test]
fn row_8_stray_edge() {
    for (ends, place) in [
        ([7, 8], 6),
        ([0, 65_535], 3),
        ([65_534, 65_535], 6),
        ([0, 4], 3),
    ] {
        let mut grid = one_cell([0; 6]);
        grid.edges.splice(2 * place..2 * place, ends);
        grid.counts.push(0);
        assert_eq!(verdict(&grid), Err((8, place as u64)));
    }
}

#[test]
fn row_9_parted_edge() {
    let grid = grid_of(&[[0, 1, 2, 3], [0, 1, 4, 5]]);
    assert_eq!(verdict(&grid), Err((9, 0)));
    let later = grid_of(&[[0, 7, 8, 9], [1, 2, 8, 9]]);
    let place = later.edge_list().iter().position(|e| *e == [8, 9]);
    assert_eq!(verdict(&later), Err((9, place.unwrap() as u64)));
    let node_only = grid_of(&[[0, 1, 2, 3], [3, 4, 5, 6]]);
    assert_eq!(verdict(&node_only), Ok(0));
    let around = grid_of(&[
        [0, 1, 2, 3],
        [0, 1, 3, 4],
        [0, 1, 5, 6],
        [0, 1, 6, 7],
        [0, 1, 5, 7],
    ]);
    assert_eq!(verdict(&around), Err((9, 0)));
    let by_another_way = grid_of(&[[0, 1, 2, 3], [0, 2, 3, 4], [0, 3, 4, 5], [0, 1, 4, 5]]);
    assert_eq!(verdict(&by_another_way), Err((9, 0)));
}

#[test]
fn row_10_crossings() {
    let mut rng = Rng::new(0);
    let full = |cells| separate(cells).with_counts(&mut rng, 255, 255);
    let grids = [42, 43].map(full);
    assert_eq!(verdict(&grids[0]), Ok(64_260));
    assert_eq!(verdict(&grids[1]), Err((10, 0)));
    let mut exact = grids[1].clone();
    exact.counts[0] = 0;
    assert_eq!(verdict(&exact), Ok(65_535));
    exact.counts[0] = 1;
    assert_eq!(verdict(&exact), Err((10, 0)));
    // 16 times 4,095 is 65,520
    let mut large = separate(3);
    large.counts[..16].fill(4095);
    large.counts[16] = 15;
    assert_eq!(verdict(&large), Ok(65_535));
    large.counts[17] = 1;
    assert_eq!(verdict(&large), Err((10, 0)));
    large.counts[3] = 4096;
    assert_eq!(verdict(&large), Err((18, 3)));
    let many = separate(1024).with_counts(&mut rng, 4095, 4095);
    assert_eq!(verdict(&many), Err((10, 0)));
}

#[test]
fn earlier_rows_win() {
    let mut rng = Rng::new(7);
    for seed in 0..300 {
        let mut grid = random_shape(&mut Rng::new(seed)).with_counts(&mut rng, 0, 3);
        let later = rng.between(1, ROWS.len() - 1);
        let earlier = rng.below(later);
        for row in [ROWS[later], ROWS[earlier]] {
            grid = broken(&mut rng, &grid, row).unwrap_or(grid);
        }
        let answer = verdict(&grid);
        assert_eq!(answer, plain_check(&grid));
        assert!(answer.is_err());
    }
}

#[test]
fn broken_grids_are_refused_by_their_row() {
    let mut rng = Rng::new(11);
    for seed in 0..60 {
        let grid = random_shape(&mut Rng::new(seed)).with_counts(&mut rng, 0, 3);
        assert_eq!(verdict(&grid), plain_check(&grid));
        for row in ROWS {
            if let Some(bad) = broken(&mut rng, &grid, row) {
                let answer = verdict(&bad);
                assert_eq!(answer.map_err(|(number, _)| number), Err(row));
                assert_eq!(answer, plain_check(&bad));
            }
        }
    }
}

#[test]
fn unlinked_gatherings_are_judged_alike() {
    let mut rng = Rng::new(13);
    for seed in 0..120 {
        let keep = rng.between(10, 90);
        let whole = if seed % 2 == 0 {
            box_of_five([2, 2, 2])
        } else {
            box_of_six([2, 2, 2])
        };
        let grid = gathered(&mut rng, &whole.renumbered(&mut Rng::new(seed)), keep);
        let grid = grid.reordered(&mut rng);
        assert_eq!(verdict(&grid), plain_check(&grid));
        let mended = gen::linked(&grid);
        assert_eq!(verdict(&mended), Ok(0));
    }
}

/// Small lists of small numbers, with faults of every kind.
#[test]
fn random_small_lists_are_judged_alike() {
    let mut rng = Rng::new(17);
    let mut seen = [0; 19];
    for _ in 0..30_000 {
        let nodes = rng.between(4, 8);
        let cells: Vec<[u16; 4]> = (0..rng.between(1, 5))
            .map(|_| {
                let mut names: Vec<u16> = (0..nodes as u16).collect();
                rng.shuffle(&mut names);
                names.truncate(4);
                names.sort_unstable();
                [names[0], names[1], names[2], names[3]]
            })
            .collect();
        let mut grid = grid_of(&cells);
        if rng.below(4) == 0 {
            let at = rng.below(grid.edges.len());
            grid.edges[at] = rng.below(nodes) as u16;
        }
        if rng.below(4) == 0 {
            let at = rng.below(grid.counts.len());
            grid.counts[at] = rng.between(4090, 4100) as u16;
        }
        let answer = verdict(&grid);
        assert_eq!(answer, plain_check(&grid));
        seen[answer.map_or_else(|(row, _)| usize::from(row), |_| 0)] += 1;
    }
    for row in [0, 4, 5, 6, 18, 7, 9] {
        assert!(seen[row] > 20, "row {row} seen {} times", seen[row]);
    }
}

#[test]
fn every_shape_is_accepted() {
    let shapes = [
        box_of_five([3, 2, 4]),
        box_of_five([7, 7, 8]),
        box_of_six([3, 2, 4]),
        box_of_six([1, 1, 341]),
        open_fan(1),
        open_fan(2048),
        closed_fan(3),
        closed_fan(2048),
        ring(7),
        ring(2048),
        separate(1),
        separate(1024),
        box_ring([6, 6, 10], 2),
    ];
    for (number, shape) in shapes.iter().enumerate() {
        assert_eq!(verdict(shape), Ok(0), "shape {number}");
    }
    assert_eq!(box_of_five([3, 2, 4]).cells.len(), 4 * 5 * 24);
    assert_eq!(box_of_six([3, 2, 4]).cells.len(), 4 * 6 * 24);
    assert_eq!(closed_fan(2048).counts.len(), 1 + 3 * 2048);
    assert_eq!(ring(20).counts.len(), 60);
}

fn compare_faces(tables: &GridTables, cells: &[[u16; 4]]) {
    let nodes_of = |face: usize| {
        let mut nodes = cells[face / 4].to_vec();
        nodes.remove(face % 4);
        nodes
    };
    let faces: Vec<Vec<u16>> = (0..4 * cells.len()).map(nodes_of).collect();
    for (face, nodes) in faces.iter().enumerate() {
        let sharers: Vec<usize> = (0..faces.len()).filter(|&f| faces[f] == *nodes).collect();
        assert_eq!(usize::from(tables.face_names[face]), sharers[0]);
        let twin = sharers.iter().find(|&&other| other != face);
        let expected = twin.map_or(NO_TWIN, |&other| other as u16);
        assert_eq!(tables.twins[face], expected);
    }
}

fn compare_edges(tables: &GridTables, grid: &Sample) {
    let edges = grid.edge_list();
    for (cell, numbers) in grid.cell_list().iter().zip(&tables.cell_edges) {
        let listed = numbers.map(|edge| edges[edge as usize]);
        let [a, b, c, d] = *cell;
        assert_eq!(listed, [[a, b], [a, c], [a, d], [b, c], [b, d], [c, d]]);
    }
    let starts = grid.starts();
    assert_eq!(starts.len(), edges.len());
    for (edge, &start) in starts.iter().enumerate() {
        let earlier = grid.counts[..edge].iter().map(|&count| u32::from(count));
        assert_eq!(start, earlier.sum());
    }
}

#[test]
fn tables_of_an_accepted_grid() {
    let mut rng = Rng::new(19);
    let mut tables = GridTables::default();
    for seed in 0..40 {
        let grid = random_shape(&mut Rng::new(seed)).with_counts(&mut rng, 0, 9);
        let grid = grid.reordered(&mut rng);
        assert!(tables.check(grid.lists(&grid.starts())).is_ok());
        compare_faces(&tables, &grid.cell_list());
        compare_edges(&tables, &grid);
    }
}

/// The cell with counts 1 to 6, whose starts are these.
const SUMS: [u32; 6] = [0, 1, 3, 6, 10, 15];

fn refused<T>(number: u8, place: u64) -> Result<T, Refusal> {
    Err(Refusal { number, place })
}

#[test]
fn row_2_of_starts() {
    let grid = one_cell([1, 2, 3, 4, 5, 6]);
    assert_eq!(grid.starts(), SUMS);
    assert_eq!(check(grid.lists(&SUMS)), Ok(21));
    let mut longer = SUMS.to_vec();
    longer.push(21);
    let last = [0, 1, 3, 6, 10, 14];
    let own = [1, 3, 6, 10, 15, 21];
    let high = [0, 1, 3, 6 + (1 << 31), 10, 15];
    for starts in [&SUMS[..5], &longer, &last, &own, &high, &[]] {
        assert_eq!(check(grid.lists(starts)), refused(2, 0), "{starts:?}");
    }
    let mut falling = grid.clone();
    falling.cells = vec![0, 2, 1, 3];
    assert_eq!(check(falling.lists(&last)), refused(2, 0));
    assert_eq!(check(falling.lists(&SUMS)), refused(3, 0));
    falling.cells.push(4);
    assert_eq!(check(falling.lists(&last)), refused(1, 0));
}

#[test]
fn opening_fills_the_starts() {
    let grid = one_cell([1, 2, 3, 4, 5, 6]);
    let mut starts = [9; 6];
    let answer = open(&grid.cells, &grid.edges, &grid.counts, &mut starts);
    assert_eq!((answer, starts), (Ok(21), SUMS));
    for many in [0, 5, 7] {
        let mut starts = vec![9; many];
        let answer = open(&grid.cells, &grid.edges, &grid.counts, &mut starts);
        assert_eq!((answer, starts), (refused(2, 0), vec![9; many]));
    }
    let over = one_cell([1, 2, 4_096, 4, 5, 6]);
    let mut starts = [9; 6];
    let answer = open(&over.cells, &over.edges, &over.counts, &mut starts);
    assert_eq!((answer, starts), (refused(18, 2), [9; 6]));
}

/// Settings in turn: what is answered, and the counts and starts after each.
#[test]
fn settings_in_turn() {
    let mut grid = one_cell([1, 2, 3, 4, 5, 6]);
    let mut starts = SUMS;
    let first = ([1, 2, 7, 4, 5, 6], [0, 1, 3, 10, 14, 19]);
    let second = ([0, 2, 7, 4, 5, 6], [0, 0, 2, 9, 13, 18]);
    for (edge, count, answer, after) in [
        (2, 7, Ok(25), first),
        (6, 4_096, refused(21, 6), first),
        (2, 4_096, refused(18, 2), first),
        (0, 0, Ok(24), second),
        (usize::MAX, 0, refused(21, u64::MAX), second),
        (2, 7, Ok(24), second),
    ] {
        let (cells, edges, counts) = (&grid.cells, &grid.edges, &mut grid.counts);
        let answered = set_count(cells, edges, counts, &mut starts, edge, count);
        assert_eq!(answered, answer);
        assert_eq!((&grid.counts[..], starts), (&after.0[..], after.1));
    }
}

/// The new total has the new count in it and not the old one; the grid as it
/// stands is judged first.
#[test]
fn settings_of_full_grids() {
    let mut full = separate(3);
    full.counts.fill(4_095);
    full.counts[16..].copy_from_slice(&[15, 0]);
    for (last, edge, count, answer) in [
        (0, 17, 1, refused(10, 0)),
        (0, 17, 4_096, refused(18, 17)),
        (0, 0, 4_095, Ok(65_535)),
        (0, 16, 14, Ok(65_534)),
        (1, 18, 0, refused(10, 0)),
    ] {
        let mut grid = full.clone();
        grid.counts[17] = last;
        let mut starts = grid.starts();
        let (cells, edges, counts) = (&grid.cells, &grid.edges, &mut grid.counts);
        let answered = set_count(cells, edges, counts, &mut starts, edge, count);
        assert_eq!(answered, answer);
        assert_eq!(starts, grid.starts());
    }
}
