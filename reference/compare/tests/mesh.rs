//! The mesh call against the second implementation.

use compare::grids::{
    by_rows, closed_grid, every_row, random_grid, shapes, single_cell, spirals, winding_cell,
    with_faults, with_random_counts, Numbers,
};
use compare::lent::{after, answers, answers_in_all, Lent, ANSWER_WORDS};
use compare::{calls, expected, on_stack, seed, setting};
use reference::booking::is_booked;
use reference::cell::{NO_NUMBER, TRIANGLE_WORDS};
use reference::gen::{broken, joined, separate, sphere, Chain, Rng, Sample};
use reference::grid::ROWS;
use reference::manifold::{inspect, should_close};
use reference::mesh::Mesher;
use reference::split;

/// Stands on both sides of a lent area.
const GUARD: u32 = 0x5a5a_5a5a;

/// Meshes of at most so many triangles are inspected also where they need not
/// close; and of so many where cells are split.
const INSPECTED: [usize; 2] = [300, 10_000];

/// An area before a call: words that no triangle has.
fn untouched(len: usize) -> Vec<u32> {
    (0..len)
        .map(|at| 0xa5a5_0000 | at as u32 & 0xffff)
        .collect()
}

/// What the compared grids were.
#[derive(Default)]
struct Tally {
    grids: u64,
    triangles: u64,
    hundred_cells: u64,
    over_1500_cells: u64,
    over_60000_crossings: u64,
    count_of_255: u64,
    over_255: u64,
    count_of_4095: u64,
    all_booked: u64,
    split_cells: u64,
    splits: u64,
    closed: u64,
    closed_and_split: u64,
    inspected: u64,
    refused: Numbers,
    short: u64,
    ample: u64,
}

impl Tally {
    fn accepted(&mut self, grid: &Sample, [triangles, splits]: [u64; 2]) {
        let cells = grid.cells.len() / 4;
        let crossings: u64 = grid.counts.iter().map(|&count| u64::from(count)).sum();
        self.triangles += triangles;
        self.splits += splits;
        self.hundred_cells += u64::from(cells >= 100);
        self.over_1500_cells += u64::from(cells > 1_500);
        self.over_60000_crossings += u64::from(crossings > 60_000);
        self.count_of_255 += u64::from(grid.counts.contains(&255));
        self.over_255 += u64::from(grid.counts.iter().any(|&count| count > 255));
        self.count_of_4095 += u64::from(grid.counts.contains(&4_095));
        let in_cells = grid.counts_in_cells();
        let split = in_cells.iter().filter(|&&counts| split::is_split(counts));
        self.split_cells += split.count() as u64;
        let booked = in_cells.into_iter().all(is_booked);
        self.all_booked += u64::from(cells > 1 && triangles > 0 && booked);
    }

    fn report(&self, what: &str) {
        println!(
            "mesh, {what}: {} grids, of these {} accepted ({} of 100 cells or more, {} of over \
             1,500, {} with over 60,000 crossings, {} with a count of 255, {} with one over 255, \
             {} with one of 4,095, {} of several cells, all of which are booked), {} that must \
             close and have triangles, {} of these with cells that are split; {} triangles; {} cells \
             split, {} splits; sides and rings counted in {} meshes; {} areas too short, {} with \
             room for any mesh; refused by rows 1 to 6, 18, 7 to 10: {:?}",
            self.grids,
            self.refused[0],
            self.hundred_cells,
            self.over_1500_cells,
            self.over_60000_crossings,
            self.count_of_255,
            self.over_255,
            self.count_of_4095,
            self.all_booked,
            self.closed,
            self.closed_and_split,
            self.triangles,
            self.split_cells,
            self.splits,
            self.inspected,
            self.short,
            self.ample,
            by_rows(&self.refused)
        );
    }
}

/// The call on an area of this length: numbers answered, and the whole area
/// with its guards. The area afterwards, as it has to be.
fn compare_in(mesher: &mut Mesher, grid: &Sample, len: usize) -> (Vec<u64>, Vec<u32>) {
    let mut area = untouched(len);
    let mut lent = Lent::new(&area, GUARD);
    let starts = grid.starts();
    let lists = grid.lists(&starts);
    let numbers = expected::mesh(mesher, lists, &mut area);
    let right = answers(&numbers, |answer| calls::mesh(lists, lent.area(), answer));
    assert!(
        right,
        "area of {len}: not answered with {numbers:?} alone: {grid:?}"
    );
    assert!(
        lent.is(&area, GUARD),
        "area of {len}: another mesh: {grid:?}"
    );
    if numbers[0] != 0 {
        assert_eq!(area, untouched(len));
    }
    (numbers, area)
}

/// Sides and rings, counted in the words that the proved call wrote.
fn count_sides(grid: &Sample, words: &[u32], tally: &mut Tally) {
    let Sample {
        cells,
        edges,
        counts,
    } = grid;
    let closed = should_close(cells, edges, counts);
    let in_sub_cell = |triangle: &[u32]| triangle[0] >= split::SUB_CELL_STEP;
    let split = words.chunks_exact(TRIANGLE_WORDS).any(in_sub_cell);
    if closed || words.len() <= INSPECTED[usize::from(split)] * TRIANGLE_WORDS {
        let report = inspect(cells, edges, counts, words);
        assert!(report.sound(), "{report:?}: {grid:?}");
        assert!(!closed || report.closed(), "{report:?}: {grid:?}");
        tally.inspected += 1;
        tally.closed += u64::from(closed && !words.is_empty());
        tally.closed_and_split += u64::from(closed && split);
    }
}

/// Compares the mesh of a grid in an area with room for it and some words more,
/// in one that is too short, and, of every other grid, in one with room for any
/// mesh of so many crossings or a word less, where the proved call takes another
/// way.
fn compare(mesher: &mut Mesher, rng: &mut Rng, grid: &Sample, tally: &mut Tally) {
    tally.grids += 1;
    let starts = grid.starts();
    let triangles = match expected::mesh(mesher, grid.lists(&starts), &mut [])[..] {
        [12, needed] => needed as usize,
        _ => 0,
    };
    let exact = TRIANGLE_WORDS * triangles;
    let (numbers, area) = compare_in(mesher, grid, exact + rng.below(13));
    tally.refused[numbers[0] as usize] += 1;
    if numbers[0] == 0 {
        assert_eq!(numbers[1], triangles as u64);
        tally.accepted(grid, [numbers[1], numbers[2]]);
        count_sides(grid, &area[..exact], tally);
        if tally.grids % 2 == 0 {
            let most = TRIANGLE_WORDS * grid.most_triangles();
            let len = [most, most.saturating_sub(1), most + rng.below(13)][rng.below(3)];
            compare_in(mesher, grid, len);
            tally.ample += u64::from(len >= most);
        }
    }
    if triangles > 0 {
        let short = [0, exact - 1, rng.below(exact)][rng.below(3)];
        let (numbers, _) = compare_in(mesher, grid, short);
        assert_eq!(numbers, [12, triangles as u64]);
        tally.short += 1;
    }
}

const CELL: [u16; 4] = [0, 1, 2, 3];

fn one_cell(counts: [u16; 6]) -> Sample {
    let mut grid = Sample::from_cells([CELL]);
    grid.counts = counts.to_vec();
    grid
}

/// Compares a grid with the numbers and the words that it has to give, in any
/// answer area.
fn compare_with(numbers: &[u64], words: &[u32], len: usize, grid: &Sample) {
    let (answered, area) = compare_in(&mut Mesher::default(), grid, len);
    assert_eq!(answered, numbers, "{grid:?}");
    assert_eq!(area[..words.len()], *words, "{grid:?}");
    assert_eq!(
        area[words.len()..],
        untouched(len)[words.len()..],
        "{grid:?}"
    );
    let before = untouched(len);
    let starts = grid.starts();
    let right = answers_in_all(numbers, |answer| {
        let mut lent = Lent::new(&before, GUARD);
        let many = calls::mesh(grid.lists(&starts), lent.area(), answer);
        assert!(lent.is(after(answer, &before, &area), GUARD), "{grid:?}");
        many
    });
    assert!(right, "{grid:?}");
}

const M: u32 = NO_NUMBER;

#[test]
fn examples_of_one_cell() {
    let corner = [0, 0, 0, 1, 2, 3, 0, 1, 1, 2, 0];
    let diagonal = [
        [0, 0, 0, 2, 3, 3, 0, 0, 2, M, 0],
        [0, 0, 0, 3, 1, M, 0, 2, 1, 1, 0],
    ];
    let fan = [
        [0, 0, 0, 1, M, 3, 0, M, 1, M, 0],
        [0, 0, 1, 0, M, 2, 0, M, 0, M, 1],
    ];
    for counts in [[0; 6], [1, 0, 0, 0, 0, 0], [1; 6]] {
        compare_with(&[0, 0, 0], &[], 0, &one_cell(counts));
        compare_with(&[0, 0, 0], &[], 30, &one_cell(counts));
    }
    // one triangle; the other crossings are on an open curve
    let wide = [0, 0, 0, 4_095, 8_189, 3, 0, 1, 4_095, 2, 0];
    let cases: [(_, &[u32]); 4] = [
        ([1, 1, 1, 0, 0, 0], &corner),
        ([4_095, 4_094, 1, 0, 0, 0], &wide),
        ([0, 1, 1, 1, 1, 0], &diagonal.concat()),
        ([2, 0, 0, 0, 0, 0], &fan.concat()),
    ];
    for (counts, words) in cases {
        let grid = one_cell(counts);
        let triangles = (words.len() / TRIANGLE_WORDS) as u64;
        for more in [0, 1, 8] {
            compare_with(&[0, triangles, 0], words, words.len() + more, &grid);
        }
        for len in 0..words.len() {
            compare_with(&[12, triangles], &[], len, &grid);
        }
    }
}

/// An octagon, and cells with as many crossings as an edge can have.
#[test]
fn examples_of_long_loops() {
    let grid = one_cell([2, 1, 1, 1, 1, 2]);
    let (numbers, area) = compare_in(&mut Mesher::default(), &grid, 88);
    assert_eq!(numbers, [0, 8, 0]);
    let points: Vec<u32> = area.chunks(11).map(|words| words[2]).collect();
    assert_eq!(points, [0, 2, 6, 4, 1, 5, 7, 3]);
    // pairs on one edge; corners; octagons; one loop of all crossings
    for (counts, triangles) in [
        ([4_095, 0, 0, 0, 0, 0], 4_094),
        ([4_095; 6], 4 * 2_047),
        ([4_094, 2_047, 2_047, 2_047, 2_047, 4_094], 8 * 2_047),
        ([4_095, 2_048, 2_047, 2_047, 2_048, 4_095], 16_380),
    ] {
        let len = TRIANGLE_WORDS * triangles as usize;
        for (len, first) in [(len, 0), (len - 1, 12), (11 * 24_570, 0)] {
            let (numbers, _) = compare_in(&mut Mesher::default(), &one_cell(counts), len);
            assert_eq!(numbers[..2], [first, triangles]);
        }
    }
}

/// A grid of these cells in this order, with its edges, all of count 0.
fn of_cells(cells: &[[u16; 4]]) -> Sample {
    let mut grid = Sample::from_cells(cells.iter().copied());
    grid.cells = cells.concat();
    grid
}

#[test]
fn examples_of_several_cells() {
    let mut grid = of_cells(&[CELL, [0, 1, 2, 4], [0, 1, 3, 4]]);
    grid.counts[0] = 2;
    let (numbers, area) = compare_in(&mut Mesher::default(), &grid, 66);
    assert_eq!(numbers, [0, 6, 0]);
    let named = |at: usize| area[11 * at + 5..11 * at + 7].to_vec();
    assert_eq!(
        [0, 1, 2, 3, 4, 5].map(named),
        [[3, 0], [2, 0], [3, 0], [6, 0], [2, 0], [6, 0]]
    );
    let full = |cells| {
        let mut grid = separate(cells);
        grid.counts.fill(255);
        grid
    };
    // 127 corners at each node
    let grid = full(42);
    let (numbers, _) = compare_in(&mut Mesher::default(), &grid, 11 * 21_336);
    assert_eq!(numbers, [0, 42 * 4 * 127, 0]);
    compare_with(&[12, 21_336], &[], 11 * 21_336 - 1, &grid);
    compare_with(&[10, 0], &[], 30, &full(43));
}

#[test]
fn examples_of_the_table() {
    let edges = || one_cell([1, 1, 1, 0, 0, 0]);
    let cells = |cells: &[u16]| Sample {
        cells: cells.to_vec(),
        ..edges()
    };
    let mut odd = edges();
    odd.edges.truncate(3);
    odd.counts.truncate(1);
    let mut unordered = edges();
    unordered.edges[0] = 1;
    let mut without = edges();
    without.edges.truncate(10);
    without.counts.truncate(5);
    let mut added = edges();
    added.edges.extend([7, 8]);
    added.counts.push(0);
    let cases = [
        ([1, 0], cells(&[0, 1, 2, 3, 4])),
        ([2, 0], odd),
        ([3, 0], cells(&[0, 2, 1, 3])),
        ([4, 1], of_cells(&[CELL, CELL])),
        ([5, 2], of_cells(&[CELL, [0, 1, 2, 4], [0, 1, 2, 5]])),
        ([6, 0], unordered),
        ([18, 3], one_cell([1, 1, 1, 4_096, 0, 4_097])),
        ([7, 0], without),
        ([8, 6], added),
        ([9, 0], of_cells(&[CELL, [0, 1, 4, 5]])),
    ];
    for (numbers, grid) in &cases {
        for len in [0, 10, 11, 40] {
            compare_with(numbers, &[], len, grid);
        }
    }
}

/// The counts of six edges that a number below 4096 tells.
fn small_counts(of: u16) -> [u16; 6] {
    [0, 2, 4, 6, 8, 10].map(|shift| of >> shift & 3)
}

#[test]
fn single_cells() {
    let mut rng = Rng::new(seed("mesh"));
    let mut mesher = Mesher::default();
    let mut tally = Tally::default();
    for of in 0..4_096 {
        compare(
            &mut mesher,
            &mut rng,
            &one_cell(small_counts(of)),
            &mut tally,
        );
    }
    tally.report("single cells, all counts 0..3");
    for (most, cells) in [(3, 1_000), (12, 4_000), (255, 2_000), (4_095, 200)] {
        let mut tally = Tally::default();
        for _ in 0..cells {
            let grid = single_cell(&mut rng, most);
            compare(&mut mesher, &mut rng, &grid, &mut tally);
        }
        tally.report(&format!("single cells, counts 0..{most}"));
        assert_eq!(tally.refused[0], cells);
    }
    let mut tally = Tally::default();
    for _ in 0..200 {
        let grid = winding_cell(&mut rng);
        compare(&mut mesher, &mut rng, &grid, &mut tally);
    }
    tally.report("single cells with films that go round");
    assert_eq!(tally.refused[0], 200);
}

#[test]
fn each_shape_broken_in_each_way() {
    let mut rng = Rng::new(seed("mesh"));
    let mut mesher = Mesher::default();
    let mut tally = Tally::default();
    for shape in shapes(&mut rng) {
        let whole = with_random_counts(&mut rng, shape).reordered(&mut rng);
        compare(&mut mesher, &mut rng, &whole, &mut tally);
        for row in ROWS {
            if let Some(faulty) = broken(&mut rng, &whole, row) {
                compare(&mut mesher, &mut rng, &faulty, &mut tally);
            }
            let several = with_faults(&mut rng, whole.clone());
            compare(&mut mesher, &mut rng, &several, &mut tally);
        }
    }
    assert!(every_row(&tally.refused));
    tally.report("each shape broken in each way");
}

/// Cells of one, two and three splits with all their words, in areas that just
/// fit and are a word too short; and cells that are not split.
#[test]
fn examples_of_split_cells() {
    for (counts, triangles, splits) in [
        ([4, 2, 6, 6, 2, 4], 52, 1),
        ([5, 5, 7, 8, 2, 6], 55, 1),
        ([6, 2, 8, 8, 2, 6], 96, 2),
        ([10, 6, 4, 4, 6, 10], 116, 2),
        ([11, 9, 8, 6, 9, 15], 122, 2),
        ([4, 14, 10, 10, 14, 4], 196, 3),
        // gcd 1; d1 = d2; d2 = 0; odd sums
        ([3, 2, 5, 5, 2, 3], 20, 0),
        ([4, 4, 8, 8, 4, 4], 32, 0),
        ([4, 0, 4, 4, 0, 4], 8, 0),
    ] {
        let grid = one_cell(counts);
        let exact = TRIANGLE_WORDS * triangles as usize;
        let mut words = vec![0; exact];
        expected::mesh(
            &mut Mesher::default(),
            grid.lists(&grid.starts()),
            &mut words,
        );
        let last = words[exact - TRIANGLE_WORDS];
        assert_eq!(last, split::SUB_CELL_STEP * 4 * splits as u32);
        for more in [0, 1, 11] {
            compare_with(&[0, triangles, splits], &words, exact + more, &grid);
        }
        for len in [0, 11, exact - 11, exact - 1] {
            compare_with(&[12, triangles], &[], len, &grid);
        }
    }
}

/// Grids with cells that are split, some of them broken; in those that must close
/// demand 3 is counted on the words.
#[test]
fn random_spirals() {
    let mut rng = Rng::new(seed("mesh, spirals"));
    let mut mesher = Mesher::default();
    let mut tally = Tally::default();
    let grids = setting("CITTERNBLAZE_GRIDS", 20_000) / 10;
    while tally.grids < grids {
        let mut grid = spirals(&mut rng);
        if rng.below(20) == 0 {
            grid = with_faults(&mut rng, grid);
        }
        compare(&mut mesher, &mut rng, &grid, &mut tally);
    }
    tally.report("grids with cells that are split");
    assert!(tally.split_cells > tally.grids && tally.closed_and_split > tally.grids / 8);
}

/// The most splits that a cell can have, 2,045, word by word, on the stack that the
/// header names for the mesh call; and the most triangles of a grid of which we
/// know, which are only refused.
#[test]
fn the_longest_spirals() {
    const TRIANGLES: usize = 16_793_556;
    let grid = one_cell([4_092, 2, 4_094, 4_094, 2, 4_092]);
    let starts = grid.starts();
    let lists = grid.lists(&starts);
    let called = grid.clone();
    let area = on_stack(1_536 * 1_024, move || {
        let starts = called.starts();
        let mut area = vec![GUARD; TRIANGLE_WORDS * TRIANGLES];
        let numbers = [0, TRIANGLES as u64, 2_045];
        let call = |answer: &mut [u64]| calls::mesh(called.lists(&starts), &mut area, answer);
        assert!(answers(&numbers, call));
        area
    });
    let mut words = area.chunks_exact(TRIANGLE_WORDS);
    let told = Mesher::default().each_triangle(lists, |triangle| {
        assert_eq!(words.next(), Some(&triangle.words()[..]));
    });
    assert_eq!(told.map(|told| told.splits), Ok(2_045));
    assert_eq!(words.next(), None);
    drop(area);
    let circles = [Chain::Circle(4); 2];
    let grid = joined(&mut Rng::new(1), circles, 0, [2, 4_092, 4_094]);
    compare_with(&[12, 16 * TRIANGLES as u64], &[], 11, &grid);
}

/// Three grids of ten are made to close, and two are broken.
#[test]
fn random_grids() {
    let mut rng = Rng::new(seed("mesh"));
    let mut mesher = Mesher::default();
    let mut tally = Tally::default();
    let grids = setting("CITTERNBLAZE_GRIDS", 20_000);
    while tally.grids < grids {
        let grid = match rng.below(10) {
            0..=2 => closed_grid(&mut rng),
            3..=4 => {
                let grid = random_grid(&mut rng);
                with_faults(&mut rng, grid)
            }
            _ => random_grid(&mut rng),
        };
        compare(&mut mesher, &mut rng, &grid, &mut tally);
    }
    tally.report("random grids");
    if grids >= 20_000 {
        assert!(tally.hundred_cells >= 1_000);
        assert!(tally.over_1500_cells >= 20);
        assert!(tally.over_60000_crossings >= 10);
        assert!(tally.closed >= tally.grids / 4);
        assert!(tally.count_of_255 >= 100);
        assert!(tally.over_255 >= 100);
        assert!(tally.count_of_4095 >= 20);
        assert!(tally.all_booked >= 500);
        assert!(every_row(&tally.refused));
    }
}

/// What the header says of the stack where no split is inside another: a grid
/// without splits, a grid of one, and a cell of one with large counts.
#[test]
fn stack_of_640_kilobytes() {
    let ball = |most| sphere([5, 5, 5]).with_counts(&mut Rng::new(1), 0, most);
    let large = one_cell([2_730, 1_365, 4_095, 4_095, 1_365, 2_730]);
    for (grid, splits) in [(ball(5), 0), (ball(12), 1), (large, 1)] {
        let answered = on_stack(640 * 1_024, move || {
            let starts = grid.starts();
            let mut area = vec![0; TRIANGLE_WORDS * 65_535];
            let mut answer = [1; ANSWER_WORDS];
            // room for the mesh, and for none, where the cells are counted
            [area.len(), 0].map(|len| {
                calls::mesh(grid.lists(&starts), &mut area[..len], &mut answer);
                [answer[0], answer[2]]
            })
        });
        assert_eq!(answered, [[0, splits], [12, splits]]);
    }
}
