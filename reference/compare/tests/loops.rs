//! The loops call against the second implementation.

use std::thread;

use compare::grids::{
    by_rows, closed_grid, every_row, random_grid, single_cell, winding_cell, with_faults, Numbers,
};
use compare::lent::{answers, answers_in_all, ANSWER_WORDS};
use compare::{calls, expected, seed, setting};
use reference::gen::{random_shape, sphere, Rng, Sample};
use reference::mesh::Mesher;

/// Grids of at most so many cells and crossings have all their loops compared.
const SMALL: [usize; 2] = [40, 8_000];

/// What the compared calls answered.
#[derive(Default)]
struct Tally {
    cells: u64,
    folded: u64,
    types: [u64; 4],
    none: u64,
    refused: Numbers,
    longest: u64,
}

impl Tally {
    fn add(&mut self, numbers: &[u64]) {
        self.refused[numbers[0] as usize] += 1;
        match *numbers {
            [0] => self.none += 1,
            [0, _, length, normal, of, ..] => {
                self.types[of as usize] += 1;
                self.folded += u64::from(normal == 0);
                self.longest = self.longest.max(length);
            }
            _ => {}
        }
    }

    fn report(&self, what: &str) {
        println!(
            "loops, {what}: {} cells whole; {} loops, by type 0 to 3: {:?}, {} not normal, the \
             longest of {} segments; {} answers of none; refused by rows 1 to 6, 18, 7 to 10: \
             {:?}, 11: {}",
            self.cells,
            self.types.iter().sum::<u64>(),
            self.types,
            self.folded,
            self.longest,
            self.none,
            by_rows(&self.refused),
            self.refused[11]
        );
    }
}

/// Compares one call, and tells its numbers.
fn compare(mesher: &mut Mesher, grid: &Sample, ask: [usize; 2], tally: &mut Tally) -> Vec<u64> {
    let starts = grid.starts();
    let lists = grid.lists(&starts);
    let numbers = expected::loops(mesher, lists, ask);
    tally.add(&numbers);
    assert!(
        answers(&numbers, |area| calls::loops(lists, ask, area)),
        "cell and loop {ask:?}: not answered with {numbers:?} alone: {grid:?}"
    );
    numbers
}

/// Compares every loop of a cell, and that there is none after the last.
fn compare_cell(mesher: &mut Mesher, grid: &Sample, cell: usize, tally: &mut Tally) {
    let mut index = 0;
    while compare(mesher, grid, [cell, index], tally) != [0] {
        index += 1;
    }
    for beyond in [index + 1, usize::MAX] {
        assert_eq!(compare(mesher, grid, [cell, beyond], tally), [0]);
    }
    tally.cells += 1;
}

/// Compares every loop of every cell of an accepted grid, and row 11.
fn compare_all(mesher: &mut Mesher, grid: &Sample, tally: &mut Tally) {
    let cells = grid.cells.len() / 4;
    for cell in 0..cells {
        compare_cell(mesher, grid, cell, tally);
    }
    for beyond in [cells, cells + 1, usize::MAX] {
        let numbers = compare(mesher, grid, [beyond, 0], tally);
        assert_eq!(numbers, [11, beyond as u64]);
    }
}

fn one_cell(counts: [u16; 6]) -> Sample {
    let mut grid = Sample::from_cells([[0, 1, 2, 3]]);
    grid.counts = counts.to_vec();
    grid
}

#[test]
fn examples() {
    let cases: [(_, _, &[u64]); 14] = [
        ([0; 6], [0, 0], &[0]),
        ([1, 0, 0, 0, 0, 0], [0, 0], &[0]),
        ([1; 6], [0, 0], &[0]),
        ([1, 1, 1, 0, 0, 0], [0, 0], &[0, 0, 3, 1, 3, 0]),
        ([1, 1, 1, 0, 0, 0], [0, 1], &[0]),
        ([1, 1, 1, 0, 0, 0], [1, 0], &[11, 1]),
        ([0, 1, 1, 1, 1, 0], [0, 0], &[0, 0, 4, 1, 2, 1]),
        ([2, 1, 1, 1, 1, 2], [0, 0], &[0, 0, 8, 1, 2, 1]),
        ([2, 0, 0, 0, 0, 0], [0, 0], &[0, 0, 2, 0, 0]),
        ([4_095, 0, 0, 0, 0, 0], [0, 2_046], &[0, 4_093, 2, 0, 0]),
        ([4_095, 0, 0, 0, 0, 0], [0, 2_047], &[0]),
        (
            [4_095, 2_048, 2_047, 2_047, 2_048, 4_095],
            [0, 0],
            &[0, 0, 16_380, 1, 2, 2],
        ),
        ([4_096, 0, 0, 0, 0, 4_096], [9, 0], &[18, 0]),
        ([0, 0, 65_535, 0, 0, 0], [0, 0], &[18, 2]),
    ];
    for (counts, ask, numbers) in cases {
        let grid = one_cell(counts);
        let starts = grid.starts();
        let lists = grid.lists(&starts);
        assert_eq!(expected::loops(&mut Mesher::default(), lists, ask), numbers);
        assert!(
            answers_in_all(numbers, |area| calls::loops(lists, ask, area)),
            "{grid:?}, cell and loop {ask:?}"
        );
    }
}

#[test]
fn single_cells() {
    let mut rng = Rng::new(seed("loops"));
    let mut mesher = Mesher::default();
    let mut tally = Tally::default();
    for of in 0..4_096 {
        let counts = [0, 2, 4, 6, 8, 10].map(|shift| of >> shift & 3);
        compare_all(&mut mesher, &one_cell(counts), &mut tally);
    }
    tally.report("single cells, all counts 0..3");
    for (most, cells) in [(12, 2_000), (255, 100)] {
        let mut tally = Tally::default();
        for _ in 0..cells {
            compare_all(&mut mesher, &single_cell(&mut rng, most), &mut tally);
        }
        tally.report(&format!("single cells, counts 0..{most}"));
    }
    let mut tally = Tally::default();
    for turn in 0..200 {
        let grid = match turn % 2 {
            0 => single_cell(&mut rng, 4_095),
            _ => winding_cell(&mut rng),
        };
        for index in [0, 1, rng.below(100), rng.below(5_000), 24_570] {
            compare(&mut mesher, &grid, [0, index], &mut tally);
        }
    }
    tally.report("some loops of single cells with large counts");
    assert!(tally.longest > 1_000);
}

/// An accepted grid of few cells and crossings.
fn small_grid(rng: &mut Rng) -> Sample {
    loop {
        let grid = match rng.below(4) {
            0 => closed_grid(rng),
            1 => random_shape(rng).with_counts(rng, 0, 9),
            2 => random_shape(rng).with_even_counts(rng, 3),
            _ => random_shape(rng).with_counts(rng, 0, 3),
        };
        let crossings: usize = grid.counts.iter().map(|&count| usize::from(count)).sum();
        if grid.cells.len() / 4 <= SMALL[0] && crossings <= SMALL[1] {
            return grid;
        }
    }
}

#[test]
fn all_loops_of_small_grids() {
    let mut rng = Rng::new(seed("loops"));
    let mut mesher = Mesher::default();
    let mut tally = Tally::default();
    let grids = setting("CITTERNBLAZE_GRIDS", 20_000);
    for _ in 0..grids / 20 {
        compare_all(&mut mesher, &small_grid(&mut rng), &mut tally);
    }
    tally.report("small grids");
    if grids >= 20_000 {
        assert!(tally.types.iter().all(|&loops| loops > 1_000));
    }
}

/// A few cells of each grid, some of which it has not, and a few loops.
#[test]
fn random_grids() {
    let mut rng = Rng::new(seed("loops"));
    let mut mesher = Mesher::default();
    let mut tally = Tally::default();
    let grids = setting("CITTERNBLAZE_GRIDS", 20_000);
    for _ in 0..grids {
        let mut grid = random_grid(&mut rng);
        if rng.below(4) == 0 {
            grid = with_faults(&mut rng, grid);
        }
        let cells = grid.cells.len() / 4;
        for ask in [
            [rng.below(cells + 2), rng.below(12)],
            [rng.below(cells + 1), 0],
        ] {
            compare(&mut mesher, &grid, ask, &mut tally);
        }
    }
    tally.report("random grids");
    if grids >= 20_000 {
        assert!(tally.types.iter().all(|&loops| loops > 0));
        assert!(every_row(&tally.refused) && tally.refused[11] > 0);
    }
}

/// What the header says of the stack.
#[test]
fn stack_of_640_kilobytes() {
    let grid = sphere([5, 5, 5]).with_counts(&mut Rng::new(1), 0, 12);
    let call = move || {
        let mut answer = [1; ANSWER_WORDS];
        calls::loops(grid.lists(&grid.starts()), [9, 0], &mut answer);
        answer[0]
    };
    let thread = thread::Builder::new().stack_size(640 * 1024).spawn(call);
    assert_eq!(thread.expect("a thread").join().expect("an answer"), 0);
}
