//! Grids meshed by layers: examples by hand, rows 25, 26 and 12, runs against
//! grids that are built plainly, and joined meshes against undivided ones.

use std::collections::BTreeMap;

use reference::cell::{NO_NUMBER, TRIANGLE_WORDS};
use reference::gen::{
    all_cuts, broken, broken_cuts, closed_fan, deep, layered, parted_fan, random_cuts,
    random_shape, separate, sphere, spiral_join, Chain, Layered, Rng, Sample,
};
use reference::grid::{check, ROWS};
use reference::layers::{mesh_joined, mesh_run};
use reference::manifold::{inspect, should_close};
use reference::mesh::{mesh, MeshAnswer};
use reference::split::is_split;
use reference::Refusal;

const UNTOUCHED: u32 = 77_777;
const SUB_CELLS: u32 = 2_048;
const INNER_CROSSINGS: u32 = 65_536;
const INNER_FACES: u32 = 8_192;
const NO: u32 = NO_NUMBER;

type Answer = Result<MeshAnswer, Refusal>;

fn checked(grid: &Sample) -> Result<u32, Refusal> {
    check(grid.lists(&grid.starts()))
}

/// The run call, on a grid with the starts that it should have.
fn one_run(grid: &Sample, cuts: &[u16], run: u64, area: &mut [u32]) -> Answer {
    mesh_run(grid.lists(&grid.starts()), cuts, run, area)
}

/// The call that joins all runs, likewise.
fn all_runs(grid: &Sample, cuts: &[u16], area: &mut [u32]) -> Answer {
    mesh_joined(grid.lists(&grid.starts()), cuts, area)
}

fn refusal(number: u8, place: u64) -> Answer {
    Err(Refusal { number, place })
}

fn cell_count(grid: &Sample) -> usize {
    grid.cells.len() / 4
}

/// The answer and the words of a call. An area one word short is refused by 12
/// with the triangles needed and keeps its values, as do words at the end.
fn written(call: impl Fn(&mut [u32]) -> Answer) -> (MeshAnswer, Vec<u32>) {
    let needed = match call(&mut []) {
        Ok(answer) => answer.triangles,
        Err(Refusal { number, place }) => {
            assert_eq!(number, 12);
            place
        }
    };
    let length = needed as usize * TRIANGLE_WORDS;
    if needed > 0 {
        let mut short = vec![UNTOUCHED; length - 1];
        assert_eq!(call(&mut short), refusal(12, needed));
        assert!(short.iter().all(|&word| word == UNTOUCHED));
    }
    let mut area = vec![UNTOUCHED; length + 12];
    let answer = call(&mut area).expect("nothing is refused");
    assert_eq!(answer.triangles, needed);
    assert_eq!(area.split_off(length), [UNTOUCHED; 12]);
    (answer, area)
}

fn undivided(grid: &Sample) -> (MeshAnswer, Vec<u32>) {
    written(|area| mesh(grid.lists(&grid.starts()), area))
}

fn joined(grid: &Sample, cuts: &[u16]) -> (MeshAnswer, Vec<u32>) {
    written(|area| all_runs(grid, cuts, area))
}

fn run_alone(grid: &Sample, cuts: &[u16], run: usize) -> (MeshAnswer, Vec<u32>) {
    written(|area| one_run(grid, cuts, run as u64, area))
}

/// An end of an edge, the other end and the index of a crossing there.
type Spot = (u16, u16, u16);

/// Where each crossing of a grid is, by number.
fn spots(grid: &Sample) -> Vec<Spot> {
    let edges = grid.edges.chunks(2).zip(&grid.counts);
    let spots = edges.flat_map(|(ends, &count)| (0..count).map(|k| (ends[0], ends[1], k)));
    spots.collect()
}

/// The nodes of a named face.
fn face_nodes(grid: &Sample, name: u32) -> Vec<u16> {
    let (cell, slot) = (name as usize / 4, name as usize % 4);
    let mut nodes = grid.cells[4 * cell..4 * cell + 4].to_vec();
    nodes.remove(slot);
    nodes
}

/// Names of one grid for those of another, by where crossings and faces are.
struct Renaming {
    crossings: BTreeMap<u32, u32>,
    faces: BTreeMap<u32, u32>,
}

impl Renaming {
    /// From the names of a whole to those of its run.
    fn to_run(whole: &Sample, run: &Sample) -> Renaming {
        let numbers: BTreeMap<Spot, u32> = spots(run).into_iter().zip(0..).collect();
        let crossings = (0..).zip(spots(whole));
        let mut least = BTreeMap::new();
        for name in (0..run.cells.len() as u32).rev() {
            least.insert(face_nodes(run, name), name);
        }
        let faces = 0..whole.cells.len() as u32;
        Renaming {
            crossings: crossings
                .filter_map(|(number, spot)| Some((number, *numbers.get(&spot)?)))
                .collect(),
            faces: faces
                .filter_map(|name| Some((name, *least.get(&face_nodes(whole, name))?)))
                .collect(),
        }
    }

    /// The new word in a place of a triangle's words.
    fn word(&self, triangle: &[u32], at: usize) -> u32 {
        let word = triangle[at];
        let inner_side = at > 4 && triangle[(at + 1) / 2 * 2 - 1] == NO;
        let is_face = at > 4 && at % 2 == 1;
        match at {
            0 => word,
            _ if inner_side || word == NO => word,
            _ if is_face && word < INNER_FACES => self.faces[&word],
            _ if !is_face && word < INNER_CROSSINGS => self.crossings[&word],
            _ => word,
        }
    }
}

/// The triangles that an undivided mesh has in the cells of a run, with the
/// names of the run.
fn part_of(layered: &Layered, words: &[u32], run: usize) -> Vec<u32> {
    let renaming = Renaming::to_run(&layered.whole, &layered.run_alone(run));
    let bounds = layered.bounds();
    let [first, end] = [bounds[run], bounds[run + 1]];
    let mut part = Vec::new();
    for triangle in words.chunks(TRIANGLE_WORDS) {
        let cell = (triangle[0] % SUB_CELLS) as usize;
        if (first..end).contains(&cell) {
            part.push(triangle[0] - first as u32);
            part.extend((1..TRIANGLE_WORDS).map(|at| renaming.word(triangle, at)));
        }
    }
    part
}

/// Cells 0 1 2 3, 0 1 2 4 and 0 1 3 4 with count 2 on edge 0 1, a run each: the
/// six triangles of document 01's example.
#[test]
fn three_cells_by_hand() {
    let mut grid = closed_fan(3);
    grid.counts[0] = 2;
    assert_eq!(grid.cells, [0, 1, 2, 3, 0, 1, 2, 4, 0, 1, 3, 4]);
    let alone = [
        [0, 0, 0, 1, NO, 3, 0, NO, 1, NO, 0],
        [0, 0, 1, 0, NO, 2, 0, NO, 0, NO, 1],
    ];
    let whole = [
        [0, 0, 0, 1, NO, 3, 0, NO, 1, NO, 0],
        [0, 0, 1, 0, NO, 2, 0, NO, 0, NO, 1],
        [1, 0, 0, 1, NO, 3, 0, NO, 1, NO, 0],
        [1, 0, 1, 0, NO, 6, 0, NO, 0, NO, 1],
        [2, 0, 0, 1, NO, 2, 0, NO, 1, NO, 0],
        [2, 0, 1, 0, NO, 6, 0, NO, 0, NO, 1],
    ];
    for run in 0..3 {
        assert_eq!(run_alone(&grid, &[1, 2], run).1, alone.concat());
    }
    let (answer, words) = joined(&grid, &[1, 2]);
    assert_eq!((answer.triangles, answer.splits), (6, 0));
    assert_eq!(words, whole.concat());
}

/// Cells 0 1 2 3, 0 1 4 5 and then 0 1 3 4, cut before the last, with a corner
/// triangle at node 0 in each. Run 0 would be refused by row 9 alone.
#[test]
fn parted_cells_by_hand() {
    let grid = Sample {
        cells: vec![0, 1, 2, 3, 0, 1, 4, 5, 0, 1, 3, 4],
        edges: vec![
            0, 1, 0, 2, 0, 3, 0, 4, 0, 5, 1, 2, 1, 3, 1, 4, 1, 5, 2, 3, 3, 4, 4, 5,
        ],
        counts: vec![1, 1, 1, 1, 1, 0, 0, 0, 0, 0, 0, 0],
    };
    let layered = Layered {
        whole: grid.clone(),
        cuts: vec![2],
    };
    let refused = checked(&layered.run_alone(0));
    assert_eq!(refused.map_err(|refusal| refusal.number), Err(9));
    let first = [
        [0, 0, 0, 1, 2, 3, 0, 1, 1, 2, 0],
        [1, 0, 0, 3, 4, 7, 0, 5, 3, 6, 0],
    ];
    let second = [0, 0, 0, 1, 2, 3, 0, 1, 1, 2, 0];
    let second_in_whole = [2, 0, 0, 2, 3, 2, 0, 9, 2, 7, 0];
    assert_eq!(run_alone(&grid, &[2], 0).1, first.concat());
    assert_eq!(run_alone(&grid, &[2], 1).1, second);
    let whole = [first[0], first[1], second_in_whole];
    assert_eq!(joined(&grid, &[2]).1, whole.concat());
}

/// Cells 0 1 2 3 and 0 1 2 4, both split with d1 = 4 and d2 = 2, cut between:
/// each run is the same one cell, whose mesh tests/split.rs has by hand. In the
/// whole 01 has crossings 0..3, 02 4..5, 03 6..11, 04 12..17, 12 18..23, 13
/// 24..25, 14 26..27, 23 28..31, 24 32..35.
#[test]
fn split_cells_by_hand() {
    let mut grid = Sample::from_cells([[0, 1, 2, 3], [0, 1, 2, 4]]);
    grid.counts = vec![4, 2, 6, 6, 6, 2, 2, 4, 4];
    let (answer, alone) = run_alone(&grid, &[1], 0);
    assert_eq!((answer.triangles, answer.splits), (52, 1));
    assert_eq!(run_alone(&grid, &[1], 1), (answer, alone.clone()));
    let (answer, words) = joined(&grid, &[1]);
    assert_eq!((answer.triangles, answer.splits), (104, 2));
    let in_run = [
        [2048, 2, 2, 65_542, 13, 8192, 2, 8195, 13, 3, 2],
        [6144, 10, 10, 65_546, 22, 8194, 10, 8197, 22, 1, 10],
        [2048, 0, 65_544, 65_536, NO, 8193, 65_536, NO, 5, NO, 4],
        [4096, 2, 65_547, 65_541, NO, 8196, 65_541, NO, 5, NO, 4],
    ];
    let in_first = [
        [2048, 2, 2, 65_542, 19, 8192, 2, 8195, 19, 3, 2],
        [6144, 10, 10, 65_546, 30, 8194, 10, 8197, 30, 1, 10],
        [2048, 0, 65_544, 65_536, NO, 8193, 65_536, NO, 5, NO, 4],
        [4096, 2, 65_547, 65_541, NO, 8196, 65_541, NO, 5, NO, 4],
    ];
    let in_second = [
        [2049, 2, 2, 65_542, 19, 8192, 2, 8195, 19, 3, 2],
        [6145, 16, 16, 65_546, 34, 8194, 16, 8197, 34, 5, 16],
        [2049, 0, 65_544, 65_536, NO, 8193, 65_536, NO, 5, NO, 4],
        [4097, 2, 65_547, 65_541, NO, 8196, 65_541, NO, 5, NO, 4],
    ];
    for (k, triangle) in in_run.iter().enumerate() {
        let mut alone = alone.chunks(TRIANGLE_WORDS);
        let at = alone.position(|words| words == triangle);
        let at = at.expect("the run has this triangle") * TRIANGLE_WORDS;
        let beyond = at + 52 * TRIANGLE_WORDS;
        assert_eq!(words[at..at + TRIANGLE_WORDS], in_first[k]);
        assert_eq!(words[beyond..beyond + TRIANGLE_WORDS], in_second[k]);
    }
}

/// What both calls answer to these cuts, each tried with an area that has room
/// and with none; nothing may be written.
fn both_refuse(grid: &Sample, cuts: &[u16], run: u64, expected: Answer) {
    for length in [0, 4000] {
        let mut area = vec![UNTOUCHED; length];
        assert_eq!(one_run(grid, cuts, run, &mut area), expected);
        assert_eq!(all_runs(grid, cuts, &mut area), expected);
        assert!(area.iter().all(|&word| word == UNTOUCHED));
    }
}

#[test]
fn faulty_cuts_are_refused_at_the_first() {
    let mut grid = separate(5);
    grid.counts.fill(2);
    let table: [(&[u16], u64); 13] = [
        (&[0], 0),
        (&[5], 0),
        (&[6], 0),
        (&[u16::MAX], 0),
        (&[1, 1], 1),
        (&[3, 2], 1),
        (&[1, 2, 5], 2),
        (&[1, 0, 5], 1),
        (&[5, 0], 0),
        (&[1, 4, 3, 2], 2),
        (&[1, 2, 3, 4, 5], 4),
        (&[1, 2, 3, 4, 4], 4),
        (&[2, 3, 4, 1], 3),
    ];
    for (cuts, place) in table {
        for run in [0, 1, 99] {
            both_refuse(&grid, cuts, run, refusal(25, place));
        }
    }
    let mut one = separate(1);
    one.counts.fill(2);
    both_refuse(&one, &[0], 0, refusal(25, 0));
    both_refuse(&one, &[1], 0, refusal(25, 0));
    assert_eq!(joined(&one, &[]), undivided(&one));
    assert_eq!(run_alone(&one, &[], 0), undivided(&one));
}

#[test]
fn runs_that_are_not_there() {
    let mut grid = separate(5);
    grid.counts.fill(2);
    for (cuts, run) in [
        (&[][..], 1),
        (&[3][..], 2),
        (&[1, 2, 3, 4][..], 5),
        (&[1, 2, 3, 4][..], u64::MAX),
        (&[2][..], 1 << 32),
    ] {
        for length in [0, 4000] {
            let mut area = vec![UNTOUCHED; length];
            let answer = one_run(&grid, cuts, run, &mut area);
            assert_eq!(answer, refusal(26, run));
            assert!(area.iter().all(|&word| word == UNTOUCHED));
        }
        assert!(one_run(&grid, cuts, cuts.len() as u64, &mut [0; 4000]).is_ok());
    }
}

/// Rows of the grid check come before 25, row 9 of the whole among them.
#[test]
fn the_whole_is_checked_first() {
    let mut rng = Rng::new(31);
    let mut seen = BTreeMap::new();
    for turn in 0..440 {
        let row = ROWS[turn % ROWS.len()];
        let whole = random_shape(&mut rng).with_counts(&mut rng, 0, 3);
        if let Some(grid) = broken(&mut rng, &whole, row) {
            let refused = checked(&grid);
            let refused = refused.expect_err("the grid is broken");
            *seen.entry(refused.number).or_insert(0) += 1;
            let cuts = broken_cuts(&mut rng, cell_count(&grid).max(1));
            both_refuse(&grid, &cuts, 1 << 20, Err(refused));
            both_refuse(&grid, &[], 0, Err(refused));
        }
    }
    assert!(ROWS.iter().all(|row| seen.contains_key(row)), "{seen:?}");
}

/// The whole's starts belong to row 2.
#[test]
fn wrong_starts_are_refused_first() {
    let mut grid = separate(3);
    grid.counts.fill(2);
    let right = grid.starts();
    let mut wrong = right.clone();
    wrong[17] += 1;
    for starts in [&wrong[..], &right[..17], &[]] {
        for cuts in [&[][..], &[1, 2], &[0], &[3]] {
            let mut area = vec![UNTOUCHED; 4000];
            let run = mesh_run(grid.lists(starts), cuts, 9, &mut area);
            assert_eq!(run, refusal(2, 0));
            let all = mesh_joined(grid.lists(starts), cuts, &mut area);
            assert_eq!(all, refusal(2, 0));
            assert!(area.iter().all(|&word| word == UNTOUCHED));
        }
    }
    assert_eq!(joined(&grid, &[1, 2]), undivided(&grid));
}

/// The lowest index up to which the cuts are no longer in order.
fn first_fault(cuts: &[u16], cells: usize) -> Option<usize> {
    (0..cuts.len()).find(|&index| {
        let fits = |at: usize| cuts[at] >= 1 && usize::from(cuts[at]) < cells;
        let after = |at: usize| at == 0 || cuts[at] > cuts[at - 1];
        !(0..=index).all(|at| fits(at) && after(at))
    })
}

#[test]
fn random_cuts_are_judged() {
    let mut rng = Rng::new(32);
    let mut places = BTreeMap::new();
    for _ in 0..600 {
        let cells = rng.between(1, 9);
        let mut grid = separate(cells as u16);
        grid.counts[0] = 2;
        let cuts = broken_cuts(&mut rng, cells);
        let place = first_fault(&cuts, cells).expect("broken cuts") as u64;
        *places.entry(place).or_insert(0) += 1;
        let run = rng.below(12) as u64;
        both_refuse(&grid, &cuts, run, refusal(25, place));
        let fine = random_cuts(&mut rng, cells);
        assert_eq!(first_fault(&fine, cells), None);
        assert_eq!(joined(&grid, &fine), undivided(&grid));
    }
    assert!(places.len() > 4, "{places:?}");
}

/// A run is refused by 12 with its own triangles, all runs with theirs; the
/// numbers of long spirals are not walked.
#[test]
fn short_areas() {
    let mut grid = separate(3);
    let spiral = [4092, 2, 4094, 4094, 2, 4092];
    let few = [1, 1, 1, 0, 0, 0];
    grid.counts = [spiral, few, spiral].concat();
    // Splits with d1 = 4, 6, ..., 4,092, whose sum is 4,188,160: each gives
    // 4 × d1 + 20 triangles, and 16 come at the end.
    let triangles = 4 * 4_188_160 + 20 * 2_045 + 16;
    let mut area = vec![UNTOUCHED; 400];
    let mut ask = |run| one_run(&grid, &[1, 2], run, &mut area);
    assert_eq!(ask(0), refusal(12, triangles));
    assert_eq!(ask(2), refusal(12, triangles));
    assert_eq!(ask(1).map(|answer| answer.triangles), Ok(1));
    assert_eq!(area[TRIANGLE_WORDS..], [UNTOUCHED; 389]);
    let all = refusal(12, 2 * triangles + 1);
    for cuts in [&[][..], &[1], &[2], &[1, 2]] {
        assert_eq!(all_runs(&grid, cuts, &mut area), all);
    }
    assert_eq!(area[TRIANGLE_WORDS..], [UNTOUCHED; 389]);
    let two = refusal(12, triangles + 1);
    assert_eq!(one_run(&grid, &[2], 0, &mut area), two);
    assert_eq!(one_run(&grid, &[1], 1, &mut area), two);
}

/// What the runs of a grid came to.
#[derive(Debug, Default)]
struct Tally {
    runs: usize,
    refused_alone: usize,
    split_at_cut: usize,
    one_cell: usize,
    triangles: u64,
}

/// Compares every run with the mesh of its plainly built lists, where row 9
/// lets them pass, and with its part of the undivided mesh.
fn compare_runs(layered: &Layered, tally: &mut Tally) {
    let Layered { whole, cuts } = layered;
    let (total, words) = undivided(whole);
    let mut sum = MeshAnswer::default();
    for run in 0..=cuts.len() {
        let alone = run_alone(whole, cuts, run);
        sum.triangles += alone.0.triangles;
        sum.splits += alone.0.splits;
        assert_eq!(alone.1, part_of(layered, &words, run));
        let built = layered.run_alone(run);
        match checked(&built) {
            Ok(_) => assert_eq!(alone, undivided(&built)),
            Err(refused) => {
                assert_eq!(refused.number, 9);
                tally.refused_alone += 1;
            }
        }
        let counts = built.counts_in_cells();
        tally.split_at_cut += usize::from(run > 0 && is_split(counts[0]));
        tally.one_cell += usize::from(counts.len() == 1);
        tally.runs += 1;
    }
    tally.triangles += sum.triangles;
    assert_eq!(sum, total);
    assert_eq!(joined(whole, cuts), (total, words));
}

#[test]
fn runs_and_joined_meshes_of_random_grids() {
    let mut rng = Rng::new(33);
    let mut tally = Tally::default();
    for _ in 0..150 {
        compare_runs(&layered(&mut rng), &mut tally);
    }
    assert!(tally.runs > 1000 && tally.triangles > 10_000, "{tally:?}");
    assert!(tally.refused_alone > 100, "{tally:?}");
    assert!(tally.split_at_cut > 100, "{tally:?}");
    assert!(tally.one_cell > 100, "{tally:?}");
}

#[test]
fn joined_meshes_are_undivided_ones() {
    let mut rng = Rng::new(34);
    for _ in 0..300 {
        let Layered { whole, cuts } = layered(&mut rng);
        let expected = undivided(&whole);
        for cuts in [cuts, all_cuts(cell_count(&whole)), Vec::new()] {
            assert_eq!(joined(&whole, &cuts), expected);
        }
    }
}

/// Fans whose two runs are refused by row 9 alone, with faces and edges on the
/// cut alone.
#[test]
fn parted_fans() {
    let mut rng = Rng::new(35);
    for pairs in 2..20 {
        let mut fan = parted_fan(pairs);
        fan.whole = fan.whole.with_counts(&mut rng, 0, 6);
        let mut tally = Tally::default();
        compare_runs(&fan, &mut tally);
        assert_eq!((tally.runs, tally.refused_alone), (2, 2));
    }
}

/// A run of one cell has the names of a grid of that cell alone.
#[test]
fn runs_of_one_cell() {
    let mut rng = Rng::new(36);
    for _ in 0..40 {
        let Layered { whole, .. } = layered(&mut rng);
        let cells = whole.cells.chunks(4).zip(whole.counts_in_cells());
        for (run, (nodes, counts)) in cells.enumerate() {
            let mut cell = Sample::from_cells([[nodes[0], nodes[1], nodes[2], nodes[3]]]);
            cell.counts = counts.to_vec();
            let alone = run_alone(&whole, &all_cuts(cell_count(&whole)), run);
            assert_eq!(alone, undivided(&cell));
        }
    }
}

/// Closed surfaces are as whole over cuts as inside a run.
#[test]
fn surfaces_close_over_cuts() {
    let mut rng = Rng::new(37);
    let mut triangles = 0;
    for turn in 0..60 {
        let size = [(); 3].map(|()| rng.between(1, 3));
        let whole = match turn % 3 {
            0 => spiral_join(&mut rng, [4, 6].map(Chain::Circle), 2, 12),
            1 => sphere(size).with_closed_spirals(&mut rng, 12, 1),
            _ => random_shape(&mut rng).with_closed_counts(&mut rng, 2),
        };
        let whole = whole.reordered(&mut rng);
        assert!(should_close(&whole.cells, &whole.edges, &whole.counts));
        let cuts = random_cuts(&mut rng, cell_count(&whole));
        let (_, words) = joined(&whole, &cuts);
        let report = inspect(&whole.cells, &whole.edges, &whole.counts, &words);
        assert!(report.closed(), "{report:?}");
        triangles += report.triangles;
    }
    assert!(triangles > 10_000);
}

/// Grids of 2,048 cells, with random cuts and with all.
#[test]
fn deep_grids() {
    let mut rng = Rng::new(38);
    let mut splits = 0;
    for _ in 0..12 {
        let layered = deep(&mut rng);
        let Layered { whole, cuts } = &layered;
        assert_eq!(cell_count(whole), 2_048);
        let expected = undivided(whole);
        assert_eq!(joined(whole, cuts), expected);
        assert_eq!(joined(whole, &all_cuts(2_048)), expected);
        let last = cuts.len();
        let part = part_of(&layered, &expected.1, last);
        assert_eq!(run_alone(whole, cuts, last).1, part);
        splits += expected.0.splits;
    }
    assert!(splits > 2_048);
}
