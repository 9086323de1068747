//! Starts of edges: the opening call, the setting call, and starts that are not
//! those of their counts, against the second implementation.

use compare::grids::{random_grid, with_crossings, with_faults, Numbers};
use compare::lent::{after, answers, answers_in_all, Lent, ANSWER_WORDS};
use compare::placing::{placing, Kind, Placing};
use compare::{calls, expected, seed, setting};
use reference::cell::TRIANGLE_WORDS;
use reference::gen::{random_cuts, random_shape, separate, Rng, Sample};
use reference::grid::{Lists, MAX_CELLS, MAX_COUNT};
use reference::mesh::Mesher;

const GUARD: u32 = 0x5a5a_a5a5;
const COUNT_GUARD: u16 = 0xa55a;
const SIDES: usize = 4_096;

fn one_cell(counts: [u16; 6]) -> Sample {
    let mut grid = Sample::from_cells([[0, 1, 2, 3]]);
    grid.counts = counts.to_vec();
    grid
}

/// Compares the opening of a grid that is lent these starts: the numbers and
/// every start with its guards. Tells both.
fn compare_open(grid: &Sample, starts: &[u32]) -> (Vec<u64>, Vec<u32>) {
    let mut made = starts.to_vec();
    let numbers = expected::open(grid, &mut made);
    let right = answers(&numbers, |answer| {
        let mut lent = Lent::new(starts, GUARD);
        let many = calls::open(&grid.cells, &grid.edges, &grid.counts, lent.area(), answer);
        assert!(lent.is(&made, GUARD), "other starts: {grid:?}, {starts:?}");
        many
    });
    assert!(right, "not answered with {numbers:?}: {grid:?}, {starts:?}");
    if numbers[0] == 0 {
        assert_eq!(made, grid.starts());
    } else {
        assert_eq!(made, starts);
    }
    (numbers, made)
}

/// Starts of this number, of any value.
fn any_starts(rng: &mut Rng, many: usize) -> Vec<u32> {
    (0..many).map(|_| rng.word() as u32).collect()
}

#[test]
fn opening_of_random_grids() {
    let mut rng = Rng::new(seed("open"));
    let mut refused: Numbers = [0; 23];
    let grids = setting("CITTERNBLAZE_GRIDS", 20_000);
    for _ in 0..grids / 4 {
        let mut grid = random_grid(&mut rng);
        if rng.below(3) == 0 {
            grid = with_faults(&mut rng, grid);
        }
        let edges = grid.counts.len();
        let many = match rng.below(8) {
            0 => rng.below(edges + 9),
            1 => edges + 1,
            2 => edges.saturating_sub(1),
            _ => edges,
        };
        let starts = any_starts(&mut rng, many);
        let (numbers, _) = compare_open(&grid, &starts);
        refused[numbers[0] as usize] += 1;
    }
    println!("open: answered with each number: {refused:?}");
    if grids >= 20_000 {
        for number in [0, 1, 2, 3, 4, 5, 6, 7, 8, 9, 10, 18] {
            assert!(refused[number] > 0, "{number}");
        }
    }
}

/// Wrong starts of an accepted grid with at least one edge.
fn spoiled_starts(rng: &mut Rng, grid: &Sample) -> Vec<u32> {
    let mut starts = grid.starts();
    let last = starts.len() - 1;
    let at = rng.below(starts.len());
    match rng.below(9) {
        0 => starts.push(0),
        1 => starts.truncate(last),
        2 => starts[last] = starts[last].wrapping_add(1),
        3 => starts[at] = starts[at].wrapping_sub(1),
        4 => starts[at] += 1 << rng.between(16, 31),
        5 => starts.swap(0, at),
        6 => starts[at..].iter_mut().for_each(|start| *start += 1),
        7 => {
            let own = grid.counts.iter().map(|&count| u32::from(count));
            starts = starts
                .iter()
                .zip(own)
                .map(|(start, own)| start + own)
                .collect();
        }
        _ => starts.clear(),
    }
    starts
}

/// Compares every call that takes a grid, for a grid with these starts; tells the
/// first number that they answer.
fn compare_calls(rng: &mut Rng, whole: &Placing, starts: &[u32], room: usize) -> usize {
    let lists = whole.grid.lists(starts);
    let mut mesher = Mesher::default();
    let numbers = expected::check(lists);
    assert!(answers(&numbers, |answer| calls::check(lists, answer)));
    let ask = [rng.below(2 + whole.grid.cells.len() / 4), rng.below(2)];
    let loops = expected::loops(&mut mesher, lists, ask);
    assert!(answers(&loops, |answer| calls::loops(lists, ask, answer)));
    compare_mesh(&mut mesher, room, lists);
    compare_runs(rng, room, lists);
    let mut sides = vec![7; SIDES];
    let mut area = sides.clone();
    let shading = expected::shading(lists, &mut sides);
    assert!(answers(&shading, |answer| calls::shading(
        lists, &mut area, answer
    )));
    assert_eq!(area, sides);
    let mut points = vec![9; 6 * (whole.fractions.len() + 1)];
    let mut area = points.clone();
    let places = expected::places(whole, starts, &mut points);
    let Placing {
        nodes, fractions, ..
    } = whole;
    assert!(answers(&places, |answer| {
        calls::places(lists, nodes, fractions, &mut area, answer)
    }));
    assert_eq!(area, points);
    numbers[0] as usize
}

/// Compares a run and the joined mesh, with random cuts, in areas for so many
/// triangles.
fn compare_runs(rng: &mut Rng, triangles: usize, lists: Lists) {
    let cuts = random_cuts(rng, (lists.cells.len() / 4).max(1));
    let run = rng.below(cuts.len() + 2);
    let mut made = vec![3; TRIANGLE_WORDS * triangles];
    let mut area = made.clone();
    let numbers = expected::mesh_run(lists, &cuts, run as u64, &mut made);
    assert!(answers(&numbers, |answer| {
        calls::mesh_run(lists, &cuts, run, &mut area, answer)
    }));
    assert_eq!(area, made);
    let numbers = expected::mesh_joined(lists, &cuts, &mut made);
    assert!(answers(&numbers, |answer| {
        calls::mesh_joined(lists, &cuts, &mut area, answer)
    }));
    assert_eq!(area, made);
}

/// Compares the mesh in an area for so many triangles, and gives the words.
fn compare_mesh(mesher: &mut Mesher, triangles: usize, lists: Lists) -> Vec<u32> {
    let mut made = vec![3; TRIANGLE_WORDS * triangles];
    let mut area = made.clone();
    let numbers = expected::mesh(mesher, lists, &mut made);
    let right = answers(&numbers, |answer| calls::mesh(lists, &mut area, answer));
    assert!(right, "not answered with {numbers:?}");
    assert_eq!(area, made);
    made
}

#[test]
fn starts_that_are_not_the_sums() {
    let mut rng = Rng::new(seed("starts"));
    let mut refused: Numbers = [0; 23];
    let grids = setting("CITTERNBLAZE_GRIDS", 20_000);
    for _ in 0..grids / 10 {
        let shape = random_shape(&mut rng);
        let grid = shape.with_counts(&mut rng, 0, 3);
        let room = grid.most_triangles();
        let mut whole = placing(&mut rng, grid, Kind::Any);
        if rng.below(4) == 0 {
            whole.grid = with_faults(&mut rng, whole.grid);
        }
        let starts = match rng.below(3) {
            0 if !whole.grid.counts.is_empty() => spoiled_starts(&mut rng, &whole.grid),
            _ => whole.grid.starts(),
        };
        refused[compare_calls(&mut rng, &whole, &starts, room)] += 1;
    }
    println!("starts: answered with each number: {refused:?}");
    assert!(refused[0] > 0 && refused[2] > 0);
}

/// A setting of a random edge, some of them to be refused.
fn random_setting(rng: &mut Rng, grid: &Sample) -> (usize, u16) {
    let edges = grid.counts.len();
    let edge = match rng.below(12) {
        0 => edges,
        1 => edges + rng.below(70_000),
        2 => usize::MAX - rng.below(3),
        3 => edges - 1,
        _ => rng.below(edges),
    };
    let count = match rng.below(12) {
        0 => MAX_COUNT + 1,
        1 => rng.between(usize::from(MAX_COUNT) + 1, 65_535) as u16,
        2 => MAX_COUNT,
        3 => rng.between(0, usize::from(MAX_COUNT)) as u16,
        4 => grid.counts.get(edge).copied().unwrap_or(1),
        _ => rng.between(0, 5) as u16,
    };
    (edge, count)
}

/// Makes a setting by both, in all lent memory with its guards; tells the number
/// answered.
fn compare_setting(grid: &mut Sample, starts: &mut [u32], (edge, count): (usize, u16)) -> usize {
    let (before, starts_before) = (grid.clone(), starts.to_vec());
    let numbers = expected::set_count(grid, starts, edge, count);
    let right = answers(&numbers, |answer| {
        let mut lent_counts = Lent::new(&before.counts, COUNT_GUARD);
        let mut lent_starts = Lent::new(&starts_before, GUARD);
        let many = calls::set_count(
            (&before.cells, &before.edges),
            lent_counts.area(),
            lent_starts.area(),
            (edge, count),
            answer,
        );
        assert!(lent_counts.is(&grid.counts, COUNT_GUARD));
        assert!(lent_starts.is(starts, GUARD));
        many
    });
    assert!(right, "{edge}, {count}: not {numbers:?}: {before:?}");
    if numbers[0] != 0 {
        assert_eq!((&before, &starts_before[..]), (&*grid, &*starts));
    }
    numbers[0] as usize
}

/// The mesh as the grid stands, and that of a grid opened afresh with its counts.
fn compare_fresh(rng: &mut Rng, mesher: &mut Mesher, grid: &Sample, starts: &[u32]) {
    let lent = any_starts(rng, grid.counts.len());
    let (numbers, opened) = compare_open(grid, &lent);
    assert_eq!(numbers[0], 0);
    assert_eq!(opened, starts);
    let room = grid.most_triangles();
    let words = compare_mesh(mesher, room, grid.lists(starts));
    assert_eq!(words, compare_mesh(mesher, room, grid.lists(&opened)));
}

#[test]
fn lists_of_settings() {
    let mut rng = Rng::new(seed("settings"));
    let mut refused: Numbers = [0; 23];
    let mut mesher = Mesher::default();
    let grids = setting("CITTERNBLAZE_GRIDS", 20_000);
    for _ in 0..grids / 20 {
        let shape = match rng.below(3) {
            0 => separate(rng.between(1, 9) as u16),
            _ => random_shape(&mut rng),
        };
        let mut grid = match rng.below(4) {
            0 if shape.counts.len() >= 17 => with_crossings(&mut rng, shape, 65_530),
            _ => shape.with_counts(&mut rng, 0, 3),
        };
        let mut starts = grid.starts();
        for _ in 0..rng.between(1, 8) {
            let set = random_setting(&mut rng, &grid);
            refused[compare_setting(&mut grid, &mut starts, set)] += 1;
            compare_fresh(&mut rng, &mut mesher, &grid, &starts);
        }
    }
    println!("settings: answered with each number: {refused:?}");
    if grids >= 20_000 {
        assert!([0, 10, 18, 21].iter().all(|&number| refused[number] > 50));
    }
}

/// The grid as it is lent is judged before the setting is.
#[test]
fn settings_of_faulty_grids() {
    let mut rng = Rng::new(seed("settings"));
    let mut refused: Numbers = [0; 23];
    let grids = setting("CITTERNBLAZE_GRIDS", 20_000);
    for _ in 0..grids / 10 {
        let grid = random_grid(&mut rng);
        let mut faulty = match rng.below(3) {
            0 => grid,
            _ => with_faults(&mut rng, grid),
        };
        if !faulty.counts.is_empty() {
            let mut starts = match rng.below(5) {
                0 => spoiled_starts(&mut rng, &faulty),
                _ => faulty.starts(),
            };
            let set = random_setting(&mut rng, &faulty);
            refused[compare_setting(&mut faulty, &mut starts, set)] += 1;
        }
    }
    println!("settings of faulty grids: answered with each number: {refused:?}");
}

/// Grids, an edge and its new count, and what is answered.
fn at_the_limits() -> Vec<(Sample, (usize, u16), [u64; 2])> {
    let full = |last| {
        let mut grid = separate(3);
        grid.counts.fill(4_095);
        grid.counts[16..].copy_from_slice(&[15, last]);
        grid
    };
    let cell = || one_cell([1, 2, 3, 4, 5, 6]);
    vec![
        // 21 before 18, 18 before 10
        (cell(), (6, 0), [21, 6]),
        (cell(), (6, 4_096), [21, 6]),
        (cell(), (usize::MAX, 4_096), [21, u64::MAX]),
        (cell(), (2, 4_096), [18, 2]),
        (full(0), (17, 4_096), [18, 17]),
        (full(0), (17, 1), [10, 0]),
        (full(0), (17, 0), [0, 65_535]),
        (full(0), (16, 16), [10, 0]),
        (full(0), (16, 14), [0, 65_534]),
        // the old count is no longer in the total
        (full(0), (0, 4_095), [0, 65_535]),
        (full(0), (0, 0), [0, 61_440]),
        (cell(), (0, 4_095), [0, 4_115]),
        (cell(), (5, 0), [0, 15]),
        (cell(), (2, 7), [0, 25]),
        // the grid as it is lent comes first
        (full(1), (17, 0), [10, 0]),
        (full(1), (18, 0), [10, 0]),
    ]
}

#[test]
fn settings_at_the_limits() {
    for (grid, (edge, count), numbers) in at_the_limits() {
        let before = grid.starts();
        let (mut counts, mut starts) = (grid.clone(), before.clone());
        assert_eq!(
            expected::set_count(&mut counts, &mut starts, edge, count),
            numbers
        );
        let right = answers_in_all(&numbers, |answer| {
            let mut lent_counts = Lent::new(&grid.counts, COUNT_GUARD);
            let mut lent_starts = Lent::new(&before, GUARD);
            let many = calls::set_count(
                (&grid.cells, &grid.edges),
                lent_counts.area(),
                lent_starts.area(),
                (edge, count),
                answer,
            );
            assert!(lent_counts.is(after(answer, &grid.counts, &counts.counts), COUNT_GUARD));
            assert!(lent_starts.is(after(answer, &before, &starts), GUARD));
            many
        });
        assert!(right, "{edge}, {count}: not {numbers:?}");
    }
}

/// Sums of more than 32 bits are no starts; the opening call does not mind.
#[test]
fn sums_beyond_32_bits() {
    const MANY: usize = 66_000;
    let grid = Sample {
        cells: vec![0, 1, 2, 3],
        edges: vec![0; 2 * MANY],
        counts: vec![u16::MAX; MANY],
    };
    let starts = grid.starts();
    let lists = grid.lists(&starts);
    assert_eq!(expected::check(lists), [2, 0]);
    assert!(answers(&[2, 0], |answer| calls::check(lists, answer)));
    assert_eq!(compare_open(&grid, &starts).0, [6, 0]);
    let mut short = grid;
    short.counts.truncate(65_537);
    short.edges.truncate(2 * 65_537);
    let starts = short.starts();
    assert_eq!(starts[65_536], 65_536 * 65_535);
    let lists = short.lists(&starts);
    assert_eq!(expected::check(lists), [6, 0]);
    assert!(answers(&[6, 0], |answer| calls::check(lists, answer)));
}

/// Answer areas of every length.
#[test]
fn opening_in_any_answer_area() {
    for (grid, many, numbers) in [
        (one_cell([1, 2, 3, 4, 5, 6]), 6, [0, 21]),
        (one_cell([1, 2, 3, 4, 5, 6]), 5, [2, 0]),
        (one_cell([1, 2, 3, 4, 5, 6]), 7, [2, 0]),
        (one_cell([1, 2, 4_096, 4, 5, 6]), 6, [18, 2]),
    ] {
        let before = vec![GUARD; many];
        let mut made = before.clone();
        assert_eq!(expected::open(&grid, &mut made), numbers);
        let right = answers_in_all(&numbers, |answer| {
            let mut lent = Lent::new(&before, GUARD);
            let many = calls::open(&grid.cells, &grid.edges, &grid.counts, lent.area(), answer);
            assert!(lent.is(after(answer, &before, &made), GUARD));
            many
        });
        assert!(right, "{grid:?}");
    }
}

/// What the header says of the stack.
#[test]
fn stack_of_512_kilobytes() {
    let call = || {
        let grid = reference::gen::closed_fan(MAX_CELLS as u16);
        let mut counts = grid.counts.clone();
        let mut starts = vec![1; counts.len()];
        let mut answer = [1; ANSWER_WORDS];
        calls::open(&grid.cells, &grid.edges, &counts, &mut starts, &mut answer);
        let lists = (&grid.cells[..], &grid.edges[..]);
        calls::set_count(lists, &mut counts, &mut starts, (0, 9), &mut answer);
        answer[..2].to_vec()
    };
    let thread = std::thread::Builder::new()
        .stack_size(512 * 1024)
        .spawn(call);
    assert_eq!(thread.expect("a thread").join().expect("an answer"), [0, 9]);
}
