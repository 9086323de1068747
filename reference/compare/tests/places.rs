//! The places call against the second implementation, bit by bit.

use std::collections::BTreeSet;

use compare::grids::{
    by_rows, closed_grid, dealt, every_row, nested_cell, random_grid, single_cell, spirals,
    with_faults, with_neighbour, Numbers,
};
use compare::lent::{after, answers, answers_in_all, Lent, ANSWER_WORDS};
use compare::placing::{placing, spoiled, Kind, Placing, KINDS};
use compare::{calls, expected, on_header_stack, on_stack, seed, setting};
use reference::booking::loops;
use reference::cell::{CellWalker, NO_NUMBER, TRIANGLE_WORDS};
use reference::gen::{sphere, Rng, Sample};
use reference::mesh::Mesher;
use reference::split::{FIRST_INNER_CROSSING, SUB_CELL_STEP};

/// Stands on both sides of a lent area: a not-a-number.
const GUARD: u64 = 0x7ff5_5a5a_5a5a_5a5a;

/// An area before a call: the bits of numbers that no call writes, among them
/// not-a-numbers.
fn untouched(len: usize) -> Vec<u64> {
    let bits = |at: usize| match at % 2 {
        0 => 0x7ff4_0000_0000_0001 + at as u64,
        _ => 0xfff8_0000_0000_0001 + at as u64,
    };
    (0..len).map(bits).collect()
}

/// What the compared calls answered.
#[derive(Default)]
struct Tally {
    grids: u64,
    points: u64,
    beside: u64,
    exact: u64,
    refused: Numbers,
}

impl Tally {
    fn report(&self, what: &str) {
        println!(
            "places, {what}: {} calls, {} placed: {} points, {} of them middles and inner \
             crossings; {} numbers also compared with exact ones; refused by rows 1 to 6, 18, 7 to 10: {:?}, 15 to 17: {:?}",
            self.grids,
            self.refused[0],
            self.points,
            self.beside,
            self.exact,
            by_rows(&self.refused),
            &self.refused[15..=17]
        );
    }
}

/// The proved call.
fn call(placing: &Placing, area: &mut [u64], answer: &mut [u64]) -> usize {
    let (nodes, fractions) = (&placing.nodes, &placing.fractions);
    let starts = placing.grid.starts();
    calls::places(placing.grid.lists(&starts), nodes, fractions, area, answer)
}

/// Compares a call on an area of this length: the numbers answered and every
/// bit of the area and its guards. Tells both.
fn compare_in(placing: &Placing, len: usize) -> (Vec<u64>, Vec<u64>) {
    let mut area = untouched(len);
    let mut lent = Lent::new(&area, GUARD);
    let numbers = expected::places(placing, &placing.grid.starts(), &mut area);
    let right = answers(&numbers, |answer| call(placing, lent.area(), answer));
    assert!(
        right,
        "area of {len}: not answered with {numbers:?} alone: {placing:?}"
    );
    assert!(
        lent.is(&area, GUARD),
        "area of {len}: other places: {placing:?}"
    );
    if numbers[0] != 0 {
        assert_eq!(area, untouched(len));
    }
    (numbers, area)
}

fn crossings(grid: &Sample) -> usize {
    grid.counts.iter().map(|&count| usize::from(count)).sum()
}

/// How many points a grid has, 0 where it is refused: its crossings, the inner
/// crossings that its triangles have, and each fan by its last triangle, the one
/// whose side 1 is inner side 0.
fn points(grid: &Sample) -> usize {
    let mut mesher = Mesher::default();
    let starts = grid.starts();
    let lists = grid.lists(&starts);
    let triangles = match expected::mesh(&mut mesher, lists, &mut [])[..] {
        [0, triangles, _] | [12, triangles] => triangles as usize,
        _ => return 0,
    };
    let mut words = vec![0; TRIANGLE_WORDS * triangles];
    expected::mesh(&mut mesher, lists, &mut words);
    let all = words.chunks_exact(TRIANGLE_WORDS);
    let last = |words: &&[u32]| words[4] == NO_NUMBER && words[8] == 0;
    crossings(grid) + inner_crossings(&words) + all.filter(last).count()
}

/// How many inner crossings the triangles have, told apart by their cells.
fn inner_crossings(words: &[u32]) -> usize {
    let corners = words.chunks_exact(TRIANGLE_WORDS).flat_map(|words| {
        let cell = words[0] % SUB_CELL_STEP;
        words[2..5].iter().map(move |&corner| (cell, corner))
    });
    let inner = |&(_, corner): &(u32, u32)| (FIRST_INNER_CROSSING..NO_NUMBER).contains(&corner);
    corners.filter(inner).collect::<BTreeSet<_>>().len()
}

/// Compares a call in an area with room, and in one that is too short by a few
/// numbers.
fn compare(rng: &mut Rng, placing: &Placing, points: usize, tally: &mut Tally) -> Vec<u64> {
    let exact = 3 * points;
    let (numbers, area) = compare_in(placing, exact + rng.below(5));
    tally.grids += 1;
    tally.refused[numbers[0] as usize] += 1;
    if numbers[0] == 0 {
        tally.points += numbers[1];
        tally.beside += numbers[1] - crossings(&placing.grid) as u64;
    }
    if exact > 0 {
        let short = exact - rng.between(1, 4.min(exact));
        assert_eq!(compare_in(placing, short).0, [15, 0]);
        tally.grids += 1;
        tally.refused[15] += 1;
    }
    area
}

/// Whole numbers and 1,024ths: each crossing is where whole arithmetic has it.
fn compare_exact(placing: &Placing, area: &[u64], tally: &mut Tally) {
    let edges = placing.grid.edge_list().into_iter();
    let counted = edges.zip(&placing.grid.counts);
    let ends = counted.flat_map(|(edge, &count)| (0..count).map(move |_| edge));
    for (crossing, [u, v]) in ends.enumerate() {
        let parts = (placing.fractions[crossing] * 1_024.0) as i64;
        for part in 0..3 {
            let [u, v] = [u, v].map(|node| placing.nodes[3 * usize::from(node) + part] as i64);
            let scaled = 1_024 * u + parts * (v - u);
            let placed = f64::from_bits(area[3 * crossing + part]);
            assert_eq!((placed * 1_024.0) as i64, scaled, "{placing:?}");
            assert_eq!(placed * 1_024.0, scaled as f64, "{placing:?}");
            tally.exact += 1;
        }
    }
}

/// Compares a grid with numbers of each kind, whole and spoiled.
fn compare_kinds(rng: &mut Rng, grid: &Sample, tally: &mut Tally) {
    let points = points(grid);
    for kind in KINDS.into_iter().filter(|kind| kind.fits(&grid.counts)) {
        let whole = placing(rng, grid.clone(), kind);
        let area = compare(rng, &whole, points, tally);
        if kind == Kind::Whole {
            compare_exact(&whole, &area, tally);
        }
        let odd = spoiled(rng, whole);
        compare(rng, &odd, points, tally);
    }
}

fn one_cell(counts: [u16; 6]) -> Sample {
    let mut grid = Sample::from_cells([[0, 1, 2, 3]]);
    grid.counts = counts.to_vec();
    grid
}

/// Compares a call with the numbers that it has to answer, in any answer area.
fn compare_with(numbers: [u64; 2], placing: &Placing, len: usize) -> Vec<f64> {
    let (answered, area) = compare_in(placing, len);
    assert_eq!(answered, numbers, "{placing:?}");
    let before = untouched(len);
    let right = answers_in_all(&numbers, |answer| {
        let mut lent = Lent::new(&before, GUARD);
        let many = call(placing, lent.area(), answer);
        assert!(lent.is(after(answer, &before, &area), GUARD), "{placing:?}");
        many
    });
    assert!(right, "{placing:?}");
    area.into_iter().map(f64::from_bits).collect()
}

#[test]
fn examples() {
    let nodes: Vec<f64> = (0..12).map(f64::from).collect();
    let of = |counts, fractions: &[f64]| Placing {
        grid: one_cell(counts),
        nodes: nodes.clone(),
        fractions: fractions.to_vec(),
    };
    let one = [1, 0, 0, 0, 0, 0];
    let two = [2, 0, 0, 0, 0, 0];
    assert_eq!(compare_with([0, 0], &of([0; 6], &[]), 0), []);
    let area = compare_with([0, 1], &of(one, &[0.5]), 3);
    assert_eq!(area, [1.5, 2.5, 3.5]);
    compare_with([15, 0], &of(one, &[]), 3);
    compare_with([15, 0], &of(one, &[0.25, 0.5]), 3);
    compare_with([15, 0], &of(one, &[0.5]), 2);
    let area = compare_with([0, 3], &of(two, &[0.25, 0.75]), 9);
    assert_eq!(area, [0.75, 1.75, 2.75, 2.25, 3.25, 4.25, 1.5, 2.5, 3.5]);
    compare_with([17, 1], &of(two, &[0.5, 0.5]), 9);
    compare_with([17, 0], &of(two, &[0.0, 0.5]), 9);
    compare_with([17, 1], &of(two, &[0.5, 1.0]), 9);
    let corner = compare_with([0, 3], &of([1, 1, 1, 0, 0, 0], &[0.5; 3]), 9);
    assert_eq!(corner[..3], [1.5, 2.5, 3.5]);
    let wide = [4_095, 0, 0, 0, 0, 0];
    let parts: Vec<f64> = (1..4_096).map(|part| f64::from(part) / 4_096.0).collect();
    let area = compare_with([0, 6_142], &of(wide, &parts), 3 * 6_142);
    assert_eq!(area[3 * 1_023..3 * 1_024], [0.75, 1.75, 2.75]);
    compare_with([15, 0], &of(wide, &parts[1..]), 3 * 6_142);
    compare_with([18, 3], &of([1, 1, 1, 4_096, 0, 0], &parts), 9);
}

/// Each number of the nodes' places in turn: none, odd ones, and the last allowed.
#[test]
fn examples_of_nodes() {
    let whole = Placing {
        grid: one_cell([2, 0, 0, 0, 0, 0]),
        nodes: (0..12).map(f64::from).collect(),
        fractions: vec![0.25, 0.75],
    };
    let beyond = f64::from_bits(1_000_000f64.to_bits() + 1);
    for at in 0..12 {
        for odd in [f64::NAN, f64::INFINITY, -f64::INFINITY, beyond, -beyond] {
            let mut spoiled = whole.clone();
            spoiled.nodes[at] = odd;
            compare_with([16, at as u64], &spoiled, 9);
        }
        for end in [1_000_000.0, -1_000_000.0, -0.0] {
            let mut allowed = whole.clone();
            allowed.nodes[at] = end;
            compare_with([0, 3], &allowed, 9);
        }
        let mut short = whole.clone();
        short.nodes.truncate(at);
        compare_with([15, 0], &short, 9);
    }
}

#[test]
fn single_cells() {
    let mut rng = Rng::new(seed("places"));
    for (most, cells) in [(3, 1_000), (12, 500), (255, 50), (1_023, 5), (4_095, 5)] {
        let mut tally = Tally::default();
        for _ in 0..cells {
            let grid = single_cell(&mut rng, most);
            compare_kinds(&mut rng, &grid, &mut tally);
        }
        tally.report(&format!("single cells, counts 0..{most}"));
    }
}

/// How many loops of length 8 the cell has, where it has no others than triangles.
fn nested(grid: &Sample) -> usize {
    let mut counts = [0; 6];
    counts.copy_from_slice(&grid.counts);
    let loops = loops(&mut CellWalker::default(), counts);
    let others: Vec<u32> = loops.iter().map(|l| l.length).filter(|&n| n != 3).collect();
    assert!(others.iter().all(|&length| length == 8), "{grid:?}");
    others.len()
}

/// Cells with loops of length 8 one inside the other: alone, with any nodes, with
/// a neighbour, and with one count changed.
#[test]
fn nested_cells() {
    let mut rng = Rng::new(seed("nests"));
    for (most, cells) in [(2, 300), (6, 300), (40, 100), (500, 10)] {
        let mut tally = Tally::default();
        let mut nests = 0;
        for _ in 0..cells {
            let cell = nested_cell(&mut rng, most);
            nests += u64::from(nested(&cell) > 1);
            let mut changed = cell.clone();
            let edge = rng.below(6);
            changed.counts[edge] += rng.between(1, 2) as u16;
            let beside = with_neighbour(&mut rng, &cell, most);
            for grid in [&cell, &dealt(&mut rng, &cell), &beside, &changed] {
                compare_kinds(&mut rng, grid, &mut tally);
            }
        }
        assert!(nests > 0);
        tally.report(&format!("{nests} nests of up to {most} loops"));
    }
}

/// Grids with cells that are split: inner crossings after the outer ones, then the
/// middles.
#[test]
fn random_spirals() {
    let mut rng = Rng::new(seed("places, spirals"));
    let mut tally = Tally::default();
    let grids = setting("CITTERNBLAZE_GRIDS", 20_000);
    for _ in 0..grids / 40 {
        let grid = spirals(&mut rng);
        compare_kinds(&mut rng, &grid, &mut tally);
    }
    tally.report("grids with cells that are split");
    assert!(tally.beside > 10 * tally.refused[0]);
}

/// The most splits that a cell can have, with 8,384,500 inner crossings and 4,092
/// middles, in an area that just fits and in one that is too short, on the stack
/// that the header names for any call.
#[test]
fn the_longest_spiral() {
    let mut rng = Rng::new(seed("places, the longest spiral"));
    let grid = one_cell([4_092, 2, 4_094, 4_094, 2, 4_092]);
    let points = 16_376 + 8_384_500 + 4_092;
    let whole = placing(&mut rng, grid, Kind::Any);
    on_header_stack(move || {
        assert_eq!(compare_in(&whole, 3 * points).0, [0, points as u64]);
        assert_eq!(compare_in(&whole, 3 * points - 1).0, [15, 0]);
    });
}

#[test]
fn random_grids() {
    let mut rng = Rng::new(seed("places"));
    let mut tally = Tally::default();
    let grids = setting("CITTERNBLAZE_GRIDS", 20_000);
    for _ in 0..grids / 10 {
        let grid = match rng.below(3) {
            0 => closed_grid(&mut rng),
            _ => random_grid(&mut rng),
        };
        let accepted = expected::check(grid.lists(&grid.starts()))[0] == 0;
        if accepted {
            compare_kinds(&mut rng, &grid, &mut tally);
        }
        let whole = placing(&mut rng, grid, Kind::Any);
        let faulty = with_faults(&mut rng, whole.grid.clone());
        let broken = Placing {
            grid: faulty,
            ..whole
        };
        let broken = spoiled(&mut rng, broken);
        compare(&mut rng, &broken, points(&broken.grid), &mut tally);
    }
    tally.report("random grids");
    if grids >= 20_000 {
        assert!(tally.beside > 0 && tally.exact > 0);
        assert!(every_row(&tally.refused));
        assert!(tally.refused[15..=17].iter().all(|&calls| calls > 0));
    }
}

/// What the header says of the stack where no split is inside another: a grid
/// without splits, a grid of one, and a cell of one with large counts.
#[test]
fn stack_of_640_kilobytes() {
    let ball = |most| sphere([5, 5, 5]).with_counts(&mut Rng::new(1), 0, most);
    let large = one_cell([2_730, 1_365, 4_095, 4_095, 1_365, 2_730]);
    for grid in [ball(5), ball(12), large] {
        let placing = placing(&mut Rng::new(1), grid, Kind::Any);
        let answered = on_stack(640 * 1_024, move || {
            let mut area = vec![0; 9 * 65_535];
            let mut answer = [1; ANSWER_WORDS];
            call(&placing, &mut area, &mut answer);
            answer[0]
        });
        assert_eq!(answered, 0);
    }
}
