//! The nearest call against the second implementation, bit by bit.

use compare::grids::{closed_grid, random_grid, single_cell};
use compare::lent::{answers, answers_in_all};
use compare::placing::{placing, Kind, Placing, KINDS};
use compare::{calls, expected, seed, setting};
use reference::gen::{Rng, Sample};
use reference::places::FURTHEST;

/// What the compared calls answered.
#[derive(Default)]
struct Tally {
    calls: u64,
    none: u64,
    found: u64,
    tied: u64,
    zero: u64,
    rounded: u64,
    refused: u64,
}

impl Tally {
    fn report(&self, what: &str) {
        println!(
            "nearest, {what}: {} calls, {} found, {} of them one of several as near, {} at the \
             distance 0, {} with another answer in another order of the sum; {} without a point, \
             {} refused",
            self.calls, self.found, self.tied, self.zero, self.rounded, self.none, self.refused
        );
    }
}

/// The answer where the last two squares are summed first.
fn other_order(points: &[f64], query: [f64; 3]) -> [u64; 2] {
    let squared = |point: &[f64]| {
        let [x, y, z] = [0, 1, 2].map(|part| point[part] - query[part]);
        x * x + (y * y + z * z)
    };
    let all = points.chunks_exact(3).map(squared).zip(0..);
    let least = all.reduce(|a, b| if b.0 < a.0 { b } else { a });
    least.map_or([0; 2], |(squared, number)| [number, squared.to_bits()])
}

/// Compares a call: its numbers, and that it writes nothing else. Tells them.
fn compare(points: &[f64], query: [f64; 3], tally: &mut Tally) -> Vec<u64> {
    let numbers = expected::nearest(points, query);
    let right = answers(&numbers, |answer| calls::nearest(points, query, answer));
    assert!(right, "not {numbers:x?}: {query:?} in {points:?}");
    tally.calls += 1;
    match numbers[..] {
        [0] => tally.none += 1,
        [0, _, bits] => {
            let as_near = |point: &&[f64]| expected::nearest(point, query)[2] == bits;
            tally.found += 1;
            tally.tied += u64::from(points.chunks(3).filter(as_near).count() > 1);
            tally.zero += u64::from(bits == 0);
            tally.rounded += u64::from(other_order(points, query) != numbers[1..]);
        }
        _ => tally.refused += 1,
    }
    numbers
}

/// Compares a call with the numbers that it has to answer, in any answer area.
fn compare_with(numbers: &[u64], points: &[f64], query: [f64; 3]) {
    assert_eq!(expected::nearest(points, query), numbers);
    let right = answers_in_all(numbers, |answer| calls::nearest(points, query, answer));
    assert!(right, "not {numbers:x?}: {query:?} in {points:?}");
}

/// The next number away from 0.
fn further(number: f64) -> f64 {
    f64::from_bits(number.to_bits() + 1)
}

#[test]
fn examples() {
    let origin = [0.0; 3];
    let one = 1f64.to_bits();
    compare_with(&[0], &[], origin);
    compare_with(&[23, 1], &[], [0.0, f64::NAN, 0.0]);
    compare_with(&[0, 0, 169f64.to_bits()], &[3.0, 4.0, 12.0], origin);
    let equals = [2.0, 0.0, 0.0, 0.0, -1.0, 0.0, 1.0, 0.0, 0.0];
    compare_with(&[0, 1, one], &equals, origin);
    compare_with(&[0, 0, one], &equals[3..], origin);
    let rounded = [0.9, 1.8, 0.8, 0.9, 0.8, 1.8];
    compare_with(&[0, 1, 0x4012_c28f_5c28_f5c3], &rounded, origin);
    let signs = [0.0, -0.0, 0.0, -0.0, 0.0, -0.0];
    compare_with(&[0, 0, 0], &signs, [-0.0, 0.0, -0.0]);
    let far = [FURTHEST, -FURTHEST, FURTHEST];
    compare_with(&[0, 0, 12e12f64.to_bits()], &far.map(|number| -number), far);
    compare_with(&[0, 1, 0], &[far.map(|number| -number), far].concat(), far);
    compare_with(&[23, 0], &[0.0; 4], [f64::NAN; 3]);
    compare_with(&[23, 8], &[0.0; 6], [0.0, 0.0, further(FURTHEST)]);
}

/// Numbers that row 23 refuses, not-a-numbers of several bits among them.
const REFUSED: [u64; 10] = [
    0x7ff8_0000_0000_0000,
    0xfff8_0000_0000_0000,
    0x7ff0_0000_0000_0001,
    0xffff_ffff_ffff_ffff,
    0x7ff0_0000_0000_0000,
    0xfff0_0000_0000_0000,
    0x412e_8480_0000_0001,
    0xc12e_8480_0000_0001,
    0x7fef_ffff_ffff_ffff,
    0x4341_c379_37e0_8000,
];

/// Lists of every small length, with one number at fault or two, in the list and
/// in the query.
#[test]
fn faults() {
    let mut tally = Tally::default();
    for len in 0..=9 {
        for bits in REFUSED {
            for first in 0..len + 3 {
                for second in first..len + 3 {
                    let mut numbers = vec![0.25; len + 3];
                    numbers[first] = f64::from_bits(bits);
                    numbers[second] = f64::from_bits(bits);
                    let (points, query) = numbers.split_at(len);
                    let query = [query[0], query[1], query[2]];
                    let place = if len % 3 == 0 { first } else { 0 };
                    let answer = compare(points, query, &mut tally);
                    assert_eq!(answer, [23, place as u64]);
                }
            }
        }
    }
    tally.report("a fault at each place");
}

/// Where the numbers of a list and its query are drawn from.
#[derive(Clone, Copy, Debug)]
enum From {
    /// A few whole numbers, so that many are as near.
    Few,
    /// Tenths: the order of the sum shows, and many are as near but for it.
    Tenths,
    /// Numbers of any size within the limit.
    Any,
    /// The ends of the limit, 0 with both signs, and numbers next to these.
    Ends,
}

const FROM: [From; 4] = [From::Few, From::Tenths, From::Any, From::Ends];

fn number(rng: &mut Rng, from: From) -> f64 {
    let sign = if rng.coin() { 1.0 } else { -1.0 };
    match from {
        From::Few => sign * rng.below(4) as f64,
        From::Tenths => sign * rng.below(30) as f64 / 10.0,
        From::Any => {
            let size = FURTHEST * (rng.word() >> 11) as f64 / (1u64 << 53) as f64;
            sign * size / (1u64 << rng.below(60)) as f64
        }
        From::Ends => {
            let ends = [
                FURTHEST,
                f64::from_bits(FURTHEST.to_bits() - 1),
                0.0,
                5e-324,
                f64::MIN_POSITIVE,
                1e-160,
                1.5e-162,
            ];
            sign * ends[rng.below(ends.len())]
        }
    }
}

/// Copies of points of a list, also with their numbers in another order.
fn copies(rng: &mut Rng, points: &mut Vec<f64>) {
    let many = points.len() / 3;
    for _ in 0..rng.below(many + 1) {
        let at = 3 * rng.below(many);
        let mut point = points[at..at + 3].to_vec();
        if rng.coin() {
            rng.shuffle(&mut point);
        }
        points.extend(point);
    }
}

/// Random lists, whole and with numbers at fault.
#[test]
fn random_lists() {
    let mut rng = Rng::new(seed("nearest"));
    let lists = setting("CITTERNBLAZE_GRIDS", 20_000);
    for from in FROM {
        let mut tally = Tally::default();
        for _ in 0..lists {
            let many = 3 * rng.below(30);
            let mut points: Vec<f64> = (0..many).map(|_| number(&mut rng, from)).collect();
            let mut query = [(); 3].map(|()| number(&mut rng, from));
            copies(&mut rng, &mut points);
            let many = points.len();
            match rng.below(10) {
                0 => query[rng.below(3)] = f64::from_bits(REFUSED[rng.below(10)]),
                1 if many > 0 => points[rng.below(many)] = f64::from_bits(REFUSED[rng.below(10)]),
                2 => query[rng.below(3)] = f64::from_bits(rng.word()),
                3 => points.resize(many + rng.between(1, 2), 0.0),
                4 => query.fill(0.0),
                _ => {}
            }
            compare(&points, query, &mut tally);
        }
        tally.report(&format!("random lists, {from:?}"));
        if lists >= 20_000 {
            assert!(tally.found > 10_000 && tally.refused > 2_000 && tally.none > 100);
            assert!(tally.tied > 1_000);
            assert!(tally.rounded > 1_000 || !matches!(from, From::Tenths | From::Any));
        }
    }
}

/// Places a grid's points by the proved call.
fn placed(placing: &Placing) -> Vec<f64> {
    let starts = placing.grid.starts();
    let (nodes, fractions) = (&placing.nodes, &placing.fractions);
    let mut area = vec![0; 3 * (fractions.len() + placing.grid.most_triangles())];
    let mut answer = [1; 6];
    calls::places(
        placing.grid.lists(&starts),
        nodes,
        fractions,
        &mut area,
        &mut answer,
    );
    assert_eq!(answer[0], 0, "{placing:?}");
    area.truncate(3 * answer[1] as usize);
    area.into_iter().map(f64::from_bits).collect()
}

/// Over what the places call writes nothing is refused: a query in a node, and
/// one in a point.
fn compare_placed(rng: &mut Rng, placing: &Placing, tally: &mut Tally) {
    let points = placed(placing);
    let node = usize::from(placing.grid.cells[rng.below(4)]);
    let in_node = [0, 1, 2].map(|part| placing.nodes[3 * node + part]);
    assert_eq!(compare(&points, in_node, tally)[0], 0);
    if !points.is_empty() {
        let at = 3 * rng.below(points.len() / 3);
        let in_point = [0, 1, 2].map(|part| points[at + part]);
        let answer = compare(&points, in_point, tally);
        assert_eq!((answer[0], answer[2]), (0, 0));
    }
}

/// A grid with places and fractions of each kind, also of two kinds.
fn compare_kinds(rng: &mut Rng, grid: &Sample, tally: &mut Tally) {
    for kind in KINDS.into_iter().filter(|kind| kind.fits(&grid.counts)) {
        let of_kind = placing(rng, grid.clone(), kind);
        let at_ends = placing(rng, grid.clone(), Kind::Edge);
        compare_placed(rng, &of_kind, tally);
        let mixed = Placing {
            fractions: at_ends.fractions,
            ..of_kind.clone()
        };
        compare_placed(rng, &mixed, tally);
        let mixed = Placing {
            nodes: at_ends.nodes,
            ..of_kind
        };
        compare_placed(rng, &mixed, tally);
    }
}

#[test]
fn placed_points() {
    let mut rng = Rng::new(seed("nearest"));
    let grids = setting("CITTERNBLAZE_GRIDS", 20_000);
    let mut tally = Tally::default();
    for _ in 0..grids / 100 {
        let grid = match rng.below(3) {
            0 => closed_grid(&mut rng),
            _ => random_grid(&mut rng),
        };
        if expected::check(grid.lists(&grid.starts()))[0] == 0 {
            compare_kinds(&mut rng, &grid, &mut tally);
        }
    }
    for (most, share) in [(1, 100), (3, 100), (12, 100), (255, 100), (4_095, 1_000)] {
        for _ in 0..grids / share {
            let grid = single_cell(&mut rng, most);
            compare_kinds(&mut rng, &grid, &mut tally);
        }
    }
    tally.report("over placed points");
    assert_eq!(tally.refused, 0);
}

/// One crossing on each edge of a cell, as near to an end as a fraction can be,
/// and the end at the limit: no place is beyond it.
#[test]
fn crossings_next_to_the_limit() {
    let mut rng = Rng::new(seed("nearest"));
    let mut grid = Sample::from_cells([[0, 1, 2, 3]]);
    grid.counts = vec![1; 6];
    let fractions = [
        5e-324,
        f64::MIN_POSITIVE,
        f64::EPSILON,
        1.0 - f64::EPSILON / 2.0,
    ];
    let mut tally = Tally::default();
    for _ in 0..setting("CITTERNBLAZE_GRIDS", 20_000) {
        let mut coordinate = || {
            let from = FROM[2 + rng.below(2)];
            number(&mut rng, from)
        };
        let mut nodes: Vec<f64> = (0..12).map(|_| coordinate()).collect();
        for at in 0..3 {
            nodes[9 + at] = if rng.coin() { FURTHEST } else { -FURTHEST };
        }
        let fractions = (0..6).map(|_| fractions[rng.below(4)]).collect();
        let placing = Placing {
            grid: grid.clone(),
            nodes,
            fractions,
        };
        compare_placed(&mut rng, &placing, &mut tally);
    }
    tally.report("next to the limit");
    assert_eq!(tally.refused, 0);
}
