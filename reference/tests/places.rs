//! The places call: examples, rows 15 to 17, and a plain second placing.

use reference::booking::is_booked;
use reference::cell::{NO_NUMBER, TRIANGLE_WORDS};
use reference::gen::{random_shape, Rng, Sample};
use reference::mesh::mesh;
use reference::places::{places, Place};
use reference::split::is_split;
use reference::Refusal;

const UNTOUCHED: f64 = -77.25;

fn refused<T>(number: u8, place: u64) -> Result<T, Refusal> {
    Err(Refusal { number, place })
}

fn one_cell(counts: [u16; 6]) -> Sample {
    Sample {
        cells: vec![0, 1, 2, 3],
        edges: vec![0, 1, 0, 2, 0, 3, 1, 2, 1, 3, 2, 3],
        counts: counts.to_vec(),
    }
}

/// A call on one grid with everything it needs.
struct Call {
    grid: Sample,
    nodes: Vec<f64>,
    fractions: Vec<f64>,
    area: Vec<f64>,
}

impl Call {
    fn run(&mut self) -> Result<u64, Refusal> {
        let starts = self.grid.starts();
        places(
            self.grid.lists(&starts),
            &self.nodes,
            &self.fractions,
            &mut self.area,
        )
    }

    fn refuses(&mut self, number: u8, place: u64) {
        assert_eq!(self.run(), refused(number, place));
        assert!(self.area.iter().all(|&number| number == UNTOUCHED));
    }
}

fn crossings(grid: &Sample) -> usize {
    grid.counts.iter().map(|&count| usize::from(count)).sum()
}

/// Increasing fractions for each edge, all whole numbers of 1,024ths.
fn fractions(rng: &mut Rng, grid: &Sample) -> Vec<f64> {
    let mut all = Vec::new();
    for &count in &grid.counts {
        let mut steps: Vec<u16> = (1..1024).collect();
        rng.shuffle(&mut steps);
        steps.truncate(usize::from(count));
        steps.sort_unstable();
        all.extend(steps.into_iter().map(|step| f64::from(step) / 1024.0));
    }
    all
}

fn call(rng: &mut Rng, grid: Sample, whole: bool) -> Call {
    let highest = usize::from(*grid.cells.iter().max().expect("a cell"));
    let mut number = || {
        let whole_part = rng.between(0, 2_000_000) as f64 - 1_000_000.0;
        if whole {
            whole_part
        } else {
            whole_part * 0.999_999_9 / 3.7
        }
    };
    let nodes = (0..3 * (highest + 1)).map(|_| number()).collect();
    let fractions = fractions(rng, &grid);
    let fans = loops_of_mesh(&grid)
        .iter()
        .filter(|(_, fan, _)| *fan)
        .count();
    let area = vec![UNTOUCHED; 3 * (crossings(&grid) + fans) + 5];
    Call {
        grid,
        nodes,
        fractions,
        area,
    }
}

/// The loops of a grid's mesh, each with its cell and the first corners of its
/// triangles; of a fan these are its points in order.
fn loops_of_mesh(grid: &Sample) -> Vec<(usize, bool, Vec<usize>)> {
    let mut area = vec![0; 2_000_000];
    let answer = mesh(grid.lists(&grid.starts()), &mut area).expect("an accepted grid");
    assert_eq!(answer.splits, 0);
    let mut found: Vec<((u32, u32), bool, Vec<usize>)> = Vec::new();
    for words in area.chunks(TRIANGLE_WORDS).take(answer.triangles as usize) {
        let name = (words[0], words[1]);
        match found.last_mut() {
            Some((last, _, points)) if *last == name => points.push(words[2] as usize),
            _ => found.push((name, words[4] == NO_NUMBER, vec![words[2] as usize])),
        }
    }
    let plain =
        |((cell, _), fan, points): ((u32, u32), bool, Vec<usize>)| (cell as usize, fan, points);
    found.into_iter().map(plain).collect()
}

/// The counts of a cell's edges and their first crossings.
fn edges_of_cell(grid: &Sample, cell: usize) -> ([u16; 6], [usize; 6]) {
    let nodes = grid.cell_list()[cell];
    let edges = grid.edge_list();
    let ends = [[0, 1], [0, 2], [0, 3], [1, 2], [1, 3], [2, 3]];
    let number = ends.map(|[u, v]| {
        let pair = [nodes[u], nodes[v]];
        edges
            .iter()
            .position(|&edge| edge == pair)
            .expect("an edge")
    });
    let start = |edge: usize| grid.counts[..edge].iter().map(|&n| usize::from(n)).sum();
    (number.map(|edge| grid.counts[edge]), number.map(start))
}

/// The middle of a loop of length 8 of a cell with so many and no other fans, by
/// its greatest index on the first edge of the pair with the largest sum.
fn nested_middle(call: &Call, cell: usize, many: usize, points: &[usize]) -> [f64; 3] {
    let (counts, starts) = edges_of_cell(&call.grid, cell);
    let count = |edge: usize| usize::from(counts[edge]);
    let pair = |edge: usize| count(edge) + count(5 - edge);
    let first = (0..3).max_by_key(|&edge| pair(edge)).expect("three pairs");
    let range = starts[first]..starts[first] + count(first);
    let greatest = points.iter().filter(|point| range.contains(point)).max();
    let below = (count(0) + count(1) + count(2) - pair(first)) / 2;
    let number = greatest.expect("a crossing there") - starts[first] - below - many;
    let nodes = call.grid.cell_list()[cell].map(usize::from);
    let apart = [[2, 3], [1, 3], [1, 2]][first];
    let mut place = [0.0; 3];
    for (part, at) in place.iter_mut().enumerate() {
        let half = |[u, v]: [usize; 2]| {
            let sum = call.nodes[3 * nodes[u] + part] + call.nodes[3 * nodes[v] + part];
            sum / 2.0
        };
        let [from, to] = [half([0, first + 1]), half(apart)];
        let fraction = (number + 1) as f64 / (many + 1) as f64;
        *at = from + (to - from) * fraction;
    }
    place
}

/// How many loops of length 8 lie one inside the other in a cell, if these are all
/// but triangles; else 0.
fn nest_of(grid: &Sample, loops: &[(usize, bool, Vec<usize>)], cell: usize) -> usize {
    let others: Vec<usize> = loops
        .iter()
        .filter(|(at, _, points)| *at == cell && points.len() != 1)
        .map(|(_, _, points)| points.len())
        .collect();
    let nested = others.len() > 1 && others.iter().all(|&length| length == 8);
    if nested && is_booked(edges_of_cell(grid, cell).0) {
        others.len()
    } else {
        0
    }
}

/// Every number that the call should write.
fn plain_places(call: &Call) -> Vec<f64> {
    let mut numbers: Vec<f64> = Vec::new();
    let mut crossing = 0;
    for (edge, [u, v]) in call.grid.edge_list().into_iter().enumerate() {
        for _ in 0..call.grid.counts[edge] {
            for part in 0..3 {
                let from = call.nodes[3 * usize::from(u) + part];
                let along = call.nodes[3 * usize::from(v) + part] - from;
                let moved = call.fractions[crossing] * along;
                numbers.push(from + moved);
            }
            crossing += 1;
        }
    }
    let loops = loops_of_mesh(&call.grid);
    for (cell, _, points) in loops.iter().filter(|(_, fan, _)| *fan) {
        let many = nest_of(&call.grid, &loops, *cell);
        if many > 0 {
            numbers.extend(nested_middle(call, *cell, many, points));
            continue;
        }
        for part in 0..3 {
            let mut sum = numbers[3 * points[0] + part];
            for point in &points[1..] {
                sum += numbers[3 * point + part];
            }
            numbers.push(sum / points.len() as f64);
        }
    }
    numbers
}

/// The third of 4,095 crossings, and the middle of the first two that are joined:
/// index 0 is unjoined.
#[test]
fn an_edge_of_4095() {
    let mut call = Call {
        grid: one_cell([4095, 0, 0, 0, 0, 0]),
        nodes: vec![
            0.0, 0.0, 0.0, 4096.0, 0.0, -8192.0, 0.0, 0.0, 0.0, 0.0, 0.0, 0.0,
        ],
        fractions: (1..4096).map(|part| f64::from(part) / 4096.0).collect(),
        area: vec![UNTOUCHED; 3 * (4095 + 2047) + 1],
    };
    assert_eq!(call.run(), Ok(4095 + 2047));
    assert_eq!(call.area[6..9], [3.0, 0.0, -6.0]);
    assert_eq!(call.area[3 * 4095..3 * 4096], [2.5, 0.0, -5.0]);
    assert_eq!(call.area[3 * (4095 + 2047)], UNTOUCHED);
    call.fractions[4094] = 1.0;
    call.area.fill(UNTOUCHED);
    call.refuses(17, 4094);
    call.nodes[4] = f64::NAN;
    call.refuses(16, 4);
    call.fractions.pop();
    call.refuses(15, 0);
    call.grid.counts[5] = 4096;
    call.refuses(18, 5);
}

#[test]
fn random_grids_are_placed_alike() {
    let mut rng = Rng::new(37);
    let mut middles = 0;
    for seed in 0..80 {
        let most = rng.between(1, 12) as u16;
        let grid = random_shape(&mut Rng::new(seed)).with_counts(&mut rng, 0, most);
        if grid.counts_in_cells().into_iter().any(is_split) {
            continue;
        }
        let mut call = call(&mut rng, grid, seed % 2 == 0);
        let expected = plain_places(&call);
        assert_eq!(call.run(), Ok(expected.len() as u64 / 3));
        let (written, rest) = call.area.split_at(expected.len());
        let same = written
            .iter()
            .zip(&expected)
            .all(|(a, b)| a.to_bits() == b.to_bits());
        assert!(same);
        assert_eq!(rest, [UNTOUCHED; 5]);
        middles += expected.len() / 3 - crossings(&call.grid);
    }
    assert!(middles > 500);
}

#[test]
fn whole_nodes_and_1024ths_are_exact() {
    let mut rng = Rng::new(41);
    for seed in 0..40 {
        let grid = random_shape(&mut Rng::new(seed)).with_counts(&mut rng, 0, 6);
        let mut call = call(&mut rng, grid, true);
        assert!(call.run().is_ok());
        let mut crossing = 0;
        for (edge, [u, v]) in call.grid.edge_list().into_iter().enumerate() {
            for _ in 0..call.grid.counts[edge] {
                for part in 0..3 {
                    let from = call.nodes[3 * usize::from(u) + part] as i64;
                    let to = call.nodes[3 * usize::from(v) + part] as i64;
                    let steps = (call.fractions[crossing] * 1024.0) as i64;
                    let scaled = from * 1024 + steps * (to - from);
                    let placed = call.area[3 * crossing + part];
                    assert_eq!((placed * 1024.0) as i64, scaled);
                    assert_eq!(placed, scaled as f64 / 1024.0);
                }
                crossing += 1;
            }
        }
    }
}

#[test]
fn two_crossings_and_their_middle() {
    let mut call = call(&mut Rng::new(1), one_cell([2, 0, 0, 0, 0, 0]), true);
    call.nodes = vec![0.0, 0.0, 1.0, 4.0, 8.0, 1.0, 9.0, 9.0, 9.0, 7.0, 7.0, 7.0];
    call.fractions = vec![0.25, 0.5];
    assert_eq!(call.run(), Ok(3));
    let wanted = [1.0, 2.0, 1.0, 2.0, 4.0, 1.0, 1.5, 3.0, 1.0];
    assert_eq!(call.area[..9], wanted);
    let end = Place {
        x: 8.0,
        y: 0.0,
        z: -4.0,
    };
    let start = Place {
        x: 0.0,
        y: 0.0,
        z: 4.0,
    };
    assert_eq!(
        start.toward(end, 0.5),
        Place {
            x: 4.0,
            y: 0.0,
            z: 0.0
        }
    );
}

#[test]
fn row_15_lengths() {
    let fresh = || call(&mut Rng::new(1), one_cell([2, 0, 0, 0, 0, 0]), true);
    let mut no_fractions = fresh();
    no_fractions.fractions.clear();
    no_fractions.refuses(15, 0);
    let mut too_many = fresh();
    too_many.fractions.push(0.999);
    too_many.refuses(15, 0);
    let mut few_nodes = fresh();
    few_nodes.nodes.pop();
    few_nodes.refuses(15, 0);
    let mut spare_nodes = fresh();
    spare_nodes.nodes.push(f64::NAN);
    assert_eq!(spare_nodes.run(), Ok(3));
    let mut short = fresh();
    short.area.truncate(8);
    short.refuses(15, 0);
    let mut exact = fresh();
    exact.area.truncate(9);
    assert_eq!(exact.run(), Ok(3));
}

#[test]
fn row_16_node_places() {
    let mut grid = Sample::from_cells([[1, 3, 5, 7]]);
    grid.counts[0] = 1;
    let fresh = || call(&mut Rng::new(1), grid.clone(), true);
    let bad = [
        f64::NAN,
        f64::INFINITY,
        f64::NEG_INFINITY,
        1_000_000.000_1,
        -1_000_001.0,
    ];
    for value in bad {
        let mut one = fresh();
        one.nodes[17] = value;
        one.nodes[22] = value;
        one.refuses(16, 17);
        let mut unused = fresh();
        unused.nodes[0] = value;
        unused.nodes[8] = value;
        unused.nodes[20] = value;
        assert_eq!(unused.run(), Ok(1));
    }
    let mut ends = fresh();
    ends.nodes.fill(-1_000_000.0);
    ends.nodes[10] = 1_000_000.0;
    assert_eq!(ends.run(), Ok(1));
}

#[test]
fn row_17_fractions() {
    let fresh = || {
        let mut call = call(&mut Rng::new(1), one_cell([2, 1, 0, 0, 0, 1]), true);
        call.fractions = vec![0.5, 0.75, 0.25, 0.5];
        call
    };
    assert!(fresh().run().is_ok());
    for (at, value) in [
        (1, 0.5),
        (1, 0.25),
        (0, 0.0),
        (2, 1.0),
        (3, -0.5),
        (3, 1.5),
        (2, f64::NAN),
    ] {
        let mut one = fresh();
        one.fractions[at] = value;
        one.fractions[3] = if at < 3 { 2.0 } else { value };
        one.refuses(17, at as u64);
    }
    let mut tiny = fresh();
    tiny.fractions[0] = f64::MIN_POSITIVE;
    tiny.fractions[3] = 1.0 - f64::EPSILON / 2.0;
    assert!(tiny.run().is_ok());
}

#[test]
fn earlier_rows_win() {
    let mut one = call(&mut Rng::new(1), one_cell([2, 0, 0, 0, 0, 0]), true);
    one.fractions[1] = 7.0;
    one.refuses(17, 1);
    one.nodes[11] = f64::NAN;
    one.refuses(16, 11);
    one.area.truncate(4);
    one.refuses(15, 0);
    one.grid.counts.pop();
    one.refuses(2, 0);
}

/// Two loops of length 8 one inside the other: the crossings 0 and 3 of edge 01
/// are on the first, which is further from that edge.
#[test]
fn nested_loops() {
    let mut call = Call {
        grid: one_cell([4, 2, 2, 2, 2, 4]),
        nodes: vec![0.0, 0.0, 0.0, 2.0, 0.0, 0.0, 0.0, 6.0, 1.0, 0.0, 6.0, 5.0],
        fractions: [4, 2, 2, 2, 2, 4]
            .iter()
            .flat_map(|&count| (1..=count).map(move |k| f64::from(k) / 8.0))
            .collect(),
        area: vec![UNTOUCHED; 54],
    };
    assert_eq!(call.run(), Ok(18));
    let third = |part: f64| [1.0 - part, 6.0 * part, 3.0 * part];
    assert_eq!(call.area[48..51], third(2.0 / 3.0));
    assert_eq!(call.area[51..54], third(1.0 / 3.0));
}
