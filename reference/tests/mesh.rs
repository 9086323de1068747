//! The mesh call and the loops call: examples, rows 11 and 12, and a plain
//! mesher for random grids.

use std::collections::BTreeMap;

use reference::cell::{LoopType, NO_NUMBER, TRIANGLE_WORDS};
use reference::face::{join, Join};
use reference::gen::{closed_fan, open_fan, random_shape, separate, Rng, Sample};
use reference::mesh::{loop_of_cell, mesh, LoopAnswer, MeshAnswer, Mesher};
use reference::split::is_split;
use reference::Refusal;

const UNTOUCHED: u32 = 0xdead_beef;

fn one_cell(counts: [u16; 6]) -> Sample {
    Sample {
        cells: vec![0, 1, 2, 3],
        edges: vec![0, 1, 0, 2, 0, 3, 1, 2, 1, 3, 2, 3],
        counts: counts.to_vec(),
    }
}

/// Triangles of a grid; also tries areas that are too short, exact and long.
fn words_of(grid: &Sample) -> Vec<u32> {
    let starts = grid.starts();
    let lists = grid.lists(&starts);
    let mut mesher = Mesher::default();
    let needed = match mesher.mesh(lists, &mut []) {
        Ok(answer) => answer.triangles as usize,
        Err(refusal) => {
            assert_eq!(refusal.number, 12);
            assert!(refusal.place > 0);
            refusal.place as usize
        }
    };
    let exact = needed * TRIANGLE_WORDS;
    if needed > 0 {
        let mut short = vec![UNTOUCHED; exact - 1];
        let refusal = Refusal {
            number: 12,
            place: needed as u64,
        };
        assert_eq!(mesher.mesh(lists, &mut short), Err(refusal));
        assert!(short.iter().all(|&word| word == UNTOUCHED));
    }
    let mut long = vec![UNTOUCHED; exact + 30];
    let answer = mesh(lists, &mut long).expect("an accepted grid");
    assert_eq!(answer.triangles, needed as u64);
    assert!(long[exact..].iter().all(|&word| word == UNTOUCHED));
    let mut area = vec![UNTOUCHED; exact];
    assert_eq!(mesher.mesh(lists, &mut area), Ok(answer));
    assert_eq!(area, long[..exact]);
    area
}

fn loops_of(grid: &Sample, cell: u64) -> Vec<LoopAnswer> {
    let starts = grid.starts();
    let ask = |k| loop_of_cell(grid.lists(&starts), cell, k).expect("the grid is accepted");
    let found: Vec<LoopAnswer> = (0..).map_while(ask).collect();
    assert_eq!(ask(found.len() as u64 + 1), None);
    assert_eq!(ask(u64::MAX >> 40), None);
    found
}

/// A loop as the plain mesher has it: its crossings as (edge, index) and the
/// slot on which it leaves each.
struct PlainLoop {
    points: Vec<(usize, u32)>,
    slots: Vec<usize>,
}

const ENDS: [[usize; 2]; 6] = [[0, 1], [0, 2], [0, 3], [1, 2], [1, 3], [2, 3]];

/// Where the segment from a crossing leads on the face in a slot.
fn step(counts: [u32; 6], (edge, index): (usize, u32), slot: usize) -> Option<(usize, u32)> {
    let on_face: Vec<usize> = (0..6).filter(|&e| !ENDS[e].contains(&slot)).collect();
    let rank = on_face.iter().position(|&e| e == edge)?;
    let face_counts = [0, 1, 2].map(|r: usize| counts[on_face[r]]);
    match join(face_counts, rank as u32, index) {
        Join::Joined { edge, index, .. } => Some((on_face[edge as usize], index)),
        _ => None,
    }
}

fn slots_at(edge: usize) -> [usize; 2] {
    let slots: Vec<usize> = (0..4)
        .rev()
        .filter(|slot| !ENDS[edge].contains(slot))
        .collect();
    [slots[0], slots[1]]
}

/// The curve through a crossing, if it closes and starts at its least one.
fn plain_loop(counts: [u32; 6], first: (usize, u32)) -> Option<PlainLoop> {
    let mut found = PlainLoop {
        points: vec![],
        slots: vec![],
    };
    let mut here = first;
    let mut slot = slots_at(first.0)[0];
    loop {
        found.points.push(here);
        found.slots.push(slot);
        here = step(counts, here, slot)?;
        if here == first {
            return Some(found);
        }
        if here < first {
            return None;
        }
        let [one, other] = slots_at(here.0);
        slot = if slot == one { other } else { one };
    }
}

fn plain_loops(counts: [u32; 6]) -> Vec<PlainLoop> {
    let crossings = (0..6).flat_map(|edge| (0..counts[edge]).map(move |index| (edge, index)));
    crossings
        .filter_map(|first| plain_loop(counts, first))
        .collect()
}

impl PlainLoop {
    fn normal(&self) -> bool {
        let next = self.points.iter().cycle().skip(1);
        self.points
            .iter()
            .zip(next)
            .all(|(here, there)| here.0 != there.0)
    }

    fn kind(&self, nodes: &[u16]) -> (u32, LoopType) {
        let odd = |edge: usize| self.points.iter().filter(|p| p.0 == edge).count() % 2 == 1;
        let node = |place: usize| u32::from(nodes[place]);
        match (odd(0), odd(1), odd(2)) {
            (false, false, false) => (0, LoopType::Contractible),
            (true, false, false) => (1, LoopType::Corner(node(1))),
            (false, true, false) => (1, LoopType::Corner(node(2))),
            (false, false, true) => (1, LoopType::Corner(node(3))),
            (false, true, true) => (2, LoopType::Diagonal(node(1))),
            (true, false, true) => (2, LoopType::Diagonal(node(2))),
            (true, true, false) => (2, LoopType::Diagonal(node(3))),
            (true, true, true) => (3, LoopType::Corner(node(0))),
        }
    }
}

/// What the plain mesher knows of one cell.
struct PlainCell {
    counts: [u32; 6],
    starts: [u32; 6],
    names: [u32; 4],
}

fn plain_cell(grid: &Sample, cell: usize) -> PlainCell {
    let cells = grid.cell_list();
    let edges = grid.edge_list();
    let numbers = ENDS.map(|[u, v]| {
        let ends = [cells[cell][u], cells[cell][v]];
        edges
            .iter()
            .position(|&e| e == ends)
            .expect("the edge is listed")
    });
    let start = |edge: usize| grid.counts[..edge].iter().map(|&c| u32::from(c)).sum();
    let name = |slot: usize| {
        let mut face = cells[cell].to_vec();
        face.remove(slot);
        let has_face = |other: &[u16; 4]| face.iter().all(|node| other.contains(node));
        let least = cells
            .iter()
            .position(has_face)
            .expect("its own cell has it");
        let omitted = cells[least].iter().position(|node| !face.contains(node));
        (4 * least + omitted.expect("a cell has a fourth node")) as u32
    };
    PlainCell {
        counts: numbers.map(|edge| u32::from(grid.counts[edge])),
        starts: numbers.map(start),
        names: [0, 1, 2, 3].map(name),
    }
}

fn plain_triangles(cell: u32, data: &PlainCell, found: &PlainLoop, out: &mut Vec<u32>) {
    let n = found.points.len();
    let p: Vec<u32> = found
        .points
        .iter()
        .map(|&(e, i)| data.starts[e] + i)
        .collect();
    let g = |k: usize| [data.names[found.slots[k]], p[k].min(p[(k + 1) % n])];
    let inner = |k: usize| [NO_NUMBER, k as u32];
    let mut push = |corners: [u32; 3], sides: [[u32; 2]; 3]| {
        out.extend([cell, p[0]]);
        out.extend(corners);
        out.extend(sides.concat());
    };
    if n == 3 {
        push([p[0], p[1], p[2]], [g(0), g(1), g(2)]);
    } else if n == 4 && found.normal() {
        push([p[0], p[1], p[2]], [g(0), g(1), inner(0)]);
        push([p[0], p[2], p[3]], [inner(0), g(2), g(3)]);
    } else {
        for k in 0..n {
            let next = (k + 1) % n;
            push([p[k], p[next], NO_NUMBER], [g(k), inner(next), inner(k)]);
        }
    }
}

/// Of a cell with more loops than this only so many are asked for, and the last.
const LOOPS_ASKED: usize = 60;

/// The triangles of the cells that are not split.
fn unsplit(split: &[bool], words: &[u32]) -> Vec<u32> {
    let triangles = words.chunks_exact(TRIANGLE_WORDS);
    let kept = triangles.filter(|triangle| !split[triangle[0] as usize % 2048]);
    kept.flatten().copied().collect()
}

/// Compares loops, and the mesh of cells that are not split, with the plain
/// mesher; answers the triangles.
fn compare(grid: &Sample) -> usize {
    let split: Vec<bool> = grid.counts_in_cells().into_iter().map(is_split).collect();
    let mut expected = Vec::new();
    let starts = grid.starts();
    let mut mesher = Mesher::default();
    for (cell, nodes) in grid.cell_list().iter().enumerate() {
        let data = plain_cell(grid, cell);
        let found = plain_loops(data.counts);
        let mut ask = |k: usize| {
            let answer = mesher.loop_of_cell(grid.lists(&starts), cell as u64, k as u64);
            answer.expect("the grid is accepted")
        };
        assert_eq!(ask(found.len()), None);
        assert_eq!(ask(found.len() + 1), None);
        for (k, plain) in found.iter().enumerate() {
            let (edge, index) = plain.points[0];
            let (parity_sum, kind) = plain.kind(nodes);
            let wanted = LoopAnswer {
                p0: data.starts[edge] + index,
                length: plain.points.len() as u32,
                normal: plain.normal(),
                parity_sum,
                kind,
            };
            if k < LOOPS_ASKED || k + 1 == found.len() {
                assert_eq!(ask(k), Some(wanted));
            }
            if !split[cell] {
                plain_triangles(cell as u32, &data, plain, &mut expected);
            }
        }
    }
    assert!(unsplit(&split, &words_of(grid)) == expected, "{grid:?}");
    expected.len() / TRIANGLE_WORDS
}

#[test]
fn all_small_counts_of_one_cell() {
    for code in 0..4096_u32 {
        let counts = [0, 2, 4, 6, 8, 10].map(|shift| (code >> shift & 3) as u16);
        compare(&one_cell(counts));
    }
}

#[test]
fn random_counts_of_one_cell() {
    let mut rng = Rng::new(3);
    for _ in 0..1500 {
        let most = rng.between(1, 40);
        let counts = [(); 6].map(|()| rng.between(0, most) as u16);
        compare(&one_cell(counts));
    }
}

#[test]
fn large_counts_of_one_cell() {
    let examples = [
        ([4095, 0, 0, 0, 0, 0], 4094),
        ([4095, 4095, 4095, 0, 0, 0], 4095),
        ([4095; 6], 4 * 2047),
        ([4094; 6], 4 * 2047),
        ([4094, 2047, 2047, 2047, 2047, 4094], 16_376),
        ([4095, 2048, 2047, 2047, 2048, 4095], 16_380),
        // one triangle; the other crossings are on an open curve
        ([256, 255, 1, 0, 0, 0], 1),
        ([4095, 4094, 1, 0, 0, 0], 1),
    ];
    for (counts, triangles) in examples {
        assert_eq!(compare(&one_cell(counts)), triangles, "{counts:?}");
    }
    let mut rng = Rng::new(73);
    for _ in 0..40 {
        let counts = [(); 6].map(|()| {
            let most = 1 << rng.between(1, 12);
            rng.below(most) as u16
        });
        compare(&one_cell(counts));
    }
}

/// Counts above 4,095 are refused with the edge, by the mesh and the loops call.
#[test]
fn row_18_of_both_calls() {
    for edge in 0..6 {
        let mut grid = one_cell([1, 1, 1, 0, 0, 0]);
        grid.counts[edge] = 4096;
        let starts = grid.starts();
        let lists = grid.lists(&starts);
        let refusal = Refusal {
            number: 18,
            place: edge as u64,
        };
        let mut area = [UNTOUCHED; 20];
        assert_eq!(mesh(lists, &mut area), Err(refusal));
        assert_eq!(area, [UNTOUCHED; 20]);
        assert_eq!(loop_of_cell(lists, 9, 0), Err(refusal));
    }
}

/// 2,047 loops of two points in each of 40 cells round the edge 0 1.
#[test]
fn a_full_edge_of_many_cells() {
    let mut grid = closed_fan(40);
    grid.counts[0] = 4095;
    assert_eq!(words_of(&grid).len(), 40 * 4094 * TRIANGLE_WORDS);
}

#[test]
fn random_grids() {
    let mut rng = Rng::new(23);
    let mut triangles = 0;
    for seed in 0..150 {
        let shape = random_shape(&mut Rng::new(seed));
        let most = rng.between(1, 9) as u16;
        let grid = match rng.below(3) {
            0 => shape.with_counts(&mut rng, 0, most),
            1 => shape.with_even_counts(&mut rng, 3),
            _ => shape.with_closed_counts(&mut rng, 3),
        };
        let grid = if rng.coin() {
            grid.reordered(&mut rng)
        } else {
            grid
        };
        if grid.cells.len() <= 4 * 150 {
            triangles += compare(&grid);
        }
    }
    assert!(triangles > 10_000);
}

#[test]
fn cells_without_triangles() {
    for counts in [[0; 6], [1, 0, 0, 0, 0, 0], [1; 6]] {
        assert_eq!(words_of(&one_cell(counts)), []);
        assert_eq!(loops_of(&one_cell(counts), 0), []);
    }
}

#[test]
fn corner_cut() {
    let grid = one_cell([1, 1, 1, 0, 0, 0]);
    assert_eq!(words_of(&grid), [0, 0, 0, 1, 2, 3, 0, 1, 1, 2, 0]);
    let answer = loops_of(&grid, 0);
    assert_eq!(answer.len(), 1);
    assert_eq!(
        (answer[0].parity_sum, answer[0].kind),
        (3, LoopType::Corner(0))
    );
}

#[test]
fn diagonal_cut() {
    let grid = one_cell([0, 1, 1, 1, 1, 0]);
    let none = NO_NUMBER;
    let first = [0, 0, 0, 2, 3, 3, 0, 0, 2, none, 0];
    let second = [0, 0, 0, 3, 1, none, 0, 2, 1, 1, 0];
    assert_eq!(words_of(&grid), [first, second].concat());
    let wanted = LoopAnswer {
        p0: 0,
        length: 4,
        normal: true,
        parity_sum: 2,
        kind: LoopType::Diagonal(1),
    };
    assert_eq!(loops_of(&grid, 0), [wanted]);
}

#[test]
fn eight_points_in_one_loop() {
    let grid = one_cell([2, 1, 1, 1, 1, 2]);
    assert_eq!(words_of(&grid).len(), 8 * TRIANGLE_WORDS);
    let answer = loops_of(&grid, 0);
    assert_eq!(answer.len(), 1);
    assert_eq!((answer[0].length, answer[0].normal), (8, true));
}

#[test]
fn three_cells_round_an_edge() {
    let mut grid = closed_fan(3);
    assert_eq!(grid.cell_list(), [[0, 1, 2, 3], [0, 1, 2, 4], [0, 1, 3, 4]]);
    grid.counts[0] = 2;
    let words = words_of(&grid);
    let mut segments: BTreeMap<[u32; 2], usize> = BTreeMap::new();
    let mut inner: BTreeMap<[u32; 3], usize> = BTreeMap::new();
    for triangle in words.chunks(TRIANGLE_WORDS) {
        for side in triangle[5..].chunks(2) {
            if side[0] == NO_NUMBER {
                *inner
                    .entry([triangle[0], triangle[1], side[1]])
                    .or_default() += 1;
            } else {
                *segments.entry([side[0], side[1]]).or_default() += 1;
            }
        }
    }
    assert_eq!(words.len(), 6 * TRIANGLE_WORDS);
    assert_eq!(segments.len(), 3);
    assert_eq!(inner.len(), 6);
    assert!(segments
        .values()
        .chain(inner.values())
        .all(|&uses| uses == 2));
}

#[test]
fn forty_two_full_cells() {
    let mut rng = Rng::new(0);
    let full = separate(42).with_counts(&mut rng, 255, 255);
    assert_eq!(words_of(&full).len(), 42 * 4 * 127 * TRIANGLE_WORDS);
    let grid = separate(43).with_counts(&mut rng, 255, 255);
    let starts = grid.starts();
    let lists = grid.lists(&starts);
    let refusal = Refusal {
        number: 10,
        place: 0,
    };
    assert_eq!(mesh(lists, &mut []), Err(refusal));
    assert_eq!(loop_of_cell(lists, 99, 0), Err(refusal));
}

#[test]
fn row_11_no_such_cell() {
    let grid = one_cell([2; 6]);
    let starts = grid.starts();
    let lists = grid.lists(&starts);
    for cell in [1, 2, 2048, u64::MAX] {
        let refusal = Refusal {
            number: 11,
            place: cell,
        };
        assert_eq!(loop_of_cell(lists, cell, 0), Err(refusal));
    }
}

#[test]
fn row_12_short_area() {
    let grid = one_cell([1, 1, 1, 0, 0, 0]);
    let starts = grid.starts();
    let lists = grid.lists(&starts);
    let mut area = [UNTOUCHED; 10];
    let refusal = Refusal {
        number: 12,
        place: 1,
    };
    assert_eq!(mesh(lists, &mut area), Err(refusal));
    assert_eq!(area, [UNTOUCHED; 10]);
    let grid = one_cell([1, 0, 0, 0, 0, 0]);
    let starts = grid.starts();
    let lists = grid.lists(&starts);
    assert_eq!(mesh(lists, &mut []), Ok(MeshAnswer::default()));
}

#[test]
fn a_refused_grid_leaves_the_area() {
    let mut grid = one_cell([1, 1, 1, 0, 0, 0]);
    grid.counts.push(0);
    let starts = grid.starts();
    let lists = grid.lists(&starts);
    let mut area = [UNTOUCHED; 20];
    let refusal = Refusal {
        number: 2,
        place: 0,
    };
    assert_eq!(mesh(lists, &mut area), Err(refusal));
    assert_eq!(area, [UNTOUCHED; 20]);
}

/// The same memory must serve grids of all sizes, and refusals, in any order.
#[test]
fn memory_is_reused_safely() {
    let mut rng = Rng::new(29);
    let mut mesher = Mesher::default();
    for seed in 0..60 {
        let mut grid = random_shape(&mut Rng::new(seed)).with_counts(&mut rng, 0, 6);
        if rng.below(4) == 0 {
            grid.cells[0] = 4096;
        }
        let starts = grid.starts();
        let lists = grid.lists(&starts);
        let mut area = vec![UNTOUCHED; 600_000];
        let mut other = area.clone();
        let answer = mesher.mesh(lists, &mut area);
        assert_eq!(answer, mesh(lists, &mut other));
        assert_eq!(area, other);
    }
}

#[test]
fn later_cells_have_triangles_of_their_own() {
    let mut rng = Rng::new(31);
    let grid = open_fan(30).with_even_counts(&mut rng, 4);
    let words = words_of(&grid);
    let last = &words[words.len() - TRIANGLE_WORDS..];
    assert!(last[0] > 20);
    compare(&grid);
}
