//! Cells that are split: examples worked by hand from document 02, a plain
//! second splitting on lists of crossings, and demand 3 counted on the words.

use std::collections::{BTreeMap, BTreeSet};

use reference::booking::{book, is_booked, left_counts, two_numbers};
use reference::cases::counts_of;
use reference::cell::{CellWalker, NO_NUMBER, TRIANGLE_WORDS};
use reference::gen::{
    any_chain, box_of_five, box_of_six, five_nodes, joined, separate, sphere, spiral_cell,
    spiral_join, Chain, Rng, Sample,
};
use reference::manifold::{inspect, should_close};
use reference::mesh::{loop_of_cell, mesh, MeshAnswer};
use reference::places::places;
use reference::split::{is_split, totals, Part, Step, Totals, Working};
use reference::Refusal;

const ENDS: [[usize; 2]; 6] = [[0, 1], [0, 2], [0, 3], [1, 2], [1, 3], [2, 3]];
const UNTOUCHED: u32 = 77_777;

fn one_cell(counts: [u16; 6]) -> Sample {
    let mut grid = Sample::from_cells([[0, 1, 2, 3]]);
    grid.counts = counts.to_vec();
    grid
}

/// The answer and the words of a mesh; an area one word short is refused with
/// the triangles needed and keeps its values.
fn meshed(grid: &Sample) -> (MeshAnswer, Vec<u32>) {
    let starts = grid.starts();
    let lists = grid.lists(&starts);
    let needed = match mesh(lists, &mut []) {
        Ok(answer) => answer.triangles,
        Err(refusal) => {
            assert_eq!(refusal.number, 12);
            refusal.place
        }
    };
    let length = needed as usize * TRIANGLE_WORDS;
    if needed > 0 {
        let mut short = vec![UNTOUCHED; length - 1];
        let refusal = Refusal {
            number: 12,
            place: needed,
        };
        assert_eq!(mesh(lists, &mut short), Err(refusal));
        assert!(short.iter().all(|&word| word == UNTOUCHED));
    }
    let mut area = vec![UNTOUCHED; length + 7];
    let answer = mesh(lists, &mut area).expect("an accepted grid");
    assert_eq!(answer.triangles, needed);
    assert_eq!(area.split_off(length), [UNTOUCHED; 7]);
    (answer, area)
}

/// A loop: words 0 and its points in order, with the name of the face on which
/// each is left.
type NamedLoop<'a> = (u32, &'a [u32], &'a [u32]);

/// Adds a loop's triangles as document 01 has them.
fn span((word, points, faces): NamedLoop, out: &mut Vec<u32>) {
    let n = points.len();
    let side = |k: usize| [faces[k], points[k].min(points[(k + 1) % n])];
    let inner = |k: usize| [NO_NUMBER, (k % n) as u32];
    let mut give = |corners: [u32; 3], sides: [[u32; 2]; 3]| {
        out.extend([word, points[0]]);
        out.extend(corners);
        out.extend(sides.concat());
    };
    match *points {
        [p, q, r] => give([p, q, r], [side(0), side(1), side(2)]),
        [p, q, r, s] => {
            give([p, q, r], [side(0), side(1), inner(0)]);
            give([p, r, s], [inner(0), side(2), side(3)]);
        }
        _ => (0..n).for_each(|k| {
            let corners = [points[k], points[(k + 1) % n], NO_NUMBER];
            give(corners, [side(k), inner(k + 1), inner(k)]);
        }),
    }
}

// Inner crossings of the first split of (4, 2), on ai, aj, ak, al.
const A: [u32; 4] = [65_536, 65_537, 65_538, 65_539];
const B: [u32; 4] = [65_540, 65_541, 65_542, 65_543];
const C: [u32; 2] = [65_544, 65_545];
const D: [u32; 2] = [65_546, 65_547];
// Its inner faces.
const AIJ: u32 = 8_192;
const AIK: u32 = 8_193;
const AIL: u32 = 8_194;
const AJK: u32 = 8_195;
const AJL: u32 = 8_196;
const AKL: u32 = 8_197;

/// (d1, d2) = (4, 2) with i, j, k, l = 0, 1, 2, 3: crossings of 01 are 0..3, of
/// 02 4..5, of 03 6..11, of 12 12..17, of 13 18..19, of 23 20..23. Followed by
/// hand from corner to corner.
#[test]
fn four_and_two_by_hand() {
    let round = [AIJ, AIK, 3, AJK, AIK, AIJ, AJK, 3];
    let other = [AIJ, AJL, 2, AIL, AJL, AIJ, AIL, 2];
    let loops: [NamedLoop; 20] = [
        (2048, &[0, A[3], 4, 16, C[0], A[0], B[0], 15], &round),
        (2048, &[1, A[2], 5, 17, C[1], A[1], B[1], 14], &round),
        (2048, &[2, B[2], 13], &[AIJ, AJK, 3]),
        (2048, &[3, B[3], 12], &[AIJ, AJK, 3]),
        (4096, &[0, A[3], 6], &[AIJ, AIL, 2]),
        (4096, &[1, A[2], 7], &[AIJ, AIL, 2]),
        (4096, &[2, B[2], 19, 11, D[1], B[1], A[1], 8], &other),
        (4096, &[3, B[3], 18, 10, D[0], B[0], A[0], 9], &other),
        (6144, &[4, A[3], 6], &[AIK, AIL, 1]),
        (6144, &[5, A[2], 7], &[AIK, AIL, 1]),
        (6144, &[8, A[1], C[1], 20], &[AIL, AIK, AKL, 1]),
        (6144, &[9, A[0], C[0], 21], &[AIL, AIK, AKL, 1]),
        (6144, &[10, D[0], 22], &[AIL, AKL, 1]),
        (6144, &[11, D[1], 23], &[AIL, AKL, 1]),
        (8192, &[12, B[3], 18], &[AJK, AJL, 0]),
        (8192, &[13, B[2], 19], &[AJK, AJL, 0]),
        (8192, &[14, B[1], D[1], 23], &[AJK, AJL, AKL, 0]),
        (8192, &[15, B[0], D[0], 22], &[AJK, AJL, AKL, 0]),
        (8192, &[16, C[0], 21], &[AJK, AKL, 0]),
        (8192, &[17, C[1], 20], &[AJK, AKL, 0]),
    ];
    let mut expected = Vec::new();
    for named in loops {
        span(named, &mut expected);
    }
    let (answer, words) = meshed(&one_cell([4, 2, 6, 6, 2, 4]));
    assert_eq!((answer.triangles, answer.splits), (52, 1));
    assert_eq!(words, expected);
}

/// The same with one corner triangle at node 0 and two at node 2: these come
/// first, by p0, and the other crossings of their edges move up.
#[test]
fn own_corner_triangles_come_first() {
    let grid = one_cell([5, 5, 7, 8, 2, 6]);
    let (answer, words) = meshed(&grid);
    assert_eq!((answer.triangles, answer.splits), (55, 1));
    let mut expected = Vec::new();
    // 01 has 0..4, 02 5..9, 03 10..16, 12 17..24, 13 25..26, 23 27..32
    span((0, &[0, 5, 10], &[3, 1, 2]), &mut expected);
    span((0, &[8, 23, 28], &[3, 0, 1]), &mut expected);
    span((0, &[9, 24, 27], &[3, 0, 1]), &mut expected);
    assert_eq!(words[..expected.len()], expected);
    let map = [1..5, 6..8, 11..17, 17..23, 25..27, 29..33];
    let moved: Vec<u32> = map.into_iter().flatten().collect();
    let (_, plain) = meshed(&one_cell([4, 2, 6, 6, 2, 4]));
    let renamed = plain.chunks(TRIANGLE_WORDS).flat_map(|triangle| {
        let crossing = |word: u32| *moved.get(word as usize).unwrap_or(&word);
        let is_crossing = |at: usize| match at {
            1..=4 => true,
            6 | 8 | 10 => triangle[at - 1] != NO_NUMBER,
            _ => false,
        };
        let rename = move |(at, &word): (usize, &u32)| match is_crossing(at) {
            true => crossing(word),
            false => word,
        };
        triangle.iter().enumerate().map(rename).collect::<Vec<_>>()
    });
    assert_eq!(words[expected.len()..], renamed.collect::<Vec<_>>());
}

/// The nodes i, j, k, l of a split, the counts round a and the first crossing.
type Made = ([usize; 4], [u16; 4], u64);

/// Which parts are split, by number, and the splits themselves; nodes from 4 on
/// are new.
fn splits_of(counts: [u16; 6]) -> (Vec<u32>, Vec<Made>) {
    let steps = Working::of(counts, [0; 6], [0; 4]).expect("a cell that is split");
    let steps: Vec<Step> = steps.collect();
    let numbers: Vec<u32> = steps.iter().map(|step| step.number).collect();
    assert_eq!(numbers, (0..steps.len() as u32).collect::<Vec<_>>());
    let split = steps.iter().filter(|step| step.split.is_some());
    let made = steps.iter().filter_map(|step| step.split);
    let shown = made.map(|made| (made.labelled, made.counts, made.firsts[0]));
    (split.map(|step| step.number).collect(), shown.collect())
}

#[test]
fn nested_splits_by_hand() {
    let first = ([0, 1, 2, 3], [4, 6, 2, 4], 65_536);
    let second = ([4, 3, 0, 1], [4, 4, 2, 2], 65_552);
    assert_eq!(
        splits_of([6, 2, 8, 8, 2, 6]),
        (vec![0, 2], vec![first, second])
    );
    let first = ([0, 1, 2, 3], [8, 6, 4, 2], 65_536);
    let second = ([4, 0, 3, 1], [4, 4, 2, 2], 65_556);
    assert_eq!(
        splits_of([6, 4, 10, 10, 4, 6]),
        (vec![0, 2], vec![first, second])
    );
    let first = ([0, 1, 2, 3], [8, 10, 4, 6], 65_536);
    let second = ([4, 3, 0, 1], [8, 6, 4, 2], 65_564);
    let third = ([5, 4, 1, 3], [4, 4, 2, 2], 65_584);
    assert_eq!(
        splits_of([10, 4, 14, 14, 4, 10]),
        (vec![0, 2, 4], vec![first, second, third])
    );
    let sum = |splits, triangles, inner_crossings, fans| {
        Some(Totals {
            splits,
            triangles,
            inner_crossings,
            fans,
        })
    };
    assert_eq!(totals([4, 2, 6, 6, 2, 4]), sum(1, 52, 12, 4));
    assert_eq!(totals([6, 2, 8, 8, 2, 6]), sum(2, 96, 28, 6));
    assert_eq!(totals([6, 4, 10, 10, 4, 6]), sum(2, 116, 32, 8));
    assert_eq!(totals([10, 4, 14, 14, 4, 10]), sum(3, 196, 60, 12));
}

/// All six places for d1, d2 and their sum: i is node 0, and j, k, l are where
/// the counts stand.
#[test]
fn labels_follow_the_counts() {
    for (d, labelled) in [
        ([4, 2, 6], [0, 1, 2, 3]),
        ([4, 6, 2], [0, 1, 3, 2]),
        ([2, 4, 6], [0, 2, 1, 3]),
        ([6, 4, 2], [0, 2, 3, 1]),
        ([2, 6, 4], [0, 3, 1, 2]),
        ([6, 2, 4], [0, 3, 2, 1]),
    ] {
        let [x, y, z] = d;
        let expected = (vec![0], vec![(labelled, [4, 4, 2, 2], 65_536)]);
        assert_eq!(splits_of([x, y, z, z, y, x]), expected, "{d:?}");
        let cornered = [x + 3, y + 3, z + 4, z, y + 1, x + 1];
        assert_eq!(splits_of(cornered), expected, "{d:?}");
    }
}

#[test]
fn what_is_not_split() {
    for counts in [
        [3, 2, 5, 5, 2, 3],
        [4, 0, 4, 4, 0, 4],
        [4, 4, 8, 8, 4, 4],
        [2, 2, 4, 4, 2, 2],
        [2; 6],
        [0; 6],
        [4, 2, 6, 6, 2, 8],
        [4, 2, 6, 6, 2, 5],
        [4, 2, 7, 6, 2, 4],
    ] {
        assert!(!is_split(counts) && totals(counts).is_none(), "{counts:?}");
        let (answer, words) = meshed(&one_cell(counts));
        assert_eq!(answer.splits, 0);
        let largest = words.iter().filter(|&&word| word != NO_NUMBER).max();
        assert!(largest.map_or(true, |&word| word < 100), "{counts:?}");
        assert!(words.chunks(TRIANGLE_WORDS).all(|words| words[0] == 0));
    }
}

/// Totals by number alone, without a mesh.
#[test]
fn large_numbers_are_quick() {
    let spiral = |d1: u16, d2: u16| [d1, d2, d1 + d2, d1 + d2, d2, d1];
    let fine = totals(spiral(4092, 2)).expect("a cell that is split");
    // splits with d1 = 4, 6, ..., 4092, each 4 × d1 + 20 triangles and
    // 2 × d1 + 4 inner crossings, and 16 triangles at the end
    let sum = (4 + 4092) / 2 * 2045;
    assert_eq!(fine.splits, 2045);
    assert_eq!(fine.triangles, 4 * sum + 20 * 2045 + 16);
    assert_eq!(fine.inner_crossings, 2 * sum + 4 * 2045);
    assert_eq!(fine.fans, 2 * 2046);
    let grid = one_cell(spiral(4092, 2));
    let refusal = Refusal {
        number: 12,
        place: fine.triangles,
    };
    assert_eq!(mesh(grid.lists(&grid.starts()), &mut []), Err(refusal));
    let mut walker = CellWalker::default();
    let booking = book(&mut walker, spiral(65_532, 2)).expect("a cell of the W9 kind");
    assert_eq!(booking.corner_triangles, 0);
    assert_eq!(booking.left, [65_532, 2]);
    assert_eq!(booking.triangles, 4_295_229_396);
}

fn gcd(a: u16, b: u16) -> u16 {
    if b == 0 {
        a
    } else {
        gcd(b, a % b)
    }
}

#[test]
fn splits_are_bounded_and_triangles_counted() {
    let mut rng = Rng::new(7);
    let mut walker = CellWalker::default();
    for _ in 0..400 {
        let most = rng.between(6, 60);
        let counts = spiral_cell(&mut rng, 5, most);
        assert!(is_booked(counts) && is_split(counts));
        let [d1, d2] = two_numbers(counts);
        let totals = totals(counts).expect("a cell that is split");
        assert!(totals.splits >= 1 && totals.splits < u64::from(d1 / gcd(d1, d2)));
        let (answer, words) = meshed(&one_cell(counts));
        assert_eq!(answer.splits, totals.splits);
        assert_eq!(answer.triangles, totals.triangles);
        let booking = book(&mut walker, counts).expect("a cell of the W9 kind");
        assert_eq!(booking.triangles, answer.triangles);
        assert_eq!(booking.left, [d1, d2].map(u32::from));
        let middles = words.chunks(TRIANGLE_WORDS).filter(|t| t[4] == NO_NUMBER);
        let fans: BTreeSet<[u32; 2]> = middles.map(|t| [t[0], t[1]]).collect();
        assert_eq!(fans.len() as u64, totals.fans);
        let inner = words.chunks(TRIANGLE_WORDS).flat_map(|t| &t[2..5]);
        let inner: BTreeSet<&u32> = inner
            .filter(|&&word| word != NO_NUMBER && word >= 65_536)
            .collect();
        assert_eq!(inner.len() as u64, totals.inner_crossings);
    }
}

type Spot = [f64; 3];

/// A cell or sub-cell on lists. Nodes go by rank: 0 to 3 in the cell, new ones
/// -1, -2 and so on.
#[derive(Clone)]
struct Plain {
    nodes: Vec<i32>,
    /// Crossings of each edge from its lower node.
    edges: BTreeMap<[i32; 2], Vec<u32>>,
    /// Names of the faces, nodes in order.
    faces: BTreeMap<[i32; 3], u32>,
}

struct PlainLoop {
    points: Vec<u32>,
    faces: Vec<u32>,
}

fn sorted<const N: usize>(mut nodes: [i32; N]) -> [i32; N] {
    nodes.sort_unstable();
    nodes
}

impl Plain {
    fn others(&self, gone: &[i32]) -> Vec<i32> {
        let kept = self.nodes.iter().filter(|node| !gone.contains(node));
        kept.copied().collect()
    }

    /// Crossings between two nodes, from the first.
    fn from(&self, node: i32, other: i32) -> Vec<u32> {
        let mut list = self.edges[&sorted([node, other])].clone();
        if node > other {
            list.reverse();
        }
        list
    }

    fn count(&self, u: i32, v: i32) -> usize {
        self.edges[&sorted([u, v])].len()
    }

    fn corner(&self, node: i32, x: i32, y: i32) -> usize {
        (self.count(node, x) + self.count(node, y) - self.count(x, y)) / 2
    }

    fn least(&self, node: i32) -> usize {
        let others = self.others(&[node]);
        let (x, y, z) = (others[0], others[1], others[2]);
        let least = self.corner(node, x, y).min(self.corner(node, x, z));
        least.min(self.corner(node, y, z))
    }

    fn face(&self, nodes: [i32; 3]) -> u32 {
        self.faces[&sorted(nodes)]
    }

    /// The triangles at corners, by lowest crossing.
    fn corner_loops(&self) -> Vec<PlainLoop> {
        let mut found = Vec::new();
        for &node in &self.nodes {
            for k in 0..self.least(node) {
                let mut ends = self.others(&[node]);
                let at = |end: i32| self.from(node, end)[k];
                let lowest = *ends.iter().min_by_key(|&&end| at(end)).expect("an end");
                ends.retain(|&end| end != lowest);
                let [p, q, r] = [lowest, ends[0], ends[1]];
                found.push(PlainLoop {
                    points: vec![at(p), at(q), at(r)],
                    faces: [[p, q], [q, r], [r, p]]
                        .map(|[u, v]| self.face([node, u, v]))
                        .to_vec(),
                });
            }
        }
        found.sort_by_key(|found| found.points[0]);
        found
    }

    fn without_corners(&self) -> Plain {
        let mut rest = self.clone();
        for (&[u, v], list) in &mut rest.edges {
            list.drain(..self.least(u));
            list.truncate(list.len() - self.least(v));
        }
        rest
    }

    /// By crossing and third node of a face: the partner there, its edge and
    /// the face's name. Rule 1.
    fn joins(&self) -> BTreeMap<(u32, i32), (u32, [i32; 2])> {
        let mut joins = BTreeMap::new();
        for nodes in self.faces.keys() {
            for turn in 0..3 {
                let [i, j, k] = [0, 1, 2].map(|step| nodes[(turn + step) % 3]);
                let (one, other) = (self.from(i, j), self.from(i, k));
                for rank in 0..self.corner(i, j, k) {
                    joins.insert((one[rank], k), (other[rank], [i, k]));
                    joins.insert((other[rank], j), (one[rank], [i, j]));
                }
            }
        }
        joins
    }

    /// All loops, by lowest crossing.
    fn loops(&self) -> Vec<PlainLoop> {
        let joins = self.joins();
        let mut crossings = BTreeMap::new();
        for (&edge, list) in &self.edges {
            crossings.extend(list.iter().map(|&crossing| (crossing, edge)));
        }
        let mut found = Vec::new();
        while let Some((&first, &edge)) = crossings.iter().next() {
            let (mut here, mut edge) = (first, edge);
            let mut third = self.others(&edge)[0];
            let (mut points, mut faces) = (Vec::new(), Vec::new());
            loop {
                crossings.remove(&here).expect("no crossing twice");
                points.push(here);
                faces.push(self.face([edge[0], edge[1], third]));
                let (there, next) = joins[&(here, third)];
                let old = edge.into_iter().find(|node| !next.contains(node));
                let left = [old.expect("another edge"), next[0], next[1]];
                third = self.others(&left)[0];
                (here, edge) = (there, next);
                if here == first {
                    break;
                }
            }
            found.push(PlainLoop { points, faces });
        }
        found
    }

    /// Counts of the edges from the lowest node, with the nodes at their ends.
    fn at_lowest(&self) -> Vec<(usize, i32)> {
        let ends = self.others(&[self.nodes[0]]);
        let count = |end: i32| (self.count(self.nodes[0], end), end);
        let mut counts: Vec<_> = ends.into_iter().map(count).collect();
        counts.sort_unstable();
        counts
    }
}

/// The plain splitting of one cell: its words, and what is placed.
struct PlainSplit {
    cell: u32,
    next_part: u32,
    splits: i32,
    words: Vec<u32>,
    spots: BTreeMap<i32, Spot>,
    inner: Vec<Spot>,
    middles: Vec<Spot>,
}

fn halfway(one: Spot, other: Spot) -> Spot {
    [0, 1, 2].map(|part| (one[part] + other[part]) / 2.0)
}

impl PlainSplit {
    fn span(&mut self, number: u32, found: &PlainLoop) {
        let word = self.cell + 2048 * number;
        span((word, &found.points, &found.faces), &mut self.words);
    }

    fn work(&mut self, part: &Plain) {
        let number = self.next_part;
        self.next_part += 1;
        let rest = part.without_corners();
        let counts = rest.at_lowest();
        let (d2, d1) = (counts[0].0, counts[1].0);
        if d1 == d2 || d2 == 0 {
            for found in part.loops() {
                self.span(number, &found);
                if found.points.len() == 8 {
                    self.place_middle(&rest, &found);
                }
            }
            return;
        }
        part.corner_loops()
            .iter()
            .for_each(|found| self.span(number, found));
        self.split(
            &rest,
            [rest.nodes[0], counts[1].1, counts[0].1, counts[2].1],
        );
    }

    fn split(&mut self, rest: &Plain, [i, j, k, l]: [i32; 4]) {
        let (d1, d2) = (rest.count(i, j), rest.count(i, k));
        let first_face = 8192 + 6 * self.splits as u32;
        self.splits += 1;
        let a = -self.splits;
        let mut around = rest.clone();
        around.nodes.insert(0, a);
        self.place_node(a, [i, j, k, l]);
        for (node, count) in [(i, 2 * d2), (j, d1), (k, d2), (l, d1 - d2)] {
            let first = 65_536 + self.inner.len() as u32;
            around
                .edges
                .insert([a, node], (first..first + count as u32).collect());
            self.place_edge(a, node, count);
        }
        let outer = [[i, j], [i, k], [i, l], [j, k], [j, l], [k, l]];
        for (name, [u, v]) in (first_face..).zip(outer) {
            around.faces.insert(sorted([a, u, v]), name);
        }
        for omitted in [l, k, j, i] {
            let mut part = around.clone();
            part.nodes.retain(|&node| node != omitted);
            part.edges.retain(|edge, _| !edge.contains(&omitted));
            part.faces.retain(|face, _| !face.contains(&omitted));
            self.work(&part);
        }
    }

    fn place_node(&mut self, a: i32, [i, j, k, l]: [i32; 4]) {
        let of = |node: i32, part: usize| self.spots[&node][part];
        let spot = [0, 1, 2].map(|p| (((of(i, p) + of(j, p)) + of(k, p)) + of(l, p)) / 4.0);
        self.spots.insert(a, spot);
    }

    fn place_edge(&mut self, a: i32, node: i32, count: usize) {
        let (from, to) = (self.spots[&a], self.spots[&node]);
        for h in 0..count {
            let s = (h + 1) as f64 / (count + 1) as f64;
            self.inner
                .push([0, 1, 2].map(|p| from[p] + s * (to[p] - from[p])));
        }
    }

    /// The middle of an octagon: it lies between the halves of the edge from
    /// the lowest node with the most left and of the opposite edge.
    fn place_middle(&mut self, rest: &Plain, found: &PlainLoop) {
        let low = rest.nodes[0];
        let (most, end) = rest.at_lowest()[2];
        let m = most / 2;
        let list = rest.from(low, end);
        let i = (0..m).find(|i| found.points.contains(&list[m + i]));
        let far = rest.others(&[low, end]);
        let [one, other] =
            [[low, end], [far[0], far[1]]].map(|[u, v]| halfway(self.spots[&u], self.spots[&v]));
        let part = (i.expect("a crossing there") + 1) as f64 / (m + 1) as f64;
        self.middles
            .push([0, 1, 2].map(|p| one[p] + (other[p] - one[p]) * part));
    }
}

/// A cell of a grid on lists.
fn plain_cell(grid: &Sample, cell: usize) -> Plain {
    let cells = grid.cell_list();
    let nodes = cells[cell];
    let edges = grid.edge_list();
    let mut plain = Plain {
        nodes: vec![0, 1, 2, 3],
        edges: BTreeMap::new(),
        faces: BTreeMap::new(),
    };
    for [u, v] in ENDS {
        let edge = edges.binary_search(&[nodes[u], nodes[v]]).expect("listed");
        let first: u32 = grid.counts[..edge].iter().map(|&c| u32::from(c)).sum();
        let list = first..first + u32::from(grid.counts[edge]);
        plain.edges.insert([u as i32, v as i32], list.collect());
    }
    for slot in 0..4 {
        let kept: Vec<usize> = (0..4).filter(|&at| at != slot).collect();
        let has = |other: &[u16; 4]| kept.iter().all(|&at| other.contains(&nodes[at]));
        let least = cells.iter().position(has).expect("its own cell has it");
        let omitted = (0..4).find(|&at| kept.iter().all(|&k| nodes[k] != cells[least][at]));
        let name = 4 * least + omitted.expect("a fourth node");
        let face = [kept[0] as i32, kept[1] as i32, kept[2] as i32];
        plain.faces.insert(face, name as u32);
    }
    plain
}

/// The plain splitting of a cell; places are all 0 where none are given.
fn plain_split(grid: &Sample, cell: usize, spots: &[f64]) -> PlainSplit {
    let spot = |node: u16| {
        let first = 3 * usize::from(node);
        [0, 1, 2].map(|part| spots.get(first + part).copied().unwrap_or(0.0))
    };
    let mut split = PlainSplit {
        cell: cell as u32,
        next_part: 0,
        splits: 0,
        words: Vec::new(),
        spots: (0..).zip(grid.cell_list()[cell].map(spot)).collect(),
        inner: Vec::new(),
        middles: Vec::new(),
    };
    split.work(&plain_cell(grid, cell));
    split
}

/// Compares the words of a grid's split cells with the plain splitting; answers
/// how many cells are split.
fn compare(grid: &Sample) -> usize {
    let split: Vec<bool> = grid.counts_in_cells().into_iter().map(is_split).collect();
    let (answer, words) = meshed(grid);
    let (mut expected, mut splits) = (Vec::new(), 0);
    for cell in (0..split.len()).filter(|&cell| split[cell]) {
        let plain = plain_split(grid, cell, &[]);
        expected.extend(plain.words);
        splits += plain.splits as u64;
    }
    let triangles = words.chunks_exact(TRIANGLE_WORDS);
    let of_split = triangles.filter(|t| split[t[0] as usize % 2048]);
    let of_split: Vec<u32> = of_split.flatten().copied().collect();
    assert!(of_split == expected, "{grid:?}");
    assert_eq!(answer.splits, splits);
    split.iter().filter(|&&split| split).count()
}

#[test]
fn random_cells_are_split_alike() {
    let mut rng = Rng::new(11);
    for most in [6, 8, 10, 14, 20, 30, 50] {
        for _ in 0..40 {
            let counts = spiral_cell(&mut rng, 3, most);
            assert_eq!(compare(&one_cell(counts)), 1, "{counts:?}");
        }
    }
}

/// Grids in which every face is in two cells, or outer edges have count 0, with
/// cells that are split.
fn closed_grid(rng: &mut Rng) -> Sample {
    let most = [6, 10, 16, 24][rng.below(4)];
    let pairs = rng.between(0, 6);
    match rng.below(5) {
        0 => five_nodes().with_closed_spirals(rng, most, pairs),
        1 => sphere([1, 1, 1])
            .renumbered(rng)
            .with_closed_spirals(rng, most, pairs),
        2 => box_of_six([3, 3, 3]).with_closed_spirals(rng, most, pairs),
        3 => box_of_five([4, 3, 3])
            .renumbered(rng)
            .with_closed_spirals(rng, most, pairs),
        _ => {
            let circles = [(); 2].map(|()| Chain::Circle(2 * rng.between(2, 3)));
            spiral_join(rng, circles, 3, most)
        }
    }
}

/// Demand 3, counted on the words.
#[test]
fn closed_grids_of_spirals_close() {
    let mut rng = Rng::new(13);
    let mut split = 0;
    for _ in 0..60 {
        let grid = closed_grid(&mut rng).reordered(&mut rng);
        split += compare(&grid);
        assert!(meshed(&grid).0.triangles <= grid.most_triangles() as u64);
        let Sample {
            cells,
            edges,
            counts,
        } = &grid;
        assert!(should_close(cells, edges, counts), "{grid:?}");
        let found = inspect(cells, edges, counts, &meshed(&grid).1);
        assert!(found.closed(), "{found:?}");
    }
    assert!(split > 300, "only {split} cells were split");
}

/// A grid with places for its nodes, and fractions for its crossings.
fn placed(rng: &mut Rng, grid: &Sample) -> (Vec<f64>, Vec<f64>) {
    let highest = usize::from(*grid.cells.iter().max().expect("a cell"));
    let mut number = || (rng.between(0, 2_000_000) as f64 - 1_000_000.0) * 0.999 / 3.7;
    let nodes = (0..3 * (highest + 1)).map(|_| number()).collect();
    let mut fractions = Vec::new();
    for &count in &grid.counts {
        let steps = f64::from(count) + 1.5;
        fractions.extend((0..count).map(|index| (f64::from(index) + 0.75) / steps));
    }
    (nodes, fractions)
}

/// Grids all of whose cells are split: every point after the outer crossings is
/// as in the plain splitting, and row 15 counts them all.
#[test]
fn random_spirals_are_placed_alike() {
    let mut rng = Rng::new(17);
    for turn in 0..40 {
        let grid = match turn % 2 {
            0 => one_cell(spiral_cell(&mut rng, 3, 6 + turn)),
            _ => spiral_join(&mut rng, [Chain::Circle(4); 2], 2, 12),
        };
        let (nodes, fractions) = placed(&mut rng, &grid);
        let plain = |cell: usize| plain_split(&grid, cell, &nodes);
        let split: Vec<PlainSplit> = (0..grid.cells.len() / 4).map(plain).collect();
        let inner = split.iter().flat_map(|split| &split.inner);
        let after: Vec<Spot> = inner
            .chain(split.iter().flat_map(|s| &s.middles))
            .copied()
            .collect();
        let points = fractions.len() + after.len();
        let mut area = vec![-7.5; 3 * points + 2];
        let starts = grid.starts();
        let call = |area: &mut [f64]| places(grid.lists(&starts), &nodes, &fractions, area);
        let refusal = Refusal {
            number: 15,
            place: 0,
        };
        assert_eq!(call(&mut area[..3 * points - 1]), Err(refusal));
        assert!(area.iter().all(|&number| number == -7.5));
        assert_eq!(call(&mut area), Ok(points as u64));
        let bits = |numbers: &[f64]| numbers.iter().map(|n| n.to_bits()).collect::<Vec<_>>();
        let written = &area[3 * fractions.len()..3 * points];
        assert!(bits(written) == bits(&after.concat()), "{grid:?}");
        assert_eq!(area[3 * points..], [-7.5, -7.5]);
    }
}

/// (4, 2) with nodes 0 at zero and 1, 2, 3 at 24 on an axis each: a is at
/// (6, 6, 6). The 24 outer crossings come first, then ai, aj, ak, al, then the
/// middles of two octagons of sub-cell 1 and of two of sub-cell 2.
#[test]
fn places_of_four_and_two_by_hand() {
    let grid = one_cell([4, 2, 6, 6, 2, 4]);
    let nodes = [0., 0., 0., 24., 0., 0., 0., 24., 0., 0., 0., 24.];
    let (_, fractions) = placed(&mut Rng::new(1), &grid);
    let mut area = [0.0; 120];
    let starts = grid.starts();
    let lists = grid.lists(&starts);
    let answer = places(lists, &nodes, &fractions, &mut area);
    assert_eq!(answer, Ok(40));
    let point = |number: usize| [0, 1, 2].map(|part| area[3 * number + part]);
    let fifth = |h: f64| (h + 1.0) / 5.0;
    for h in 0..4 {
        let s = fifth(h as f64);
        assert_eq!(point(24 + h), [6.0 + s * -6.0; 3]);
        assert_eq!(
            point(28 + h),
            [6.0 + s * 18.0, 6.0 + s * -6.0, 6.0 + s * -6.0]
        );
    }
    assert_eq!(point(32), [4.0, 12.0, 4.0]);
    assert_eq!(point(33), [2.0, 18.0, 2.0]);
    assert_eq!(point(34), [4.0, 4.0, 12.0]);
    assert_eq!(point(35), [2.0, 2.0, 18.0]);
    // E is ai, with half (3, 3, 3), and E' is jk, with half (12, 12, 0); the
    // first loop passes number 3 of ai, the second number 2
    assert_eq!(point(36), [9.0, 9.0, 1.0]);
    assert_eq!(point(37), [6.0, 6.0, 2.0]);
    // E is aj, with half (15, 3, 3), and E' is il, with half (0, 0, 12); the
    // first loop passes number 2 of aj, the second number 3
    assert_eq!(point(38), [10.0, 2.0, 6.0]);
    assert_eq!(point(39), [5.0, 1.0, 9.0]);
}

/// The sides of a triangle, told apart as document 02 says.
fn sides_of(triangle: &[u32]) -> [[u32; 4]; 3] {
    [5, 7, 9].map(|at| match triangle[at] {
        NO_NUMBER => [NO_NUMBER, triangle[at + 1], triangle[0], triangle[1]],
        face if face >= 8192 => [face, triangle[at + 1], triangle[0] % 2048, 0],
        face => [face, triangle[at + 1], 0, 0],
    })
}

/// The corners of a triangle, told apart likewise.
fn points_of(triangle: &[u32]) -> [[u32; 3]; 3] {
    [2, 3, 4].map(|at| match triangle[at] {
        NO_NUMBER => [NO_NUMBER, triangle[0], triangle[1]],
        point => [point, 0, 0],
    })
}

/// The numbers of the triangles that have a side.
type BySide = BTreeMap<[u32; 4], Vec<usize>>;

fn by_side(triangles: &[&[u32]]) -> BySide {
    let mut found = BySide::new();
    let sides = |(number, triangle): (usize, &&[u32])| sides_of(triangle).map(|s| (s, number));
    for (side, number) in triangles.iter().enumerate().flat_map(sides) {
        found.entry(side).or_default().push(number);
    }
    found
}

/// The triangles that shared sides link to one of them and that are not seen yet.
fn linked<'a>(
    triangles: &[&'a [u32]],
    of: &BySide,
    first: usize,
    seen: &mut BTreeSet<usize>,
) -> Vec<&'a [u32]> {
    let (mut waiting, mut surface) = (vec![first], Vec::new());
    while let Some(number) = waiting.pop() {
        if seen.insert(number) {
            surface.push(triangles[number]);
            let sides = sides_of(triangles[number]);
            waiting.extend(sides.iter().flat_map(|side| &of[side]));
        }
    }
    surface
}

/// The surfaces of one cell: triangles linked by shared sides.
fn surfaces(words: &[u32]) -> Vec<Vec<&[u32]>> {
    let triangles: Vec<&[u32]> = words.chunks_exact(TRIANGLE_WORDS).collect();
    let of = by_side(&triangles);
    let mut seen = BTreeSet::new();
    let surface = |first| linked(&triangles, &of, first, &mut seen);
    let all = (0..triangles.len()).map(surface);
    all.filter(|surface| !surface.is_empty()).collect()
}

/// One surface is a disk whose rim is a loop of the cell: each outer segment in
/// one triangle, every other side in two, and points - sides + triangles = 1.
/// Answers the length of its rim and its least outer crossing.
fn check_disk(surface: &[&[u32]]) -> (usize, u32) {
    let mut sides: BTreeMap<[u32; 4], usize> = BTreeMap::new();
    for side in surface.iter().flat_map(|triangle| sides_of(triangle)) {
        *sides.entry(side).or_default() += 1;
    }
    for (side, &uses) in &sides {
        assert_eq!(uses, if side[0] < 8192 { 1 } else { 2 });
    }
    let points: BTreeSet<[u32; 3]> = surface.iter().flat_map(|t| points_of(t)).collect();
    assert_eq!(points.len() + surface.len(), sides.len() + 1);
    let rim = sides.keys().filter(|side| side[0] < 8192).count();
    let least = points.iter().map(|point| point[0]).min();
    (rim, least.expect("a point"))
}

/// The surfaces of a split cell have the cell's own loops as their rims.
#[test]
fn surfaces_are_disks_on_the_loops() {
    let mut rng = Rng::new(19);
    for turn in 0..150 {
        let counts = spiral_cell(&mut rng, 3, 6 + turn % 40);
        let grid = one_cell(counts);
        let (_, words) = meshed(&grid);
        let mut rims: Vec<(usize, u32)> = surfaces(&words)
            .iter()
            .map(|surface| check_disk(surface))
            .collect();
        rims.sort_by_key(|&(_, least)| least);
        let Sample {
            cells,
            edges,
            counts,
        } = &grid;
        let starts = grid.starts();
        let ask = |k: u64| loop_of_cell(grid.lists(&starts), 0, k).expect("accepted");
        let loops = (0..).map_while(ask).map(|l| (l.length as usize, l.p0));
        assert_eq!(rims, loops.collect::<Vec<_>>(), "{counts:?}");
        let found = inspect(cells, edges, counts, &words);
        assert!(found.sound() && found.undrawn_segments == 0, "{found:?}");
        let segments: u16 = counts.iter().sum::<u16>();
        assert_eq!(found.open_sides, usize::from(segments), "{counts:?}");
    }
}

/// Inner names of two cells are told apart, and the counting sees each damage.
#[test]
fn damage_is_seen() {
    let grid = spiral_join(&mut Rng::new(23), [Chain::Circle(4); 2], 0, 6);
    let Sample {
        cells,
        edges,
        counts,
    } = &grid;
    let (_, words) = meshed(&grid);
    assert!(inspect(cells, edges, counts, &words).closed());
    let mut rng = Rng::new(29);
    for _ in 0..40 {
        let at = TRIANGLE_WORDS * rng.below(words.len() / TRIANGLE_WORDS);
        let mut fewer = words.clone();
        fewer.drain(at..at + TRIANGLE_WORDS);
        assert!(!inspect(cells, edges, counts, &fewer).closed());
        for word in 2..TRIANGLE_WORDS {
            let mut changed = words.clone();
            changed[at + word] ^= 1;
            assert!(!inspect(cells, edges, counts, &changed).closed());
        }
        let mut moved = words.clone();
        moved[at] ^= 1;
        assert!(!inspect(cells, edges, counts, &moved).closed());
    }
}

/// Separate cells have the same inner names.
#[test]
fn each_cell_numbers_afresh() {
    let mut grid = separate(3);
    let counts = [4, 2, 6, 6, 2, 4];
    grid.counts = [counts, [1, 1, 1, 0, 0, 0], counts].concat();
    let (answer, words) = meshed(&grid);
    assert_eq!((answer.triangles, answer.splits), (105, 2));
    let (_, alone) = meshed(&one_cell(counts));
    assert_eq!(words[..alone.len()], alone);
    let last = &words[alone.len() + TRIANGLE_WORDS..];
    for (there, here) in last
        .chunks(TRIANGLE_WORDS)
        .zip(alone.chunks(TRIANGLE_WORDS))
    {
        assert_eq!(there[0], here[0] + 2);
        for at in 2..5 {
            let outer = here[at] < 65_536;
            assert_eq!(there[at], here[at] + if outer { 27 } else { 0 });
        }
        for at in [5, 7, 9] {
            let outer = here[at] < 8_192;
            assert_eq!(there[at], here[at] + if outer { 8 } else { 0 });
        }
    }
    let found = inspect(&grid.cells, &grid.edges, &grid.counts, &words);
    assert!(found.sound(), "{found:?}");
}

/// Totals of what is left, by hand from document 02 as in the tests of bookings.
fn sums(d1: u64, d2: u64) -> Totals {
    if d1 == d2 {
        return Totals {
            triangles: 8 * d1,
            fans: d1,
            ..Totals::default()
        };
    }
    let rest = d1 - d2;
    let mut sum = sums(rest.max(d2), rest.min(d2));
    sum.add(Totals {
        splits: 1,
        triangles: 4 * d1 + 10 * d2,
        inner_crossings: 2 * (d1 + d2),
        fans: d2,
    });
    sum
}

#[test]
fn totals_of_sixteen_bit_counts() {
    let mut rng = Rng::new(31);
    for turn in 0..200 {
        let most = [300, 4_000, 60_000][turn % 3];
        let counts = spiral_cell(&mut rng, 2_700, most);
        let [d1, d2] = two_numbers(counts).map(u64::from);
        let left = left_counts(counts);
        let taken = |edge: usize| u64::from(counts[edge] - left[edge]);
        let mut wanted = sums(d1, d2);
        wanted.triangles += taken(0) + taken(5);
        assert_eq!(totals(counts), Some(wanted), "{counts:?}");
    }
}

/// Many splits in a row, and numbers that fall as slowly as can be.
#[test]
fn deep_spirals() {
    for (d1, d2) in [(300, 2), (302, 300), (466, 288), (288, 178), (303, 150)] {
        let grid = one_cell([d1, d1 + d2, d2, d2, d1 + d2, d1]);
        assert_eq!(compare(&grid), 1);
        let (answer, words) = meshed(&grid);
        let found = inspect(&grid.cells, &grid.edges, &grid.counts, &words);
        assert!(found.sound() && found.undrawn_segments == 0, "{found:?}");
        assert_eq!(surfaces(&words).len(), usize::from(gcd(d1, d2)));
        assert!(answer.splits < u64::from(d1 / gcd(d1, d2)));
    }
}

/// A cell with a fan between two that are split: inner crossings of both come
/// before all middles, and the middles go by cell.
#[test]
fn points_go_by_kind_and_cell() {
    let spiral = [4, 2, 6, 6, 2, 4];
    let mut grid = separate(3);
    grid.counts = [spiral, [2, 0, 0, 0, 0, 0], spiral].concat();
    let (nodes, fractions) = placed(&mut Rng::new(37), &grid);
    let mut area = vec![0.0; 3 * (50 + 24 + 9)];
    let starts = grid.starts();
    let lists = grid.lists(&starts);
    let answer = places(lists, &nodes, &fractions, &mut area);
    assert_eq!(answer, Ok(83));
    let [first, last] = [0, 2].map(|cell| plain_split(&grid, cell, &nodes));
    let between = [0, 1, 2].map(|part| (area[72 + part] + area[75 + part]) / 2.0);
    let middles = [first.middles, vec![between], last.middles].concat();
    let after = [first.inner, last.inner, middles].concat();
    assert_eq!(area[150..], after.concat());
}

/// The parts of (6, 2) with i, j, k, l = 0, 1, 2, 3: of each its nodes, the counts
/// and the first crossings of its edges, and its faces. The nodes 4 and 5 are new
/// and rank before the others. Part 2, without k, is split again, with the node 4
/// as i and the nodes 3, 0, 1 as j, k, l: its own sub-cells are numbered before
/// those that were left, and crossings and faces go on from the first split's.
const SIX_AND_TWO: &str = "
    0 1 2 3  6 2 8 8 2 6      0     6     8     16    24 26     0    1    2    3
    4 0 1 2  4 6 2 6 2 8  65536 65540 65546      0     6 16     3 8195 8193 8192
    4 0 1 3  4 6 4 6 8 2  65536 65540 65548      0     8 24     2 8196 8194 8192
    5 4 0 3  4 2 4 2 4 6  65552 65560 65556  65536 65548 10  8194 8201 8198 8199
    5 4 1 3  4 2 4 6 4 2  65552 65562 65556  65540 65548 24  8196 8202 8198 8200
    5 4 0 1  4 2 2 2 6 4  65552 65560 65562  65536 65540  2  8192 8203 8200 8199
    5 0 1 3  2 2 4 4 6 2  65560 65562 65556      2    10 24     2 8202 8201 8203
    4 0 2 3  4 2 4 2 8 6  65536 65546 65548      6     8 26     1 8197 8194 8193
    4 1 2 3  6 2 4 8 2 6  65540 65546 65548     16    24 26     0 8197 8196 8195
";

/// A part that a line of such a table has.
fn part_in(line: &str) -> Part {
    let numbers = line.split_whitespace().map(|word| word.parse::<u64>());
    let numbers: Vec<u64> = numbers.map(|n| n.expect("a number")).collect();
    Part {
        nodes: [0, 1, 2, 3].map(|at| numbers[at] as usize),
        counts: [4, 5, 6, 7, 8, 9].map(|at| numbers[at] as u16),
        firsts: [10, 11, 12, 13, 14, 15].map(|at| numbers[at]),
        faces: [16, 17, 18, 19].map(|at| numbers[at] as u32),
    }
}

#[test]
fn parts_of_six_and_two_by_hand() {
    let expected: Vec<Part> = SIX_AND_TWO.trim().lines().map(part_in).collect();
    let working = Working::of([6, 2, 8, 8, 2, 6], [0, 6, 8, 16, 24, 26], [0, 1, 2, 3]);
    let steps: Vec<Step> = working.expect("a cell that is split").collect();
    assert_eq!(steps.len(), expected.len());
    for (step, (number, part)) in steps.iter().zip((0..).zip(expected)) {
        assert_eq!((step.number, step.part), (number, part));
        assert_eq!(step.split.is_some(), number == 0 || number == 2);
    }
}

/// The triangles of (6, 2) with this word 0.
fn of_part(words: &[u32], word: u32) -> Vec<&[u32]> {
    let triangles = words.chunks_exact(TRIANGLE_WORDS);
    triangles.filter(|triangle| triangle[0] == word).collect()
}

/// Corner triangles of a sub-cell that is split again come before its parts, with
/// its number; those of another stand among its loops, by least crossing number,
/// which is an inner one where all are.
#[test]
fn corner_triangles_of_six_and_two_by_hand() {
    let (_, words) = meshed(&one_cell([6, 2, 8, 8, 2, 6]));
    let mut order: Vec<u32> = words.chunks(TRIANGLE_WORDS).map(|t| t[0]).collect();
    order.dedup();
    assert_eq!(order, (1..=8).map(|part| 2048 * part).collect::<Vec<_>>());
    let own = [
        [4096, 0, 0, 65_539, 8, 8192, 0, 8194, 8, 2, 0],
        [4096, 1, 1, 65_538, 9, 8192, 1, 8194, 9, 2, 1],
    ];
    assert_eq!(of_part(&words, 4096), own);
    let among = of_part(&words, 8192);
    let first: Vec<u32> = among.iter().map(|triangle| triangle[1]).collect();
    let octagons = [[24; 8], [25; 8]].concat();
    assert_eq!(first, [octagons, vec![65_540, 65_541]].concat());
    let inner = [
        [
            8192, 65_540, 65_540, 65_555, 65_548, 8200, 65_540, 8198, 65_548, 8196, 65_540,
        ],
        [
            8192, 65_541, 65_541, 65_554, 65_549, 8200, 65_541, 8198, 65_549, 8196, 65_541,
        ],
    ];
    assert_eq!(among[16..], inner);
}

/// Every word 1 is the least crossing of its loop, and the loops of a part go by
/// it, but for what is split.
#[test]
fn loops_of_a_part_go_by_least_crossing() {
    let mut rng = Rng::new(41);
    for _ in 0..60 {
        let grid = one_cell(spiral_cell(&mut rng, 2, 40));
        let (_, words) = meshed(&grid);
        let mut least: BTreeMap<[u32; 2], u32> = BTreeMap::new();
        let mut last = [0, 0];
        for triangle in words.chunks(TRIANGLE_WORDS) {
            let of = [triangle[0], triangle[1]];
            assert!(last <= of, "{grid:?}");
            last = of;
            let corners = triangle[2..5].iter().filter(|&&point| point != NO_NUMBER);
            let lowest = *corners.min().expect("a crossing");
            let entry = least.entry(of).or_insert(lowest);
            *entry = lowest.min(*entry);
        }
        assert!(least.iter().all(|(&[_, p0], &lowest)| p0 == lowest));
    }
}

/// Rule 1 holds on every face of every part, and the four sub-cells of a split
/// have the numbers that document 02's counts give them.
#[test]
fn sub_cells_meet_rule_one_only() {
    let mut rng = Rng::new(43);
    for _ in 0..200 {
        let counts = spiral_cell(&mut rng, 4, 90);
        let working = Working::of(counts, [0; 6], [0; 4]);
        let parts = working.expect("a cell that is split").map(|step| step.part);
        let mut wanted = vec![two_numbers(counts)];
        for part in parts {
            assert!(is_booked(part.counts), "{counts:?}: {part:?}");
            let [x, y] = wanted.pop().expect("a part");
            assert_eq!(two_numbers(part.counts), [x, y], "{counts:?}: {part:?}");
            if x > y && y > 0 {
                let nested = [y.max(x - y), y.min(x - y)];
                wanted.extend([[x - y, 0], [y, 0], nested, [y, y]]);
            }
        }
        assert!(wanted.is_empty());
    }
}

/// The sum of i, j, k, l is taken in that order: here i, j, k, l are 0, 2, 1, 3,
/// and 0 and 2 cancel first.
#[test]
fn the_new_node_sums_by_label() {
    let grid = one_cell([2, 4, 6, 6, 4, 2]);
    let [n0, n1, n2, n3] = [1e6, 0.1, -1e6, 0.3];
    let mut nodes = [0.0; 12];
    for (node, x) in [n0, n1, n2, n3].into_iter().enumerate() {
        nodes[3 * node] = x;
    }
    let a = (((n0 + n2) + n1) + n3) / 4.0;
    assert_ne!(a, (((n0 + n1) + n2) + n3) / 4.0);
    let (_, fractions) = placed(&mut Rng::new(1), &grid);
    let mut area = [0.0; 120];
    let starts = grid.starts();
    assert_eq!(
        places(grid.lists(&starts), &nodes, &fractions, &mut area),
        Ok(40)
    );
    for (first, node, count) in [(24, n0, 4), (28, n2, 4), (32, n1, 2), (34, n3, 2)] {
        for h in 0..count {
            let s = (h as f64 + 1.0) / (count as f64 + 1.0);
            assert_eq!(area[3 * (first + h)], a + s * (node - a));
        }
    }
}

/// Fractions are lent for the outer crossings alone.
#[test]
fn no_fraction_for_an_inner_crossing() {
    let grid = one_cell([4, 2, 6, 6, 2, 4]);
    let (nodes, fractions) = placed(&mut Rng::new(1), &grid);
    let starts = grid.starts();
    let call = |fractions: &[f64]| places(grid.lists(&starts), &nodes, fractions, &mut [0.0; 120]);
    let refusal = Refusal {
        number: 15,
        place: 0,
    };
    assert_eq!(call(&fractions), Ok(40));
    let twelve_more = [&fractions[..], &[0.5; 12]].concat();
    assert_eq!(call(&twelve_more), Err(refusal));
    assert_eq!(call(&fractions[1..]), Err(refusal));
}

/// The loops call tells of the cell's own loops, and no common cell is split.
#[test]
fn loops_and_common_cells_stay() {
    let grid = one_cell([4, 2, 6, 6, 2, 4]);
    let starts = grid.starts();
    let ask = |k: u64| loop_of_cell(grid.lists(&starts), 0, k).expect("accepted");
    let told = |k: u64| ask(k).map(|told| (told.p0, told.length, told.normal));
    assert_eq!(told(0), Some((0, 12, true)));
    assert_eq!(told(1), Some((1, 12, true)));
    assert_eq!(told(2), None);
    assert!((0..729).all(|entry| !is_split(counts_of(entry))));
}

/// Rows and circles of spirals, all of whose cells are split.
#[test]
fn chains_of_spirals() {
    let mut rng = Rng::new(47);
    for _ in 0..40 {
        let chains = [(); 2].map(|()| any_chain(&mut rng));
        let grid = spiral_join(&mut rng, chains, 2, 20).reordered(&mut rng);
        let Sample {
            cells,
            edges,
            counts,
        } = &grid;
        assert_eq!(compare(&grid), cells.len() / 4);
        let (answer, words) = meshed(&grid);
        let most = |counts: [u16; 6]| {
            let [d1, d2] = two_numbers(counts);
            u64::from(d1 / gcd(d1, d2)) - 1
        };
        let most: u64 = grid.counts_in_cells().into_iter().map(most).sum();
        assert!(0 < answer.splits && answer.splits <= most);
        let found = inspect(cells, edges, counts, &words);
        assert!(found.sound() && found.undrawn_segments == 0, "{found:?}");
        let circles = chains.iter().all(|chain| matches!(chain, Chain::Circle(_)));
        assert_eq!(found.closed(), circles, "{chains:?}");
    }
}

/// Sixteen cells with the most triangles that one can have, in the most crossings
/// that a grid may have. No accepted grid has 2^32 triangles: those beside the
/// corners of a split cell are at most 13 / 4 of d1 × d1, and twice d1 × d1 is at
/// most the products of its two pairs of opposite edges that keep most, which tell
/// the cell; so all together have at most 13 / 16 of the square of 65,535, and
/// other triangles are no more than crossings.
#[test]
fn the_largest_totals() {
    let kept = [2, 4_092, 4_094];
    let grid = joined(&mut Rng::new(53), [Chain::Circle(4); 2], 0, kept);
    let refusal = Refusal {
        number: 12,
        place: 16 * 16_793_556,
    };
    assert_eq!(mesh(grid.lists(&grid.starts()), &mut []), Err(refusal));
    for d1 in 4..=4_095 {
        for d2 in 2..d1 {
            if gcd(d1, d2) > 1 {
                let square = u64::from(d1) * u64::from(d1);
                let sums = sums(u64::from(d1), u64::from(d2));
                assert!(4 * sums.triangles <= 13 * square, "{d1}, {d2}");
            }
        }
    }
    assert!(13 * 65_535u64.pow(2) / 16 + 2_048 * 24_570 < 1 << 32);
}
