//! One cell: its tables, loops, types and triangles.

use reference::cell::{
    is_fan, loop_type, triangle_count, CellWalker, Closed, Corner, Loop, LoopType, Side, Stop,
    EDGE_SLOTS, FACE_EDGES,
};

const ENDS: [[usize; 2]; 6] = [[0, 1], [0, 2], [0, 3], [1, 2], [1, 3], [2, 3]];

fn starts(counts: [u32; 6]) -> [u32; 6] {
    let mut next = 0;
    counts.map(|count| {
        next += count;
        next - count
    })
}

/// All loops of a cell with its own numbering.
fn loops(counts: [u32; 6]) -> Vec<(Vec<u16>, bool)> {
    let mut walker = CellWalker::default();
    walker.load(&counts, &starts(counts));
    let mut found = Vec::new();
    let mut stops = Vec::new();
    while let Some(Closed { length, normal }) = walker.next_loop(&mut stops) {
        assert_eq!(stops.len(), length as usize);
        let points = stops.drain(..).map(|stop: Stop| stop.crossing);
        found.push((points.collect(), normal));
    }
    found
}

fn kinds(counts: [u32; 6]) -> Vec<(u32, LoopType)> {
    let mut walker = CellWalker::default();
    walker.load(&counts, &starts(counts));
    let mut found = Vec::new();
    let mut stops = Vec::new();
    while walker.next_loop(&mut stops).is_some() {
        found.push(loop_type(
            &stops,
            &counts,
            &starts(counts),
            [10, 11, 12, 13],
        ));
        stops.clear();
    }
    found
}

#[test]
fn tables_name_the_right_edges_and_slots() {
    for (slot, edges) in FACE_EDGES.into_iter().enumerate() {
        let nodes: Vec<usize> = (0..4).filter(|&node| node != slot).collect();
        let pairs = [(0, 1), (0, 2), (1, 2)].map(|(u, v)| [nodes[u], nodes[v]]);
        assert_eq!(edges.map(|edge| ENDS[edge]), pairs);
    }
    for (edge, [u, v]) in ENDS.into_iter().enumerate() {
        let thirds: Vec<usize> = (0..4).filter(|&node| node != u && node != v).collect();
        assert_eq!(EDGE_SLOTS[edge], [thirds[1], thirds[0]]);
    }
}

#[test]
fn cells_without_loops() {
    for counts in [[0; 6], [1, 0, 0, 0, 0, 0], [1; 6]] {
        assert_eq!(loops(counts), []);
    }
}

#[test]
fn corner_and_diagonal() {
    assert_eq!(loops([1, 1, 1, 0, 0, 0]), [(vec![0, 1, 2], true)]);
    assert_eq!(kinds([1, 1, 1, 0, 0, 0]), [(3, LoopType::Corner(10))]);
    assert_eq!(loops([0, 1, 1, 1, 1, 0]), [(vec![0, 2, 3, 1], true)]);
    assert_eq!(kinds([0, 1, 1, 1, 1, 0]), [(2, LoopType::Diagonal(11))]);
    assert_eq!(kinds([1, 0, 0, 1, 1, 0]), [(1, LoopType::Corner(11))]);
    assert_eq!(kinds([0, 1, 0, 1, 0, 1]), [(1, LoopType::Corner(12))]);
    assert_eq!(kinds([0, 0, 1, 0, 1, 1]), [(1, LoopType::Corner(13))]);
    assert_eq!(kinds([1, 0, 1, 1, 0, 1]), [(2, LoopType::Diagonal(12))]);
    assert_eq!(kinds([1, 1, 0, 0, 1, 1]), [(2, LoopType::Diagonal(13))]);
}

#[test]
fn types_come_from_the_loop_itself() {
    let both = kinds([2, 1, 1, 1, 1, 0]);
    assert_eq!(both, [(3, LoopType::Corner(10)), (1, LoopType::Corner(11))]);
    assert_eq!(kinds([2, 0, 0, 0, 0, 0]), [(0, LoopType::Contractible)]);
}

#[test]
fn one_long_loop() {
    let found = loops([2, 1, 1, 1, 1, 2]);
    assert_eq!(found.len(), 1);
    assert_eq!(found[0].0.len(), 8);
    assert!(found[0].1);
    assert!(is_fan(8, true));
    assert_eq!(triangle_count(8, true), 8);
}

/// The loop of 3 2 1 1 2 3 goes through all twelve crossings; with 4095 on the
/// long edges, and 2048 and 2047 on the others, there is one loop too.
#[test]
fn one_loop_through_every_crossing() {
    let small = loops([3, 2, 1, 1, 2, 3]);
    assert_eq!(small.len(), 1);
    assert_eq!((small[0].0.len(), small[0].1), (12, true));
    let large = loops([4095, 2048, 2047, 2047, 2048, 4095]);
    assert_eq!(large.len(), 1);
    let (mut points, normal) = large[0].clone();
    assert_eq!((points.len(), normal), (16_380, true));
    points.sort_unstable();
    points.dedup();
    assert_eq!(points.len(), 16_380);
}

#[test]
fn many_loops_of_one_length() {
    // the loop of 2 1 1 1 1 2, 2047 times
    let eights = loops([4094, 2047, 2047, 2047, 2047, 4094]);
    assert_eq!(eights.len(), 2047);
    assert!(eights
        .iter()
        .all(|(points, normal)| points.len() == 8 && *normal));
    let corners = loops([4095, 4095, 4095, 0, 0, 0]);
    let corner = |k: u16| (vec![k, 4095 + k, 8190 + k], true);
    assert_eq!(corners, (0..4095).map(corner).collect::<Vec<_>>());
    // 2047 triangles at each node; the middle crossing of each edge is unjoined
    let full = loops([4095; 6]);
    assert_eq!(full.len(), 4 * 2047);
    assert!(full
        .iter()
        .all(|(points, normal)| points.len() == 3 && *normal));
    // index 0 is unjoined on both faces, and neighbours are joined on both
    let pairs = loops([4095, 0, 0, 0, 0, 0]);
    let pair = |k: u16| (vec![2 * k + 1, 2 * k + 2], false);
    assert_eq!(pairs, (0..2047).map(pair).collect::<Vec<_>>());
}

#[test]
fn two_points_make_a_loop_along_one_edge() {
    for edge in 0..6 {
        let mut counts = [0; 6];
        counts[edge] = 2;
        assert_eq!(loops(counts), [(vec![0, 1], false)]);
    }
}

#[test]
fn triangle_counts_by_length() {
    let expected = [
        (2, false, 2),
        (3, true, 1),
        (3, false, 1),
        (4, true, 2),
        (4, false, 4),
    ];
    for (length, normal, triangles) in expected {
        assert_eq!(triangle_count(length, normal), triangles);
        assert_eq!(is_fan(length, normal), triangles == length);
    }
}

const fn stop(crossing: u16, slot: u16) -> Stop {
    Stop { crossing, slot }
}

type Shape = ([Corner; 3], [Side; 3]);

const STOPS: [Stop; 4] = [stop(5, 3), stop(9, 1), stop(8, 0), stop(7, 2)];

/// Triangles of the loop through the first few stops.
fn shapes(length: usize, normal: bool) -> Vec<Shape> {
    let spanned = Loop {
        cell: 6,
        names: [40, 41, 42, 43],
        stops: &STOPS[..length],
        normal,
    };
    let mut given = Vec::new();
    spanned.each_triangle(|triangle| {
        assert_eq!((triangle.cell, triangle.p0), (6, 5));
        given.push((triangle.corners, triangle.sides));
    });
    given
}

fn segment(face: u32, lower: u32) -> Side {
    Side::Segment { face, lower }
}

#[test]
fn triangles_of_three_and_four_points() {
    let [p0, p1, p2, p3] = [5, 9, 8, 7].map(Corner::Crossing);
    let inner = Side::Inner(0);
    let whole = (
        [p0, p1, p2],
        [segment(43, 5), segment(41, 8), segment(40, 5)],
    );
    assert_eq!(shapes(3, true), [whole]);
    assert_eq!(shapes(3, false), [whole]);
    let first = ([p0, p1, p2], [segment(43, 5), segment(41, 8), inner]);
    let second = ([p0, p2, p3], [inner, segment(40, 7), segment(42, 5)]);
    assert_eq!(shapes(4, true), [first, second]);
}

#[test]
fn triangles_of_a_fan() {
    let [p0, p1, p2, p3] = [5, 9, 8, 7].map(Corner::Crossing);
    let [i0, i1, i2, i3] = [0, 1, 2, 3].map(Side::Inner);
    let middle = Corner::Middle;
    let blades = [
        ([p0, p1, middle], [segment(43, 5), i1, i0]),
        ([p1, p2, middle], [segment(41, 8), i2, i1]),
        ([p2, p3, middle], [segment(40, 7), i3, i2]),
        ([p3, p0, middle], [segment(42, 5), i0, i3]),
    ];
    assert_eq!(shapes(4, false), blades);
    assert_eq!(
        shapes(2, false)[1],
        ([p1, p0, middle], [segment(41, 5), i0, i1])
    );
}
