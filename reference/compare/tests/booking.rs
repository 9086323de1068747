//! The booking against the second implementation, which walks.

use compare::lent::{answers, answers_in_all};
use compare::{calls, expected, seed, setting};
use reference::booking::is_booked;
use reference::cell::CellWalker;
use reference::gen::{spiral_cell, Rng};
use reference::split::is_split;

/// How many cells were booked, with and without quads or longer loops, how many of
/// them are split, and how many are to be walked; the most triangles of one.
#[derive(Default)]
struct Tally {
    corners_only: u64,
    quads: u64,
    longer: u64,
    split: u64,
    walked: u64,
    most: u64,
}

/// Compares the booking of one cell.
fn compare(walker: &mut CellWalker, counts: [u16; 6], tally: &mut Tally) {
    let numbers = expected::book(walker, counts);
    match numbers[..] {
        [_, _, 0, 0, _] => tally.corners_only += 1,
        [_, _, _, 0, _] => tally.quads += 1,
        [_, _, _, _, _] => tally.longer += 1,
        _ => tally.walked += 1,
    }
    tally.split += u64::from(is_split(counts));
    tally.most = tally.most.max(numbers.get(4).copied().unwrap_or(0));
    assert!(
        answers(&numbers, |area| calls::book(counts, area)),
        "book {counts:?}: not answered with {numbers:?} alone"
    );
}

impl Tally {
    fn report(&self, what: &str) {
        println!(
            "book, {what}: {} with corner triangles at most, {} with quads, {} with longer loops, \
             {} split, {} to be walked; the most triangles: {}",
            self.corners_only, self.quads, self.longer, self.split, self.walked, self.most
        );
        assert!(self.quads > 0 && self.longer > 0 && self.walked > 0);
    }
}

#[test]
fn all_small_cells() {
    let mut walker = CellWalker::default();
    let mut tally = Tally::default();
    for code in 0..5usize.pow(6) {
        let mut rest = code;
        let counts = [(); 6].map(|()| {
            let count = rest % 5;
            rest /= 5;
            count as u16
        });
        compare(&mut walker, counts, &mut tally);
    }
    tally.report("counts 0..4");
    assert!(tally.corners_only > 0);
}

/// A cell with counts up to about this one that is booked: some triangles at each
/// node, and what the pairs of opposite edges keep beside them.
fn booked_cell(rng: &mut Rng, most: usize) -> [u16; 6] {
    let corners = [(); 4].map(|()| rng.between(0, most / 5));
    let [x, y] = [(); 2].map(|()| rng.between(0, most / 4));
    // d2 = 0 in every fourth
    let mut left = match rng.below(4) {
        0 => [x, x, 0],
        _ => [x + y, x, y],
    };
    rng.shuffle(&mut left);
    let ends = [[0, 1], [0, 2], [0, 3], [1, 2], [1, 3], [2, 3]];
    let mut counts = [0; 6];
    for (edge, [u, v]) in ends.into_iter().enumerate() {
        // opposite edges are 01 and 23, 02 and 13, 03 and 12
        counts[edge] = (left[edge.min(5 - edge)] + corners[u] + corners[v]) as u16;
    }
    counts
}

/// A cell that is booked, one that is off it by 1 or 2 at an edge, or any.
fn random_cell(rng: &mut Rng, most: usize) -> [u16; 6] {
    let mut counts = booked_cell(rng, most);
    assert!(is_booked(counts));
    match rng.below(4) {
        0 => {
            let edge = rng.below(6);
            counts[edge] = counts[edge].saturating_add(rng.between(1, 2) as u16);
        }
        1 => counts = [(); 6].map(|()| rng.between(0, most) as u16),
        _ => {}
    }
    counts
}

#[test]
fn random_cells() {
    let mut rng = Rng::new(seed("book"));
    let mut walker = CellWalker::default();
    let cells = setting("CITTERNBLAZE_CELLS", 20_000u32);
    for (what, cells, most) in [
        ("random counts up to 20", cells, 20),
        ("random counts up to 255", cells / 2, 255),
        ("random counts up to 4,095", cells / 10, 4_095),
        ("random counts of 16 bits", cells / 200, 65_535),
    ] {
        let mut tally = Tally::default();
        for _ in 0..cells {
            compare(&mut walker, random_cell(&mut rng, most), &mut tally);
        }
        tally.report(what);
    }
}

/// Cells that are split, up to counts of 16 bits, among them the one of a grid with
/// the most splits, and the greatest numbers of triangles, which pass 32 bits.
#[test]
fn random_spirals() {
    let mut rng = Rng::new(seed("book, spirals"));
    let mut walker = CellWalker::default();
    let mut tally = Tally::default();
    let cells = setting("CITTERNBLAZE_CELLS", 20_000u32);
    for (cells, corners, most) in [
        (cells / 4, 5, 30),
        (cells / 10, 100, 600),
        (cells / 40, 1_000, 2_095),
        (cells / 400, 2_700, 60_000),
    ] {
        for _ in 0..cells {
            let counts = spiral_cell(&mut rng, corners, most);
            compare(&mut walker, counts, &mut tally);
        }
    }
    for (d1, d2) in [
        (4_092, 2),
        (65_532, 2),
        (65_530, 4),
        (65_532, 3),
        (60_000, 2),
        (43_690, 21_844),
    ] {
        let mut kept = [d1, d2, d1 + d2];
        rng.shuffle(&mut kept);
        let [x, y, z] = kept;
        compare(&mut walker, [x, y, z, z, y, x], &mut tally);
    }
    println!(
        "book, spirals: {} split; the most triangles: {}",
        tally.split, tally.most
    );
    assert_eq!(tally.split, tally.longer);
    assert!(tally.most > u64::from(u32::MAX));
}

#[test]
fn any_answer_area() {
    let mut walker = CellWalker::default();
    for (counts, numbers) in [
        ([0; 6], vec![0, 0, 0, 0, 0]),
        ([0, 1, 1, 1, 1, 0], vec![0, 0, 1, 0, 2]),
        ([2, 1, 1, 1, 1, 2], vec![0, 0, 1, 1, 8]),
        ([130, 180, 90, 90, 200, 170], vec![0, 100, 100, 40, 2_060]),
        ([4, 2, 6, 6, 2, 4], vec![0, 0, 4, 2, 52]),
        ([3, 2, 5, 5, 2, 3], vec![0, 0, 3, 2, 20]),
        (
            [4_092, 2, 4_094, 4_094, 2, 4_092],
            vec![0, 0, 4_092, 2, 16_793_556],
        ),
        (
            [65_532, 2, 65_534, 65_534, 2, 65_532],
            vec![0, 0, 65_532, 2, 4_295_229_396],
        ),
        ([65_534; 6], vec![0, 131_068, 0, 0, 131_068]),
        ([1; 6], vec![0]),
        ([65_535; 6], vec![0]),
        ([2, 0, 0, 0, 0, 0], vec![0]),
    ] {
        assert_eq!(expected::book(&mut walker, counts), numbers);
        assert!(
            answers_in_all(&numbers, |area| calls::book(counts, area)),
            "book {counts:?}"
        );
    }
}
