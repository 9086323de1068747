//! Bookings of cells, beside the loops that document 02 tells of them.

use reference::booking::{book, is_booked, least_corners, loops, Booking};
use reference::cell::CellWalker;
use reference::gen::Rng;

fn gcd(a: u32, b: u32) -> u32 {
    if b == 0 {
        a
    } else {
        gcd(b, a % b)
    }
}

/// The loops of a cell that is booked are as document 02 says: the corner
/// triangles, and gcd(d1, d2) others of one length, all normal.
fn told(walker: &mut CellWalker, counts: [u16; 6]) -> Option<Booking> {
    let booking = book(walker, counts)?;
    let [larger, smaller] = booking.left;
    let loops = loops(walker, counts);
    let corners: u32 = least_corners(counts).iter().sum();
    assert_eq!(booking.corner_triangles, corners, "{counts:?}");
    let others: Vec<_> = loops.iter().filter(|closed| closed.length != 3).collect();
    assert_eq!(others.len() as u32, gcd(larger, smaller), "{counts:?}");
    for closed in &others {
        assert!(closed.normal, "{counts:?}");
        let length = 4 * (larger + smaller) / gcd(larger, smaller);
        assert_eq!(closed.length, length, "{counts:?}");
    }
    let beside = if smaller == 0 {
        2 * larger
    } else if gcd(larger, smaller) > 1 {
        split_triangles(larger, smaller)
    } else {
        4 * (larger + smaller)
    };
    assert_eq!(booking.triangles, u64::from(corners + beside), "{counts:?}");
    Some(booking)
}

/// Triangles of what is left in a cell that is split, or of its octagons. By
/// hand from document 02: with d1 > d2 the sub-cells without l, k, j, i have
/// d1 - d2, d2, d1 and 2 × d2 corner triangles; beside them d2 octagons, the
/// numbers d1 - d2 and d2, d2 quads, and d1 - d2 quads.
fn split_triangles(larger: u32, smaller: u32) -> u32 {
    if larger == smaller {
        return 8 * larger;
    }
    let rest = larger - smaller;
    let corners = rest + smaller + larger + 2 * smaller;
    let flat = 8 * smaller + 2 * smaller + 2 * rest;
    corners + flat + split_triangles(rest.max(smaller), rest.min(smaller))
}

fn booking(corner_triangles: u32, left: [u32; 2], triangles: u64) -> Option<Booking> {
    Some(Booking {
        corner_triangles,
        left,
        triangles,
    })
}

#[test]
fn examples() {
    let mut walker = CellWalker::default();
    for (counts, expected) in [
        ([0; 6], booking(0, [0, 0], 0)),
        ([1, 1, 1, 0, 0, 0], booking(1, [0, 0], 1)),
        ([0, 1, 1, 1, 1, 0], booking(0, [1, 0], 2)),
        ([2, 1, 1, 1, 1, 2], booking(0, [1, 1], 8)),
        ([2; 6], booking(4, [0, 0], 4)),
        ([11, 9, 8, 6, 9, 15], booking(6, [6, 4], 122)),
        ([4, 12, 9, 10, 7, 5], booking(9, [5, 0], 19)),
        ([1; 6], None),
        ([2, 0, 0, 0, 0, 0], None),
        (
            [65_535, 65_533, 65_532, 65_532, 65_533, 65_535],
            booking(131_060, [3, 2], 131_080),
        ),
    ] {
        assert_eq!(told(&mut walker, counts), expected, "{counts:?}");
    }
}

/// Every cell with counts up to this one.
fn each_cell(most: u16, mut give: impl FnMut([u16; 6])) {
    let values = usize::from(most) + 1;
    for code in 0..values.pow(6) {
        let mut rest = code;
        give([(); 6].map(|()| {
            let count = rest % values;
            rest /= values;
            count as u16
        }));
    }
}

#[test]
fn all_small_cells() {
    let mut walker = CellWalker::default();
    let mut booked = 0;
    each_cell(5, |counts| {
        booked += u32::from(told(&mut walker, counts).is_some());
    });
    assert!(booked > 1_000);
}

/// A cell that is booked: corner triangles at its nodes, and what the three
/// pairs of opposite edges keep beside them.
fn leveled(rng: &mut Rng, corners: usize, left: usize) -> [u16; 6] {
    let at = [(); 4].map(|()| rng.between(0, corners));
    let [x, y] = [(); 2].map(|()| rng.between(0, left));
    let mut kept = [x + y, x, y];
    rng.shuffle(&mut kept);
    let ends = [[0, 1], [0, 2], [0, 3], [1, 2], [1, 3], [2, 3]];
    let mut counts = [0; 6];
    for (edge, [u, v]) in ends.into_iter().enumerate() {
        counts[edge] = (kept[edge.min(5 - edge)] + at[u] + at[v]) as u16;
    }
    counts
}

#[test]
fn random_cells() {
    let mut rng = Rng::new(5);
    let mut walker = CellWalker::default();
    for _ in 0..2_000 {
        let counts = leveled(&mut rng, 40, 60);
        assert!(is_booked(counts));
        told(&mut walker, counts);
    }
    for _ in 0..100 {
        let counts = leveled(&mut rng, 600, 1_400);
        told(&mut walker, counts);
    }
}
