//! The cells with counts of 0, 1 and 2.

use reference::booking::book;
use reference::cases::{case, counts_of, Case};
use reference::cell::CellWalker;

#[test]
fn examples() {
    let mut walker = CellWalker::default();
    for (counts, loops, triangles) in [
        ([0; 6], 0, 0),
        ([1, 0, 0, 0, 0, 0], 0, 0),
        ([1; 6], 0, 0),
        ([1, 1, 1, 0, 0, 0], 1, 1),
        ([0, 0, 0, 1, 1, 1], 0, 0),
        ([0, 1, 1, 1, 1, 0], 1, 2),
        ([2, 1, 1, 1, 1, 2], 1, 8),
        ([2, 0, 0, 0, 0, 0], 1, 2),
        ([2; 6], 4, 4),
    ] {
        let expected = Some(Case { loops, triangles });
        assert_eq!(case(&mut walker, counts), expected, "{counts:?}");
    }
    for edge in 0..6 {
        let mut counts = [0; 6];
        counts[edge] = 3;
        assert_eq!(case(&mut walker, counts), None, "{counts:?}");
    }
}

/// All 729 cells are in it, each once, and have what is booked of them.
#[test]
fn entries() {
    let mut walker = CellWalker::default();
    let mut booked = 0;
    let mut last = None;
    for entry in 0..729 {
        let counts = counts_of(entry);
        assert!(last < Some(counts), "{counts:?}");
        last = Some(counts);
        let case = case(&mut walker, counts).expect("inside");
        assert!(case.loops <= case.triangles, "{counts:?}");
        if let Some(booking) = book(&mut walker, counts) {
            assert_eq!(booking.triangles, u64::from(case.triangles), "{counts:?}");
            booked += 1;
        }
    }
    assert_eq!(last, Some([2; 6]));
    assert!(booked > 0 && booked < 729);
}
