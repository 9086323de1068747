//! The table of common cells against the second implementation, which walks.

use compare::lent::{answers, answers_in_all};
use compare::{calls, expected, seed, setting};
use reference::cases::counts_of;
use reference::cell::CellWalker;
use reference::gen::Rng;

/// Compares the answer for one cell, and tells whether it is in the table.
fn compare(walker: &mut CellWalker, counts: [u16; 6]) -> bool {
    let numbers = expected::case(walker, counts);
    assert!(
        answers(&numbers, |area| calls::case(counts, area)),
        "case {counts:?}: not answered with {numbers:?} alone"
    );
    numbers.len() > 1
}

/// Every entry; then each with one count of 3 in place of its own, at each edge.
#[test]
fn all_entries() {
    let mut walker = CellWalker::default();
    let mut outside = 0;
    for entry in 0..729 {
        let counts = counts_of(entry);
        assert!(compare(&mut walker, counts), "{counts:?}");
        for edge in 0..6 {
            let mut above = counts;
            above[edge] = 3;
            assert!(!compare(&mut walker, above), "{above:?}");
            outside += 1;
        }
    }
    println!("case: 729 entries, {outside} cells with one count of 3");
}

#[test]
fn random_cells() {
    let mut rng = Rng::new(seed("case"));
    let mut walker = CellWalker::default();
    let cells = setting("CITTERNBLAZE_CELLS", 20_000u32);
    for most in [3, 255, 65_535] {
        let inside = (0..cells)
            .filter(|_| compare(&mut walker, [(); 6].map(|()| rng.between(0, most) as u16)))
            .count();
        println!("case, counts up to {most}: {inside} of {cells} cells in the table");
        assert!(most > 3 || inside > 0);
    }
}

#[test]
fn any_answer_area() {
    let mut walker = CellWalker::default();
    for (counts, numbers) in [
        ([0; 6], vec![0, 0, 0]),
        ([1, 1, 1, 0, 0, 0], vec![0, 1, 1]),
        ([0, 0, 0, 1, 1, 1], vec![0, 0, 0]),
        ([2, 1, 1, 1, 1, 2], vec![0, 1, 8]),
        ([2; 6], vec![0, 4, 4]),
        ([3, 0, 0, 0, 0, 0], vec![0]),
        ([0, 0, 0, 0, 0, 3], vec![0]),
        ([65_535; 6], vec![0]),
    ] {
        assert_eq!(expected::case(&mut walker, counts), numbers);
        assert!(
            answers_in_all(&numbers, |area| calls::case(counts, area)),
            "case {counts:?}"
        );
    }
}
