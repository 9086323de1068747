//! What the program makes of the face call's answers: segments, how they run, and
//! why a crossing is unjoined.

use citternblaze::calls::{face, How, Join, Why};

fn joined(edge: usize, index: usize, how: How) -> Join {
    Join::Joined { edge, index, how }
}

/// The examples of docs/FORMAT.md, "Segments of a face".
#[test]
fn examples() {
    assert_eq!(face([1, 1, 0], 0, 0), joined(1, 0, How::Round(0)));
    assert_eq!(face([3, 3, 3], 0, 2), joined(2, 0, How::Round(1)));
    assert_eq!(face([3, 3, 3], 1, 2), joined(2, 2, How::Round(2)));
    for edge in 0..3 {
        assert_eq!(face([3, 3, 3], edge, 1), Join::Unjoined(Why::Left));
    }
    assert_eq!(face([5, 1, 1], 0, 1), Join::Unjoined(Why::Skipped));
    assert_eq!(face([5, 1, 1], 0, 2), joined(0, 3, How::Along));
    assert_eq!(face([2, 0, 0], 0, 1), joined(0, 0, How::Along));
    assert_eq!(face([2, 0, 0], 3, 0), Join::NoCrossing);
    assert_eq!(face([2, 0, 0], 0, 2), Join::NoCrossing);
    assert_eq!(face([2, 0, 0], usize::MAX, usize::MAX), Join::NoCrossing);
}

/// Rule 2 leaves one crossing on each edge, and rule 3 skips one at most: so their
/// number says which rule it was.
#[test]
fn reasons_go_with_the_number_of_unjoined_crossings() {
    for number in 0..1_000 {
        let counts = [number / 100, number / 10 % 10, number % 10];
        let places =
            (0..3).flat_map(|edge| (0..usize::from(counts[edge])).map(move |at| (edge, at)));
        let reasons: Vec<Why> = places
            .filter_map(|(edge, at)| match face(counts, edge, at) {
                Join::Unjoined(why) => Some(why),
                _ => None,
            })
            .collect();
        match reasons[..] {
            [] | [Why::Skipped] | [Why::Left, Why::Left, Why::Left] => {}
            _ => panic!("{counts:?}: {reasons:?}"),
        }
    }
}
