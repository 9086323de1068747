//! Laws and examples of the face call.

use std::collections::BTreeMap;

use reference::face::{join, How, Join, Why};
use reference::gen::Rng;
use reference::manifold::alternates;

type Crossing = (u32, u32);

/// Joined round a corner to a crossing.
fn round(corner: u32, edge: u32, index: u32) -> Join {
    let how = How::Round(corner);
    Join::Joined { edge, index, how }
}

/// Joined along an edge to a crossing.
fn along(edge: u32, index: u32) -> Join {
    let how = How::Along;
    Join::Joined { edge, index, how }
}

/// The edge between two corners (0 for a, 1 for b, 2 for c).
fn edge_between(i: usize, j: usize) -> usize {
    i + j - 1
}

/// The crossing that is `k`-th from corner `from` on the edge to corner `to`.
fn ranked(counts: [u32; 3], from: usize, to: usize, k: u32) -> Crossing {
    let edge = edge_between(from, to);
    let index = if from < to { k } else { counts[edge] - 1 - k };
    (edge as u32, index)
}

/// All segments, rule by rule.
fn plain_segments(counts: [u32; 3]) -> Vec<(Crossing, Crossing)> {
    let count = |i, j| counts[edge_between(i, j)];
    let mut cuts = [0; 3];
    let mut segments = Vec::new();
    let triples = [[0, 1, 2], [0, 2, 1], [1, 2, 0]];
    if let Some([i, j, k]) = triples
        .into_iter()
        .find(|&[i, j, k]| count(i, j) > count(i, k) + count(j, k))
    {
        let residual = count(i, j) - count(i, k) - count(j, k);
        cuts[i] = count(i, k);
        cuts[j] = count(j, k);
        let mut rank = cuts[i] + residual % 2;
        while rank < cuts[i] + residual {
            segments.push((ranked(counts, i, j, rank), ranked(counts, i, j, rank + 1)));
            rank += 2;
        }
    } else {
        let less = counts.iter().sum::<u32>() % 2;
        let count = |i, j| counts[edge_between(i, j)] - less;
        for [i, j, k] in [[0, 1, 2], [1, 0, 2], [2, 0, 1]] {
            cuts[i] = (count(i, j) + count(i, k) - count(j, k)) / 2;
        }
    }
    for [i, j, k] in [[0, 1, 2], [1, 0, 2], [2, 0, 1]] {
        for rank in 0..cuts[i] {
            segments.push((ranked(counts, i, j, rank), ranked(counts, i, k, rank)));
        }
    }
    segments
}

fn all_counts(most: u32) -> impl Iterator<Item = [u32; 3]> {
    (0..(most + 1).pow(3)).map(move |code| {
        let base = most + 1;
        [code % base, code / base % base, code / base / base]
    })
}

/// Every crossing with its partner, as the face call has it.
fn partners(counts: [u32; 3]) -> BTreeMap<Crossing, Option<Crossing>> {
    let mut found = BTreeMap::new();
    for edge in 0..3 {
        for index in 0..counts[edge as usize] {
            let partner = match join(counts, edge, index) {
                Join::Joined { edge, index, .. } => Some((edge, index)),
                Join::Unjoined(_) => None,
                Join::NoCrossing => panic!("{counts:?} has crossing {index} on edge {edge}"),
            };
            found.insert((edge, index), partner);
        }
    }
    found
}

#[test]
fn agrees_with_the_rules() {
    for counts in all_counts(12) {
        let mut expected = BTreeMap::new();
        for (one, other) in plain_segments(counts) {
            assert_eq!(expected.insert(one, other), None);
            assert_eq!(expected.insert(other, one), None);
        }
        for (crossing, partner) in partners(counts) {
            assert_eq!(
                partner,
                expected.remove(&crossing),
                "{counts:?} {crossing:?}"
            );
        }
        assert!(expected.is_empty());
    }
}

#[test]
fn partners_are_mutual_and_never_the_same() {
    for counts in all_counts(12) {
        let found = partners(counts);
        for (&crossing, &partner) in &found {
            if let Some(partner) = partner {
                assert_ne!(partner, crossing);
                assert_eq!(found[&partner], Some(crossing));
            }
        }
    }
}

#[test]
fn counts_sum_to_ends_and_unjoined() {
    for counts in all_counts(12) {
        let found = partners(counts);
        let sum: u32 = counts.iter().sum();
        let unjoined = found.values().filter(|partner| partner.is_none()).count();
        let segments = plain_segments(counts).len();
        assert_eq!(sum as usize, 2 * segments + unjoined);
        let balanced = counts.iter().all(|&count| 2 * count <= sum);
        let expected = match (sum % 2, balanced) {
            (0, _) => 0,
            (_, true) => 3,
            _ => 1,
        };
        assert_eq!(unjoined, expected);
    }
}

/// Place of a crossing on the walk a, b, c, a.
fn rim_place(counts: [u32; 3], (edge, index): Crossing) -> u32 {
    let [ab, ac, bc] = counts;
    match edge {
        0 => index,
        2 => ab + index,
        _ => ab + bc + (ac - 1 - index),
    }
}

#[test]
fn segments_never_alternate() {
    for counts in all_counts(12) {
        let mut spans = Vec::new();
        for (crossing, partner) in partners(counts) {
            let from = rim_place(counts, crossing);
            let to = partner.map_or(0, |partner| rim_place(counts, partner));
            if from < to {
                spans.push((from, to));
            }
        }
        for (from, to) in &spans {
            for (begin, end) in &spans {
                assert!(!(from < begin && begin < to && to < end), "{counts:?}");
            }
        }
        assert!(!alternates(counts));
    }
}

#[test]
fn even_counts_of_three_leave_the_middles() {
    let counts = [3, 3, 3];
    assert_eq!(plain_segments(counts).len(), 3);
    for edge in 0..3 {
        assert_eq!(join(counts, edge, 1), Join::Unjoined(Why::Left));
        assert!(matches!(join(counts, edge, 0), Join::Joined { .. }));
        assert!(matches!(join(counts, edge, 2), Join::Joined { .. }));
    }
}

#[test]
fn long_edge_skips_its_first_residual() {
    let counts = [5, 1, 1];
    assert_eq!(join(counts, 0, 0), round(0, 1, 0));
    assert_eq!(join(counts, 0, 1), Join::Unjoined(Why::Skipped));
    assert_eq!(join(counts, 0, 2), along(0, 3));
    assert_eq!(join(counts, 0, 3), along(0, 2));
    assert_eq!(join(counts, 0, 4), round(1, 2, 0));
}

/// Which of the three counts' crossings are joined to which, by hand.
#[test]
fn counts_above_a_byte() {
    // corner counts 550, 450 and 50
    let even = [1000, 600, 500];
    for (edge, index, partner) in [
        (0, 0, round(0, 1, 0)),
        (0, 549, round(0, 1, 549)),
        (0, 550, round(1, 2, 449)),
        (0, 999, round(1, 2, 0)),
        (1, 550, round(2, 2, 450)),
        (1, 599, round(2, 2, 499)),
    ] {
        assert_eq!(join(even, edge, index), partner);
    }
    // 1000, 599 and 499 after the 1 is taken off: corner counts 550, 450 and 49
    let odd = [1001, 600, 500];
    for (edge, index, partner) in [
        (0, 549, round(0, 1, 549)),
        (0, 550, Join::Unjoined(Why::Left)),
        (0, 551, round(1, 2, 449)),
        (1, 550, Join::Unjoined(Why::Left)),
        (1, 551, round(2, 2, 451)),
        (2, 450, Join::Unjoined(Why::Left)),
    ] {
        assert_eq!(join(odd, edge, index), partner);
    }
}

/// The same of the largest counts.
#[test]
fn counts_of_sixteen_bits() {
    // residuals 1 to 65,533
    let long = [65_535, 1, 1];
    for (index, partner) in [
        (0, round(0, 1, 0)),
        (1, Join::Unjoined(Why::Skipped)),
        (2, along(0, 3)),
        (65_533, along(0, 65_532)),
        (65_534, round(1, 2, 0)),
        (65_535, Join::NoCrossing),
    ] {
        assert_eq!(join(long, 0, index), partner);
    }
    // corner counts 32,767
    let full = [65_535; 3];
    assert_eq!(join(full, 0, 32_766), round(0, 1, 32_766));
    assert_eq!(join(full, 0, 32_767), Join::Unjoined(Why::Left));
    assert_eq!(join(full, 0, 32_768), round(1, 2, 32_766));
    assert_eq!(join(full, 1, 32_768), round(2, 2, 32_768));
}

/// How and why, from the rules: a corner's node is an end of both edges and told
/// by both; skipped only in rule 3, left only in rule 2.
#[test]
fn reasons_follow_the_rules() {
    for counts in all_counts(12) {
        let sum: u32 = counts.iter().sum();
        let balanced = counts.iter().all(|&count| 2 * count <= sum);
        for edge in 0..3 {
            for index in 0..counts[edge as usize] {
                match join(counts, edge, index) {
                    Join::Joined {
                        edge: other,
                        index: there,
                        how,
                    } => {
                        assert_eq!(
                            join(counts, other, there),
                            Join::Joined { edge, index, how }
                        );
                        match how {
                            How::Round(corner) => assert_eq!(edge + other, corner + 1),
                            How::Along => assert_eq!((edge, index.abs_diff(there)), (other, 1)),
                        }
                        assert_eq!(how == How::Along, edge == other);
                    }
                    Join::Unjoined(why) => assert_eq!(why == Why::Left, balanced),
                    Join::NoCrossing => panic!("{counts:?} has crossing {index} on edge {edge}"),
                }
            }
        }
    }
}

#[test]
fn no_crossing_outside_the_face() {
    for (edge, index) in [(3, 0), (u32::MAX, 0), (0, 2), (1, 0), (2, 7), (0, u32::MAX)] {
        assert_eq!(join([2, 0, 7], edge, index), Join::NoCrossing);
    }
}

#[test]
fn counts_of_any_size_are_mutual() {
    let mut rng = Rng::new(5);
    for _ in 0..100_000 {
        let most = 1 << rng.between(1, 32);
        let counts = [(); 3].map(|()| rng.below(most) as u32);
        let edge = rng.below(3);
        let index = rng.below(counts[edge].max(1) as usize) as u32;
        match join(counts, edge as u32, index) {
            Join::Joined {
                edge: other,
                index: there,
                how,
            } => {
                let edge = edge as u32;
                assert_eq!(
                    join(counts, other, there),
                    Join::Joined { edge, index, how }
                );
                assert_eq!(how == How::Along, edge == other);
            }
            Join::Unjoined(_) => assert_eq!(counts.iter().fold(0, |sum, c| (sum + c % 2) % 2), 1),
            Join::NoCrossing => assert_eq!(counts[edge], 0),
        }
    }
    let full = [u32::MAX; 3];
    assert_eq!(join(full, 1, u32::MAX / 2), Join::Unjoined(Why::Left));
    assert_eq!(join(full, 1, u32::MAX - 1), round(2, 2, u32::MAX - 1));
}
