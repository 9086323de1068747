//! Flat sections: examples, refusals, and what must hold of every sheet.

use reference::face::{join as face_join, How, Join, Why};
use reference::flat::{chains, check, join, segments, Chain, Sheet, Tracer, ROWS};
use reference::gen::Rng;
use reference::sheets::{band, broken, disc, random_sheet, sphere, strip, FlatSample};
use reference::Refusal;

fn traced(sample: &FlatSample) -> Vec<Chain> {
    Tracer::default()
        .list(&sample.sheet())
        .expect("an accepted sheet")
}

fn with(mut sample: FlatSample, counts: &[u16]) -> FlatSample {
    sample.counts = counts.to_vec();
    sample
}

fn words(sample: &FlatSample) -> Vec<u32> {
    let mut area = vec![7; 1 << 18];
    let len = chains(&sample.sheet(), &mut area).expect("an accepted sheet");
    assert!(area[len as usize..].iter().all(|&word| word == 7));
    area.truncate(len as usize);
    area
}

#[test]
fn one_triangle() {
    let one = |counts: [u16; 3]| words(&with(strip(1), &counts));
    assert_eq!(one([0, 0, 0]), []);
    // a crossing without a segment is no chain
    assert_eq!(one([1, 0, 0]), []);
    assert_eq!(one([1, 1, 0]), [0, 2, 0, 1]);
    // rule 2 lessens the largest alone: 2 2 1 becomes 1 2 1, and ab 0 goes to
    // ac 0 round a, ac 1 to bc 0 round c
    assert_eq!(one([2, 2, 1]), [0, 2, 0, 2, 0, 2, 3, 4]);
    // on a tie the first: 1 1 1 leaves ab
    assert_eq!(one([1, 1, 1]), [0, 2, 1, 2]);
    // rule 3 as before: 5 1 1 leaves index 1
    assert_eq!(one([5, 1, 1]), [0, 2, 0, 5, 0, 2, 2, 3, 0, 2, 4, 6]);
}

#[test]
fn closed_and_open() {
    // round the middle of a disc
    let ring = with(disc(3), &[1, 1, 1, 0, 0, 0]);
    assert_eq!(words(&ring), [1, 3, 0, 1, 2]);
    // the same, left into the triangle listed first
    let mut turned = ring.clone();
    turned.triangles = vec![0, 1, 3, 0, 2, 3, 0, 1, 2];
    assert_eq!(words(&turned), [1, 3, 0, 2, 1]);
    // across a strip: 012, 123 with edges 01 02 12 13 23; the chain from 02 over
    // 12 to 13 starts at its lower end
    assert_eq!(words(&with(strip(2), &[0, 1, 1, 1, 0])), [0, 3, 0, 1, 2]);
    // the least crossing can lie inside: on edge 03, between 13 and 23
    let inner = with(
        FlatSample::from_triangles([[0, 1, 3], [0, 2, 3]]),
        &[0, 0, 1, 1, 1],
    );
    assert_eq!(words(&inner), [0, 3, 1, 0, 2]);
}

#[test]
fn rows() {
    let mut rng = Rng::new(11);
    for _ in 0..300 {
        let sample = random_sheet(&mut rng).with_counts(&mut rng, 3);
        for row in ROWS {
            if let Some(bad) = broken(&mut rng, &sample, row) {
                let refused = check(&bad.sheet()).expect_err("a refusal");
                assert_eq!(refused.number, row, "{bad:?}");
                let mut area = [7; 4];
                assert_eq!(chains(&bad.sheet(), &mut area), Err(refused));
                assert_eq!(area, [7; 4]);
            }
        }
    }
}

#[test]
fn row_24_comes_last() {
    let sample = with(strip(1), &[1, 1, 0]);
    for len in 0..4 {
        let mut area = vec![7; len];
        let needed = Refusal {
            number: 24,
            place: 4,
        };
        assert_eq!(chains(&sample.sheet(), &mut area), Err(needed));
        assert!(area.iter().all(|&word| word == 7));
    }
    let many = with(strip(1), &[4_096, 1, 0]);
    let refused = chains(&many.sheet(), &mut []).expect_err("a refusal");
    assert_eq!(refused.number, 18);
}

/// Whether a crossing is unjoined. Both ends of a segment tell the same.
fn is_unjoined(counts: [u32; 3], edge: u32, index: u32) -> bool {
    let above = counts.iter().any(|&count| 2 * count > counts.iter().sum());
    match join(counts, edge, index) {
        Join::Joined {
            edge: to,
            index: at,
            how,
        } => {
            assert_eq!(join(counts, to, at), Join::Joined { edge, index, how });
            assert_eq!(how == How::Along, edge == to);
            false
        }
        Join::Unjoined(why) => {
            assert_eq!(why == Why::Skipped, above);
            true
        }
        Join::NoCrossing => false,
    }
}

/// Rules 1 and 3 are those of a face; in each rule the segments and what they
/// leave make up the crossings.
#[test]
fn joins() {
    for counts in (0..343).map(|n| [n % 7, n / 7 % 7, n / 49]) {
        let sum: u32 = counts.iter().sum();
        let above = counts.iter().any(|&count| 2 * count > sum);
        let mut left = 0;
        for (edge, index) in (0..32).map(|n| (n / 8, n % 8)) {
            if sum % 2 == 0 || above {
                let answer = face_join(counts, edge, index);
                assert_eq!(join(counts, edge, index), answer);
            }
            left += u32::from(is_unjoined(counts, edge, index));
        }
        assert_eq!(left, sum % 2);
        assert_eq!(segments(counts).len() as u32, sum / 2);
    }
}

/// The ends of all segments of a sheet, triangle by triangle.
fn segments_of(sample: &FlatSample) -> Vec<[u32; 2]> {
    let mut starts = vec![0];
    for &count in &sample.counts {
        starts.push(starts[starts.len() - 1] + u32::from(count));
    }
    let edges = sample.edge_list();
    let mut found = Vec::new();
    for [a, b, c] in sample.triangle_list() {
        let place = |ends: [u16; 2]| edges.binary_search(&ends).expect("an edge");
        let own = [[a, b], [a, c], [b, c]].map(place);
        let counts = own.map(|edge| u32::from(sample.counts[edge]));
        for ends in segments(counts) {
            found.push(ends.map(|(edge, index)| starts[own[edge]] + index));
        }
    }
    found
}

/// The ends of all steps of a sheet's chains.
fn steps_of(chains: &[Chain]) -> Vec<[u32; 2]> {
    let mut found = Vec::new();
    for chain in chains {
        let all = &chain.crossings;
        found.extend(all.windows(2).map(|pair| [pair[0], pair[1]]));
        if chain.closed {
            found.push([all[all.len() - 1], all[0]]);
        }
    }
    found
}

fn sorted(mut pairs: Vec<[u32; 2]>) -> Vec<[u32; 2]> {
    for pair in &mut pairs {
        pair.sort_unstable();
    }
    pairs.sort_unstable();
    pairs
}

/// Each segment is in one chain, once.
#[test]
fn every_segment_once() {
    let mut rng = Rng::new(3);
    for round in 0..400 {
        let shape = random_sheet(&mut rng);
        let sample = match round % 3 {
            0 => shape.with_counts(&mut rng, 4),
            1 => shape.with_even_counts(&mut rng, 2),
            _ => shape.with_rings(&mut rng, 3),
        };
        let found = sorted(steps_of(&traced(&sample)));
        assert_eq!(found, sorted(segments_of(&sample)), "{sample:?}");
    }
}

#[test]
fn shapes_without_a_rim_have_closed_chains_only() {
    let mut rng = Rng::new(5);
    for size in 3..20 {
        let sample = sphere(size).with_rings(&mut rng, 4);
        assert!(traced(&sample).iter().all(|chain| chain.closed));
    }
    assert!(check(&band(5).sheet()).is_ok());
    let empty = Sheet {
        triangles: &[],
        edges: &[],
        counts: &[],
    };
    assert!(check(&empty).is_err());
}
