//! The face call against the second implementation.

use compare::lent::{answers, answers_in_all};
use compare::{calls, expected, seed, setting};
use reference::face::{corner_counts, INCIDENT};
use reference::gen::Rng;

/// Edges asked for: the three of a face, and two that no face has.
const EDGES: u32 = 5;

/// Counts of which some triples are of every rule, at the ends and in the
/// middle of a byte.
const SPREAD: [u16; 8] = [0, 1, 2, 3, 127, 128, 254, 255];

/// The same of 16 bits, and about the most of an edge of a grid.
const WIDE: [u16; 13] = [
    0, 1, 2, 3, 255, 256, 4_094, 4_095, 4_096, 32_767, 32_768, 65_534, 65_535,
];

/// How many of each case: joined round a corner and along an edge, unjoined as
/// left and as skipped, and no such crossing.
type Counted = [u64; 5];

/// Compares one face call; `counted` takes which case it was.
fn compare(counts: [u16; 3], edge: u32, index: u32, counted: &mut Counted) {
    let numbers = expected::face(counts, edge, index);
    let case = match numbers[..] {
        [0, _, _, how, ..] => how as usize,
        [1, why] => 2 + why as usize,
        _ => 4,
    };
    counted[case] += 1;
    assert!(
        answers(&numbers, |area| calls::face(counts, edge, index, area)),
        "face {counts:?}, edge {edge}, index {index}: not answered with {numbers:?} alone"
    );
}

/// Compares every edge, and every index of it up to the second beyond its end.
fn compare_all(counts: [u16; 3], counted: &mut Counted) {
    for edge in 0..EDGES {
        let count = counts.get(edge as usize).copied().unwrap_or(0);
        for index in 0..=u32::from(count) + 1 {
            compare(counts, edge, index, counted);
        }
    }
}

/// Compares indices at the ends of each edge, and about where the segments of one
/// corner end.
fn compare_some(counts: [u16; 3], counted: &mut Counted) {
    let cuts = corner_counts(counts.map(u32::from));
    for (edge, [low, high]) in INCIDENT.into_iter().enumerate() {
        let count = u32::from(counts[edge]);
        for at in [0, cuts[low], count - cuts[high], count] {
            for index in at.saturating_sub(3)..=at + 3 {
                compare(counts, edge as u32, index, counted);
            }
        }
    }
}

fn report(what: &str, counted: Counted) {
    let [round, along, left, skipped, none] = counted;
    println!("{what}: {round} joined round a corner, {along} along an edge; {left} left, {skipped} skipped; {none} no such crossing");
    assert!(counted.iter().all(|&cases| cases > 0));
}

fn triples(of: &[u16]) -> impl Iterator<Item = [u16; 3]> + '_ {
    let pairs = of
        .iter()
        .flat_map(move |&a| of.iter().map(move |&b| (a, b)));
    pairs.flat_map(move |(a, b)| of.iter().map(move |&c| [a, b, c]))
}

#[test]
fn small_counts() {
    let mut counted = [0; 5];
    let small: Vec<u16> = (0..=12).collect();
    for counts in triples(&small) {
        compare_all(counts, &mut counted);
    }
    report("face, counts 0..12", counted);
}

#[test]
fn spread_counts() {
    let mut counted = [0; 5];
    for counts in triples(&SPREAD) {
        compare_all(counts, &mut counted);
    }
    report("face, counts at the ends and the middle of a byte", counted);
}

#[test]
fn wide_counts() {
    let mut counted = [0; 5];
    for counts in triples(&WIDE) {
        compare_some(counts, &mut counted);
    }
    report("face, counts of 16 bits", counted);
}

#[test]
fn random_counts() {
    let mut rng = Rng::new(seed("face"));
    let mut counted = [0; 5];
    for _ in 0..setting("CITTERNBLAZE_FACES", 100_000u32) {
        // of about one size, so that each rule comes up
        let most = 1 << rng.between(2, 16);
        let counts = [(); 3].map(|()| rng.below(most) as u16);
        compare_some(counts, &mut counted);
        let edge = rng.below(3);
        let index = rng.below(usize::from(counts[edge]) + 2);
        // now and then any 32-bit numbers
        let [edge, index] = match rng.below(16) {
            0 => [rng.word() as u32, index as u32],
            1 => [edge as u32, rng.word() as u32],
            _ => [edge as u32, index as u32],
        };
        compare(counts, edge, index, &mut counted);
    }
    report("face, random counts", counted);
}

#[test]
fn any_answer_area() {
    let cases = [
        ([5, 1, 1], 0, 2, vec![0, 0, 3, 1]),
        ([5, 1, 1], 0, 1, vec![1, 1]),
        ([3, 3, 3], 0, 1, vec![1, 0]),
        ([65_535, 1, 1], 0, 65_533, vec![0, 0, 65_532, 1]),
        ([65_535; 3], 0, 32_767, vec![1, 0]),
        ([65_535; 3], 1, 32_768, vec![0, 2, 32_768, 0, 2]),
        ([0, 0, 0], 3, 0, vec![2]),
    ];
    for (counts, edge, index, numbers) in cases {
        assert_eq!(expected::face(counts, edge, index), numbers);
        assert!(
            answers_in_all(&numbers, |area| calls::face(counts, edge, index, area)),
            "face {counts:?}, edge {edge}, index {index}"
        );
    }
}
