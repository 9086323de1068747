//! Flat sections against the second implementation.

use std::thread;

use compare::lent::{after, answers, answers_in_all, Lent, ANSWER_WORDS};
use compare::{calls, expected, seed, setting};
use reference::flat::{Tracer, ROWS};
use reference::gen::Rng;
use reference::sheets::{
    apart, band, broken, disc, random_sheet, sphere, squares, strip, FlatSample,
};

/// Stands on both sides of a lent area.
const GUARD: u32 = 0x5a5a_5a5a;

/// An area before a call: words that no chain has.
fn untouched(len: usize) -> Vec<u32> {
    (0..len).map(|at| 0x8000_0000 + at as u32).collect()
}

/// What the compared sheets were.
#[derive(Default)]
struct Tally {
    sheets: u64,
    closed: u64,
    open: u64,
    inner_least: u64,
    without: u64,
    short: u64,
    refused: [u64; 25],
}

impl Tally {
    fn report(&self, what: &str) {
        let rows = ROWS.map(|row| self.refused[usize::from(row)]);
        println!(
            "flat sections, {what}: {} sheets with {} closed and {} open chains ({} with their \
             least crossing inside), {} sheets without a chain, {} areas too short; refused by \
             rows 1 to 6, 18, 7, 8, 10: {rows:?}",
            self.sheets, self.closed, self.open, self.inner_least, self.without, self.short
        );
    }

    fn every_row(&self) -> bool {
        ROWS.iter().all(|&row| self.refused[usize::from(row)] > 0)
    }
}

/// The chains call on an area of this length: numbers answered, and the whole
/// area with its guards. The numbers, and the area as it has to be.
fn compare_in(tracer: &mut Tracer, sample: &FlatSample, len: usize) -> (Vec<u64>, Vec<u32>) {
    let mut area = untouched(len);
    let mut lent = Lent::new(&area, GUARD);
    let numbers = expected::flat_chains(tracer, sample, &mut area);
    let right = answers(&numbers, |answer| {
        calls::flat_chains(
            &sample.triangles,
            &sample.edges,
            &sample.counts,
            lent.area(),
            answer,
        )
    });
    assert!(right, "area of {len}: not {numbers:?}: {sample:?}");
    assert!(
        lent.is(&area, GUARD),
        "area of {len}: other words: {sample:?}"
    );
    if numbers[0] != 0 {
        assert_eq!(area, untouched(len));
    }
    (numbers, area)
}

/// Counts the chains of these words.
fn tell(mut words: &[u32], tally: &mut Tally) {
    tally.without += u64::from(words.is_empty());
    while !words.is_empty() {
        let (chain, rest) = words.split_at(2 + words[1] as usize);
        let least = chain[2..].iter().min();
        if chain[0] == 1 {
            tally.closed += 1;
            assert_eq!(least, Some(&chain[2]));
        } else {
            tally.open += 1;
            assert!(chain[2] < chain[chain.len() - 1]);
            tally.inner_least += u64::from(least != Some(&chain[2]));
        }
        words = rest;
    }
}

/// Compares the check, and the chains call in areas that are long enough, just
/// long enough and too short by one.
fn compare(tracer: &mut Tracer, sample: &FlatSample, tally: &mut Tally) {
    let checked = expected::flat_check(sample);
    assert!(answers(&checked, |answer| {
        calls::flat_check(&sample.triangles, &sample.edges, &sample.counts, answer)
    }));
    tally.sheets += 1;
    tally.refused[checked[0] as usize] += 1;
    let room = 2 * checked[1] as usize + 5;
    let (numbers, area) = compare_in(tracer, sample, room.min(200_000));
    if numbers[0] == 0 {
        let words = numbers[1] as usize;
        tell(&area[..words], tally);
        assert_eq!(compare_in(tracer, sample, words).0, numbers);
        if words > 0 {
            let short = compare_in(tracer, sample, words - 1).0;
            assert_eq!(short, [24, words as u64]);
            tally.short += 1;
        }
    }
}

fn with_random_counts(rng: &mut Rng, shape: FlatSample) -> FlatSample {
    match rng.below(6) {
        0 => shape.with_even_counts(rng, 2),
        1 => shape.with_rings(rng, 4),
        2 => shape.with_counts(rng, 1),
        3 => {
            let most = [40, 400, 4_095][rng.below(3)];
            shape.with_counts(rng, most)
        }
        _ => shape.with_counts(rng, 4),
    }
}

#[test]
fn examples_in_any_answer_area() {
    let mut sample = FlatSample::from_triangles([[0, 1, 2], [0, 1, 3], [0, 2, 3]]);
    sample.counts = vec![2, 2, 2, 1, 0, 0];
    let made = {
        let mut area = untouched(12);
        area[..11].copy_from_slice(&[1, 3, 0, 2, 4, 0, 4, 1, 5, 3, 6]);
        area
    };
    for (len, numbers) in [(12, [0, 11]), (10, [24, 11])] {
        let right = answers_in_all(&numbers, |answer| {
            let before = untouched(len);
            let mut lent = Lent::new(&before, GUARD);
            let returned = calls::flat_chains(
                &sample.triangles,
                &sample.edges,
                &sample.counts,
                lent.area(),
                answer,
            );
            let made = if len == 12 { &made } else { &before };
            assert!(lent.is(after(answer, &before, made), GUARD));
            returned
        });
        assert!(right);
    }
}

/// How many of each case: joined round a corner and along an edge, unjoined as
/// left and as skipped, and no such crossing.
type Counted = [u64; 5];

fn compare_face(counts: [u16; 3], edge: u32, index: u32, counted: &mut Counted) {
    let numbers = expected::flat_face(counts, edge, index);
    let case = match numbers[..] {
        [0, _, _, how, ..] => how as usize,
        [1, why] => 2 + why as usize,
        _ => 4,
    };
    counted[case] += 1;
    assert!(
        answers(&numbers, |area| calls::flat_face(counts, edge, index, area)),
        "flat face {counts:?}, edge {edge}, index {index}: not {numbers:?}"
    );
}

#[test]
fn faces() {
    let mut rng = Rng::new(seed("flat faces"));
    let mut counted = [0; 5];
    let most = 9;
    for counts in (0..most * most * most).map(|n| [n % most, n / most % most, n / most / most]) {
        for (edge, index) in (0..40).map(|n| (n / 10, n % 10)) {
            compare_face(counts, edge, index, &mut counted);
        }
    }
    for _ in 0..2_000 {
        let top = [20, 4_095, 65_535][rng.below(3)];
        let counts = [(); 3].map(|()| rng.between(0, top) as u16);
        let edge = rng.below(4) as u32;
        let index = rng.between(0, top + 1) as u32;
        compare_face(counts, edge, index, &mut counted);
    }
    let [round, along, left, skipped, none] = counted;
    println!("flat faces: {round} joined round a corner, {along} along an edge; {left} left, {skipped} skipped; {none} no such crossing");
    assert!(counted.iter().all(|&cases| cases > 0));
}

/// More edges listed than any sheet has: all pairs of 200 nodes, or all but one.
#[test]
fn lists_longer_than_any_sheet() {
    let mut tracer = Tracer::default();
    let mut tally = Tally::default();
    let pairs = (0..200).flat_map(|u| (u + 1..200).map(move |v| [u, v]));
    let mut sample = squares(3, 4);
    sample.edges = pairs.flatten().collect();
    sample.counts = vec![1; sample.edges.len() / 2];
    compare(&mut tracer, &sample, &mut tally);
    sample.edges.drain(..2);
    sample.counts.pop();
    compare(&mut tracer, &sample, &mut tally);
    assert_eq!([tally.refused[7], tally.refused[8]], [1, 1]);
}

#[test]
fn each_shape_broken_in_each_way() {
    let mut rng = Rng::new(seed("flat sections"));
    let mut tracer = Tracer::default();
    let mut tally = Tally::default();
    let shapes = [
        strip(1),
        strip(9),
        band(5),
        band(8),
        band(31),
        disc(3),
        disc(12),
        sphere(3),
        sphere(9),
        squares(3, 4),
        apart(7),
    ];
    for shape in shapes {
        for _ in 0..8 {
            let whole = with_random_counts(&mut rng, shape.clone()).reordered(&mut rng);
            compare(&mut tracer, &whole, &mut tally);
            for row in ROWS {
                if let Some(faulty) = broken(&mut rng, &whole, row) {
                    compare(&mut tracer, &faulty, &mut tally);
                }
            }
        }
    }
    tally.report("each shape broken in each way");
    assert!(tally.every_row());
}

#[test]
fn random_sheets() {
    let mut rng = Rng::new(seed("flat sections"));
    let mut tracer = Tracer::default();
    let mut tally = Tally::default();
    let sheets = setting("CITTERNBLAZE_GRIDS", 20_000);
    for _ in 0..sheets / 2 {
        let shape = random_sheet(&mut rng);
        let sample = with_random_counts(&mut rng, shape);
        compare(&mut tracer, &sample, &mut tally);
        if rng.below(8) == 0 {
            let row = ROWS[rng.below(ROWS.len())];
            if let Some(faulty) = broken(&mut rng, &sample, row) {
                compare(&mut tracer, &faulty, &mut tally);
            }
        }
    }
    tally.report("random sheets");
    if sheets >= 20_000 {
        assert!(tally.closed >= 1_000 && tally.open >= 10_000);
        assert!(tally.inner_least >= 1_000);
        assert!(tally.every_row());
    }
}

/// As many triangles and crossings as there may be.
#[test]
fn large_sheets() {
    let mut rng = Rng::new(seed("flat sections"));
    let mut tracer = Tracer::default();
    let mut tally = Tally::default();
    for shape in [
        squares(32, 32),
        strip(2_048),
        band(2_047),
        disc(2_048),
        apart(1_365),
    ] {
        for most in [3, 20, 4_095] {
            let sample = shape.clone().with_counts(&mut rng, most);
            compare(&mut tracer, &sample, &mut tally);
        }
        let rings = shape.with_rings(&mut rng, 4);
        compare(&mut tracer, &rings, &mut tally);
    }
    tally.report("large sheets");
}

/// As many crossings as the call's small tables have room for, 4,096; one less and
/// some more.
#[test]
fn crossings_round_4096() {
    let mut tracer = Tracer::default();
    let mut tally = Tally::default();
    let mut sample = disc(3);
    for more in 0..5 {
        sample.counts = vec![1_365, 1_365, 1_365, more, 0, 0];
        compare(&mut tracer, &sample, &mut tally);
    }
    assert_eq!(tally.sheets, tally.refused[0]);
}

/// What the header says of the stack.
#[test]
fn stack_of_192_kilobytes() {
    let sample = squares(32, 32).with_counts(&mut Rng::new(1), 60);
    let check = move || {
        let mut answer = [1; ANSWER_WORDS];
        calls::flat_check(
            &sample.triangles,
            &sample.edges,
            &sample.counts,
            &mut answer,
        )
    };
    let thread = thread::Builder::new().stack_size(192 * 1024).spawn(check);
    assert_eq!(thread.expect("a thread").join().expect("an answer"), 2);
}

/// What the header says of the stack.
#[test]
fn stack_of_1024_kilobytes() {
    let trace = || {
        let sample = squares(32, 32).with_counts(&mut Rng::new(1), 60);
        let mut area = vec![7; 131_070];
        let mut answer = [1; ANSWER_WORDS];
        calls::flat_chains(
            &sample.triangles,
            &sample.edges,
            &sample.counts,
            &mut area,
            &mut answer,
        )
    };
    let thread = thread::Builder::new().stack_size(1024 * 1024).spawn(trace);
    assert_eq!(thread.expect("a thread").join().expect("an answer"), 2);
}
