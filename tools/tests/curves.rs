//! The curves of a face do not cross, whatever its counts and fractions are, and
//! they stay inside the face.

mod random;

use citternblaze::bundle::pack;
use citternblaze::calls::{bundle_read, Grid};
use citternblaze::face_curves::{Curve, PlacedFace};
use citternblaze::faces::faces;
use citternblaze::plane::Point;
use citternblaze::text;
use random::Random;

/// Points of a curve, its ends included.
fn points(curve: Curve) -> Vec<Point> {
    let at = |share: f64| {
        let rest = 1.0 - share;
        match curve {
            Curve::Bow([a, b, c]) => {
                a * (rest * rest) + b * (2.0 * rest * share) + c * (share * share)
            }
            Curve::Arc([a, b, c, d]) => {
                let ends = a * rest.powi(3) + d * share.powi(3);
                ends + (b * rest + c * share) * (3.0 * rest * share)
            }
        }
    };
    (0..=24).map(|step| at(f64::from(step) / 24.0)).collect()
}

/// Whether two straight pieces cross.
fn cross(one: &[Point], other: &[Point]) -> bool {
    let side = |from: Point, to: Point, of: Point| (to - from).turn(of - from);
    let apart = |line: &[Point], ends: &[Point]| {
        side(line[0], line[1], ends[0]) * side(line[0], line[1], ends[1]) < 0.0
    };
    apart(one, other) && apart(other, one)
}

fn one_cell(counts: [usize; 3]) -> Grid {
    let [ab, ac, bc] = counts;
    let text = format!(
        "citternblaze grid\ncell 0 1 2 3\nedge 0 1 {ab}\nedge 0 2 {ac}\nedge 0 3 0\n\
         edge 1 2 {bc}\nedge 1 3 0\nedge 2 3 0\n"
    );
    let bytes = pack(&text::read(text.as_bytes()).expect("a text")).expect("a bundle");
    Grid::open(bundle_read(&bytes).expect("lists")).expect("a grid")
}

/// The curves of face 3 of a cell, with random fractions.
fn random_curves(random: &mut Random, counts: [usize; 3]) -> Vec<Vec<Point>> {
    let corners = [[0.0, 400.0], [460.0, 400.0], [230.0, 2.0]].map(|[x, y]| Point::new(x, y));
    let grid = one_cell(counts);
    let each = grid.lists().counts.iter();
    let fractions: Vec<f64> = each
        .flat_map(|&count| random.rising(usize::from(count)))
        .collect();
    let all = faces(&grid);
    let face = all.iter().find(|face| face.name == 3).expect("face 3");
    let joining = face.joining(&grid);
    let placed = PlacedFace::new(face, &joining, corners, &fractions);
    let curves = joining
        .segments
        .iter()
        .map(|of| points(placed.curve(of, 20.0)));
    curves.collect()
}

#[test]
fn curves_do_not_cross() {
    let mut random = Random(7);
    let mut pairs = 0;
    for turn in 0..4_000 {
        // every other face has many folded segments next to those round corners
        let most = if turn % 2 == 0 { [9; 3] } else { [14, 4, 4] };
        let counts = most.map(|most| random.below(most));
        let curves = random_curves(&mut random, counts);
        for (at, one) in curves.iter().enumerate() {
            for other in &curves[..at] {
                let met = |piece| other.windows(2).any(|other| cross(piece, other));
                assert!(!one.windows(2).any(met), "turn {turn}, counts {counts:?}");
                pairs += 1;
            }
            assert!(one.iter().all(|point| point.y < 400.001 && point.y > 1.0));
        }
    }
    assert!(pairs > 10_000);
}
