//! Sections: curves that end where triangles do, each once, through everything
//! special; areas of the two sides; planes as they are given.

mod boxes;
mod random;

use std::collections::{BTreeMap, HashSet};

use boxes::{ball, plane, source, text_of, Cubes};
use citternblaze::cut_plane::{parse, size_of, CutPlane};
use citternblaze::film::Flat;
use citternblaze::mesh::Side;
use citternblaze::placed_mesh::PlacedMesh;
use citternblaze::section::{grid_cut, section, Curve, Section};
use citternblaze::source::Source;
use citternblaze::space::Place;
use random::Random;

fn opened(written: &str) -> (Source, PlacedMesh) {
    let read = source(written);
    let placed = PlacedMesh::of(&read, false).expect("a placed mesh");
    (read, placed)
}

fn cut(of: &(Source, PlacedMesh), plane: &CutPlane) -> Section {
    section(&of.1, Some(&of.0.grid), plane)
}

fn steps(curve: &Curve) -> Vec<[Flat; 2]> {
    let mut steps: Vec<[Flat; 2]> = curve
        .places
        .windows(2)
        .map(|two| [two[0], two[1]])
        .collect();
    if curve.closed {
        steps.push([curve.places[curve.places.len() - 1], curve.places[0]]);
    }
    steps
}

fn length(curves: &[Curve]) -> f64 {
    let all = curves.iter().flat_map(steps);
    all.map(|[[a, b], [c, d]]| (a - c).hypot(b - d)).sum()
}

fn area(rings: &[Vec<Flat>]) -> f64 {
    let ring = |ring: &Vec<Flat>| {
        let next = |at: usize| ring[(at + 1) % ring.len()];
        let parts = (0..ring.len()).map(|at| ring[at][0] * next(at)[1] - next(at)[0] * ring[at][1]);
        0.5 * parts.sum::<f64>()
    };
    // rings of one area run in any direction: none of these lies in another
    rings.iter().map(|of| ring(of).abs()).sum()
}

/// No step stands twice, in either direction, and none leads nowhere.
fn each_once(found: &Section) {
    let mut seen = HashSet::new();
    for [from, to] in found.curves.iter().flat_map(steps) {
        let key = |flat: Flat| flat.map(f64::to_bits);
        assert_ne!(key(from), key(to));
        assert!(seen.insert([key(from), key(to)]) && seen.insert([key(to), key(from)]));
    }
}

/// A box of 3 x 3 x 3 cubes with the film where a function of place is 0; on an edge
/// it is taken to be straight.
fn film(of: impl Fn(Place) -> f64) -> (Source, PlacedMesh) {
    let cubes = Cubes::new([3, 3, 3], 10.0);
    opened(&cubes.text(|from, to| {
        let (one, other) = (of(from), of(to));
        match (one < 0.0) == (other < 0.0) {
            true => Vec::new(),
            false => vec![one / (one - other)],
        }
    }))
}

/// Through grid nodes and through crossings what is inside is what it is just below.
#[test]
fn a_ball_is_cut_in_closed_curves() {
    let cubes = Cubes::new([4; 3], 10.0);
    let all = opened(&cubes.text(ball([20.2, 19.7, 20.4], 12.3)));
    let inside = |value: f64| {
        let plane = CutPlane::level(1, value);
        area(&grid_cut(&all.1, &all.0.grid, &plane).side_1)
    };
    for value in [9.3, 13.7, 19.7, 24.1, 31.2] {
        let found = cut(&all, &CutPlane::level(1, value));
        assert!(!found.curves.is_empty());
        assert!(found.curves.iter().all(|curve| curve.closed), "{value}");
        let curves: Vec<Vec<Flat>> = found.curves.iter().map(|of| of.places.clone()).collect();
        assert!((inside(value) - area(&curves)).abs() < 1e-9 * inside(value));
    }
    let crossings = all.1.points[..all.0.grid.crossings()].iter();
    let special = crossings.map(|place| place[1]).chain([10.0, 20.0, 30.0]);
    for value in special {
        let found = cut(&all, &CutPlane::level(1, value));
        assert!(
            (inside(value) - inside(value - 1e-7)).abs() < 1e-3,
            "{value}"
        );
        assert!(found
            .crossings
            .iter()
            .all(|of| all.1.points[of.0][1] == value));
    }
}

#[test]
fn a_film_is_cut_from_rim_to_rim() {
    let all = film(|[x, y, z]| 0.1 * x + 0.05 * y + z - 14.2);
    for (value, special) in [
        (10.0, true),
        (20.0, true),
        (4.5, false),
        (0.0, true),
        (30.0, true),
    ] {
        for axis in 0..2 {
            let found = cut(&all, &CutPlane::level(axis, value));
            each_once(&found);
            // a plane on the rim has all of the box above it, or nothing but the rim below
            let rim = value == 0.0 || value == 30.0;
            if rim && found.curves.is_empty() {
                continue;
            }
            assert_eq!(found.curves.len(), 1, "{value} {special}");
            let curve = &found.curves[0];
            assert!(!curve.closed);
            let slope: f64 = if axis == 0 { 0.05 } else { 0.1 };
            let whole = 30.0 * (1.0 + slope * slope).sqrt();
            assert!((length(&found.curves) - whole).abs() < 1e-9);
            let ends = [curve.places[0][0], curve.places[curve.places.len() - 1][0]];
            assert!(ends == [0.0, 30.0] || ends == [30.0, 0.0], "{ends:?}");
        }
    }
}

#[test]
fn a_slab_has_its_area() {
    let cubes = Cubes::new([3, 3, 3], 10.0);
    let normal = [0.1, 0.05, 1.0];
    let (low, high) = (plane(normal, 11.3), plane(normal, 13.1));
    let both = |from, to| {
        let mut all = low(from, to);
        all.extend(high(from, to));
        all.sort_by(f64::total_cmp);
        all
    };
    let all = opened(&cubes.text(both));
    for value in [3.3, 10.0, 20.0, 27.9] {
        let found = grid_cut(&all.1, &all.0.grid, &CutPlane::level(1, value));
        assert!((area(&found.side_1) - 30.0 * 1.8).abs() < 1e-9, "{value}");
        assert!((area(&found.whole) - 900.0).abs() < 1e-9);
        assert!(!found.outer.is_empty() && !found.inner.is_empty());
    }
    let oblique = CutPlane::free([15.0, 15.0, 15.0], [1.0, 1.0, 0.0]).expect("a plane");
    let found = grid_cut(&all.1, &all.0.grid, &oblique);
    let across = 30.0 * 2.0_f64.sqrt();
    assert!((area(&found.side_1) - across * 1.8).abs() < 1e-9);
    assert!((area(&found.whole) - across * 30.0).abs() < 1e-9);
}

/// A film that lies in the plane is told as lying there, and has no curve; where it
/// goes on below, its rim there is a curve, once; where it goes on above, none.
#[test]
fn a_plane_along_triangles() {
    let level = 12.5;
    let flat = film(|[_, _, z]| z - level);
    let found = cut(&flat, &CutPlane::level(2, level));
    assert!(found.curves.is_empty());
    let lying: f64 = found.lying.iter().map(|of| area(&[of.1.to_vec()])).sum();
    assert!((lying - 900.0).abs() < 1e-9, "{lying}");
    assert_eq!(found.crossings.len(), flat.0.grid.crossings());
    let bent = |by: f64| film(move |[x, _, z]| z - level - by * (x - 10.0).max(0.0));
    let below = cut(&bent(-0.2), &CutPlane::level(2, level));
    each_once(&below);
    assert!((length(&below.curves) - 30.0).abs() < 1e-9);
    let above = cut(&bent(0.2), &CutPlane::level(2, level));
    assert!(above.curves.is_empty() && !above.lying.is_empty());
}

/// A film that hangs down from a ridge in the plane gives the ridge once, and one that
/// stands on a valley in it nothing.
#[test]
fn a_plane_along_a_ridge() {
    let tent = |by: f64| film(move |[x, _, z]| z - 12.5 - by * (x - 10.0).abs());
    let ridge = cut(&tent(-0.2), &CutPlane::level(2, 12.5));
    each_once(&ridge);
    assert!((length(&ridge.curves) - 30.0).abs() < 1e-9);
    let valley = cut(&tent(0.2), &CutPlane::level(2, 12.5));
    assert!(valley.curves.is_empty() && valley.lying.is_empty());
}

/// Ends of curves are where the plane meets open sides, by the rule that a point on
/// the plane is above it.
fn ends_at_open_sides(placed: &PlacedMesh, plane: &CutPlane, found: &Section) {
    let size = size_of(&placed.points);
    let height = |point: usize| plane.height(placed.points[point], size);
    let mut sides: BTreeMap<Side, (usize, [usize; 2])> = BTreeMap::new();
    for triangle in placed.mesh.triangles() {
        let corners = triangle.corners.map(|corner| placed.mesh.point(corner));
        for at in 0..3 {
            let ends = [corners[at], corners[(at + 1) % 3]];
            sides.entry(triangle.sides[at]).or_insert((0, ends)).0 += 1;
        }
    }
    let met = sides.values().filter(|(number, ends)| {
        let below = ends.map(|end| height(end) < 0.0);
        *number == 1 && below[0] != below[1]
    });
    let open = found.curves.iter().filter(|curve| !curve.closed);
    assert_eq!(2 * open.count(), met.count());
}

#[test]
fn random_grids_are_cut_anywhere() {
    let mut random = Random(21);
    let mut curves = 0;
    for at in 0..60 {
        let cubes = Cubes::new([1, 1 + at % 2, 2], 8.0);
        let sides: BTreeMap<u16, usize> = cubes
            .places
            .keys()
            .map(|&node| (node, random.below(2)))
            .collect();
        let written = text_of(&cubes.cells, &cubes.places, |[u, v]| {
            let odd = (sides[&u] + sides[&v]) % 2;
            let count = match at % 3 {
                // with faces of odd sums, and no shading
                0 => random.below(5),
                _ => odd + 2 * random.below(3),
            };
            random.rising(count)
        });
        let all = opened(&written);
        let through = |place: Place, random: &mut Random| {
            let direction = [0; 3].map(|_| random.fraction() - 0.5);
            CutPlane::free(place, direction).expect("a plane")
        };
        let crossing = all.1.points[random.below(all.0.grid.crossings().max(1))];
        let node = cubes.places[&(random.below(cubes.places.len()) as u16)];
        for plane in [
            through([4.1, 3.9, 7.7], &mut random),
            through(crossing, &mut random),
            through(node, &mut random),
            CutPlane::level(at % 3, crossing[at % 3]),
            CutPlane::level(at % 3, 8.0),
        ] {
            let found = cut(&all, &plane);
            let places = found.curves.iter().flat_map(|curve| &curve.places);
            assert!(places.flatten().all(|number| number.is_finite()));
            curves += found.curves.len();
            grid_cut(&all.1, &all.0.grid, &plane);
        }
        let plane = through([4.1, 3.9, 7.7], &mut random);
        ends_at_open_sides(&all.1, &plane, &cut(&all, &plane));
    }
    assert!(curves > 1_000, "{curves}");
}

/// Where there is a shading, side 1 and the rest make up the whole at every plane: the
/// rings close.
#[test]
fn areas_of_sides_close() {
    let mut random = Random(23);
    for at in 0..40 {
        let cubes = Cubes::new([1, 1, 1 + at % 2], 8.0);
        let sides: BTreeMap<u16, usize> = cubes
            .places
            .keys()
            .map(|&node| (node, random.below(2)))
            .collect();
        let written = text_of(&cubes.cells, &cubes.places, |[u, v]| {
            let count = (sides[&u] + sides[&v]) % 2 + 2 * random.below(2);
            random.rising(count)
        });
        let all = opened(&written);
        let direction = [0; 3].map(|_| random.fraction() - 0.5);
        let plane = CutPlane::free([4.0, 4.1, 4.2], direction).expect("a plane");
        let found = grid_cut(&all.1, &all.0.grid, &plane);
        let whole = area(&found.whole);
        let outline: f64 = found
            .outer
            .iter()
            .map(|[[a, b], [c, d]]| (a - c).hypot(b - d))
            .sum();
        assert!(whole > 0.0 && whole < outline * outline);
        assert!(found.side_1.iter().all(|ring| ring.len() > 1));
    }
}

#[test]
fn planes_are_read() {
    let names = |text: &str| -> Vec<String> {
        let planes = parse(text).expect("planes");
        planes.into_iter().map(|plane| plane.name).collect()
    };
    assert_eq!(names("y=18.7"), ["y = 18.7"]);
    assert_eq!(names("z=-1e-3"), ["z = -0.001"]);
    assert_eq!(
        names("x=0:0.3:0.1"),
        ["x = 0", "x = 0.1", "x = 0.2", "x = 0.3"]
    );
    assert_eq!(names("y=0:60:5").len(), 13);
    assert_eq!(names("1,2,3/0,0,-2"), ["through 1 2 3 across 0 0 -2"]);
    for wrong in [
        "",
        "y",
        "y=",
        "w=3",
        "y=1:2",
        "y=5:1:1",
        "y=0:1:0",
        "y=0:1:-1",
        "y=nan",
        "y=inf",
        "y=1e9",
        "1,2,3",
        "0,0,0/0,0,0",
        "1,2/3,4,5",
        "1,2,3/4,5",
        "y=1:2:3:4",
        "y=0:1e6:1e-3",
        "=",
        "/",
    ] {
        assert!(parse(wrong).is_err(), "{wrong}");
    }
}

/// The drawing of a plane and its places in space are each other's inverse.
#[test]
fn places_of_a_plane() {
    let mut random = Random(9);
    for at in 0..60 {
        let number = |random: &mut Random| 20.0 * random.fraction() - 10.0;
        let from = [0; 3].map(|_| number(&mut random));
        let plane = match at % 3 {
            0 => CutPlane::level(at / 3 % 3, from[0]),
            1 => CutPlane::free(from, [from[1], from[2], 0.0]).expect("a plane"),
            _ => CutPlane::free(from, [from[1], from[2], 1.0]).expect("a plane"),
        };
        let flat = [number(&mut random), number(&mut random)];
        let place = plane.place(flat);
        assert!(plane.height(place, 0.0).abs() < 1e-9);
        let again = plane.flat(place);
        assert!((0..2).all(|axis| (again[axis] - flat[axis]).abs() < 1e-9));
    }
}
