//! Surfaces, how they are wound, and their measures.

mod boxes;
mod random;

use std::collections::BTreeMap;
use std::f64::consts::PI;
use std::fs;

use boxes::{ball, placed, plane, source, text_of, Cubes};
use citternblaze::calls::{bundle_read, Grid};
use citternblaze::mesh::{triangle, Corner, Mesh, Side, Triangle};
use citternblaze::orientation::{Orientation, Winding};
use citternblaze::placed_mesh::PlacedMesh;
use citternblaze::surface_list;
use citternblaze::surfaces::Surfaces;
use random::Random;

/// How often each side is run through from its lower end, and from its higher one.
fn runs(triangles: impl Iterator<Item = Triangle>) -> BTreeMap<Side, [usize; 2]> {
    let mut runs: BTreeMap<Side, [usize; 2]> = BTreeMap::new();
    for of in triangles {
        for at in 0..3 {
            let up = of.corners[at] < of.corners[(at + 1) % 3];
            runs.entry(of.sides[at]).or_default()[usize::from(up)] += 1;
        }
    }
    runs
}

/// Each side of two triangles is run through once each way. Answers how many there are.
fn once_each_way(mesh: &Mesh, orientation: &Orientation) -> usize {
    let runs = runs(orientation.triangles(mesh));
    let of_two = runs.values().filter(|of| of[0] + of[1] == 2);
    let counted = of_two.inspect(|of| assert_eq!(**of, [1, 1]));
    counted.count()
}

#[test]
fn samples_are_wound_alike() {
    let folder = format!("{}/../samples", env!("CARGO_MANIFEST_DIR"));
    let [mut closed, mut sides] = [0, 0];
    for file in fs::read_dir(folder).expect("samples") {
        let path = file.expect("a file").path();
        if path.extension().map_or(true, |of| of != "bundle") {
            continue;
        }
        let lists = bundle_read(&fs::read(&path).expect("bytes"));
        let grid = match lists.map(Grid::open) {
            Ok(Ok(grid)) => grid,
            _ => continue,
        };
        let words = match grid.mesh_within(200_000) {
            Ok(words) => words,
            // larger ones take long
            Err(_) => continue,
        };
        let mesh = Mesh::of_words(words, grid.crossings());
        let surfaces = Surfaces::of(&mesh);
        closed += surfaces.list.iter().filter(|of| of.is_closed()).count();
        assert!(surfaces.list.iter().all(|of| !of.one_sided), "{path:?}");
        sides += once_each_way(&mesh, &Orientation::alike(&surfaces));
    }
    assert!(closed >= 3 && sides > 4_000, "{closed} {sides}");
}

/// Counts of random sides of the nodes: odd exactly where the sides of an edge's ends
/// differ.
fn shaded(random: &mut Random, cubes: &Cubes, most: usize) -> String {
    let sides: BTreeMap<u16, usize> = cubes
        .places
        .keys()
        .map(|&node| (node, random.below(2)))
        .collect();
    text_of(&cubes.cells, &cubes.places, |[u, v]| {
        let odd = (sides[&u] + sides[&v]) % 2;
        let count = odd + 2 * random.below(most / 2 + 1);
        random.rising(count)
    })
}

fn shuffled(random: &mut Random, limit: usize) -> Vec<u16> {
    let mut numbers: Vec<u16> = (0..limit as u16).collect();
    for at in 1..numbers.len() {
        numbers.swap(at, random.below(at + 1));
    }
    numbers
}

/// The side of the stretch of an edge before each crossing tells on which side of a
/// corner triangle its node lies: seen from side 0 the corners run counter-clockwise.
fn seen_from_side_0(placed: &PlacedMesh, grid: &Grid) -> usize {
    let shading = placed.shading.as_ref().expect("a shading");
    let mut looked = 0;
    for triangle in placed.triangles() {
        let crossings: Vec<usize> = triangle
            .corners
            .iter()
            .filter_map(|corner| match corner {
                Corner::Crossing(number) => Some(*number as usize),
                _ => None,
            })
            .collect();
        if crossings.len() < 3 || triangle.part.sub_cell > 0 {
            continue;
        }
        let edges: Vec<[u16; 2]> = crossings
            .iter()
            .map(|&of| grid.edge_of(of).expect("an edge").0)
            .map(|edge| {
                [
                    grid.lists().edges[2 * edge],
                    grid.lists().edges[2 * edge + 1],
                ]
            })
            .collect();
        let of_all = |node: &u16| edges.iter().all(|ends| ends.contains(node));
        let corner = match edges[0].into_iter().find(of_all) {
            Some(corner) if edges[0] != edges[1] && edges[1] != edges[2] => corner,
            _ => continue,
        };
        let (edge, index) = grid.edge_of(crossings[0]).expect("an edge");
        let count = usize::from(grid.lists().counts[edge]);
        let from_corner = if edges[0][0] == corner {
            index
        } else {
            count - 1 - index
        };
        let side = (usize::from(shading[usize::from(corner)]) + from_corner) % 2;
        let [a, b, c] = placed.corners(&triangle);
        let at = citternblaze::space::node(&placed.nodes, corner);
        // from above a, b, c run counter-clockwise
        let above = -citternblaze::space::six_volumes([at, a, b, c]) < 0.0;
        assert_eq!(above, side == 1, "{triangle:?}");
        looked += 1;
    }
    looked
}

#[test]
fn random_shaded_grids_are_wound_from_side_0() {
    let mut random = Random(11);
    let [mut sides, mut looked] = [0, 0];
    for at in 0..200 {
        let cubes = Cubes::new([1, 1 + at % 2, 1 + at % 3], 10.0);
        let nodes = cubes.places.len();
        let numbers = shuffled(&mut random, nodes);
        let mirror = if at % 5 == 0 { -1.0 } else { 1.0 };
        let cubes = cubes
            .renumbered(&numbers)
            .moved(|[x, y, z]| [mirror * x + 0.1 * y, y, z]);
        let written = shaded(&mut random, &cubes, [1, 2, 5, 9][at % 4]);
        let read = source(&written);
        let placed = PlacedMesh::of(&read, false).expect("a placed mesh");
        assert!(placed
            .orientation
            .of
            .iter()
            .all(|of| *of == Winding::Shaded));
        sides += once_each_way(&placed.mesh, &placed.orientation);
        looked += seen_from_side_0(&placed, &read.grid);
    }
    assert!(sides > 20_000 && looked > 2_000, "{sides} {looked}");
}

#[test]
fn a_ball_has_its_volume() {
    let radius = 13.0;
    let whole = 4.0 / 3.0 * PI * f64::powi(radius, 3);
    let crossed = ball([20.3, 19.6, 20.1], radius);
    let mirror = |[x, y, z]: [f64; 3]| [40.0 - x, y, z];
    let cubes = || Cubes::new([6; 3], 40.0 / 6.0);
    for cubes in [cubes(), cubes().moved(mirror)] {
        let placed = placed(&cubes.text(&crossed));
        assert_eq!(placed.surfaces.list.len(), 1);
        let surface = &placed.surfaces.list[0];
        assert!(surface.is_closed() && !surface.one_sided);
        assert_eq!([surface.euler(), surface.holes as i64], [2, 0]);
        let measure = placed.measures()[0];
        let volume = measure.volume.expect("a volume");
        assert!(
            volume > 0.85 * whole && volume < whole,
            "{volume} of {whole}"
        );
        let area = 4.0 * PI * radius * radius;
        assert!(measure.area > 0.9 * area && measure.area < area);
        for axis in 0..3 {
            let high = measure.high[axis] - measure.low[axis];
            assert!(high > 1.8 * radius && high <= 2.0 * radius, "{high}");
        }
    }
}

/// Where the lowest node lies inside, side 0 is inside.
#[test]
fn a_ball_round_the_lowest_node_is_seen_from_inside() {
    let cubes = Cubes::new([4; 3], 10.0);
    let last = cubes.places.len() as u16 - 1;
    let numbers: Vec<u16> = (0..=last)
        .map(|node| (node + last / 2 + 1) % (last + 1))
        .collect();
    let placed = placed(&cubes.renumbered(&numbers).text(ball([20.0; 3], 14.0)));
    let volume = placed.measures()[0].volume.expect("a volume");
    assert!(volume < -9_000.0, "{volume}");
}

/// A ring round the third axis, by the places where a function of place changes sign.
fn ring(at: [f64; 3]) -> f64 {
    let [x, y, z] = [at[0] - 20.1, at[1] - 20.2, at[2] - 12.4];
    (x.hypot(y) - 11.5).hypot(z) - 6.0
}

#[test]
fn a_ring_has_a_hole_through_it() {
    let cubes = Cubes::new([8, 8, 5], 5.0);
    let crossed = |from: [f64; 3], to: [f64; 3]| {
        let (one, other) = (ring(from), ring(to));
        if (one < 0.0) == (other < 0.0) {
            return Vec::new();
        }
        vec![(one / (one - other)).clamp(0.01, 0.99)]
    };
    let placed = placed(&cubes.text(crossed));
    assert_eq!(placed.surfaces.list.len(), 1);
    assert_eq!(placed.surfaces.list[0].euler(), 0);
    let whole = 2.0 * PI * PI * 11.5 * 36.0;
    let volume = placed.measures()[0].volume.expect("a volume");
    assert!(
        volume > 0.85 * whole && volume < 1.05 * whole,
        "{volume} of {whole}"
    );
}

#[test]
fn a_slab_is_two_disks() {
    let cubes = Cubes::new([3, 3, 3], 10.0);
    let normal = [0.1, 0.05, 1.0];
    let (low, high) = (plane(normal, 11.3), plane(normal, 12.1));
    let both = |from, to| {
        let mut all = low(from, to);
        all.extend(high(from, to));
        all.sort_by(f64::total_cmp);
        all
    };
    let placed = placed(&cubes.text(both));
    let measures = placed.measures();
    assert_eq!(placed.surfaces.list.len(), 2);
    for (surface, measure) in placed.surfaces.list.iter().zip(measures) {
        assert_eq!([surface.holes as i64, surface.euler()], [1, 1]);
        assert!(!surface.is_closed() && measure.volume.is_none());
        let area = 900.0 * (1.0 + 0.01 + 0.0025_f64).sqrt();
        assert!((measure.area - area).abs() < 1e-9 * area);
    }
    // below the first and above the second is side 0
    let normal = |first: usize| {
        let triangle = placed.orientation.wound(first, placed.mesh.triangle(first));
        let [a, b, c] = placed.corners(&triangle);
        citternblaze::space::cross(
            citternblaze::space::less(b, a),
            citternblaze::space::less(c, a),
        )[2]
    };
    let [lower, upper] = [0, 1].map(|at| normal(placed.surfaces.list[at].first));
    assert!(lower < 0.0 && upper > 0.0);
}

/// A ring of sections, each a square of two triangles, turned by half a circle on the
/// way round, with a film between its upper and its lower nodes.
fn band(sections: u16, half_turns: u16) -> String {
    let node = |section: u16, at: u16| {
        // after the way round the square lies on itself: turned or not
        let passed = section / sections * half_turns % 2;
        let at = if passed == 1 { 3 - at } else { at };
        section % sections * 4 + at
    };
    // upper 0 and 1, lower 2 and 3; a half turn takes 0 to 3 and 1 to 2
    let mut cells = Vec::new();
    let mut counts: BTreeMap<[u16; 2], usize> = BTreeMap::new();
    for section in 0..sections {
        for [x, y, z] in [[0, 1, 3], [0, 2, 3]] {
            let mut own = [x, y, z];
            own.sort_by_key(|&at| node(section, at));
            let [x, y, z] = own;
            let at = |next: u16, of: u16| (node(section + next, of), of < 2);
            for cell in [
                [at(0, x), at(0, y), at(0, z), at(1, z)],
                [at(0, x), at(0, y), at(1, y), at(1, z)],
                [at(0, x), at(1, x), at(1, y), at(1, z)],
            ] {
                let mut cell = cell;
                cell.sort_unstable();
                for low in 0..4 {
                    for high in low + 1..4 {
                        let ends = [cell[low].0, cell[high].0];
                        let count = usize::from(cell[low].1 != cell[high].1);
                        assert_eq!(*counts.entry(ends).or_insert(count), count);
                    }
                }
                cells.push(cell.map(|of| of.0));
            }
        }
    }
    let place = |section: u16, at: u16| {
        let round = 2.0 * PI * f64::from(section) / f64::from(sections);
        let turn =
            round * f64::from(half_turns) / 2.0 + [0.75, 0.25, 1.25, 1.75][usize::from(at)] * PI;
        let (out, up) = (10.0 + 2.0 * turn.cos(), 2.0 * turn.sin());
        [out * round.cos(), out * round.sin(), up]
    };
    let places = (0..sections).flat_map(|of| (0..4).map(move |at| (node(of, at), (of, at))));
    let places = places
        .map(|(node, (of, at))| (node, place(of, at)))
        .collect();
    text_of(&cells, &places, |ends| vec![0.5; counts[&ends]])
}

#[test]
fn a_moebius_band_is_told() {
    for sections in [3, 8, 12] {
        let read = source(&band(sections, 1));
        let placed = PlacedMesh::of(&read, false).expect("a placed mesh");
        assert_eq!(placed.shading, None);
        assert_eq!(placed.surfaces.list.len(), 1);
        let surface = &placed.surfaces.list[0];
        assert!(surface.one_sided && !surface.is_closed());
        assert_eq!([surface.holes as i64, surface.euler()], [1, 0]);
        assert_eq!(placed.orientation.of, [Winding::OneSided]);
        assert!(placed.orientation.turned.iter().all(|turned| !turned));
        assert!(surface_list::in_words(&placed).contains("one side only"));
    }
}

/// With two half turns, or none, it has two sides, and two holes.
#[test]
fn a_band_with_two_sides_is_told() {
    for half_turns in [0, 2] {
        let read = source(&band(10, half_turns));
        let placed = PlacedMesh::of(&read, false).expect("a placed mesh");
        assert!(placed.shading.is_some());
        let surface = &placed.surfaces.list[0];
        assert!(!surface.one_sided);
        assert_eq!([surface.holes as i64, surface.euler()], [2, 0]);
        assert!(once_each_way(&placed.mesh, &placed.orientation) > 20);
    }
}

/// Two scoops with equal ends are not one side: the triangles of a cell with count 2
/// on one edge hang together by their inner sides alone.
#[test]
fn equal_ends_are_not_one_side() {
    let two = "citternblaze grid\ncell 0 1 2 3\nedge 0 1 2\nedge 0 2 0\nedge 0 3 0\n\
               edge 1 2 0\nedge 1 3 0\nedge 2 3 0\n";
    let read = source(two);
    let surfaces = Surfaces::of(&Mesh::of(&read.grid).expect("a mesh"));
    assert_eq!(surfaces.list.len(), 1);
    let surface = &surfaces.list[0];
    assert_eq!(
        [surface.open_sides, surface.inner_sides, surface.holes],
        [2, 2, 1]
    );
    assert_eq!(surface.euler(), 1);
}

/// Words that no mesh has: sides in three triangles, sides with one end, a triangle
/// with a side twice.
#[test]
fn any_words_have_surfaces() {
    let mut random = Random(5);
    for _ in 0..400 {
        let number = random.below(12);
        let mut word = || random.below(3) as u32;
        let triangles: Vec<Triangle> = (0..number)
            .map(|_| triangle([0; 11].map(|_: u32| word())))
            .collect();
        let surfaces = Surfaces::of_triangles(&triangles);
        assert_eq!(surfaces.of.len(), number);
        let all: usize = surfaces.list.iter().map(|of| of.triangles).sum();
        assert_eq!(all, number);
    }
    let crowded =
        [[0, 1], [0, 2], [0, 3]].map(|[a, b]| triangle([0, 0, a, b, 9, 7, 7, 1, b, 2, b]));
    let surfaces = Surfaces::of_triangles(&crowded);
    assert_eq!(
        [surfaces.list.len(), surfaces.list[0].crowded_sides],
        [1, 1]
    );
    assert!(!surfaces.list[0].is_closed());
}
