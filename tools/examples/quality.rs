//! What all crossings keep of a shape, and what one crossing to an edge keeps, on the
//! same grids: the tables of docs/QUALITY.md, which scripts/quality.py writes.
//!
//!     quality FOLDER    makes FOLDER/NAME.shapes or NAME.obj for each shape, and
//!                       prints a line of numbers for each shape, grid and way
//!
//! Distances are means over points drawn at random with a fixed seed, 2,000 each way:
//! from the shape to the nearest place of the mesh, and from the mesh to the shape. A
//! shape is kept where each of its surfaces has a surface of the mesh for itself, from
//! which it is nowhere far: both mean distances are below a quarter of a cube.

use std::time::Instant;
use std::{env, fs};

use citternblaze::bundle::pack;
use citternblaze::calls::{bundle_read, Grid};
use citternblaze::mesh::Mesh;
use citternblaze::placed;
use citternblaze::scan::background::{Background, Cubes, Parting};
use citternblaze::scan::bins::{Bins, Extent};
use citternblaze::scan::edges::{Scan, Scene};
use citternblaze::scan::lattice::Lattice;
use citternblaze::scan::mesh_file::{self, MeshFile};
use citternblaze::scan::shapes::{self, Surface};
use citternblaze::scan::triangles::Triangles;
use citternblaze::space::{cross, dot, length, less, plus, times, Place};
use citternblaze::surfaces::Surfaces;

/// The side of the box that all shapes lie in, and how many cubes it has along it.
const BOX: f64 = 60.0;
const ALONG: [u32; 3] = [2, 4, 6];

/// Points drawn on a shape or a mesh for a mean distance, and for what is kept.
const POINTS: usize = 2_000;
const FEW_POINTS: usize = 250;

/// A name and the lines of the text of shapes; the last is a mesh.
const SHAPES: [(&str, &str); 12] = [
    (
        "four slabs in one cube",
        "slab 0.01 0.02 1 32.6 33\nslab 0 0.015 1 34.2 34.7\nslab -0.01 0.01 1 35.6 35.9\n\
         slab 0.005 -0.01 1 37.4 38.1",
    ),
    ("slab, 8 thick", "slab 0.1 0.05 1 20 28"),
    ("slab, 3 thick", "slab 0.1 0.05 1 20 23"),
    ("slab, 1 thick", "slab 0.1 0.05 1 20 21"),
    ("slab, 0.1 thick", "slab 0.1 0.05 1 20 20.1"),
    (
        "three balls, one in the other",
        "ball 31 29 30 22\nball 31 29 30 20.5\nball 31 29 30 19",
    ),
    (
        "five small balls",
        "ball 14 14 14 6\nball 46 15 17 6\nball 16 44 30 6\nball 45 45 15 6\nball 31 29 46 6",
    ),
    (
        "pipe",
        "cylinder 29 31 30 0.3 1 0.2 8\ncylinder 29 31 30 0.3 1 0.2 7",
    ),
    ("torus", "torus 30 31 29 0.3 0.2 1 18 4"),
    ("waves", "waves 0.02 0.03 1 29.5 1 0.3 0 14 5 0.4"),
    ("gyroid film", "gyroid 3 5 7 40 0.12\ngyroid 3 5 7 40 -0.12"),
    ("tube of a torus knot", ""),
];

/// A small random generator (splitmix64).
struct Random(u64);

impl Random {
    /// A number from 0 to 1.
    fn number(&mut self) -> f64 {
        self.0 = self.0.wrapping_add(0x9e37_79b9_7f4a_7c15);
        let mut mixed = self.0;
        mixed = (mixed ^ (mixed >> 30)).wrapping_mul(0xbf58_476d_1ce4_e5b9);
        mixed = (mixed ^ (mixed >> 27)).wrapping_mul(0x94d0_49bb_1331_11eb);
        ((mixed ^ (mixed >> 31)) >> 11) as f64 / (1_u64 << 53) as f64
    }

    fn place(&mut self) -> Place {
        [0; 3].map(|_| BOX * self.number())
    }
}

/// Triangles in space, to be near to.
struct Sheet {
    triangles: Vec<[Place; 3]>,
    bins: Bins,
}

/// A lattice for the boxes of triangles: coarse, so that every box is a little large.
fn lattice() -> Lattice {
    Lattice::for_numbers(2.0 * BOX)
}

impl Sheet {
    fn of(triangles: Vec<[Place; 3]>) -> Sheet {
        let extent = |of: &[Place; 3]| Extent::of(&of.map(|place| lattice().point(place)));
        let bins = Bins::of(triangles.iter().map(extent).collect());
        Sheet { triangles, bins }
    }

    fn area(triangle: &[Place; 3]) -> f64 {
        let [a, b, c] = *triangle;
        0.5 * length(cross(less(b, a), less(c, a)))
    }

    /// Points on the triangles, by area.
    fn points(&self, number: usize, random: &mut Random) -> Vec<Place> {
        let mut sums = Vec::new();
        let mut all = 0.0;
        for triangle in &self.triangles {
            all += Sheet::area(triangle);
            sums.push(all);
        }
        let mut point = || {
            let at = random.number() * all;
            let [a, b, c] =
                self.triangles[sums.partition_point(|&sum| sum <= at).min(sums.len() - 1)];
            let (mut u, mut v) = (random.number(), random.number());
            if u + v > 1.0 {
                (u, v) = (1.0 - u, 1.0 - v);
            }
            plus(a, plus(times(less(b, a), u), times(less(c, a), v)))
        };
        (0..number).map(|_| point()).collect()
    }

    /// How far a place is from the nearest triangle: looked for in boxes round it, each
    /// twice as wide as the one before.
    fn distance(&mut self, place: Place) -> f64 {
        let mut reach = 1.0;
        loop {
            let ends = [-reach, reach].map(|by| lattice().point(place.map(|number| number + by)));
            let near = self.bins.near(Extent::of(&ends));
            let distances = near.map(|at| to_triangle(place, self.triangles[at as usize]));
            let least = distances.fold(f64::INFINITY, f64::min);
            if least <= reach || reach > 4.0 * BOX {
                return least;
            }
            reach *= 2.0;
        }
    }
}

/// How far a place is from a triangle.
fn to_triangle(place: Place, [a, b, c]: [Place; 3]) -> f64 {
    let across = cross(less(b, a), less(c, a));
    let within =
        |from: Place, to: Place| dot(cross(across, less(to, from)), less(place, from)) >= 0.0;
    if length(across) > 0.0 && within(a, b) && within(b, c) && within(c, a) {
        return dot(across, less(place, a)).abs() / length(across);
    }
    let sides = [[a, b], [b, c], [c, a]];
    sides
        .iter()
        .map(|side| to_side(place, *side))
        .fold(f64::INFINITY, f64::min)
}

fn to_side(place: Place, [from, to]: [Place; 2]) -> f64 {
    let way = less(to, from);
    let share = match dot(way, way) {
        size if size > 0.0 => (dot(less(place, from), way) / size).clamp(0.0, 1.0),
        _ => 0.0,
    };
    length(less(place, plus(from, times(way, share))))
}

/// A surface that there is.
enum True {
    Stated(Surface),
    Mesh(Sheet),
}

/// The place of a stated surface that a place is drawn to along the steepest way.
fn foot(surface: &Surface, place: Place) -> Option<Place> {
    const STEP: f64 = 1e-5;
    let mut at = place;
    for _ in 0..30 {
        let value = surface.value(at);
        let slope = |axis: usize| {
            let mut beside = [at, at];
            beside[0][axis] -= STEP;
            beside[1][axis] += STEP;
            (surface.value(beside[1]) - surface.value(beside[0])) / (2.0 * STEP)
        };
        let steepest = [slope(0), slope(1), slope(2)];
        let size = dot(steepest, steepest);
        if size == 0.0 {
            return None;
        }
        let step = times(steepest, value / size);
        at = less(at, step);
        if length(step) < 1e-9 {
            return Some(at);
        }
    }
    None
}

fn in_box(place: &Place) -> bool {
    place.iter().all(|number| (0.0..=BOX).contains(number))
}

impl True {
    /// Points on the surface within the box.
    fn points(&self, number: usize, random: &mut Random) -> Vec<Place> {
        match self {
            True::Mesh(sheet) => sheet.points(number, random),
            True::Stated(surface) => {
                let mut points = Vec::new();
                while points.len() < number {
                    let start = random.place();
                    points.extend(foot(surface, start).filter(in_box));
                }
                points
            }
        }
    }

    fn distance(&mut self, place: Place) -> f64 {
        match self {
            True::Mesh(sheet) => sheet.distance(place),
            True::Stated(surface) => match foot(surface, place) {
                Some(foot) => length(less(place, foot)),
                None => BOX,
            },
        }
    }
}

fn mean(numbers: impl Iterator<Item = f64>) -> f64 {
    let all: Vec<f64> = numbers.collect();
    all.iter().sum::<f64>() / all.len() as f64
}

/// A shape: its surfaces, each with the number of the thing that it bounds.
struct Shape {
    surfaces: Vec<(usize, True)>,
    scene: Scene,
}

/// The tube round a knot that goes twice round a torus's axis and three times through.
fn knot() -> MeshFile {
    let turn = |share: f64| 2.0 * std::f64::consts::PI * share;
    let middle = |t: f64| {
        let far = 17.0 + 7.0 * (3.0 * t).cos();
        [
            30.0 + far * (2.0 * t).cos(),
            30.5 + far * (2.0 * t).sin(),
            29.5 + 9.0 * (3.0 * t).sin(),
        ]
    };
    let (along, round) = (600, 24);
    let mut mesh = MeshFile::default();
    for step in 0..along {
        let t = turn(f64::from(step) / f64::from(along));
        let way = less(middle(t + 1e-4), middle(t - 1e-4));
        let aside = cross(way, less(middle(t), [30.0, 30.5, 29.5]));
        let up = cross(aside, way);
        let [aside, up] = [aside, up].map(|of| times(of, 1.0 / length(of)));
        for part in 0..round {
            let angle = turn(f64::from(part) / f64::from(round));
            let off = plus(
                times(aside, 1.6 * angle.cos()),
                times(up, 1.6 * angle.sin()),
            );
            mesh.places.push(plus(middle(t), off));
        }
    }
    let corner = |step: u32, part: u32| (step % along) * round + part % round;
    for step in 0..along {
        for part in 0..round {
            let four = [(0, 0), (1, 0), (1, 1), (0, 1)].map(|(a, b)| corner(step + a, part + b));
            mesh.add_polygon(&four);
        }
    }
    mesh
}

fn obj(mesh: &MeshFile) -> String {
    let vertices = mesh
        .places
        .iter()
        .map(|[x, y, z]| format!("v {x} {y} {z}\n"));
    let faces = mesh.triangles.iter().map(|of| {
        let [a, b, c] = of.map(|corner| corner + 1);
        format!("f {a} {b} {c}\n")
    });
    vertices.chain(faces).collect()
}

/// The file of a shape, and what is to be found of it on a grid.
fn shape(at: usize, folder: &str, background: &Background) -> Shape {
    let (name, lines) = SHAPES[at];
    let file = format!("{folder}/{}", name.replace(',', "").replace(' ', "-"));
    let mut scene = Scene::default();
    if lines.is_empty() {
        let text = obj(&knot());
        fs::write(format!("{file}.obj"), &text).expect("a file");
        let mesh = mesh_file::read(text.as_bytes()).expect("a mesh");
        scene.mesh = Some(Triangles::of(&mesh, background.places.values()));
        let place = |of: &[u32; 3]| of.map(|corner| mesh.places[corner as usize]);
        let sheet = Sheet::of(mesh.triangles.iter().map(place).collect());
        let surfaces = vec![(0, True::Mesh(sheet))];
        return Shape { surfaces, scene };
    }
    let text = format!("citternblaze shapes\n{lines}\n");
    fs::write(format!("{file}.shapes"), &text).expect("a file");
    scene.surfaces = shapes::read(text.as_bytes()).expect("shapes");
    let surfaces = scene
        .surfaces
        .iter()
        .map(|of| (of.line, True::Stated(of.clone())));
    Shape {
        surfaces: surfaces.collect(),
        scene,
    }
}

/// A mesh that was made, and how long its calls took.
struct Made {
    surfaces: Vec<Sheet>,
    whole: Sheet,
    milliseconds: f64,
}

fn made(scan: &Scan, background: &Background) -> Made {
    let text = scan.text(background);
    let lists = bundle_read(&pack(&text).expect("a bundle")).expect("lists");
    let grid = Grid::open(lists).expect("a grid");
    let mesh = Mesh::of(&grid).expect("a mesh");
    let points = placed::points(&grid, &text, &mesh).expect("points");
    let mut times: Vec<f64> = (0..5)
        .map(|_| {
            let start = Instant::now();
            let words = grid.mesh().expect("a mesh");
            placed::points(&grid, &text, &mesh).expect("points");
            assert_eq!(words.len(), 11 * mesh.size());
            start.elapsed().as_secs_f64() * 1e3
        })
        .collect();
    times.sort_by(f64::total_cmp);
    let surfaces = Surfaces::of(&mesh);
    let mut parts = vec![Vec::new(); surfaces.list.len()];
    for (triangle, &of) in mesh.triangles().zip(&surfaces.of) {
        parts[of].push(triangle.corners.map(|corner| points[mesh.point(corner)]));
    }
    Made {
        whole: Sheet::of(parts.iter().flatten().copied().collect()),
        surfaces: parts.into_iter().map(Sheet::of).collect(),
        milliseconds: times[2],
    }
}

/// How many things have a surface of the mesh for each of their own.
fn kept(shape: &mut Shape, made: &mut Made, cube: f64, random: &mut Random) -> [usize; 2] {
    let mut taken = vec![false; made.surfaces.len()];
    let mut things: Vec<(usize, bool)> = Vec::new();
    for (thing, surface) in &mut shape.surfaces {
        let own = surface.points(FEW_POINTS, random);
        let mut found = None;
        for (at, sheet) in made
            .surfaces
            .iter_mut()
            .enumerate()
            .filter(|of| !taken[of.0])
        {
            let back = sheet.points(FEW_POINTS, random);
            let near = mean(back.iter().map(|of| surface.distance(*of))) < 0.25 * cube
                && mean(own.iter().map(|of| sheet.distance(*of))) < 0.25 * cube;
            if near {
                found = Some(at);
                break;
            }
        }
        found.into_iter().for_each(|at| taken[at] = true);
        match things.iter_mut().find(|of| of.0 == *thing) {
            Some(of) => of.1 &= found.is_some(),
            None => things.push((*thing, found.is_some())),
        }
    }
    [things.iter().filter(|of| of.1).count(), things.len()]
}

/// Mean distances from the shape to the mesh and back.
fn distances(shape: &mut Shape, made: &mut Made, random: &mut Random) -> [f64; 2] {
    let each = POINTS / shape.surfaces.len();
    let own: Vec<Place> = shape
        .surfaces
        .iter()
        .flat_map(|of| of.1.points(each, random))
        .collect();
    let there = mean(own.iter().map(|of| made.whole.distance(*of)));
    let back = made.whole.points(POINTS, random);
    let least = |of: &Place| {
        let all = shape
            .surfaces
            .iter_mut()
            .map(|surface| surface.1.distance(*of));
        all.fold(f64::INFINITY, f64::min)
    };
    [there, mean(back.iter().map(least))]
}

fn line(name: &str, along: u32, way: &str, shape: &mut Shape, made: &mut Made) {
    let mut random = Random(20_261_117);
    let triangles = made.whole.triangles.len();
    let [kept, all] = kept(shape, made, BOX / f64::from(along), &mut random);
    let [there, back] = match triangles {
        0 => ["-".to_string(), "-".to_string()],
        _ => distances(shape, made, &mut random).map(|of| format!("{of:.3}")),
    };
    let took = made.milliseconds;
    println!("{name}\t{along}\t{way}\t{kept}\t{all}\t{there}\t{back}\t{triangles}\t{took:.2}");
}

fn main() {
    let folder = env::args().nth(1).expect("a folder");
    let quick = env::args().nth(2).as_deref() == Some("--quick");
    for (at, (name, _)) in SHAPES.iter().enumerate() {
        for along in ALONG.into_iter().filter(|&along| !quick || along == 4) {
            let cubes = Cubes {
                numbers: [along; 3],
                size: BOX / f64::from(along),
                origin: [0.0; 3],
                parting: Parting::Six,
            };
            let background = cubes.background().expect("a box");
            let mut shape = shape(at, &folder, &background);
            let scan = Scan::of(&background, &mut shape.scene).expect("a scan");
            for (way, scan) in [("classic", scan.classic()), ("all", scan)] {
                let mut made = made(&scan, &background);
                line(name, along, way, &mut shape, &mut made);
            }
        }
    }
}
