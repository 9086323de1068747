//! Scans of shapes and of triangle meshes: counts against formulas and against sides
//! of places, ties, limits, files of all forms, and files that are broken.

mod random;

use std::fs;
use std::process::{Command, Output};

use citternblaze::bundle::pack;
use citternblaze::calls::{bundle_read, Grid};
use citternblaze::mesh::Mesh;
use citternblaze::placed;
use citternblaze::scan::background::{Background, Cubes, Parting};
use citternblaze::scan::edges::{Scan, Scene};
use citternblaze::scan::mesh_file::{self, MeshFile};
use citternblaze::scan::shapes::{self, Surface};
use citternblaze::scan::spread::spread;
use citternblaze::scan::triangles::Triangles;
use citternblaze::space::{dot, less, six_volumes as six_volumes_at, Place};
use citternblaze::text::{self, Text};
use random::Random;

fn cubes(numbers: [u32; 3], size: f64, parting: Parting) -> Background {
    let origin = [0.0; 3];
    let cubes = Cubes {
        numbers,
        size,
        origin,
        parting,
    };
    cubes.background().expect("a box")
}

fn surfaces(lines: &str) -> Vec<Surface> {
    shapes::read(format!("citternblaze shapes\n{lines}\n").as_bytes()).expect("shapes")
}

fn of_shapes(background: &Background, lines: &str) -> Scan {
    let mut scene = Scene {
        surfaces: surfaces(lines),
        mesh: None,
    };
    Scan::of(background, &mut scene).expect("a scan")
}

fn of_mesh(background: &Background, mesh: &MeshFile) -> Scan {
    let mut scene = Scene {
        surfaces: Vec::new(),
        mesh: Some(Triangles::of(mesh, background.places.values())),
    };
    Scan::of(background, &mut scene).expect("a scan")
}

/// The grid of a scan, which the library opens, places and, where it must, shades.
fn opened(scan: &Scan, background: &Background) -> (Grid, Text) {
    let text = scan.text(background);
    let lists = bundle_read(&pack(&text).expect("a bundle")).expect("lists");
    let grid = Grid::open(lists).expect("a grid");
    let mesh = Mesh::of(&grid).expect("a mesh");
    placed::points(&grid, &text, &mesh).expect("points");
    (grid, text)
}

fn at([from, to]: [Place; 2], share: f64) -> Place {
    [0, 1, 2].map(|axis| from[axis] + share * (to[axis] - from[axis]))
}

#[test]
fn a_box_has_its_cells_and_edges() {
    for (parting, cells, edges) in [(Parting::Six, 6, 19), (Parting::Five, 5, 18)] {
        let one = cubes([1; 3], 1.0, parting);
        assert_eq!((one.cells.len(), one.edges().len()), (cells, edges));
        let many = cubes([3, 4, 5], 2.0, parting);
        assert_eq!(many.cells.len(), 60 * cells);
        // the cells fill the box
        let volume = |cell: &[u16; 4]| six_volumes_at(cell.map(|node| many.places[&node])).abs();
        let six = many.cells.iter().map(volume).sum::<f64>();
        assert_eq!(six / 6.0, 60.0 * 8.0);
        opened(&of_shapes(&many, "ball 3 4 5 2.5"), &many);
    }
}

#[test]
fn planes_cross_by_formula() {
    let background = cubes([2, 2, 2], 8.0, Parting::Six);
    let scan = of_shapes(&background, "plane 0 0 2 6\nslab 0 0 1 10 11");
    for edge in &scan.edges {
        let [low, high] = edge.ends.map(|node| background.places[&node][2]);
        let planes = [6.0, 10.0, 11.0].into_iter();
        let crossed = planes.filter(|&z| (low < z) != (high < z));
        let mut wanted: Vec<f64> = crossed.map(|z| (z - low) / (high - low)).collect();
        wanted.sort_by(f64::total_cmp);
        assert_eq!(edge.fractions, wanted);
    }
    assert_eq!(scan.moved, 0);
}

/// A ball is crossed twice, once or never by the quadratic formula.
#[test]
fn balls_cross_by_formula() {
    let background = cubes([5, 4, 3], 1.0, Parting::Five);
    let mut twice = 0;
    for (centre, radius) in [([2.3, 1.9, 1.4], 1.37), ([2.0, 2.1, 1.5], 0.42)] {
        let [x, y, z] = centre;
        let scan = of_shapes(&background, &format!("ball {x} {y} {z} {radius}"));
        for edge in &scan.edges {
            let [from, to] = edge.ends.map(|node| background.places[&node]);
            let wanted = of_ball([from, to], centre, radius);
            assert_eq!(edge.fractions.len(), wanted.len());
            let near = |(a, b): (&f64, &f64)| (a - b).abs() < 1e-13;
            assert!(edge.fractions.iter().zip(&wanted).all(near));
            twice += usize::from(wanted.len() == 2);
        }
    }
    assert!(twice > 2, "{twice}");
}

fn of_ball([from, to]: [Place; 2], centre: Place, radius: f64) -> Vec<f64> {
    let (m, d) = (less(from, centre), less(to, from));
    let (a, b, c) = (dot(d, d), dot(m, d), dot(m, m) - radius * radius);
    let root = (b * b - a * c).sqrt();
    let both = [(-b - root) / a, (-b + root) / a].into_iter();
    both.filter(|s| *s > 0.0 && *s < 1.0).collect()
}

fn some_shape(random: &mut Random) -> String {
    let mut number = |low: f64, high: f64| format!("{}", low + random.fraction() * (high - low));
    let centre: Vec<String> = (0..3).map(|_| number(0.0, 6.0)).collect();
    let way: Vec<String> = (0..3).map(|_| number(-1.0, 1.0)).collect();
    let (centre, way) = (centre.join(" "), way.join(" "));
    let (far, small) = (number(1.0, 4.0), number(0.05, 0.9));
    let lines = [
        format!("plane {way} {small}"),
        format!("slab {way} {small} {far}"),
        format!("ball {centre} {far}"),
        format!("cylinder {centre} {way} {small}"),
        format!("torus {centre} {way} {far} {small}"),
        format!("waves {way} {small} {way} {small} {small} 0.3"),
        format!("waves {way} {far} 1 2 3 {small} {far} 1"),
        format!("gyroid {centre} {far} {small}"),
    ];
    lines[random.below(lines.len())].clone()
}

/// Of each surface every crossing is found: between two found ones, and before the
/// first and after the last, all places are on one side, and the sides alternate.
#[test]
fn sides_change_at_crossings_and_nowhere_else() {
    let mut random = Random(20261117);
    let background = cubes([3, 3, 3], 2.0, Parting::Six);
    let mut most = 0;
    for _ in 0..60 {
        let shape = some_shape(&mut random);
        for surface in surfaces(&shape) {
            for ends in background.edges() {
                let places = ends.map(|node| background.places[&node]);
                let mut found = surface.crossings(places).expect("crossings");
                spread(&mut found);
                most = most.max(found.len());
                let mut side = surface.side(places[0]);
                let mut low = 0.0;
                for &high in found.iter().chain([&1.0]) {
                    for step in 1..32 {
                        let share = low + (high - low) * f64::from(step) / 32.0;
                        // places are rounded: next to a crossing they may be on either side
                        let clear = (share - low).min(high - share) > 1e-9;
                        assert!(!clear || surface.side(at(places, share)) == side, "{shape}");
                    }
                    (low, side) = (high, !side);
                }
                assert_eq!(surface.side(places[1]), !side, "{shape}");
            }
        }
    }
    assert!(most > 8, "{most}");
}

/// The shading call gives each node the sides that the surfaces give it.
#[test]
fn shadings_are_the_sides_of_the_nodes() {
    let mut random = Random(7);
    for parting in [Parting::Six, Parting::Five] {
        let background = cubes([4, 3, 4], 1.5, parting);
        for _ in 0..20 {
            let lines: Vec<String> = (0..3).map(|_| some_shape(&mut random)).collect();
            let lines = lines.join("\n");
            let scan = of_shapes(&background, &lines);
            let (grid, _) = opened(&scan, &background);
            let shading = grid.shading().expect("a shading");
            let all = surfaces(&lines);
            let side = |node: u16| {
                let place = background.places[&node];
                all.iter().fold(false, |side, of| side ^ of.side(place))
            };
            for &node in background.places.keys() {
                let differs = side(node) != side(0);
                assert_eq!(shading[usize::from(node)], u8::from(differs), "{lines}");
            }
        }
    }
}

/// Planes through nodes, and a ball that touches planes of nodes: each crossing is
/// kept, moved off its node.
#[test]
fn crossings_at_nodes_are_kept() {
    let background = cubes([4, 4, 4], 10.0, Parting::Six);
    let scan = of_shapes(
        &background,
        "plane 0 0 1 20\nplane 0 0 1 20\nplane 1 0 0 0\nball 20 20 20 10",
    );
    let (grid, _) = opened(&scan, &background);
    grid.shading().expect("a shading");
    assert!(scan.moved > 0 && scan.first_moved.is_some());
    let twice = of_shapes(&background, "plane 0 0 1 15\nplane 0 0 1 15");
    assert_eq!(twice.moved, twice.crossings() / 2);
    opened(&twice, &background);
}

#[test]
fn fractions_are_spread() {
    for given in [
        vec![0.0, 0.0, 1.0, 1.0],
        vec![0.5; 6],
        vec![1.0; 3],
        vec![f64::MIN_POSITIVE, 0.25, 0.25],
    ] {
        let mut spread_out = given.clone();
        assert!(spread(&mut spread_out) > 0);
        assert!(spread_out[0] > 0.0 && spread_out[spread_out.len() - 1] < 1.0);
        assert!(spread_out.windows(2).all(|two| two[0] < two[1]));
        let near = |(a, b): (&f64, &f64)| (a - b).abs() < 1e-15;
        assert!(spread_out.iter().zip(&given).all(near));
    }
    let mut apart = vec![0.75, 0.25, 0.5];
    assert_eq!(spread(&mut apart), 0);
    assert_eq!(apart, [0.25, 0.5, 0.75]);
}

#[test]
fn classic_keeps_odd_edges() {
    let background = cubes([2, 2, 2], 10.0, Parting::Six);
    let scan = of_shapes(
        &background,
        "slab 0 0 1 3 4\nplane 0 0 1 15\nslab 0 0 1 16 17",
    );
    let classic = scan.classic();
    for (all, one) in scan.edges.iter().zip(&classic.edges) {
        assert_eq!(one.fractions[..], all.fractions[..all.fractions.len() % 2]);
    }
    let kept = classic.crossings();
    assert!(kept > 0 && kept < scan.crossings());
    opened(&classic, &background);
}

/// A box from one corner to another, its faces parted one way or the other.
fn block(low: f64, high: f64, other_way: bool) -> MeshFile {
    let corner = |at: u32| [4, 2, 1].map(|bit| if at & bit == 0 { low } else { high });
    let mut mesh = MeshFile {
        places: (0..8).map(corner).collect(),
        triangles: Vec::new(),
    };
    let faces: [[u32; 4]; 6] = [
        [0, 1, 3, 2],
        [4, 6, 7, 5],
        [0, 4, 5, 1],
        [2, 3, 7, 6],
        [0, 2, 6, 4],
        [1, 5, 7, 3],
    ];
    for [a, b, c, d] in faces {
        match other_way {
            true => mesh.add_polygon(&[b, c, d, a]),
            false => mesh.add_polygon(&[a, b, c, d]),
        }
    }
    mesh
}

/// A mesh whose corners, sides and faces all lie on nodes, edges and faces of the
/// grid: nodes are thought moved towards higher x, y and z, so the lowest corner is
/// inside and all others of its corners are out.
#[test]
fn a_block_that_lies_on_the_grid_has_its_lowest_corners_inside() {
    for parting in [Parting::Six, Parting::Five] {
        let background = cubes([4, 4, 4], 10.0, parting);
        for (low, high, other_way) in [(10.0, 20.0, false), (10.0, 30.0, true), (10.0, 30.0, false)]
        {
            let scan = of_mesh(&background, &block(low, high, other_way));
            let (grid, _) = opened(&scan, &background);
            let shading = grid.shading().expect("a shading");
            for (&node, place) in &background.places {
                let inside = place.iter().all(|&number| low <= number && number < high);
                assert_eq!(shading[usize::from(node)], u8::from(inside), "{place:?}");
            }
        }
    }
}

fn six_volumes([a, b, c, d]: [[i128; 3]; 4]) -> i128 {
    let less = |p: [i128; 3], q: [i128; 3]| [0, 1, 2].map(|axis| p[axis] - q[axis]);
    let ([bx, by, bz], [cx, cy, cz], [dx, dy, dz]) = (less(b, a), less(c, a), less(d, a));
    bx * (cy * dz - cz * dy) + by * (cz * dx - cx * dz) + bz * (cx * dy - cy * dx)
}

/// Whether a place of whole numbers, thought moved, lies in a tetrahedron. Here the
/// step is a real one: a thousandth of a unit, of that, and of that again.
fn inside(corners: [[i128; 3]; 4], place: [i128; 3]) -> bool {
    let fine = corners.map(|corner| corner.map(|number| number * 1_000_000_000));
    let [x, y, z] = place.map(|number| number * 1_000_000_000);
    let moved = [x + 1_000_000, y + 1_000, z + 1];
    let whole = six_volumes(fine) > 0;
    (0..4).all(|at| {
        let mut part = fine;
        part[at] = moved;
        (six_volumes(part) > 0) == whole
    })
}

/// Tetrahedra whose corners are nodes: the shading tells what is inside, by ties that
/// a real step breaks in the same way.
#[test]
fn ties_are_those_of_one_small_step() {
    let mut random = Random(3);
    let background = cubes([3, 3, 3], 1.0, Parting::Six);
    let mut tried = 0;
    while tried < 300 {
        let corners = [0; 4].map(|_| [0; 3].map(|_| random.below(4) as i128));
        if six_volumes(corners) == 0 {
            continue;
        }
        tried += 1;
        let mut mesh = MeshFile {
            places: corners
                .iter()
                .map(|of| of.map(|number| number as f64))
                .collect(),
            triangles: vec![[0, 1, 2], [0, 3, 1], [1, 3, 2], [2, 3, 0]],
        };
        // a triangle without an area, twice: it is met by nothing
        mesh.triangles.extend([[0, 1, 1], [2, 3, 3]]);
        let scan = of_mesh(&background, &mesh);
        let shading = opened(&scan, &background).0.shading().expect("a shading");
        let is_in = |node: &u16| {
            inside(
                corners,
                background.places[node].map(|number| number as i128),
            )
        };
        let first = is_in(&0);
        for node in background.places.keys() {
            let differs = is_in(node) != first;
            assert_eq!(
                shading[usize::from(*node)],
                u8::from(differs),
                "{corners:?}"
            );
        }
    }
}

/// A mesh of a ball, with so many rings and twice as many triangles round each.
fn ball(rings: u32, centre: Place, radius: f64) -> MeshFile {
    let round = 2 * rings;
    let mut mesh = MeshFile::default();
    let place = |up: f64, turn: f64| {
        let way = [up.sin() * turn.cos(), up.sin() * turn.sin(), up.cos()];
        [0, 1, 2].map(|axis: usize| centre[axis] + radius * way[axis])
    };
    mesh.places.push(place(0.0, 0.0));
    for ring in 1..rings {
        for step in 0..round {
            let share = |of: u32, all: u32| std::f64::consts::PI * f64::from(of) / f64::from(all);
            mesh.places
                .push(place(share(ring, rings), 2.0 * share(step, round)));
        }
    }
    mesh.places.push(place(std::f64::consts::PI, 0.0));
    let last = mesh.places.len() as u32 - 1;
    let corner = |ring: u32, step: u32| match ring {
        0 => 0,
        _ if ring == rings => last,
        _ => 1 + (ring - 1) * round + step % round,
    };
    for ring in 0..rings {
        for step in 0..round {
            let [a, b] = [corner(ring, step), corner(ring, step + 1)];
            let [c, d] = [corner(ring + 1, step), corner(ring + 1, step + 1)];
            mesh.triangles.extend([[a, c, d], [a, d, b]]);
        }
    }
    mesh.triangles
        .retain(|[a, b, c]| a != b && b != c && c != a);
    mesh
}

/// A mesh of 50,000 triangles is crossed where the ball that it is near is.
#[test]
fn a_fine_mesh_is_crossed_as_its_shape() {
    let background = cubes([7, 7, 6], 10.0, Parting::Six);
    let (centre, radius) = ([34.1, 35.2, 29.7], 24.3);
    let mesh = ball(112, centre, radius);
    assert!(mesh.triangles.len() > 49_000);
    let triangles = Triangles::of(&mesh, background.places.values());
    assert_eq!(triangles.open_sides(), 0);
    let found = of_mesh(&background, &mesh);
    let wanted = of_shapes(&background, "ball 34.1 35.2 29.7 24.3");
    let mut different = 0;
    for (one, other) in found.edges.iter().zip(&wanted.edges) {
        if one.fractions.len() != other.fractions.len() {
            different += 1;
            continue;
        }
        let near = |(a, b): (&f64, &f64)| (a - b).abs() < 0.02;
        assert!(one.fractions.iter().zip(&other.fractions).all(near));
    }
    // edges that pass through a sliver between the two
    assert!(different <= 2, "{different}");
    opened(&found, &background).0.shading().expect("a shading");
}

/// Any triangle left out leaves three sides open.
#[test]
fn an_open_mesh_is_told() {
    let mut mesh = block(1.0, 2.0, false);
    mesh.triangles.pop();
    let nodes = [[0.0; 3], [3.0; 3]];
    assert_eq!(Triangles::of(&mesh, nodes.iter()).open_sides(), 3);
}

fn as_obj(mesh: &MeshFile) -> Vec<u8> {
    let mut out = "# a mesh\nmtllib none\no one\n".to_string();
    for [x, y, z] in &mesh.places {
        out += &format!("v {x} {y} {z} 1.0\r\n");
    }
    let all = mesh.places.len() as i64;
    for (at, corners) in mesh.triangles.iter().enumerate() {
        let [a, b, c] = corners.map(|of| i64::from(of) + if at % 2 == 0 { 1 } else { -all });
        out += &format!("f {a}/1/1 {b}//2 {c}\n");
    }
    out.into_bytes()
}

fn as_ply(mesh: &MeshFile, order: &str) -> Vec<u8> {
    let head = format!(
        "ply\nformat {order} 1.0\ncomment x\nelement vertex {}\nproperty float64 x\n\
         property uchar red\nproperty float64 y\nproperty float64 z\nelement edge 1\n\
         property int one\nelement face {}\nproperty list uint8 int vertex_indices\n\
         property short own\nend_header\n",
        mesh.places.len(),
        mesh.triangles.len()
    );
    let mut out = head.into_bytes();
    let mut number = |bytes: &[u8], text: String| match order {
        "ascii" => out.extend_from_slice(format!("{text} ").as_bytes()),
        "binary_big_endian" => out.extend(bytes.iter().rev()),
        _ => out.extend_from_slice(bytes),
    };
    for [x, y, z] in &mesh.places {
        number(&x.to_le_bytes(), x.to_string());
        number(&[7], "7".into());
        number(&y.to_le_bytes(), y.to_string());
        number(&z.to_le_bytes(), z.to_string());
    }
    number(&5_i32.to_le_bytes(), "5".into());
    for corners in &mesh.triangles {
        number(&[3], "3".into());
        for corner in corners {
            number(&corner.to_le_bytes(), corner.to_string());
        }
        number(&(-2_i16).to_le_bytes(), "-2".into());
    }
    out
}

fn as_stl(mesh: &MeshFile, binary: bool) -> Vec<u8> {
    let corners = |of: &[u32; 3]| of.map(|corner| mesh.places[corner as usize]);
    if binary {
        let mut out = b"solid but in bytes".to_vec();
        out.resize(80, 0);
        out.extend((mesh.triangles.len() as u32).to_le_bytes());
        for triangle in &mesh.triangles {
            out.extend([0; 12]);
            let numbers = corners(triangle).into_iter().flatten();
            out.extend(numbers.flat_map(|number| (number as f32).to_le_bytes()));
            out.extend([0; 2]);
        }
        return out;
    }
    let mut out = "solid one\n".to_string();
    for triangle in &mesh.triangles {
        out += " facet normal 0 0 0\n  outer loop\n";
        for [x, y, z] in corners(triangle) {
            out += &format!("   vertex {x} {y} {z:e}\n");
        }
        out += "  endloop\n endfacet\n";
    }
    (out + "endsolid one\n").into_bytes()
}

/// All forms of files give the same scan, also where a place stands once for each
/// triangle that has it.
#[test]
fn files_of_all_forms_are_read() {
    let background = cubes([3, 3, 3], 1.0, Parting::Six);
    let mesh = block(0.625, 2.25, false);
    let wanted = of_mesh(&background, &mesh);
    assert!(wanted.crossings() > 50);
    let files = [
        as_obj(&mesh),
        as_ply(&mesh, "ascii"),
        as_ply(&mesh, "binary_little_endian"),
        as_ply(&mesh, "binary_big_endian"),
        as_stl(&mesh, false),
        as_stl(&mesh, true),
    ];
    for (at, file) in files.iter().enumerate() {
        let read = mesh_file::read(file).unwrap_or_else(|fault| panic!("file {at}: {fault}"));
        assert_eq!(of_mesh(&background, &read), wanted, "file {at}");
    }
}

/// A broken file of any form is told, or read as what it is: never a panic.
#[test]
fn broken_files_are_told() {
    let mesh = block(0.5, 2.5, false);
    let mut random = Random(11);
    let files = [
        as_obj(&mesh),
        as_ply(&mesh, "ascii"),
        as_ply(&mesh, "binary_little_endian"),
        as_ply(&mesh, "binary_big_endian"),
        as_stl(&mesh, false),
        as_stl(&mesh, true),
    ];
    let mut told = 0;
    for file in &files {
        for _ in 0..400 {
            let mut broken = file.clone();
            match random.below(3) {
                0 => broken.truncate(random.below(file.len())),
                _ => {
                    for _ in 0..1 + random.below(4) {
                        let at = random.below(broken.len());
                        broken[at] = random.below(256) as u8;
                    }
                }
            }
            if let Err(fault) = mesh_file::read(&broken) {
                let fault = fault.to_string();
                assert!(!fault.contains('\n') && fault.len() < 200, "{fault:?}");
                assert!(fault.chars().all(|of| !of.is_control()), "{fault:?}");
                told += 1;
            }
        }
    }
    assert!(told > 600, "{told}");
}

fn run(arguments: &[&str]) -> Output {
    Command::new(env!("CARGO_BIN_EXE_citternblaze"))
        .args(arguments)
        .output()
        .expect("the program")
}

/// A folder with files of these names and texts.
fn folder(name: &str, files: &[(&str, &[u8])]) -> String {
    let folder = format!("{}/scan-{name}", env!("CARGO_TARGET_TMPDIR"));
    fs::create_dir_all(&folder).expect("a folder");
    for (name, bytes) in files {
        fs::write(format!("{folder}/{name}"), bytes).expect("a file");
    }
    folder
}

/// The shapes or the mesh, the arguments before it, and a part of what is told.
const FAULTS: &[(&str, &[&str], &str)] = &[
    (
        "ball 1 1 1 1",
        &["--box", "7", "7", "7"],
        "the box has 2,058 cells: 10 over the 2,048",
    ),
    (
        "ball 1 1 1 1",
        &["--box", "9", "9", "6", "--cubes", "five"],
        "2,430 cells: 382 over",
    ),
    (
        "ball 1 1 1 1",
        &["--box", "4000000000", "4000000000", "4000000000"],
        "over the 2,048",
    ),
    (
        "ball 1 1 1 1",
        &["--box", "1", "0", "1"],
        "at least one cube each way",
    ),
    ("ball 1 1 1 1", &["--box", "1", "1"], "--box"),
    (
        "ball 1 1 1 1",
        &["--box", "1", "x", "1"],
        "--box: 'x' is no whole number",
    ),
    (
        "ball 1 1 1 1",
        &["--box", "1", "1", "1", "--size", "0"],
        "size of a cube",
    ),
    (
        "ball 1 1 1 1",
        &["--box", "1", "1", "1", "--size", "1e7"],
        "x 10000000.0: places are from",
    ),
    (
        "ball 1 1 1 1",
        &[
            "--box", "2", "1", "1", "--size", "1e-12", "--origin", "9e5", "0", "0",
        ],
        "too small",
    ),
    (
        "ball 1 1 1 1",
        &["--box", "1", "1", "1", "--cubes", "four"],
        "'four' is neither six nor five",
    ),
    ("ball 1 1 1 1", &[], "one of --box and --grid"),
    (
        "bell 1 1 1 1",
        &["--box", "1", "1", "1"],
        "line 2: 'bell' is none of plane, slab, ball",
    ),
    (
        "ball 1 1 1",
        &["--box", "1", "1", "1"],
        "line 2: ball has the numbers X Y Z RADIUS, and here are 3",
    ),
    (
        "ball 1 1 1 -1",
        &["--box", "1", "1", "1"],
        "line 2: a ball's RADIUS is above 0",
    ),
    (
        "ball 1 1 1 nan",
        &["--box", "1", "1", "1"],
        "line 2: 'nan' is not from",
    ),
    (
        "ball 1 1 \u{1b}[31m 1",
        &["--box", "1", "1", "1"],
        "line 2: '\\u{1b}[31m' is no number",
    ),
    (
        "plane 0 0 0 1",
        &["--box", "1", "1", "1"],
        "line 2: a direction is not 0 0 0",
    ),
    (
        "slab 0 0 1 2 1",
        &["--box", "1", "1", "1"],
        "line 2: a slab's FAR is above its NEAR",
    ),
    (
        "torus 0 0 0 0 0 1 1 2",
        &["--box", "1", "1", "1"],
        "line 2: a torus has a RING above its TUBE",
    ),
    (
        "waves 1 0 0 0.5 1 0 0 1e-9 1 0",
        &["--box", "1", "1", "1"],
        "line 2: the LENGTH of waves is above 1e-9",
    ),
    (
        "# nothing",
        &["--box", "1", "1", "1"],
        "the text has no shape",
    ),
    (
        "waves 1 0 0 0.5 1 0 0 1e-8 1 0",
        &["--box", "1", "1", "1"],
        "line 2: an edge of the grid has more than 100,000 half waves",
    ),
    (
        "waves 0 0 1 0.5 1 0 0 0.0004 100 0",
        &["--box", "1", "1", "1"],
        "edge 0 4 has 5,000 crossings: 905 over the 4,095 that an edge may have",
    ),
    (
        "waves 0 0 1 0.5 1 0 0 0.01 100 0",
        &["--box", "6", "6", "6"],
        "over the 65,535 that a grid may have",
    ),
];

#[test]
fn faults_are_told() {
    for (at, (shapes, arguments, told)) in FAULTS.iter().enumerate() {
        let text = format!("citternblaze shapes\n{shapes}\n");
        let folder = folder(&format!("fault-{at}"), &[("shapes", text.as_bytes())]);
        let (shapes, output) = (format!("{folder}/shapes"), format!("{folder}/grid"));
        let given = [&["scan"], *arguments, &["--output", &output, &shapes]].concat();
        let done = run(&given);
        let error = String::from_utf8(done.stderr).expect("text");
        assert!(!done.status.success(), "{given:?}");
        assert!(error.contains(told), "{given:?}: {error}");
        assert_eq!(error.lines().count(), 1, "{given:?}: {error}");
        assert!(fs::metadata(&output).is_err(), "{given:?}");
    }
}

/// The mesh and the fault.
const MESH_FAULTS: &[(&[u8], &str)] = &[
    (b"", "the mesh has no triangle"),
    (b"v 0 0 0\n", "the mesh has no triangle"),
    (b"v 0 0\n", "line 1: a vertex has three numbers"),
    (
        b"v 0 0 0\nf 1 2 3\n",
        "line 2: '2' is no vertex of the 1 before it",
    ),
    (b"v 0 0 0\nf 0 1 1\n", "line 2: '0' is no vertex"),
    (b"v 0 0 0\nf 1 1\n", "line 2: a face has three corners"),
    (
        b"v 1e300 0 0\nf 1 1 1\n",
        "vertex 0, counted from 0, has x 1e300: places are",
    ),
    (b"v nan 0 0\nf 1 1 1\n", "has x NaN: places are from"),
    (
        b"hello\n",
        "line 1: 'hello' starts no line of an OBJ file; nor is it PLY or STL",
    ),
    (b"\xff\xfe\x00", "line 1: no text: neither OBJ, PLY nor STL"),
    (
        b"ply\nformat ascii 1.0\n",
        "line 3: the head of the PLY file has no end",
    ),
    (
        b"ply\nproperty int x\nend_header\n",
        "line 2: a property before any element",
    ),
    (
        b"ply\nelement vertex 99999999999\nproperty float x\nend_header\n1",
        "no x, y and z",
    ),
    (
        b"ply\nformat ascii 1.0\nelement vertex 1\nproperty float x\nproperty float y\n\
       property float z\nend_header\n1 2",
        "the PLY file ends before its numbers do",
    ),
    (
        b"solid\nfacet\nvertex 0 0 0\nendfacet\n",
        "line 4: a facet has three vertices, and here are 1",
    ),
    (
        b"solid\nfacet\nvertex 0 0 0\n",
        "the file ends after 1 vertices of a facet",
    ),
];

#[test]
fn faults_of_meshes_are_told() {
    for (at, (mesh, told)) in MESH_FAULTS.iter().enumerate() {
        let folder = folder(&format!("mesh-{at}"), &[("mesh", mesh)]);
        let file = format!("{folder}/mesh");
        let done = run(&["scan", "--box", "1", "1", "1", "--mesh", &file]);
        let error = String::from_utf8(done.stderr).expect("text");
        assert!(
            error.contains(told) && !done.status.success(),
            "{told}: {error}"
        );
        assert!(done.stdout.is_empty());
        assert_eq!(error.lines().count(), 1, "{error}");
    }
}

/// The cells and nodes of a text, scanned for shapes and a mesh at once; what it says
/// of edges does not matter.
#[test]
fn a_grid_of_its_own_is_scanned() {
    let grid = "citternblaze grid\ncell 3 5 7 9\nedge 0 1 7\nnode 3 0 0 0\nnode 5 8 0 0\n\
                node 7 0 8 0\nnode 9 0 0 8\nnode 11 1 1 1\n";
    let folder = folder(
        "grid",
        &[
            ("grid", grid.as_bytes()),
            ("shapes", b"citternblaze shapes\nplane 1 0 0 2\n"),
            ("mesh", &as_obj(&block(-1.0, 1.0, false))),
            ("bad", grid.replace("3 5 7 9", "5 3 7 9").as_bytes()),
        ],
    );
    let file = |name: &str| format!("{folder}/{name}");
    let (shapes, mesh) = (file("shapes"), file("mesh"));
    let done = run(&["scan", "--grid", &file("grid"), "--mesh", &mesh, &shapes]);
    let text = text::read(&done.stdout).expect("a grid's text");
    let counts: Vec<u16> = text.edges.iter().map(|edge| edge.it.count).collect();
    assert_eq!(counts, [2, 1, 1, 1, 1, 0]);
    assert_eq!(text.fractions[0].it.fractions, [0.125, 0.25]);
    let done = run(&["scan", "--grid", &file("bad"), &shapes]);
    let error = String::from_utf8(done.stderr).expect("text");
    assert!(error.contains("nodes do not increase"), "{error}");
}
