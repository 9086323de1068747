//! Files of a mesh, and meshes that were received with their points.

mod random;
mod random_texts;

use std::collections::BTreeSet;
use std::fs;
use std::io::Write;
use std::path::PathBuf;
use std::process::{Command, Output, Stdio};

use random::Random;
use random_texts::{row_of_cells, split_cells};

fn run(arguments: &[&str], input: &[u8]) -> Output {
    let mut child = Command::new(env!("CARGO_BIN_EXE_citternblaze"))
        .args(arguments)
        .stdin(Stdio::piped())
        .stdout(Stdio::piped())
        .stderr(Stdio::piped())
        .spawn()
        .expect("the program");
    let mut pipe = child.stdin.take().expect("its input");
    // a program that does not read all of its input is no fault of the test
    let _ = pipe.write_all(input);
    drop(pipe);
    child.wait_with_output().expect("its output")
}

fn made(arguments: &[&str], input: &[u8]) -> Vec<u8> {
    let done = run(arguments, input);
    let error = String::from_utf8_lossy(&done.stderr).into_owned();
    assert!(done.status.success(), "{arguments:?}: {error}");
    done.stdout
}

fn printed(arguments: &[&str], input: &[u8]) -> String {
    String::from_utf8(made(arguments, input)).expect("text")
}

/// The line that tells a fault, after notes.
fn told(arguments: &[&str], input: &[u8], status: i32) -> String {
    let done = run(arguments, input);
    let error = String::from_utf8(done.stderr).expect("text");
    assert_eq!(done.status.code(), Some(status), "{arguments:?}: {error}");
    error.lines().last().unwrap_or_default().to_string()
}

/// A file of this test's own.
fn file(name: &str, bytes: &[u8]) -> String {
    let folder = PathBuf::from(env!("CARGO_TARGET_TMPDIR")).join("arrived");
    fs::create_dir_all(&folder).expect("a folder");
    let file = folder.join(name);
    fs::write(&file, bytes).expect("written");
    file.to_str().expect("a name").to_string()
}

fn texts(seed: u64, number: usize) -> Vec<String> {
    let mut random = Random(seed);
    let text = |at: usize| match at % 3 {
        0 => split_cells(&mut random),
        _ => row_of_cells(&mut random, 4, 3),
    };
    (0..number).map(text).collect()
}

/// The words of a listing, four bytes each.
fn words_of(listing: &str) -> Vec<u8> {
    let lines = listing.lines().filter_map(|line| line.strip_prefix("T "));
    let words = lines.flat_map(|line| line.split(' '));
    let word = |text: &str| text.parse::<u32>().unwrap_or(u32::MAX);
    words.flat_map(|text| word(text).to_le_bytes()).collect()
}

/// The faces of a PLY file without what only the grid tells: type and side.
fn without_grid(ply: &str) -> Vec<String> {
    let body = ply.split("end_header\n").nth(1).expect("a body");
    let face = |line: &str| {
        let mut words: Vec<&str> = line.split(' ').collect();
        if words.len() == 10 {
            words[6] = "255";
            words[9] = "255";
        }
        words.join(" ")
    };
    body.lines().map(face).collect()
}

/// What arrived whole is the mesh of the grid, whatever form words and points have.
#[test]
fn words_stand_for_a_grid() {
    for (at, text) in texts(31, 12).iter().enumerate() {
        let text = text.as_bytes();
        let listing = printed(&["list", "--any-size"], text);
        let points = printed(&["export", "--form", "points"], text);
        let numbers = points.split_whitespace();
        let floats: Vec<u8> = numbers
            .flat_map(|word| word.parse::<f64>().expect("a number").to_le_bytes())
            .collect();
        let grid = file(&format!("{at}.txt"), text);
        let as_text = file(&format!("{at}.points"), points.as_bytes());
        let as_floats = file(&format!("{at}.floats"), &floats);
        let sent = without_grid(&printed(&["export", "--as-is"], text));
        for points in [&as_text, &as_floats] {
            let listed = ["export", "--as-is", "--points", points];
            let arrived = printed(&listed, listing.as_bytes());
            assert_eq!(without_grid(&arrived), sent);
            let binary = ["export", "--as-is", "--binary", "--points", points];
            assert_eq!(printed(&binary, &words_of(&listing)), arrived);
            let known = ["export", "--as-is", "--mesh-of", &grid, "--points", points];
            let known = printed(&known, listing.as_bytes());
            assert_eq!(without_grid(&known), sent);
            // with its grid a triangle has its type
            let own = printed(&["export", "--as-is"], text);
            let types = |ply: &str| -> Vec<String> {
                let faces = ply.lines().filter(|line| line.starts_with("3 "));
                let word = |line: &str| line.split(' ').nth(6).map(str::to_string);
                faces.filter_map(word).collect()
            };
            assert_eq!(types(&known), types(&own));
        }
        let surfaces = printed(&["surfaces", "--points", &as_text], listing.as_bytes());
        let own = printed(&["surfaces", "--as-is"], text);
        assert_eq!(surfaces.lines().next(), own.lines().next());
    }
}

/// What check-mesh says of words against their grid, and its exit status.
fn against(grid: &str, words: &str) -> (Option<i32>, String) {
    let done = run(&["check-mesh", "--grid", grid], words.as_bytes());
    let report = String::from_utf8(done.stdout).expect("text");
    (done.status.code(), report)
}

/// Lost triangles are counted, and those that came twice.
#[test]
fn losses_are_told() {
    let mut random = Random(32);
    for (at, text) in texts(33, 15).iter().enumerate() {
        let listing = printed(&["list", "--any-size"], text.as_bytes());
        let grid = file(&format!("lost-{at}.txt"), text.as_bytes());
        let (status, report) = against(&grid, &listing);
        assert_eq!(status, Some(0));
        assert!(report.contains("\ntriangles lost 0\n"), "{report}");
        assert!(
            report.ends_with("\nopen sides that are losses 0\n"),
            "{report}"
        );
        let triangles: Vec<&str> = listing.lines().skip(1).collect();
        if triangles.is_empty() {
            continue;
        }
        let lost: BTreeSet<usize> = (0..1 + random.below(3))
            .map(|_| random.below(triangles.len()))
            .collect();
        let kept = (0..triangles.len()).filter(|at| !lost.contains(at));
        let kept: Vec<&str> = kept.map(|at| triangles[at]).collect();
        let (status, report) = against(&grid, &kept.join("\n"));
        assert_eq!(status, Some(1));
        let line = format!("\ntriangles lost {}\n", lost.len());
        assert!(report.contains(&line), "{report}");
        let twice = [&triangles[..], &triangles[..1]].concat();
        let (status, report) = against(&grid, &twice.join("\n"));
        assert_eq!(status, Some(1));
        assert!(report.contains("\ntriangles that the grid's mesh has not 1\n"));
        drawn_where_known(&listing, &kept, text.as_bytes(), &grid);
    }
}

/// What is left of a mesh is drawn only where its points are known: by its grid, or
/// where all its corners are crossings.
fn drawn_where_known(listing: &str, kept: &[&str], text: &[u8], grid: &str) {
    let points = printed(&["export", "--form", "points"], text);
    let points = file("left.points", points.as_bytes());
    let known = ["export", "--mesh-of", grid, "--points", &points];
    let arrived = printed(&known, kept.join("\n").as_bytes());
    let faces = arrived.lines().filter(|line| line.starts_with("3 "));
    assert!(faces.count() >= kept.len());
    let totals = listing.lines().next().expect("totals");
    let with_totals = format!("{totals}\n{}", kept.join("\n"));
    let alone = run(&["export", "--points", &points], with_totals.as_bytes());
    let is_other = |word: &str| word.parse().map_or(true, |number: u32| number >= 65_536);
    let mut corners = kept.iter().flat_map(|line| line.split(' ').skip(3).take(3));
    if corners.any(is_other) {
        assert_eq!(alone.status.code(), Some(1));
    }
}

/// A side that is open where the grid's mesh has it in two triangles is a loss; on an
/// outer face it is not.
#[test]
fn open_sides_are_sorted() {
    let path = concat!(
        env!("CARGO_MANIFEST_DIR"),
        "/../samples/texts/three-cells.txt"
    );
    let listing = printed(&["list", path], b"");
    let whole = printed(&["check-mesh", "--grid", path], listing.as_bytes());
    let number = |report: &str, line: &str| -> usize {
        let rest = report.lines().find_map(|of| of.strip_prefix(line));
        rest.expect("a line").trim().parse().expect("a number")
    };
    let outer = number(&whole, "open sides on outer faces");
    assert_eq!(outer, number(&whole, "open sides, in one triangle"));
    // without cell 2 the two faces that it shares are torn
    let kept: Vec<&str> = listing
        .lines()
        .filter(|line| !line.starts_with("T 2 "))
        .collect();
    let done = run(&["check-mesh", "--grid", path], kept.join("\n").as_bytes());
    let report = String::from_utf8(done.stdout).expect("text");
    assert_eq!(number(&report, "open sides that are losses"), 4);
    assert_eq!(number(&report, "open sides on outer faces"), outer - 2);
    assert!(report.contains("\n  of the cells 2\n"));
    // a curve that closes in one of its two cells leaves a side that is rightly open
    let one = "citternblaze grid\ncell 0 1 2 3\ncell 0 1 2 4\nedge 0 1 1\nedge 0 2 1\n\
        edge 0 3 1\nedge 0 4 0\nedge 1 2 0\nedge 1 3 0\nedge 1 4 0\nedge 2 3 0\nedge 2 4 0\n";
    let grid = file("one-cell.txt", one.as_bytes());
    let listing = printed(&["list"], one.as_bytes());
    let report = printed(&["check-mesh", "--grid", &grid], listing.as_bytes());
    assert_eq!(
        number(&report, "open sides whose curve closes in one of two cells"),
        1
    );
    assert_eq!(number(&report, "open sides on outer faces"), 2);
}

#[test]
fn wrong_points_are_told() {
    let path = concat!(env!("CARGO_MANIFEST_DIR"), "/../samples/texts/octagon.txt");
    let listing = printed(&["list", path], b"");
    let points = printed(&["export", "--form", "points", path], b"");
    let export = |points: &[u8], name: &str, status: i32| {
        let file = file(name, points);
        told(&["export", "--points", &file], listing.as_bytes(), status)
    };
    assert!(
        export(b"1 2\n", "two", 1).contains("line 1: a point has three numbers, and here are 2")
    );
    assert!(export(b"1 2 x\n", "word", 1).contains("line 1: 'x' is no number"));
    assert!(export(b"1 2 nan\n", "nan", 1).contains("point 0 has a number that is not finite"));
    assert!(export(&[0; 23], "cut", 1).contains("byte 0: a point has 24 bytes, and here are 23"));
    assert!(export(b"", "none", 1).contains("0 points do not fit these triangles"));
    let more = format!("{points}0 0 0\n");
    assert!(export(more.as_bytes(), "more", 1).contains("10 points do not fit these triangles"));
    assert!(told(&["export", "--binary", path], b"", 2).contains("words want their points"));
    assert!(told(&["export", "--points", "/nowhere/at/all"], b"", 2).contains("/nowhere/at/all: "));
    let good = file("good", points.as_bytes());
    let other = concat!(
        env!("CARGO_MANIFEST_DIR"),
        "/../samples/texts/three-cells.txt"
    );
    let arguments = ["export", "--points", &good, "--mesh-of", other];
    assert!(told(&arguments, listing.as_bytes(), 1).contains("points, and here are 9"));
    let huge = listing.replace("crossings 8", "crossings 18446744073709551615");
    assert_ne!(huge, listing);
    let arguments = ["export", "--points", &good];
    assert!(told(&arguments, huge.as_bytes(), 1).contains("9 points do not fit"));
    // words of another mesh: a corner that there is not
    let strange = "T 0 0 7 8 9 3 0 2 0 1 1\n";
    let arguments = ["export", "--points", &good, "--mesh-of", path];
    assert!(told(&arguments, strange.as_bytes(), 1).contains("is no point of the grid's mesh"));
}

/// A random word in place of one of a mesh's, with and without its grid: told or
/// taken, never a crash.
#[test]
fn spoiled_words_do_no_harm() {
    let mut random = Random(34);
    for (at, text) in texts(35, 10).iter().enumerate() {
        let text = text.as_bytes();
        let words = words_of(&printed(&["list", "--any-size"], text));
        let points = printed(&["export", "--form", "points"], text);
        let points = file(&format!("spoiled-{at}.points"), points.as_bytes());
        let grid = file(&format!("spoiled-{at}.txt"), text);
        for _ in 0..4 {
            let mut spoiled = words.clone();
            if !spoiled.is_empty() {
                let word = random.below(spoiled.len() / 4);
                let value = match random.below(3) {
                    0 => random.word() as u32,
                    1 => 65_536 + random.below(20) as u32,
                    _ => random.below(20) as u32,
                };
                spoiled[4 * word..4 * word + 4].copy_from_slice(&value.to_le_bytes());
            }
            let export = ["export", "--form", "gltf", "--binary", "--points", &points];
            for more in [&[][..], &["--mesh-of", &grid]] {
                let done = run(&[&export[..], more].concat(), &spoiled);
                assert!(matches!(done.status.code(), Some(0 | 1)), "{done:?}");
            }
            let checked = run(&["check-mesh", "--binary", "--grid", &grid], &spoiled);
            assert!(matches!(checked.status.code(), Some(0 | 1)), "{checked:?}");
        }
    }
}

/// Each triangle has its corners in 32 bits, in the order of the mesh, and the normal
/// that they have.
#[test]
fn stl_has_each_triangle() {
    let path = concat!(
        env!("CARGO_MANIFEST_DIR"),
        "/../samples/texts/split-cell.txt"
    );
    let stl = made(&["export", "--form", "stl", path], b"");
    let ply = printed(&["export", path], b"");
    let body = ply.split("end_header\n").nth(1).expect("a body");
    let lines: Vec<Vec<f64>> = body
        .lines()
        .map(|line| {
            line.split(' ')
                .map(|word| word.parse().expect("a number"))
                .collect()
        })
        .collect();
    let (points, faces): (Vec<_>, Vec<_>) = lines.into_iter().partition(|line| line.len() == 3);
    assert!(!stl.starts_with(b"solid"));
    assert_eq!(stl.len(), 84 + 50 * faces.len());
    assert_eq!(stl[80..84], (faces.len() as u32).to_le_bytes());
    for (face, bytes) in faces.iter().zip(stl[84..].chunks_exact(50)) {
        let numbers: Vec<f32> = bytes[..48]
            .chunks_exact(4)
            .map(|four| f32::from_le_bytes([four[0], four[1], four[2], four[3]]))
            .collect();
        let corners = face[1..4].iter().flat_map(|&at| &points[at as usize]);
        let expected: Vec<f32> = corners.map(|&number| number as f32).collect();
        assert_eq!(numbers[3..], expected[..]);
        let [n, a, b, c] = [0, 3, 6, 9].map(|at| [0, 1, 2].map(|axis| numbers[at + axis]));
        let length: f32 = n.iter().map(|number| number * number).sum();
        assert!((length - 1.0).abs() < 1e-5);
        for corner in [b, c] {
            let along: f32 = (0..3).map(|axis| n[axis] * (corner[axis] - a[axis])).sum();
            assert!(along.abs() < 1e-4);
        }
    }
}

/// A primitive, a material and two views for each surface, and the buffer's length.
#[test]
fn gltf_has_each_surface() {
    for text in texts(36, 8) {
        let gltf = printed(&["export", "--form", "gltf"], text.as_bytes());
        let told = printed(&["surfaces"], text.as_bytes());
        let surfaces = told
            .lines()
            .filter(|line| line.starts_with("surface "))
            .count();
        let times = |what: &str| gltf.matches(what).count();
        assert_eq!(times("\"POSITION\""), surfaces);
        assert_eq!(times("\"baseColorFactor\""), surfaces);
        assert_eq!(times("\"byteOffset\""), 2 * surfaces);
        if surfaces == 0 {
            assert!(!gltf.contains("\"buffers\""));
            continue;
        }
        let data = gltf.split("base64,").nth(1).expect("a buffer");
        let data = data.split('"').next().expect("a buffer");
        let padding = data.matches('=').count();
        let bytes = data.len() / 4 * 3 - padding;
        assert!(gltf.contains(&format!("\"buffers\": [{{\"byteLength\": {bytes}, ")));
        assert_eq!(data.len() % 4, 0);
    }
}

/// What arrived is drawn as the grid's mesh is: the same curves, and the same
/// surfaces in the legend.
#[test]
fn received_meshes_are_drawn() {
    let path = concat!(
        env!("CARGO_MANIFEST_DIR"),
        "/../samples/texts/three-cells.txt"
    );
    let listing = printed(&["list", path], b"");
    let points = printed(&["export", "--form", "points", path], b"");
    let points = file("drawn.points", points.as_bytes());
    let curves = |picture: &str| -> usize {
        let of_surface = |line: &&str| line.contains("stroke-width=\"0.45\"");
        picture.lines().filter(of_surface).count()
    };
    let section = ["draw", "--section", "z=4", "--scale", "1:1"];
    let own = printed(&[&section[..], &[path]].concat(), b"");
    let arrived = [&section[..], &["--points", &points]].concat();
    let arrived = printed(&arrived, listing.as_bytes());
    assert!(curves(&own) > 0);
    assert_eq!(curves(&arrived), curves(&own));
    let named = |picture: &str| picture.matches(">surface ").count();
    let mesh = printed(&["draw", "--mesh", "--points", &points], listing.as_bytes());
    assert_eq!(named(&mesh), 2);
    let types = ["draw", "--mesh", "--colour", "type", "--points", &points];
    assert!(told(&types, listing.as_bytes(), 2).contains("type wants the grid: --mesh-of FILE"));
    made(
        &[&types[..], &["--mesh-of", path]].concat(),
        listing.as_bytes(),
    );
    let face = ["draw", "--face", "3", "--points", &points];
    assert!(told(&face, listing.as_bytes(), 2).contains("drawn of a grid, not of words"));
    let page = ["export", "--form", "html", "--points", &points];
    assert!(printed(&page, listing.as_bytes()).starts_with("<!DOCTYPE html>"));
}
