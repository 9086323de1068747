//! Exported and received meshes.

use std::collections::{BTreeMap, BTreeSet};

use citternblaze::bundle::pack;
use citternblaze::calls::{bundle_read, Grid, LoopType};
use citternblaze::cells::loops_of;
use citternblaze::exported::Exported;
use citternblaze::mesh::{triangles, Corner, Mesh, Part, Side};
use citternblaze::placed_mesh::PlacedMesh;
use citternblaze::received::{read_binary, read_listing, report, Around, Received, Report};
use citternblaze::text::{self, Text};
use citternblaze::triangle_types::{Loops, TriangleType};
use citternblaze::{obj, placed, ply};

fn sample(name: &str) -> (Grid, Text) {
    let path = format!("{}/../samples/texts/{name}.txt", env!("CARGO_MANIFEST_DIR"));
    let text = text::read(&std::fs::read(path).expect("a text")).expect("a grid's text");
    (grid_of(&text), text)
}

/// The mesh as the grid has it, with its points, and as files have it.
fn written(grid: &Grid, text: &Text, form: fn(&Exported<'_>) -> String) -> String {
    let mesh = Mesh::of(grid).expect("a mesh");
    let points = placed::points(grid, text, &mesh).expect("points");
    let placed = PlacedMesh::of_words(mesh, points, true);
    let loops = Loops::of(grid).expect("loops");
    form(&Exported::of(&placed, Some((grid, &loops))))
}

fn grid_of(text: &Text) -> Grid {
    let lists = bundle_read(&pack(text).expect("a bundle")).expect("lists");
    Grid::open(lists).expect("a grid")
}

/// The lines of a cell with the loops of the cell of split-cell.txt, and a corner
/// triangle at each node besides.
const WITH_CORNERS: &str = "citternblaze grid\ncell 0 1 2 3\nedge 0 1 6\nedge 0 2 4\n\
    edge 0 3 8\nedge 1 2 8\nedge 1 3 4\nedge 2 3 6\n";

/// Two such cells on one face, one above it and one below, without corner triangles.
const TWO_CELLS: &str = "citternblaze grid\ncell 0 1 2 3\ncell 0 1 2 4\nedge 0 1 4\n\
    edge 0 2 2\nedge 0 3 6\nedge 0 4 6\nedge 1 2 6\nedge 1 3 2\nedge 1 4 2\nedge 2 3 4\n\
    edge 2 4 4\nnode 0 0 0 0\nnode 1 9 0 0\nnode 2 0 9 0\nnode 3 2 2 8\nnode 4 2 2 -8\n";

fn stated(lines: &str) -> (Grid, Text) {
    let text = text::read(lines.as_bytes()).expect("a grid's text");
    (grid_of(&text), text)
}

/// A triangle of no sub-cell has the type of the loop with its cell and p0.
#[test]
fn triangles_are_of_loops_or_sub_cells() {
    let samples = ["octagon", "three-cells", "folded-face", "split-cell"];
    let samples = samples.map(|name| sample(name).0);
    let others = [WITH_CORNERS, TWO_CELLS].map(|lines| stated(lines).0);
    for grid in samples.into_iter().chain(others) {
        let types = Loops::of(&grid).expect("loops");
        for triangle in Mesh::of(&grid).expect("a mesh").triangles() {
            let loops = loops_of(&grid, triangle.part.cell as usize).expect("loops");
            let own = loops.iter().find(|of| of.p0 == u64::from(triangle.p0));
            let expected = match triangle.part.sub_cell {
                0 => TriangleType::Loop(own.expect("a loop of the cell").kind),
                _ => TriangleType::SubCell,
            };
            assert_eq!(types.type_of(&triangle), expected);
        }
    }
}

/// The corner triangles of a split cell come first, and are of its loops.
#[test]
fn a_split_cell_keeps_its_corners() {
    let (grid, _) = stated(WITH_CORNERS);
    let types = Loops::of(&grid).expect("loops");
    let mesh = Mesh::of(&grid).expect("a mesh");
    assert_eq!(mesh.size(), 4 + 52);
    let found: Vec<TriangleType> = mesh.triangles().map(|of| types.type_of(&of)).collect();
    let corners = [
        LoopType::LowestCorner(0),
        LoopType::Corner(1),
        LoopType::Corner(2),
        LoopType::Corner(3),
    ];
    assert_eq!(found[..4], corners.map(TriangleType::Loop));
    assert_eq!(found[4..], [TriangleType::SubCell; 52]);
}

/// The example of docs/FORMAT.md, "Places".
#[test]
fn points_of_a_split_cell() {
    let (grid, text) = sample("split-cell");
    let mesh = Mesh::of(&grid).expect("a mesh");
    assert_eq!([mesh.inner_crossings(), mesh.fans()], [12, 4]);
    let points = placed::points(&grid, &text, &mesh).expect("points");
    let expected = [
        (32, [4.0, 12.0, 4.0]),
        (33, [2.0, 18.0, 2.0]),
        (36, [9.0, 9.0, 1.0]),
        (37, [6.0, 6.0, 2.0]),
        (38, [10.0, 2.0, 6.0]),
        (39, [5.0, 1.0, 9.0]),
    ];
    for (number, place) in expected {
        assert_eq!(points[number], place, "point {number}");
    }
    let file = written(&grid, &text, ply::ply);
    let body = file.split("end_header\n").nth(1).expect("a body");
    let faces: Vec<&str> = body.lines().skip(40).collect();
    // cell, p0, type, sub-cell, surface, side
    assert_eq!(faces[0], "3 0 27 36 0 0 4 1 0 255");
    assert_eq!(faces[18], "3 0 27 6 0 0 4 2 0 255");
}

/// Each corner has a point of its own, in its own cell: cell 0 is above the shared
/// face, where the third number is 0, and cell 1 below it.
#[test]
fn points_of_two_split_cells() {
    let (grid, text) = stated(TWO_CELLS);
    let mesh = Mesh::of(&grid).expect("a mesh");
    let points = placed::points(&grid, &text, &mesh).expect("points");
    assert_eq!([mesh.inner_crossings(), mesh.fans()], [24, 8]);
    assert_eq!(points.len(), mesh.points());
    let corners: BTreeSet<Corner> = mesh.triangles().flat_map(|of| of.corners).collect();
    let numbers: BTreeSet<usize> = corners.iter().map(|&of| mesh.point(of)).collect();
    assert_eq!(numbers, (0..points.len()).collect());
    assert_eq!(corners.len(), points.len());
    for corner in corners {
        let cell = match corner {
            Corner::Crossing(_) => continue,
            Corner::InnerCrossing { cell, .. } => cell,
            Corner::Middle { part, .. } => part.cell,
        };
        let height = points[mesh.point(corner)][2];
        assert_eq!(height > 0.0, cell == 0, "{corner:?}");
        assert_eq!(height < 0.0, cell == 1, "{corner:?}");
    }
}

#[test]
fn vertices_read_back_to_the_same_bits() {
    for name in ["octagon", "three-cells", "folded-face", "split-cell"] {
        let (grid, text) = sample(name);
        let mesh = Mesh::of(&grid).expect("a mesh");
        let points = placed::points(&grid, &text, &mesh).expect("points");
        assert_eq!(points.len(), mesh.points());
        let numbers = |line: &str| -> Vec<u64> {
            let numbers = line
                .split_whitespace()
                .map(|text| text.parse::<f64>().expect("a number"));
            numbers.map(f64::to_bits).collect()
        };
        let bits: Vec<Vec<u64>> = points
            .iter()
            .map(|point| point.iter().map(|n| n.to_bits()).collect())
            .collect();
        let file = written(&grid, &text, ply::ply);
        let body = file.split("end_header\n").nth(1).expect("a body");
        let read: Vec<Vec<u64>> = body.lines().take(points.len()).map(numbers).collect();
        assert_eq!(read, bits);
        let file = written(&grid, &text, obj::obj);
        let vertices = file.lines().filter_map(|line| line.strip_prefix("v "));
        assert_eq!(vertices.map(numbers).collect::<Vec<_>>(), bits);
        assert_eq!(
            file.lines().filter(|line| line.starts_with("f ")).count(),
            mesh.size()
        );
    }
}

#[test]
fn both_forms_have_the_same_triangles() {
    for (name, first) in [("octagon", [1, 3, 9]), ("split-cell", [1, 28, 37])] {
        let forms = forms(name);
        assert_eq!(forms[0], forms[1]);
        assert!(forms[1].contains(&first.to_vec()));
    }
}

/// The triangles of both forms, vertices counted from 1.
fn forms(name: &str) -> [Vec<Vec<usize>>; 2] {
    let (grid, text) = sample(name);
    let mesh = Mesh::of(&grid).expect("a mesh");
    let points = placed::points(&grid, &text, &mesh).expect("points");
    let ply = written(&grid, &text, ply::ply);
    let obj = written(&grid, &text, obj::obj);
    let numbers = |line: &str| -> Vec<usize> {
        let words = line.split(' ').skip(1).take(3);
        words.map(|word| word.parse().expect("a number")).collect()
    };
    // OBJ counts from 1
    let from_one = |line: &str| numbers(line).into_iter().map(|number| number + 1).collect();
    let body = ply.split("end_header\n").nth(1).expect("a body");
    let of_obj = obj.lines().filter(|line| line.starts_with("f "));
    let mut both = [
        body.lines().skip(points.len()).map(from_one).collect(),
        of_obj.map(numbers).collect::<Vec<_>>(),
    ];
    // OBJ has them by surface
    both.iter_mut().for_each(|form| form.sort());
    both
}

#[test]
fn triangles_have_cell_p0_type_and_sub_cell() {
    let (grid, text) = sample("three-cells");
    let file = written(&grid, &text, ply::ply);
    let last: Vec<&str> = file.lines().rev().take(2).collect();
    // cell 2: the loop round node 0, its lowest, and that round node 1
    assert_eq!(last, ["3 1 6 7 2 1 1 0 1 255", "3 0 2 3 2 0 3 0 0 255"]);
}

/// The mesh of three cells round the edge 0 1 with count 2, and else 0: closed.
const CLOSED: &str = "cells 3 edges 10 crossings 2 triangles 6\n\
    T 0 0 0 1 - 3 0 - 1 - 0\nT 0 0 1 0 - 2 0 - 0 - 1\n\
    T 1 0 0 1 - 3 0 - 1 - 0\nT 1 0 1 0 - 6 0 - 0 - 1\n\
    T 2 0 0 1 - 2 0 - 1 - 0\nT 2 0 1 0 - 6 0 - 0 - 1\n";

fn report_of(listing: &str) -> Report {
    report(&read_listing(listing.as_bytes()).expect("triangles"))
}

#[test]
fn a_closed_mesh_has_rings() {
    let found = report_of(CLOSED);
    assert_eq!(
        [found.triangles, found.loops, found.sides, found.points],
        [6, 3, 9, 5]
    );
    assert!(found.open.is_empty() && found.crowded.is_empty() && found.ringless.is_empty());
    assert_eq!(found.fault(), None);
}

#[test]
fn a_lost_triangle_is_seen() {
    let cut: Vec<&str> = CLOSED.lines().take(6).collect();
    let found = report_of(&cut.join("\n"));
    let part = Part {
        cell: 2,
        sub_cell: 0,
    };
    let inner = |number| Side::Inner {
        part,
        p0: 0,
        number,
    };
    let segment = Side::Segment {
        face: 6,
        crossing: 0,
    };
    let open = [inner(0), inner(1), segment];
    assert_eq!(found.open.keys().copied().collect::<Vec<_>>(), open);
    let strips: Vec<_> = found.ringless.iter().map(|of| of.1).collect();
    assert_eq!(strips, [Around::Strip; 3]);
    assert!(found.fault().is_some());
}

/// A loop of three segments that is lost leaves no trace but the total.
#[test]
fn the_stated_total_is_compared() {
    let corner = "cells 1 edges 6 crossings 3 triangles 1\nT 0 0 0 1 2 3 0 2 0 1 1\n";
    let whole = report_of(corner);
    assert_eq!((whole.stated, whole.fault()), (None, None));
    let lost = report_of("cells 1 edges 6 crossings 3 triangles 1\n");
    assert_eq!(lost.stated, Some(1));
    assert_eq!(
        lost.fault().map(|fault| fault.to_string()),
        Some("not a whole mesh: 0 triangles of 1".to_string())
    );
}

#[test]
fn a_doubled_triangle_is_seen() {
    let twice = format!("{CLOSED}T 2 0 1 0 - 6 0 - 0 - 1\n");
    let found = report_of(&twice);
    assert_eq!(found.crowded.len(), 3);
    assert!(found.ringless.iter().all(|of| of.1 == Around::Crowded));
    assert!(found.fault().is_some());
}

#[test]
fn two_rings_at_a_point_are_not_one() {
    let shift = |words: Vec<u32>| -> Vec<u32> {
        let mut words = words;
        for triangle in words.chunks_exact_mut(11) {
            triangle[0] += 10;
            for at in [5, 7, 9] {
                if triangle[at] != u32::MAX {
                    triangle[at] += 100;
                }
            }
        }
        words
    };
    let words: Vec<u32> = CLOSED
        .lines()
        .filter_map(|line| line.strip_prefix("T "))
        .flat_map(|line| line.split(' ').map(|word| word.parse().unwrap_or(u32::MAX)))
        .collect();
    let both = [words.clone(), shift(words)].concat();
    let found = report(&Received::of(triangles(&both).collect()));
    assert_eq!(
        found.ringless,
        [0, 1].map(|n| (Corner::Crossing(n), Around::Several(2)))
    );
    let bytes: Vec<u8> = both.iter().flat_map(|word| word.to_le_bytes()).collect();
    assert_eq!(
        read_binary(&bytes),
        Ok(Received::of(triangles(&both).collect()))
    );
    let cut = read_binary(&bytes[..50]).expect_err("a triangle cut short");
    assert_eq!(
        cut.to_string(),
        "byte 44: a triangle has 44 bytes, and here are 6"
    );
}

fn listing(name: &str) -> String {
    let path = format!("{}/../samples/{name}.listing", env!("CARGO_MANIFEST_DIR"));
    std::fs::read_to_string(path).expect("a listing")
}

/// How many segments of a kind are in so many triangles.
fn tally(found: &Report, received: &str) -> BTreeMap<(&'static str, usize), usize> {
    let mut sides: BTreeMap<Side, usize> = BTreeMap::new();
    let read = read_listing(received.as_bytes()).expect("triangles");
    for side in read.triangles.iter().flat_map(|of| of.sides) {
        *sides.entry(side).or_insert(0) += 1;
    }
    assert_eq!(found.sides, sides.len());
    let mut tally = BTreeMap::new();
    for (side, number) in sides {
        let kind = match side {
            Side::Segment { .. } => "outer",
            Side::InnerSegment { .. } => "inner face",
            Side::Inner { .. } => "inner side",
        };
        *tally.entry((kind, number)).or_insert(0) += 1;
    }
    tally
}

/// In a split cell each outer segment is in one triangle, every other side in two.
#[test]
fn sides_of_a_split_cell() {
    let text = listing("split-once");
    let found = report_of(&text);
    assert_eq!((found.split_cells, found.sub_cells), (1, 4));
    assert_eq!([found.triangles, found.loops, found.points], [52, 20, 40]);
    let expected = [
        ("inner face", 2, 30),
        ("inner side", 2, 36),
        ("outer", 1, 24),
    ];
    let expected = expected.map(|(kind, triangles, sides)| ((kind, triangles), sides));
    assert_eq!(tally(&found, &text), BTreeMap::from(expected));
    assert_eq!(found.fault(), None);
}

/// The same inner names in two cells are two things; the closed one has its rings.
#[test]
fn split_cells_are_told_apart() {
    let two = report_of(&listing("split-two-cells"));
    assert_eq!((two.split_cells, two.sub_cells), (2, 8));
    assert!(two.crowded.is_empty() && two.fault().is_none());
    let sphere = report_of(&listing("split-sphere"));
    assert!(sphere.split_cells > 1 && sphere.open.is_empty());
    assert!(sphere.ringless.is_empty() && sphere.fault().is_none());
}

/// A sub-cell that is lost, all of it, leaves open segments of inner faces.
#[test]
fn a_lost_sub_cell_is_seen() {
    let text = listing("split-once");
    let kept = |line: &&str| !line.starts_with("cells") && !line.starts_with("T 6144 ");
    let rest: Vec<&str> = text.lines().filter(kept).collect();
    assert_eq!(rest.len(), 52 - 8);
    let found = report_of(&rest.join("\n"));
    let expected = "not a whole mesh: sides in more than two triangles 0, \
                    inner sides in one 0, segments of inner faces in one 14";
    assert_eq!(
        found.fault().map(|of| of.to_string()),
        Some(expected.to_string())
    );
    let told = found.to_string();
    assert!(told.contains("\nsplit cells 1 sub-cells 3\n"), "{told}");
    assert!(
        told.contains("  segment 8193 4 of cell 0: triangle "),
        "{told}"
    );
    assert!(
        told.contains("  inner crossing 65544 of cell 0: "),
        "{told}"
    );
}

/// A triangle of a fan that is lost leaves two inner sides, and names its part.
#[test]
fn a_lost_triangle_of_a_sub_cell_is_seen() {
    let text = listing("split-once");
    let rest: Vec<&str> = text.lines().skip(2).collect();
    let found = report_of(&rest.join("\n"));
    let fault = found.fault().expect("a fault").to_string();
    assert!(
        fault.ends_with("inner sides in one 2, segments of inner faces in one 1"),
        "{fault}"
    );
    let told = found.to_string();
    let names = [
        "  segment 8192 0 of cell 0: triangle ",
        "  inner side 1 of cell 0, sub-cell 1, p0 0: triangle ",
        "  middle of cell 0, sub-cell 1, p0 0: one strip",
    ];
    for name in names {
        assert!(told.contains(name), "{told}");
    }
}
