//! The loops that the program tells, cell by cell, are those of the loops call for
//! the whole grid, and their segments are those of the mesh: on all samples that are
//! accepted.

use std::collections::{BTreeMap, BTreeSet};
use std::fs;
use std::path::Path;

use citternblaze::calls::{bundle_read, Grid, Loop};
use citternblaze::cells::{loops_of, Ways};
use citternblaze::faces::{faces, faces_of_cell, Face, Joining};
use citternblaze::mesh::{triangles, Part, Side};

/// Every loop of a cell is asked for up to this number, and then the last of them.
const ALL: usize = 40;

/// Meshes with more triangles are left out.
const MOST: usize = 100_000;

fn compare(grid: &Grid, cell: usize) -> usize {
    let loops = loops_of(grid, cell).expect("loops");
    let last = loops.len().saturating_sub(1);
    for (index, found) in loops.iter().enumerate() {
        if index < ALL || index == last {
            assert_eq!(grid.loops(cell, index), Ok(Some(*found)));
        }
    }
    assert_eq!(grid.loops(cell, loops.len()), Ok(None));
    loops.len()
}

/// All samples that are accepted.
fn samples() -> Vec<Grid> {
    let folder = Path::new(env!("CARGO_MANIFEST_DIR")).join("../samples");
    let files = fs::read_dir(folder).expect("samples");
    let paths = files.map(|file| file.expect("a file").path());
    let read = paths.map(|path| bundle_read(&fs::read(path).unwrap_or_default()));
    let grids: Vec<Grid> = read
        .filter_map(|lists| lists.and_then(Grid::open).ok())
        .collect();
    assert!(grids.len() > 15);
    grids
}

#[test]
fn loops_are_those_of_the_call() {
    let mut loops = 0;
    for grid in samples() {
        let cells = grid.lists().cells.len() / 4;
        loops += (0..cells).map(|cell| compare(&grid, cell)).sum::<usize>();
    }
    assert!(loops > 1_000, "{loops} loops");
}

/// Names of segments, each a face and a lower crossing.
type Names = BTreeSet<(usize, usize)>;

/// The segments of the cells' own faces in the triangles with each part and p0.
fn of_mesh(words: &[u32]) -> BTreeMap<(Part, u64), Names> {
    let mut all: BTreeMap<(Part, u64), Names> = BTreeMap::new();
    for triangle in triangles(words) {
        let names = all
            .entry((triangle.part, u64::from(triangle.p0)))
            .or_default();
        for side in triangle.sides {
            if let Side::Segment { face, crossing } = side {
                names.insert((face as usize, crossing as usize));
            }
        }
    }
    all
}

/// The segments of each loop of a cell, by following it over the faces.
fn followed(grid: &Grid, all: &[Face], cell: usize) -> Vec<(Loop, Names)> {
    let own = faces_of_cell(all, cell);
    let joinings: Vec<Joining> = own.iter().map(|face| face.joining(grid)).collect();
    let ways = Ways::of(&own, &joinings);
    let loops = loops_of(grid, cell).expect("loops").into_iter();
    loops
        .map(|of| (of, ways.segments(&of).into_iter().collect()))
        .collect()
}

/// A loop has as many segments as it is long, and those of its triangles. In a split
/// cell the loops that are no corner triangles have the segments of its sub-cells.
#[test]
fn segments_of_loops_are_those_of_the_mesh() {
    let mut split = 0;
    for grid in samples() {
        let mut meshed = match grid.mesh_within(MOST) {
            Ok(words) => of_mesh(&words),
            Err(_) => continue,
        };
        let all = faces(&grid);
        for cell in 0..grid.lists().cells.len() / 4 {
            let mut long = Names::new();
            for (of, names) in followed(&grid, &all, cell) {
                assert_eq!(names.len() as u64, of.length);
                let part = Part {
                    cell: cell as u32,
                    sub_cell: 0,
                };
                match meshed.remove(&(part, of.p0)) {
                    Some(of_triangles) => assert_eq!(names, of_triangles),
                    None => long.extend(names),
                }
            }
            let parts = meshed.keys().filter(|of| of.0.cell as usize == cell);
            let parts: Vec<(Part, u64)> = parts.copied().collect();
            let of_parts = parts.iter().flat_map(|part| meshed.remove(part));
            assert_eq!(of_parts.flatten().collect::<Names>(), long);
            split += usize::from(!parts.is_empty());
        }
        assert!(meshed.is_empty());
    }
    assert!(split >= 5, "{split} split cells");
}
