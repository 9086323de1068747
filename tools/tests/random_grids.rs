//! Random grids that are accepted, placed, drawn and exported. Their texts go to
//! cargo's folder for tests, where scripts/tools.sh takes them to readers that are
//! not ours.

mod random;
mod random_texts;

use std::fs;
use std::path::Path;

use citternblaze::bundle::{pack, unpack};
use citternblaze::calls::{bundle_read, Grid, Refusal};
use citternblaze::cells::loops_of;
use citternblaze::cut_plane::CutPlane;
use citternblaze::exported::Exported;
use citternblaze::faces::faces;
use citternblaze::film::{Sheet, Unit};
use citternblaze::mesh::Mesh;
use citternblaze::mesh_picture::{self, Colour, MeshLook, Scene};
use citternblaze::placed_mesh::PlacedMesh;
use citternblaze::received::{report, Received};
use citternblaze::section_picture::{self, GridLines, Look, Whole};
use citternblaze::source::Source;
use citternblaze::text::{self, Text};
use citternblaze::triangle_types::Loops;
use citternblaze::view::View;
use citternblaze::{cell_picture, face_picture, loops, placed, ply};
use random::Random;
use random_texts::{row_of_cells, split_cells};

/// The grid of a text, by way of its bundle.
fn grid_of(stated: &Text) -> Grid {
    let bytes = pack(stated).expect("a bundle");
    assert_eq!(pack(&unpack(&bytes).expect("a bundle")), Ok(bytes.clone()));
    Grid::open(bundle_read(&bytes).expect("lists")).expect("a grid")
}

/// The loops of each cell are those of the loops call, and the words tell all.
fn tell(grid: &Grid) {
    let cells = grid.lists().cells.len() / 4;
    let words = loops::in_words(grid, 0..cells).expect("words");
    let told = words.lines().filter(|line| line.starts_with("  loop"));
    let mut walked = 0;
    for cell in 0..cells {
        let loops = loops_of(grid, cell).expect("loops");
        for (index, found) in loops.iter().enumerate() {
            assert_eq!(grid.loops(cell, index), Ok(Some(*found)));
        }
        assert_eq!(grid.loops(cell, loops.len()), Ok(None));
        walked += loops.len();
    }
    assert_eq!(told.count(), walked);
    assert_eq!(
        loops_of(grid, cells),
        Err(Refusal {
            number: 11,
            place: cells as u64
        })
    );
}

/// The pictures of all faces, and of a cell.
fn draw_faces(grid: &Grid, stated: &Text) {
    let fractions = placed::fractions(grid, stated).expect("fractions");
    let all = faces(grid);
    for face in &all {
        let joining = face.joining(grid);
        let crossings: usize = face.counts.iter().map(|&count| usize::from(count)).sum();
        assert_eq!(
            crossings,
            2 * joining.segments.len() + joining.unjoined.len()
        );
        face_picture::picture(grid, face, &fractions);
    }
    let last = grid.lists().cells.len() / 4 - 1;
    cell_picture::picture(grid, &all, last, &fractions).expect("a picture");
}

/// The mesh in every look, and sections through it.
fn draw_mesh(grid: &Grid, stated: &Text, loops: &Loops) {
    let source = Source {
        text: stated.clone(),
        grid: grid.clone(),
        name: "random".into(),
        places_name: "random".into(),
    };
    let placed = PlacedMesh::of(&source, false).expect("a placed mesh");
    let whole = Whole {
        placed: &placed,
        grid: Some(grid),
    };
    let scene = Scene {
        whole,
        types: Some(loops),
    };
    let first = placed::node_places(grid, stated).expect("places");
    let through = CutPlane::free([first[0], first[1], first[2]], [1.0, 2.0, 3.0]);
    let unit = Unit::named("m").expect("a unit");
    for (colour, lines) in [
        (Colour::Surface, GridLines::All),
        (Colour::Type, GridLines::Outer),
        (Colour::Side, GridLines::UpTo(10)),
    ] {
        let look = MeshLook {
            view: View::default(),
            colour,
            grid: lines,
            unit,
            only: None,
            clip: through.clone().filter(|_| colour == Colour::Side),
        };
        mesh_picture::picture(&scene, &look);
        let look = Look {
            sheet: Sheet::named("a4").expect("a sheet"),
            scale: None,
            unit,
            grid: lines,
            crossings: true,
            water: Some(1),
            name: "random".into(),
        };
        let plane = through.as_ref().expect("a plane");
        let sheet = section_picture::picture(&whole, plane, &look).expect("a sheet");
        assert!(sheet.contains("mm"));
    }
}

/// The mesh as a file and as a picture. Answers whether a cell is split.
fn export_mesh(grid: &Grid, stated: &Text) -> bool {
    let mesh = Mesh::of(grid).expect("a mesh");
    let loops = Loops::of(grid).expect("loops");
    let points = placed::points(grid, stated, &mesh).expect("points");
    assert_eq!(points.len(), mesh.points());
    let placed = PlacedMesh::of_words(Mesh::of(grid).expect("a mesh"), points.clone(), false);
    let exported = ply::ply(&Exported::of(&placed, Some((grid, &loops))));
    let body = exported.split("end_header\n").nth(1).expect("a body");
    assert_eq!(body.lines().count(), points.len() + mesh.size());
    draw_mesh(grid, stated, &loops);
    let found = report(&Received::of(mesh.triangles().collect()));
    assert_eq!(found.fault(), None);
    found.split_cells > 0
}

/// Everything that the program does with a grid. Answers whether a cell is split.
fn whole_way(written: &str) -> bool {
    let stated = text::read(written.as_bytes()).expect("a text");
    let grid = grid_of(&stated);
    tell(&grid);
    draw_faces(&grid, &stated);
    export_mesh(&grid, &stated)
}

fn keep(name: &str, written: &str) {
    let file = Path::new(env!("CARGO_TARGET_TMPDIR")).join(format!("random-{name}.txt"));
    fs::write(file, written).expect("written");
}

#[test]
fn random_grids_go_the_whole_way() {
    let mut random = Random(3);
    for at in 0..120 {
        let cells = 1 + random.below(6) as u16;
        let most = [1, 2, 3, 9][random.below(4)];
        let written = row_of_cells(&mut random, cells, most);
        whole_way(&written);
        if at < 12 {
            keep(&at.to_string(), &written);
        }
    }
}

#[test]
fn random_split_cells_go_the_whole_way() {
    let mut random = Random(4);
    for at in 0..60 {
        let written = split_cells(&mut random);
        assert!(whole_way(&written), "{written}");
        if at < 4 {
            keep(&format!("split-{at}"), &written);
        }
    }
}
