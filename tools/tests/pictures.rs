//! What the pictures of a split cell show: its own loops on its faces, and its mesh
//! by what each triangle belongs to.

mod boxes;

use citternblaze::bundle::pack;
use citternblaze::calls::{bundle_read, Grid};
use citternblaze::faces::faces;
use citternblaze::film::Unit;
use citternblaze::mesh_picture::{self, Colour, MeshLook, Scene};
use citternblaze::placed_mesh::PlacedMesh;
use citternblaze::section_picture::{GridLines, Whole};
use citternblaze::svg::{BLUE, PURPLE, SKY, VERMILION, YELLOW};
use citternblaze::text::{self, Text};
use citternblaze::triangle_types::Loops;
use citternblaze::view::View;
use citternblaze::{cell_picture, placed};

/// Two loops of length 12, as in split-cell.txt, and a corner triangle at node 3.
const CELL: &str = "citternblaze grid\ncell 0 1 2 3\nedge 0 1 4\nedge 0 2 2\nedge 0 3 7\n\
    edge 1 2 6\nedge 1 3 3\nedge 2 3 5\nnode 0 0 0 0\nnode 1 9 0 0\nnode 2 0 9 0\nnode 3 0 0 9\n";

fn opened() -> (Grid, Text) {
    let text = text::read(CELL.as_bytes()).expect("a grid's text");
    let lists = bundle_read(&pack(&text).expect("a bundle")).expect("lists");
    (Grid::open(lists).expect("a grid"), text)
}

/// How often a picture has a colour, the line of the legend left out.
fn times(picture: &str, colour: &str) -> usize {
    picture.matches(colour).count().saturating_sub(1)
}

/// The loops have strokes of their own, and each segment is drawn once.
#[test]
fn a_split_cell_shows_its_loops() {
    let (grid, text) = opened();
    let fractions = placed::fractions(&grid, &text).expect("fractions");
    let picture = cell_picture::picture(&grid, &faces(&grid), 0, &fractions).expect("a picture");
    assert_eq!(times(&picture, BLUE), 12);
    assert_eq!(times(&picture, VERMILION), 12);
    assert!(picture.contains("loop 1: p0 1, length 12, normal, diagonal, 0 with 1"));
    assert!(picture.contains("loop 2: p0 12, length 3, normal, corner at 3"));
    assert!(!picture.contains("does not close"));
}

fn look(colour: Colour) -> MeshLook {
    MeshLook {
        view: View::default(),
        colour,
        grid: GridLines::UpTo(60),
        unit: Unit::named("cm").expect("a unit"),
        only: None,
        clip: None,
    }
}

#[test]
fn triangles_of_sub_cells_have_their_colour() {
    let read = boxes::source(CELL);
    let placed = PlacedMesh::of(&read, false).expect("a placed mesh");
    let types = Loops::of(&read.grid).expect("loops");
    let scene = Scene {
        whole: Whole {
            placed: &placed,
            grid: Some(&read.grid),
        },
        types: Some(&types),
    };
    let picture = mesh_picture::picture(&scene, &look(Colour::Type));
    let words = [
        "triangle of a split cell, in one of its sub-cells",
        "triangle of a loop that cuts off a corner",
        "inner crossing of a split cell",
    ];
    for words in words {
        assert!(picture.contains(words), "{words}");
    }
    assert!(!picture.contains(BLUE) && !picture.contains(YELLOW));
    assert!(picture.contains(PURPLE) && picture.contains(SKY));
    let by_surface = mesh_picture::picture(&scene, &look(Colour::Surface));
    assert_eq!(
        by_surface.matches("surface ").count(),
        placed.surfaces.list.len()
    );
}
