//! From shapes to the text of a grid.

use super::{write_output, Command, OUTPUT};
use crate::arguments::{Arguments, Flag};
use crate::bundle;
use crate::calls::{bundle_read, Grid};
use crate::fault::{note, Fault};
use crate::files::{self, MESH_BYTES};
use crate::loops::counted;
use crate::refusals;
use crate::scan::background::{Background, Cubes, Parting};
use crate::scan::edges::{Scan, Scene};
use crate::scan::triangles::Triangles;
use crate::scan::{mesh_file, shapes, words::quoted};
use crate::source;
use crate::text::{self, Text};

const BOX: Flag = Flag {
    name: "--box",
    value: Some("NX NY NZ"),
    help: "a box of so many cubes along x, y and z",
};
const SIZE: Flag = Flag {
    name: "--size",
    value: Some("LENGTH"),
    help: "the side of a cube (else 1)",
};
const ORIGIN: Flag = Flag {
    name: "--origin",
    value: Some("X Y Z"),
    help: "the lowest corner of the box (else 0 0 0)",
};
const CUBES: Flag = Flag {
    name: "--cubes",
    value: Some("six|five"),
    help: "into how many cells a cube is parted (else six)",
};
const GRID: Flag = Flag {
    name: "--grid",
    value: Some("FILE"),
    help: "the cells and nodes of this text, and no box",
};
const MESH: Flag = Flag {
    name: "--mesh",
    value: Some("FILE"),
    help: "a triangle mesh: OBJ, PLY or STL",
};
const CLASSIC: Flag = Flag {
    name: "--classic",
    value: None,
    help: "keep of each edge the first crossing of an odd number, and none of an even one",
};

pub const COMMAND: Command = Command {
    name: "scan",
    usage: "--box NX NY NZ | --grid FILE [OPTION..] [SHAPES]",
    summary: "Makes the text of a grid with every crossing of its edges with shapes or a mesh",
    detail: "SHAPES starts with the line 'citternblaze shapes'; then a line for each shape:\n\
             \x20 plane DX DY DZ DISTANCE             slab DX DY DZ NEAR FAR\n\
             \x20 ball X Y Z RADIUS                   cylinder X Y Z DX DY DZ RADIUS\n\
             \x20 torus X Y Z DX DY DZ RING TUBE      gyroid X Y Z PERIOD LEVEL\n\
             \x20 waves DX DY DZ DISTANCE AX AY AZ LENGTH HEIGHT PHASE\n\
             A grid has at most 2,048 cells, an edge 4,095 crossings and all edges 65,535.\n\
             With --mesh and without SHAPES nothing else is read.",
    flags: &[BOX, SIZE, ORIGIN, CUBES, GRID, MESH, CLASSIC, OUTPUT],
    run,
};

fn run(arguments: &Arguments) -> Result<(), Fault> {
    let background = background(arguments)?;
    let mut scene = scene(arguments, &background)?;
    let scan = Scan::of(&background, &mut scene)?;
    tell_moved(&scan);
    let text = match arguments.has(CLASSIC.name) {
        true => scan.classic().text(&background),
        false => scan.text(&background),
    };
    accepted(&text)?;
    write_output(arguments, text::write(&text).as_bytes())
}

/// The box or the grid that is asked for, if its cells are those of a grid.
fn background(arguments: &Arguments) -> Result<Background, Fault> {
    match (arguments.value(BOX.name), arguments.path(GRID.name)) {
        (Some(numbers), None) => cubes(arguments, numbers)?.background(),
        (None, Some(file)) => {
            let input = files::read(Some(file))?;
            let text = source::read_text(&input)?;
            let background = Background::of_text(&text).map_err(|fault| fault.of(&input.name))?;
            let without = Text {
                fractions: Vec::new(),
                ..empty(&background)
            };
            accepted(&without).map_err(|fault| fault.of(&input.name))?;
            Ok(background)
        }
        _ => Err(Fault::usage("scan wants one of --box and --grid")),
    }
}

/// The text of a grid without crossings.
fn empty(background: &Background) -> Text {
    let edge = |ends| crate::text::Fractions {
        ends,
        fractions: Vec::new(),
    };
    let edges = background.edges().into_iter().map(edge).collect();
    Scan {
        edges,
        moved: 0,
        first_moved: None,
    }
    .text(background)
}

fn cubes(arguments: &Arguments, numbers: &str) -> Result<Cubes, Fault> {
    let whole = |word: &str| {
        word.parse::<u32>()
            .map_err(|_| Fault::usage(format!("{}: {} is no whole number", BOX.name, quoted(word))))
    };
    let parting = match arguments.value(CUBES.name) {
        None | Some("six") => Parting::Six,
        Some("five") => Parting::Five,
        Some(other) => {
            let what = format!("{}: {} is neither six nor five", CUBES.name, quoted(other));
            return Err(Fault::usage(what));
        }
    };
    Ok(Cubes {
        numbers: three(BOX.name, numbers, whole)?,
        size: match arguments.value(SIZE.name) {
            None => 1.0,
            Some(word) => decimal(SIZE.name, word)?,
        },
        origin: match arguments.value(ORIGIN.name) {
            None => [0.0; 3],
            Some(words) => three(ORIGIN.name, words, |word| decimal(ORIGIN.name, word))?,
        },
        parting,
    })
}

/// Three numbers with spaces or commas between.
fn three<T: Copy>(
    name: &str,
    words: &str,
    number: impl Fn(&str) -> Result<T, Fault>,
) -> Result<[T; 3], Fault> {
    let between = |character: char| character == ',' || character.is_whitespace();
    let words = words.split(between).filter(|word| !word.is_empty());
    let numbers = words.map(number).collect::<Result<Vec<T>, Fault>>()?;
    match numbers[..] {
        [x, y, z] => Ok([x, y, z]),
        _ => Err(Fault::usage(format!(
            "{name} has three numbers, and here are {}",
            numbers.len()
        ))),
    }
}

fn decimal(name: &str, word: &str) -> Result<f64, Fault> {
    match word.parse::<f64>() {
        Ok(number) if number.is_finite() => Ok(number),
        _ => Err(Fault::usage(format!(
            "{name}: {} is no number",
            quoted(word)
        ))),
    }
}

/// The surfaces and the mesh that are asked for.
fn scene(arguments: &Arguments, background: &Background) -> Result<Scene, Fault> {
    let mut scene = Scene::default();
    if let Some(file) = arguments.path(MESH.name) {
        let input = files::open(Some(file))?.all_within(MESH_BYTES)?;
        let read = mesh_file::read(&input.bytes).map_err(|fault| fault.of(&input.name))?;
        let mesh = Triangles::of(&read, background.places.values());
        match mesh.open_sides() {
            0 => {}
            open => note(format!(
                "{}: the mesh is not closed: {} in an odd number of triangles",
                input.name,
                counted(open, "side")
            )),
        }
        scene.mesh = Some(mesh);
    }
    let file = arguments.file()?;
    if file.is_some() || scene.mesh.is_none() {
        let input = files::read(file)?;
        scene.surfaces = shapes::read(&input.bytes).map_err(|fault| fault.of(&input.name))?;
    }
    Ok(scene)
}

fn tell_moved(scan: &Scan) {
    if let Some([u, v]) = scan.first_moved {
        note(format!(
            "{} at a node or closer than two floats apart, moved to the next numbers: \
             the first on the edge {u} {v}",
            counted(scan.moved, "crossing")
        ));
    }
}

/// The library takes the grid of the text.
fn accepted(text: &Text) -> Result<(), Fault> {
    let bytes = bundle::pack(text)?;
    let lists =
        bundle_read(&bytes).map_err(|refused| Fault::new(refusals::of_bytes(refused, &bytes)))?;
    match Grid::open(lists.clone()) {
        Ok(_) => Ok(()),
        Err(refused) => Err(Fault::new(refusals::of_lists(refused, &lists))),
    }
}
