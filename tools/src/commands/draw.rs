//! Pictures of sections, of the placed mesh, of a cell and of a face.

use super::draw_mesh::{self, CLIP, COLOUR, ONLY, VIEW};
use super::draw_section::{self, CROSSINGS, GRID, SCALE, SECTION, SHEET, UNIT, WATER};
use super::{write_output, Command, OUTPUT};
use crate::arguments::{Arguments, Flag};
use crate::calls::Grid;
use crate::cell_picture;
use crate::cut_plane::{self, CutPlane};
use crate::face_picture;
use crate::faces::faces;
use crate::fault::Fault;
use crate::mesh_picture::MeshLook;
use crate::placed;
use crate::placed_mesh::{PlacedMesh, AS_IS};
use crate::received_mesh::{self, Arrived, BINARY, MESH_OF, POINTS};
use crate::section_picture::Whole;
use crate::source::{self, Source, PLACES};
use crate::space::{node, six_volumes, Place};

const FACE: Flag = Flag {
    name: "--face",
    value: Some("NAME|A,B,C"),
    help: "the face with this name, 4 times its lowest cell plus its slot, or with\n\
           these three nodes",
};
const CELL: Flag = Flag {
    name: "--cell",
    value: Some("NUMBER"),
    help: "the four faces of this cell, unfolded",
};
const CELL_AT: Flag = Flag {
    name: "--cell-at",
    value: Some("X,Y,Z"),
    help: "the same, of the first cell that this place lies in",
};
const MESH: Flag = Flag {
    name: "--mesh",
    value: None,
    help: "the placed mesh, in parallel projection",
};
pub const COMMAND: Command = Command {
    name: "draw",
    usage: "--section PLANE | --mesh | --cell NUMBER | --face NAME [OPTION..] [BUNDLE or TEXT,\n\
            \x20                 or with --points LISTING or WORDS]",
    summary: "Draws sections on ruled film, the placed mesh, a cell or a face, as SVG",
    detail: "A section is a sheet in millimetres, ruled at 1, 5 and 10 mm; several are several\n\
             files: --output film.svg names film-1.svg, film-2.svg, .. As PDF, and several on\n\
             the pages of one file:\n\
             \x20   rsvg-convert --format=pdf --output films.pdf film-*.svg\n\
             Printed at 100 %, a sheet has its scale. A point on the plane counts as above it.\n\
             Surfaces have one colour each; where the grid has a shading, side 0, that of the\n\
             lowest node, and side 1 are tinted. Sections and the mesh need the places of all\n\
             nodes, or words of a mesh with their points in place of a grid. Crossings stand at\n\
             their fractions; on an edge without fractions, at even distances.",
    flags: &[
        SECTION, SCALE, SHEET, UNIT, CROSSINGS, WATER, MESH, COLOUR, VIEW, ONLY, CLIP, GRID, CELL,
        CELL_AT, FACE, OUTPUT, PLACES, AS_IS, POINTS, BINARY, MESH_OF,
    ],
    run,
};

/// What is drawn.
enum Subject {
    Face(Named),
    Cell(usize),
    CellAt(Place),
    Mesh(Box<MeshLook>),
    Sections(Vec<CutPlane>),
}

/// A face by its name or by its nodes.
enum Named {
    Name(usize),
    Nodes([u16; 3]),
}

fn run(arguments: &Arguments) -> Result<(), Fault> {
    let picture = match subject(arguments)? {
        Subject::Face(named) => draw_face(&grid_alone(arguments)?, &named)?,
        Subject::Cell(cell) => draw_cell(&grid_alone(arguments)?, cell)?,
        Subject::CellAt(place) => {
            let source = grid_alone(arguments)?;
            draw_cell(&source, cell_at(&source, place)?)?
        }
        Subject::Mesh(look) => {
            let drawn = Drawn::open(arguments)?;
            draw_mesh::draw(drawn.whole(), drawn.grid.as_ref(), &look)?
        }
        Subject::Sections(planes) => {
            let drawn = Drawn::open(arguments)?;
            return draw_section::draw(arguments, drawn.whole(), &drawn.name, &planes);
        }
    };
    write_output(arguments, picture.as_bytes())
}

/// The grid of a picture of a face or of a cell: words have none.
fn grid_alone(arguments: &Arguments) -> Result<Source, Fault> {
    if [&POINTS, &BINARY, &MESH_OF]
        .iter()
        .any(|of| arguments.has(of.name))
    {
        return Err(Fault::usage(
            "faces and cells are drawn of a grid, not of words",
        ));
    }
    source::open(arguments)
}

/// The mesh to draw: of a grid, or as it was received.
struct Drawn {
    placed: PlacedMesh,
    grid: Option<Grid>,
    name: String,
}

impl Drawn {
    fn open(arguments: &Arguments) -> Result<Drawn, Fault> {
        let as_is = arguments.has(AS_IS.name);
        if let Some(Arrived { placed, grid, name }) = received_mesh::open(arguments, as_is)? {
            return Ok(Drawn { placed, grid, name });
        }
        let source = source::open(arguments)?;
        Ok(Drawn {
            placed: PlacedMesh::of(&source, as_is)?,
            grid: Some(source.grid),
            name: source.name,
        })
    }

    /// The mesh, with its grid where the nodes have places.
    fn whole(&self) -> Whole<'_> {
        Whole {
            placed: &self.placed,
            grid: self.grid.as_ref().filter(|_| !self.placed.nodes.is_empty()),
        }
    }
}

fn subject(arguments: &Arguments) -> Result<Subject, Fault> {
    let mut subjects = Vec::new();
    if let Some(given) = arguments.value(FACE.name) {
        subjects.push(Subject::Face(named(given)?));
    }
    if let Some(cell) = arguments.number(CELL.name)? {
        subjects.push(Subject::Cell(cell));
    }
    if let Some(given) = arguments.value(CELL_AT.name) {
        let place = cut_plane::three(given);
        let wrong = || Fault::usage(format!("{} is three numbers as 10,20,5", CELL_AT.name));
        subjects.push(Subject::CellAt(place.ok_or_else(wrong)?));
    }
    if arguments.has(MESH.name) {
        subjects.push(Subject::Mesh(Box::new(draw_mesh::look(arguments)?)));
    }
    let planes = draw_section::planes(arguments)?;
    if !planes.is_empty() {
        subjects.push(Subject::Sections(planes));
    }
    match (subjects.pop(), subjects.is_empty()) {
        (Some(subject), true) => Ok(subject),
        _ => Err(Fault::usage(
            "draw wants one of --section, --mesh, --cell, --cell-at and --face",
        )),
    }
}

/// A face as 7 or as 64,71,121.
fn named(given: &str) -> Result<Named, Fault> {
    let numbers: Option<Vec<usize>> = given.split(',').map(|of| of.trim().parse().ok()).collect();
    let wrong = || {
        Fault::usage(format!(
            "{} is a name, or three nodes as 64,71,121",
            FACE.name
        ))
    };
    match numbers.as_deref() {
        Some(&[name]) => Ok(Named::Name(name)),
        Some(&[a, b, c]) => {
            let mut nodes = [0; 3];
            for (node, given) in nodes.iter_mut().zip([a, b, c]) {
                *node = u16::try_from(given).map_err(|_| wrong())?;
            }
            nodes.sort_unstable();
            Ok(Named::Nodes(nodes))
        }
        _ => Err(wrong()),
    }
}

/// The first cell that a place lies in, its faces among it.
fn cell_at(source: &Source, place: Place) -> Result<usize, Fault> {
    let nodes = placed::node_places(&source.grid, &source.text);
    let nodes = nodes.map_err(|fault| source.misplaced(fault))?;
    let holds = |cell: &[u16]| {
        let corners = [0, 1, 2, 3].map(|at| node(&nodes, cell[at]));
        let whole = six_volumes(corners);
        // with the place for each corner in turn, none is turned over
        let part = |at: usize| {
            let mut corners = corners;
            corners[at] = place;
            six_volumes(corners) / whole
        };
        whole != 0.0 && (0..4).all(|at| part(at) >= -1e-12)
    };
    let mut cells = source.grid.lists().cells.chunks_exact(4);
    cells.position(holds).ok_or_else(|| {
        let [x, y, z] = place;
        Fault::new(format!("no cell has the place {x} {y} {z} in it")).of(&source.name)
    })
}

fn draw_face(source: &Source, named: &Named) -> Result<String, Fault> {
    let all = faces(&source.grid);
    let found = all.iter().find(|face| match named {
        Named::Name(name) => face.name == *name,
        Named::Nodes(nodes) => face.nodes == *nodes,
    });
    let face = found.ok_or_else(|| {
        let what = match named {
            Named::Name(name) => format!("the grid has no face with the name {name}"),
            Named::Nodes([a, b, c]) => format!("the grid has no face with the nodes {a} {b} {c}"),
        };
        Fault::new(what).of(&source.name)
    })?;
    let fractions = fractions(source)?;
    Ok(face_picture::picture(&source.grid, face, &fractions))
}

fn draw_cell(source: &Source, cell: usize) -> Result<String, Fault> {
    let refused = |refused| source.refused(refused);
    // the loops call refuses a cell that there is not
    source.grid.loops(cell, 0).map_err(refused)?;
    let fractions = fractions(source)?;
    let all = faces(&source.grid);
    cell_picture::picture(&source.grid, &all, cell, &fractions).map_err(refused)
}

fn fractions(source: &Source) -> Result<Vec<f64>, Fault> {
    let fractions = placed::fractions(&source.grid, &source.text);
    fractions.map_err(|fault| source.misplaced(fault))
}
