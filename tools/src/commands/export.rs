//! The placed mesh as a file for viewers.

use super::{write_output, Command, OUTPUT};
use crate::arguments::{Arguments, Flag};
use crate::calls::Grid;
use crate::digits::significant;
use crate::exported::Exported;
use crate::fault::{shown, Fault};
use crate::page::{self, Shown};
use crate::placed_mesh::{PlacedMesh, AS_IS};
use crate::received_mesh::{self, BINARY, MESH_OF, POINTS};
use crate::refusals;
use crate::source::{self, PLACES};
use crate::triangle_types::Loops;
use crate::{gltf, obj, ply, stl, vtu};

const FORM: Flag = Flag {
    name: "--form",
    value: Some("NAME"),
    help: "ply, obj, vtu, stl, gltf, html or points (else ply)",
};

pub const COMMAND: Command = Command {
    name: "export",
    usage: "[OPTION..] [BUNDLE or TEXT, or with --points LISTING or WORDS]",
    summary: "Writes the placed mesh as PLY, OBJ, VTU, STL or glTF, or as a page for browsers",
    detail: "Vertices are the crossings by number, the inner crossings of split cells by cell\n\
             and number, and then the middles of fans; triangles stand in the order of the\n\
             mesh. In PLY and VTU each has the numbers cell, sub_cell, p0, type, surface and\n\
             side; OBJ has a group and glTF a primitive with a colour for each surface. Each\n\
             surface is wound alike throughout, by the shading so that its front looks to side\n\
             0. PLY, OBJ and VTU have 17 significant digits, which read back to the same bits;\n\
             STL and glTF have 32-bit numbers. The form html is a page that shows the mesh, the\n\
             form points a line of three numbers for each vertex. All nodes must have places;\n\
             or words of a mesh are read in place of a grid, with their points.",
    flags: &[FORM, OUTPUT, PLACES, AS_IS, POINTS, BINARY, MESH_OF],
    run,
};

/// A form of the file, and what makes it.
type Form = (&'static str, fn(&Exported<'_>) -> Vec<u8>);

const FORMS: &[Form] = &[
    ("ply", |mesh| ply::ply(mesh).into_bytes()),
    ("obj", |mesh| obj::obj(mesh).into_bytes()),
    ("vtu", |mesh| vtu::vtu(mesh).into_bytes()),
    ("stl", stl::stl),
    ("gltf", |mesh| gltf::gltf(mesh).into_bytes()),
    ("points", points),
];

/// The form that shows the grid too.
const PAGE: &str = "html";

fn run(arguments: &Arguments) -> Result<(), Fault> {
    let name = arguments.value(FORM.name).unwrap_or("ply");
    let form = FORMS.iter().find(|form| form.0 == name);
    if form.is_none() && name != PAGE {
        let known: Vec<&str> = FORMS.iter().map(|form| form.0).chain([PAGE]).collect();
        let (name, known) = (shown(name), known.join(", "));
        let what = format!("{}: '{name}' is none of {known}", FORM.name);
        return Err(Fault::usage(what));
    }
    let opened = Opened::of(arguments)?;
    let file = match form {
        Some(form) => form.1(&Exported::of(&opened.placed, opened.types())),
        None => opened.page().into_bytes(),
    };
    write_output(arguments, &file)
}

/// The mesh of a grid, or one that was received.
struct Opened {
    placed: PlacedMesh,
    /// The grid and its loops, where they are known.
    grid: Option<Grid>,
    loops: Option<Loops>,
    name: String,
}

impl Opened {
    fn of(arguments: &Arguments) -> Result<Opened, Fault> {
        let as_is = arguments.has(AS_IS.name);
        let (placed, grid, name) = match received_mesh::open(arguments, as_is)? {
            Some(arrived) => (arrived.placed, arrived.grid, arrived.name),
            None => {
                let source = source::open(arguments)?;
                let placed = PlacedMesh::of(&source, as_is)?;
                (placed, Some(source.grid), source.name)
            }
        };
        let loops = grid.as_ref().map(|grid| {
            let in_words = |refused| Fault::new(refusals::of_lists(refused, grid.lists()));
            Loops::of(grid).map_err(in_words)
        });
        Ok(Opened {
            placed,
            loops: loops.transpose()?,
            grid,
            name,
        })
    }

    fn types(&self) -> Option<(&Grid, &Loops)> {
        self.grid.as_ref().zip(self.loops.as_ref())
    }

    /// The page shows the grid where its nodes have places.
    fn page(&self) -> String {
        let placed_nodes = !self.placed.nodes.is_empty();
        page::page(&Shown {
            name: &self.name,
            placed: &self.placed,
            grid: self.grid.as_ref().filter(|_| placed_nodes),
        })
    }
}

/// A line for each point.
fn points(mesh: &Exported<'_>) -> Vec<u8> {
    let line = |point: &[f64; 3]| point.map(significant).join(" ") + "\n";
    mesh.points
        .iter()
        .map(line)
        .collect::<String>()
        .into_bytes()
}
