//! The surfaces of a mesh in words.

use super::{write_output, Command, OUTPUT};
use crate::arguments::{Arguments, Flag};
use crate::fault::Fault;
use crate::placed_mesh::{PlacedMesh, AS_IS};
use crate::received_mesh::{self, BINARY, MESH_OF, POINTS};
use crate::source::{self, PLACES};
use crate::surface_list;

const JSON: Flag = Flag {
    name: "--json",
    value: None,
    help: "write JSON, with 17 significant digits",
};

pub const COMMAND: Command = Command {
    name: "surfaces",
    usage: "[OPTION..] [BUNDLE or TEXT, or with --points LISTING or WORDS]",
    summary: "Tells each surface of the mesh: its triangles, open sides, area, box and volume",
    detail: "A surface is all triangles that hang together by sides they share, by the sides'\n\
             names. Surfaces are numbered from 0 in the order of their first triangles. For\n\
             each: triangles; closed or open, with its open sides and holes; area; box; and\n\
             where it is closed its volume and its Euler number. The volume is positive where\n\
             the side that surrounds it is side 0, that of the lowest node. Lengths are in the\n\
             unit of the node places. All nodes must have places; or words of a mesh are read\n\
             in place of a grid, with their points.",
    flags: &[JSON, OUTPUT, PLACES, AS_IS, POINTS, BINARY, MESH_OF],
    run,
};

fn run(arguments: &Arguments) -> Result<(), Fault> {
    let as_is = arguments.has(AS_IS.name);
    let placed = match received_mesh::open(arguments, as_is)? {
        Some(arrived) => arrived.placed,
        None => PlacedMesh::of(&source::open(arguments)?, as_is)?,
    };
    let told = match arguments.has(JSON.name) {
        true => surface_list::json(&placed),
        false => surface_list::in_words(&placed),
    };
    write_output(arguments, told.as_bytes())
}
