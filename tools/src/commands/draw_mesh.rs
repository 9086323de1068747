//! The picture of the placed mesh: how it is to look.

use std::collections::HashSet;

use super::draw_section::{grid_lines, unit};
use crate::arguments::{Arguments, Flag};
use crate::calls::{Grid, MOST_CELLS};
use crate::cut_plane;
use crate::fault::{shown, Fault};
use crate::mesh_picture::{self, Colour, MeshLook, Scene};
use crate::refusals;
use crate::section_picture::Whole;
use crate::triangle_types::Loops;
use crate::view::View;

pub const COLOUR: Flag = Flag {
    name: "--colour",
    value: Some("surface|type|side"),
    help: "what the colour of the mesh tells (else surface)",
};
pub const ONLY: Flag = Flag {
    name: "--only",
    value: Some("CELLS"),
    help: "only the mesh of these cells, as 0,5,20-31",
};
pub const CLIP: Flag = Flag {
    name: "--clip",
    value: Some("PLANE"),
    help: "cut the mesh away before this plane, as --section has it",
};
pub const VIEW: Flag = Flag {
    name: "--view",
    value: Some("ROUND,UP"),
    help: "where the mesh is seen from, in degrees (else 30,20)",
};

/// Draws the mesh. The grid tells the types of its triangles, also where it has no
/// places.
pub fn draw(whole: Whole<'_>, grid: Option<&Grid>, look: &MeshLook) -> Result<String, Fault> {
    let types = match (look.colour, grid) {
        (Colour::Type, Some(grid)) => {
            let refused = |refused| Fault::new(refusals::of_lists(refused, grid.lists()));
            Some(known(whole, Loops::of(grid).map_err(refused)?)?)
        }
        (Colour::Type, None) => {
            let what = format!("{} type wants the grid: --mesh-of FILE", COLOUR.name);
            return Err(Fault::usage(what));
        }
        _ => None,
    };
    let scene = Scene {
        whole,
        types: types.as_ref(),
    };
    Ok(mesh_picture::picture(&scene, look))
}

/// The types of a mesh whose triangles are all of this grid: received words may not
/// be.
fn known(whole: Whole<'_>, types: Loops) -> Result<Loops, Fault> {
    let mut triangles = whole.placed.mesh.triangles();
    match triangles.all(|triangle| types.known_type(&triangle).is_some()) {
        true => Ok(types),
        false => Err(Fault::new("a triangle is of no loop of the grid")),
    }
}

/// How the mesh is to look.
pub fn look(arguments: &Arguments) -> Result<MeshLook, Fault> {
    let colour = match arguments.value(COLOUR.name) {
        None | Some("surface") => Colour::Surface,
        Some("type") => Colour::Type,
        Some("side") => Colour::Side,
        Some(_) => {
            let what = format!("{} is surface, type or side", COLOUR.name);
            return Err(Fault::usage(what));
        }
    };
    let clip = match arguments.value(CLIP.name).map(cut_plane::parse) {
        None => None,
        Some(Ok(planes)) if planes.len() == 1 => planes.into_iter().next(),
        Some(Ok(_)) => return Err(Fault::usage(format!("{} takes one plane", CLIP.name))),
        Some(Err(fault)) => return Err(fault.of(CLIP.name)),
    };
    Ok(MeshLook {
        view: view(arguments)?,
        colour,
        grid: grid_lines(arguments)?,
        unit: unit(arguments)?,
        only: arguments.value(ONLY.name).map(cells).transpose()?,
        clip,
    })
}

/// The cells of a list as 0,5,20-31.
fn cells(given: &str) -> Result<HashSet<usize>, Fault> {
    let wrong = || Fault::usage(format!("{} is cells as 0,5,20-31", ONLY.name));
    let most = MOST_CELLS as usize;
    let number = |text: &str| text.trim().parse().ok().filter(|&cell: &usize| cell < most);
    let mut cells = HashSet::new();
    for part in given.split(',') {
        let (from, to) = part.split_once('-').unwrap_or((part, part));
        match (number(from), number(to)) {
            (Some(from), Some(to)) if from <= to => cells.extend(from..=to),
            _ => return Err(wrong()),
        }
    }
    Ok(cells)
}

fn view(arguments: &Arguments) -> Result<View, Fault> {
    let given = match arguments.value(VIEW.name) {
        None => return Ok(View::default()),
        Some(given) => given,
    };
    let numbers: Option<Vec<f64>> = given.split(',').map(|text| text.parse().ok()).collect();
    match numbers.as_deref() {
        Some(&[round, up]) if round.is_finite() && up.is_finite() => Ok(View { round, up }),
        _ => Err(Fault::usage(format!(
            "{}: '{}' is not two numbers with a comma",
            VIEW.name,
            shown(given)
        ))),
    }
}
